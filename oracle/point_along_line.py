"""Points along a line, for single things such as signs and hydrants: their writer and their reader (paper 02, "Signs and hydrants"; refusal 25).

The two points are the line's ends. The leg between them is read and written as the last leg of a reference to a stretch.
"""

from dataclasses import replace

from depot_map import read_map
from legs import LegSearch, list_length
from outcome import PointRead, PointWritten, RefusedCall, outcome_of
from reader import check_work_length, flagged_span, leg_lists, legs_of, map_to_read_on, point_nodes
from reference import POINT_STATUS, put_together, take_point_along_line
from writer import leg_is_usable, reference_of_legs

GREATEST_ORIENTATION = GREATEST_SIDE = 3


def check_point(depot_map, line, offset, orientation, side):
    """Refusals 7, 9 and 25, in this order. There is one line, so that 8 and 21 cannot be."""
    if line >= len(depot_map.lines):
        raise RefusedCall(7)
    if offset >= depot_map.lines[line].length:
        raise RefusedCall(9)
    if orientation > GREATEST_ORIENTATION or side > GREATEST_SIDE:
        raise RefusedCall(25)


def bytes_of_point(depot_map, lines, offset, orientation, side):
    """The bytes of a point that far along a list of lines. A writer has one line in it. Whether it can be read is not asked here."""
    reference = reference_of_legs(depot_map, [lines], offset, 0)
    first, last = reference.points
    marked = replace(first, top_bits=orientation), replace(last, top_bits=side)
    return put_together(replace(reference, points=marked), POINT_STATUS)


def _read_point(map_bytes, message, reference_bytes, work_length, line_room):
    depot_map = map_to_read_on(map_bytes, work_length, message)
    reference = take_point_along_line(reference_bytes)
    nodes = point_nodes(depot_map, reference)
    lines, = leg_lists(depot_map, legs_of(reference, nodes))
    span = flagged_span(reference.positive_byte, list_length(depot_map, lines))
    if line_room < len(lines):
        raise RefusedCall(20)
    first, last = reference.points
    return PointRead(lines, span, orientation=first.top_bits, side=last.top_bits)


def read_point(map_bytes, reference_bytes, work_length, line_room):
    """The outcome of a call of the reader of points: PointRead or Refused."""
    return outcome_of(_read_point, map_bytes, None, reference_bytes, work_length, line_room)


def read_point_of_message(map_bytes, message, reference_bytes, work_length, line_room):
    """The same for a point out of a message."""
    return outcome_of(_read_point, map_bytes, message, reference_bytes, work_length, line_room)


def _write_point(map_bytes, line, offset, orientation, side, work_length, byte_room):
    check_work_length(work_length)
    depot_map = read_map(map_bytes)
    check_point(depot_map, line, offset, orientation, side)
    if not leg_is_usable(LegSearch(depot_map), (line,), is_last=True):
        raise RefusedCall(10)
    reference = bytes_of_point(depot_map, (line,), offset, orientation, side)
    if byte_room < len(reference):
        raise RefusedCall(11)
    return PointWritten(reference)


def write_point(map_bytes, line, offset, orientation, side, work_length, byte_room):
    """The outcome of a call of the writer of points: PointWritten or Refused."""
    return outcome_of(_write_point, map_bytes, line, offset, orientation, side, work_length, byte_room)
