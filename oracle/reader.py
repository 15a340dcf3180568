"""The reader: map bytes and reference bytes to a stretch (scope paper, refusals 1 to 6 and 12 to 20; paper 02: 22, 23 and 24, and 30 out of a message).

Longitudes are added up as paper 02 says it, "Depots on the 180th meridian".
"""

from depot_map import Node, read_map
from fields import brought_round, code_pair, offset_span
from front import check_front
from legs import Leg, LegSearch, Marks, has_banned_pair, list_length
from outcome import RefusedCall, StretchRead, outcome_of
from reference import take_apart

LEAST_WORK_LENGTH = 14_336


def check_work_length(work_length):
    """Refusal 1, which stands above all others."""
    if work_length < LEAST_WORK_LENGTH:
        raise RefusedCall(1)


def point_nodes(depot_map, reference):
    """The node of each point, or refusal 16 with the first point that has none."""
    by_codes = {code_pair(node): number for number, node in enumerate(depot_map.nodes)}
    by_coordinates = {node: number for number, node in enumerate(depot_map.nodes)}
    nodes = []
    for number, point in enumerate(reference.points):
        if number == 0:
            node = by_codes.get((point.longitude, point.latitude))
        else:
            # Differences are added to the coordinates of the previous point's node, not to its codes. A sum of 17,999,999 is no node's.
            previous = depot_map.nodes[nodes[-1]]
            node = by_coordinates.get(
                Node(brought_round(previous.longitude + point.longitude), previous.latitude + point.latitude))
        if node is None:
            raise RefusedCall(16, number)
        nodes.append(node)
    return nodes


def legs_of(reference, nodes):
    """The legs that a reference describes, one from each point to the next."""
    legs = []
    for number, point in enumerate(reference.points[:-1]):
        next_point = reference.points[number + 1]
        is_last = number == len(reference.points) - 2
        legs.append(Leg(
            start_node=nodes[number],
            end_node=nodes[number + 1],
            first_marks=Marks(point.frc, point.fow, point.sector),
            lowest_frc=point.lowest_frc,
            distance_byte=point.distance_byte,
            last_marks=Marks(next_point.frc, next_point.fow, next_point.sector) if is_last else None))
    return legs


def leg_lists(depot_map, legs):
    """The only line list of each leg, or refusal 17 or 18 with the first leg that has none or several."""
    search = LegSearch(depot_map)
    lists = []
    for number, leg in enumerate(legs):
        readings = search.readings(leg)
        if readings.how_many != "one":
            raise RefusedCall(17 if readings.how_many == "none" else 18, number)
        lists.append(readings.lines)
    return lists


def check_joints(depot_map, lists):
    """Refusal 22. A leg is read as if it stood alone, so that only the joined list shows the pairs where legs meet."""
    if any(has_banned_pair(depot_map, before[-1:] + after[:1]) for before, after in zip(lists, lists[1:])):
        raise RefusedCall(22)


def flagged_span(byte, leg_length):
    """The span of an offset byte, 0 and 0 where there is none, or refusal 19."""
    if byte is None:
        return (0, 0)
    span = offset_span(byte, leg_length)
    if span is None:
        raise RefusedCall(19)
    return span


def map_to_read_on(map_bytes, work_length, message):
    """The map, or refusal 1, one of the map's own, or 30. A reference read by itself has no message, None, which is not an empty one."""
    check_work_length(work_length)
    depot_map = read_map(map_bytes)
    if message is not None:
        check_front(map_bytes, message)
    return depot_map


def _read(map_bytes, message, reference_bytes, work_length, line_room):
    depot_map = map_to_read_on(map_bytes, work_length, message)
    reference = take_apart(reference_bytes)
    nodes = point_nodes(depot_map, reference)
    lists = leg_lists(depot_map, legs_of(reference, nodes))
    check_joints(depot_map, lists)
    positive_span = flagged_span(reference.positive_byte, list_length(depot_map, lists[0]))
    negative_span = flagged_span(reference.negative_byte, list_length(depot_map, lists[-1]))
    lines = tuple(line for leg_lines in lists for line in leg_lines)
    if positive_span[0] + negative_span[0] >= list_length(depot_map, lines):
        raise RefusedCall(19)
    if line_room < len(lines):
        raise RefusedCall(20)
    return StretchRead(lines, positive_span, negative_span)


def read(map_bytes, reference_bytes, work_length, line_room):
    """The outcome of a call of the reader: StretchRead or Refused."""
    return outcome_of(_read, map_bytes, None, reference_bytes, work_length, line_room)


def read_of_message(map_bytes, message, reference_bytes, work_length, line_room):
    """The same for a reference out of a message."""
    return outcome_of(_read, map_bytes, message, reference_bytes, work_length, line_room)
