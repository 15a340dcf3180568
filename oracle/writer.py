"""The writer: map bytes and a stretch to reference bytes (scope paper, refusals 1 to 11; paper 02: 21, 23, 24 and 26).

Differences of longitudes are paper 02's, "Depots on the 180th meridian" (fields.py). The number of leg tests that the writer may make is paper 02's, "Best
found so far".
"""

from typing import NamedTuple, Optional

from depot_map import read_map
from fields import LONGEST_LEG, code_pair, differences, differences_fit, offset_byte
from legs import LegSearch, Readings, describe_leg, has_banned_pair, list_length
from outcome import RefusedCall, StretchWritten, outcome_of
from reader import check_work_length
from reference import Point, Reference, put_together

MOST_STRETCH_LINES = 64
# One for each leg of the longest stretch. With so many, every leg of every stretch is tested.
ALL_TESTS = MOST_STRETCH_LINES * (MOST_STRETCH_LINES + 1) // 2


def check_stretch(depot_map, lines, positive_offset, negative_offset):
    """Refusals 7, 8, 21 and 9, in this order. They look at the stretch as given."""
    known = all(0 <= line < len(depot_map.lines) for line in lines)
    if not 1 <= len(lines) <= MOST_STRETCH_LINES or not known:
        raise RefusedCall(7)
    for line, next_line in zip(lines, lines[1:]):
        if depot_map.lines[line].end_node != depot_map.lines[next_line].start_node:
            raise RefusedCall(8)
    if has_banned_pair(depot_map, lines):
        raise RefusedCall(21)
    if positive_offset + negative_offset >= list_length(depot_map, lines):
        raise RefusedCall(9)


def skip_lines(depot_map, lines, positive_offset, negative_offset):
    """What remains of a stretch after the lines covered whole by an offset are dropped ("A stretch")."""
    remaining = list(lines)
    while positive_offset >= depot_map.lines[remaining[0]].length:
        positive_offset -= depot_map.lines[remaining.pop(0)].length
    while negative_offset >= depot_map.lines[remaining[-1]].length:
        negative_offset -= depot_map.lines[remaining.pop()].length
    return tuple(remaining), positive_offset, negative_offset


def leg_is_usable(search, lines, is_last):
    """Whether a part of the stretch may be a leg, and so tests good: its differences fit and it is the leg's only reading."""
    depot_map = search.depot_map
    if list_length(depot_map, lines) > LONGEST_LEG:
        return False
    leg = describe_leg(depot_map, lines, is_last)
    if not differences_fit(depot_map.nodes[leg.start_node], depot_map.nodes[leg.end_node]):
        return False
    return search.readings(leg) == Readings("one", tuple(lines))


def legs_in_order(count):
    """The legs of a stretch of so many lines, each as the places where it starts and ends: "in order of the leg's start, then its end"."""
    return [(start, end) for start in range(count) for end in range(start + 1, count + 1)]


def fewest_legs(count, legs):
    """The legs from place 0 to the last place, each starting where the one before ends, or None if there is no such choice.

    Fewest first; then the first leg with most lines, then the second, and so on.
    """
    ends = [[] for _ in range(count)]
    for start, end in legs:
        ends[start].append(end)
    # fewest[place]: the least number of legs from that place to the end, None if there is no way.
    fewest = [None] * count + [0]
    for start in reversed(range(count)):
        onward = [fewest[end] + 1 for end in ends[start] if fewest[end] is not None]
        fewest[start] = min(onward, default=None)
    if fewest[0] is None:
        return None
    chosen, start = [], 0
    while start < count:
        end = max(end for end in ends[start] if fewest[end] == fewest[start] - 1)
        chosen.append((start, end))
        start = end
    return chosen


class Choice(NamedTuple):
    """What a number of tests leads to: the writer's legs as a list of line lists, or None; the tests made; and the least number of legs when untested legs
    count as good, or None."""
    legs: Optional[list]
    tests: int
    fewest: Optional[int]


def choice_with_tests(depot_map, lines, tests):
    """The choice of points over the legs that test good, out of those that may be tested. An untested leg counts as good whatever it is."""
    search, count = LegSearch(depot_map), len(lines)
    in_order = legs_in_order(count)
    tested, untested = in_order[:tests], in_order[tests:]
    good = {(start, end) for start, end in tested if leg_is_usable(search, lines[start:end], end == count)}
    found, at_best = fewest_legs(count, good), fewest_legs(count, good | set(untested))
    return Choice(legs=None if found is None else [tuple(lines[start:end]) for start, end in found],
                  tests=len(tested),
                  fewest=None if at_best is None else len(at_best))


def choose_points(depot_map, lines, tests=ALL_TESTS):
    """The writer's legs alone, or None if no choice of points is usable or found."""
    return choice_with_tests(depot_map, lines, tests).legs


def reference_of_legs(depot_map, legs, positive_offset, negative_offset):
    """The reference whose points are the ends of the given legs. Whether it can be read is not asked here."""
    points, previous = [], None
    for number, lines in enumerate(legs):
        leg = describe_leg(depot_map, lines, number == len(legs) - 1)
        node = depot_map.nodes[leg.start_node]
        longitude, latitude = code_pair(node) if previous is None else differences(previous, node)
        marks = leg.first_marks
        points.append(Point(longitude, latitude, marks.frc, marks.fow, marks.sector,
                            leg.lowest_frc, leg.distance_byte))
        previous = node
    longitude, latitude = differences(previous, depot_map.nodes[leg.end_node])
    points.append(Point(longitude, latitude, leg.last_marks.frc, leg.last_marks.fow, leg.last_marks.sector))
    positive_byte = negative_byte = None
    if positive_offset != 0:
        positive_byte = offset_byte(positive_offset, list_length(depot_map, legs[0]))
    if negative_offset != 0:
        negative_byte = offset_byte(negative_offset, list_length(depot_map, legs[-1]))
    return Reference(tuple(points), positive_byte, negative_byte)


def _write(map_bytes, lines, positive_offset, negative_offset, tests, work_length, byte_room):
    check_work_length(work_length)
    depot_map = read_map(map_bytes)
    check_stretch(depot_map, lines, positive_offset, negative_offset)
    # From here on only what remains of the stretch is spoken of.
    lines, positive_offset, negative_offset = skip_lines(depot_map, lines, positive_offset, negative_offset)
    choice = choice_with_tests(depot_map, lines, tests)
    if choice.legs is None:
        raise RefusedCall(10 if choice.fewest is None else 26)
    reference = put_together(reference_of_legs(depot_map, choice.legs, positive_offset, negative_offset))
    if byte_room < len(reference):
        raise RefusedCall(11)
    # A reference has one point more than legs, so that points exceed the fewest by as many as legs do.
    return StretchWritten(reference, choice.tests, excess=len(choice.legs) - choice.fewest)


def write(map_bytes, lines, pos, neg, work_length, byte_room, tests=ALL_TESTS):
    """The outcome of a call of the writer: StretchWritten or Refused."""
    return outcome_of(_write, map_bytes, tuple(lines), pos, neg, tests, work_length, byte_room)
