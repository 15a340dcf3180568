"""A leg's readings, by counting and by enumeration.

Scope paper, "What counts as a reading"; paper 02, "Banned turns", "Bearings from the drawing", "Centimetres".
"""

import heapq
from dataclasses import dataclass
from typing import NamedTuple, Optional

from fields import LONGEST_LEG, distance_byte, sector


@dataclass(frozen=True)
class Marks:
    """What a point says of its line: FRC and FOW from P, the sector from Q or, on the last point, from R."""
    frc: int
    fow: int
    sector: int


@dataclass(frozen=True)
class Leg:
    """A leg as the bytes describe it. The last line's marks are given on the last leg only."""
    start_node: int
    end_node: int
    first_marks: Marks
    lowest_frc: int
    distance_byte: int
    last_marks: Optional[Marks] = None


@dataclass(frozen=True)
class Readings:
    """How many readings a leg has: "none", "one" (with its line list) or "several"."""
    how_many: str
    lines: Optional[tuple] = None


class LeastWay(NamedTuple):
    """The least length of the line lists to a line, how many have it, and the line before the last of one of them."""
    length: int
    count: int
    line_before: Optional[int]


def marks_leaving(line):
    return Marks(line.frc, line.fow, sector(line.steps_out))


def marks_arriving(line):
    return Marks(line.frc, line.fow, sector(line.steps_back))


def list_length(depot_map, lines):
    return sum(depot_map.lines[line].length for line in lines)


def describe_leg(depot_map, lines, is_last):
    """The leg that the bytes of a line list would describe."""
    first, last = depot_map.lines[lines[0]], depot_map.lines[lines[-1]]
    return Leg(
        start_node=first.start_node,
        end_node=last.end_node,
        first_marks=marks_leaving(first),
        lowest_frc=max(depot_map.lines[line].frc for line in lines),
        distance_byte=distance_byte(list_length(depot_map, lines)),
        last_marks=marks_arriving(last) if is_last else None)


def passes_a_node_twice(depot_map, lines):
    """Whether a list ends at a node and comes there again before its last line. Without bans no list of least length does."""
    passed = [depot_map.lines[line].end_node for line in lines[:-1]]
    return len(set(passed)) < len(passed)


def has_banned_pair(depot_map, lines):
    """Whether a line of the list stands straight after one after which it is banned."""
    return any(pair in depot_map.bans for pair in zip(lines, lines[1:]))


class LinesByLength:
    """Lines that wait to be taken, each with the length of its least way."""

    def __init__(self):
        self.lengths = []
        self.lines = {}

    def add(self, length, line):
        if length not in self.lines:
            heapq.heappush(self.lengths, length)
            self.lines[length] = []
        self.lines[length].append(line)

    def take_shortest(self):
        """The least length and all lines that have it."""
        length = heapq.heappop(self.lengths)
        return length, self.lines.pop(length)


class LegSearch:
    """Counts the readings of legs on one map. Searches already made are kept.

    The search is over lines and not over nodes: with bans it matters by which line a node is reached, and a list of
    least length may pass a node twice.
    """

    def __init__(self, depot_map):
        self.depot_map = depot_map
        self.lines_from = [[] for _ in depot_map.nodes]
        self.lines_to = [[] for _ in depot_map.nodes]
        for number, line in enumerate(depot_map.lines):
            self.lines_from[line.start_node].append(number)
            self.lines_to[line.end_node].append(number)
        self.banned_after = [set() for _ in depot_map.lines]
        for first, second in depot_map.bans:
            self.banned_after[second].add(first)
        self._ways = {}

    def readings(self, leg):
        """The readings of a leg: none, exactly one with its list, or several."""
        found_count, found_ways, found_last_line = 0, None, None
        for first_line in self.lines_from[leg.start_node]:
            line = self.depot_map.lines[first_line]
            if marks_leaving(line) != leg.first_marks or line.frc > leg.lowest_frc:
                continue
            ways = self._least_ways(first_line, leg.lowest_frc)
            for last_line in self._last_lines(leg, ways):
                # D is asked last: a list is first of least length, and only then has to give D.
                if distance_byte(ways[last_line].length) == leg.distance_byte:
                    found_count += ways[last_line].count
                    found_ways, found_last_line = ways, last_line
        if found_count == 1:
            return Readings("one", list_to(found_ways, found_last_line))
        return Readings("several" if found_count else "none")

    def _last_lines(self, leg, ways):
        """The last lines of the lists of least length with one first line; on the last leg, with one last line too."""
        last_lines = [line for line in self.lines_to[leg.end_node] if line in ways]
        if leg.last_marks is not None:
            return [line for line in last_lines if marks_arriving(self.depot_map.lines[line]) == leg.last_marks]
        least = min((ways[line].length for line in last_lines), default=None)
        return [line for line in last_lines if ways[line].length == least]

    def _least_ways(self, first_line, lowest_frc):
        """The ways from a first line under a lowest class."""
        if (first_line, lowest_frc) not in self._ways:
            self._ways[first_line, lowest_frc] = self._search(first_line, lowest_frc)
        return self._ways[first_line, lowest_frc]

    def _search(self, first_line, lowest_frc):
        """For each line: the least way among the lists without a banned pair that start with a line and end with that one.

        Lines are taken by rising length, those of one length together. A line has a length of 1 at least, so that all
        lines of a length are known when they are taken. The first that are taken at a node give the lines from there
        their least ways; a line that is banned after each of them waits for the next. Lists over the longest leg are
        not followed.
        """
        map_lines = self.depot_map.lines
        ways = {first_line: LeastWay(map_lines[first_line].length, 1, None)}
        waiting, not_reached = LinesByLength(), list(self.lines_from)
        waiting.add(map_lines[first_line].length, first_line)
        while waiting.lines:
            length, taken = waiting.take_shortest()
            for node, arrived in self._by_end_node(taken).items():
                onward, not_reached[node] = not_reached[node], []
                to_each = count_and_one(ways, arrived)
                for line in onward:
                    count, line_before = self._allowed(ways, arrived, line) if self.banned_after[line] else to_each
                    new_length = length + map_lines[line].length
                    if count == 0:
                        not_reached[node].append(line)
                    elif line not in ways and map_lines[line].frc <= lowest_frc and new_length <= LONGEST_LEG:
                        ways[line] = LeastWay(new_length, count, line_before)
                        waiting.add(new_length, line)
        return ways

    def _by_end_node(self, lines):
        groups = {}
        for line in lines:
            groups.setdefault(self.depot_map.lines[line].end_node, []).append(line)
        return groups

    def _allowed(self, ways, arrived, line):
        return count_and_one(ways, [before for before in arrived if before not in self.banned_after[line]])


def count_and_one(ways, lines):
    """How many least ways there are to some lines, all equally long, and one of the lines."""
    count = 0
    for line in lines:
        count += ways[line].count
    return count, lines[0] if lines else None


def list_to(ways, last_line):
    """The line list that the least way to a line stands for, traced back to the first line."""
    lines = [last_line]
    while ways[lines[-1]].line_before is not None:
        lines.append(ways[lines[-1]].line_before)
    return tuple(lines[::-1])


def connected_lists(depot_map, leg, may_repeat=False, most_lines=None):
    """Every line list that meets a leg's conditions, D and "least" aside.

    By default no list takes a line twice. Nothing of least length is lost by that: from a list that takes
    a line twice, leave out all from its first place to just before its second. What remains is connected,
    has the same first and last line, no greater FRC, no pair of neighbours that was not there before, and is
    shorter, since lengths are 1 at least.
    """
    def extend(lines, length):
        last = depot_map.lines[lines[-1]]
        if length > LONGEST_LEG or last.frc > leg.lowest_frc:
            return
        if last.end_node == leg.end_node and leg.last_marks in (None, marks_arriving(last)):
            yield lines
        if most_lines is not None and len(lines) == most_lines:
            return
        for number, line in enumerate(depot_map.lines):
            banned = (lines[-1], number) in depot_map.bans
            if line.start_node == last.end_node and not banned and (may_repeat or number not in lines):
                yield from extend(lines + (number,), length + line.length)

    for number, line in enumerate(depot_map.lines):
        if line.start_node == leg.start_node and marks_leaving(line) == leg.first_marks:
            yield from extend((number,), line.length)


def readings_by_enumeration(depot_map, leg, may_repeat=False, most_lines=None):
    """All readings of a leg, straight from the definition. For small maps only."""
    def same_ends(lines):
        return (lines[0], lines[-1]) if leg.last_marks is not None else lines[0]

    lists = list(connected_lists(depot_map, leg, may_repeat, most_lines))
    least = {}
    for lines in lists:
        length = list_length(depot_map, lines)
        least[same_ends(lines)] = min(length, least.get(same_ends(lines), length))
    return [lines for lines in lists
            if list_length(depot_map, lines) == least[same_ends(lines)]
            and distance_byte(list_length(depot_map, lines)) == leg.distance_byte]
