"""The stored cases of the test programs: every answer occurs, full-size maps with bans of each kind, the edges of the 180th meridian, those of sectors, those
of offset bytes, those of lengths in centimetres and those of the number of tests.

That pack.py makes them is asked by its --check. What else is asked of points along a line is in test_point_cases.py, and of messages in
test_message_cases.py.
"""

import re
import unittest
from collections import Counter
from dataclasses import replace
from itertools import cycle, permutations
from typing import NamedTuple, Optional

import check_plain
from cases import map_outcome
from check_plain import cases_on_maps, in_groups, numbers_in, parts_of
from crossings import reading_moves, stretch_moves
from damages import LINE_NUMBERS, STEP_FIELDS, STEP_PAIRS
from depot_map import LARGEST_NUMBER, DepotMap, map_to_bytes, read_number
from drawn_steps import ENDS_OF_RANGE, steps_at_edges
from fields import LONGEST_LEG, offset_byte, offset_span, sector
from legs import Leg, LegSearch, Marks, list_length
from numbers_of_tests import leg_count, lines_left
from outcome import Refused, RefusedCall, StretchWritten
from pack import CRATES, MOST_CASE_BYTES, PROGRAMS, number_sum
from reader import leg_lists, legs_of, point_nodes, read
from reference import take_apart
from roundings import EVERY_ROUNDING, roundings
from sample_maps import FIRST_BEHIND, LAST_BEFORE, lies_across
from write_recipes import AMPLE_BYTES, WriteInput, write_outcome
from writer import ALL_TESTS, choose_points, skip_lines

STEPS = ("steps_out", "steps_back")
NORTH_STEPS = {north for _, north in STEP_PAIRS.values()}
MAP_REFUSALS = {2, 3, 4, 5, 6, 23, 24}
FEW_LINES = 8
# Maps on which writings are made again with tests for all legs.
MOST_LINES_TESTED_AGAIN = 16
# Of the programs whose cases have maps.
PARTS_OF_A_CASE = {"test_maps": 1, "test_legs": 2, "test_reads": 3, "test_writes": 3, "test_points": 3}
MESSAGE_PROGRAM = "test_messages"


def case_bytes(name):
    return (CRATES / name / "data" / "cases.bin").read_bytes()


def rows(name):
    return (CRATES / name / "stdout").read_text().splitlines()


def stored_maps(name):
    """The bytes of the maps; each stands in the first part of a case."""
    return [map_bytes for map_bytes, *_ in in_groups(parts_of(case_bytes(name)), PARTS_OF_A_CASE[name])]


def good_maps(name):
    """The maps that are not refused."""
    found = [map_outcome(map_bytes) for map_bytes in stored_maps(name)]
    return [depot_map for depot_map in found if not isinstance(depot_map, Refused)]


def full_size_maps(name):
    return [depot_map for depot_map in good_maps(name) if len(depot_map.lines) == 1_024]


class StoredCases(unittest.TestCase):
    def check_answers(self, name, refusals, accepted):
        """Every refusal occurs, and a row that starts with each of some words."""
        refused = {int(row.split()[1]) for row in rows(name) if row.startswith("refused ")}
        self.assertEqual(refused, refusals)
        self.assertEqual({row.split()[0] for row in rows(name)} - {"refused"}, accepted)

    def test_answers(self):
        self.check_answers("test_maps", MAP_REFUSALS, {"nodes"})
        self.check_answers("test_legs", set(), {"none", "one", "several"})
        self.check_answers("test_reads", {1, *MAP_REFUSALS, *range(12, 21), 22}, {"lines"})
        self.check_answers("test_writes", {1, *MAP_REFUSALS, *range(7, 12), 21, 26}, {"bytes"})
        self.check_answers("test_points", {1, *MAP_REFUSALS, 7, *range(9, 21), 25}, {"lines", "bytes"})
        self.check_answers(MESSAGE_PROGRAM, {1, *MAP_REFUSALS, *range(12, 21), 22, 27, 28, 30}, {"open", "closed", "bytes", "from", "lines"})

    def test_every_program_is_asked_and_held_to_plain_rust(self):
        for programs in (PROGRAMS, check_plain.PROGRAMS):
            self.assertEqual(set(programs), {*PARTS_OF_A_CASE, MESSAGE_PROGRAM})

    def test_counts_of_bans(self):
        counts = {int(row.split()[5]) for row in rows("test_maps") if row.startswith("nodes")}
        self.assertLessEqual({0, 1, 2, 3, 512}, counts)

    def test_longest_line_behind_the_longest(self):
        # The longest way of a leg, by one line, and the longest line behind it: no greater sum of lengths can come up (W4).
        for name in ("test_legs", "test_reads", "test_writes", "test_points"):
            with self.subTest(name):
                longest = [[line for line in depot_map.lines if line.length == LONGEST_LEG] for depot_map in good_maps(name)]
                self.assertTrue(any({line.end_node for line in lines} & {line.start_node for line in lines} for lines in longest))

    def test_full_size_maps(self):
        for name in PARTS_OF_A_CASE:
            with self.subTest(name):
                maps = full_size_maps(name)
                self.assertLessEqual({0, 40, 512}, {len(depot_map.bans) for depot_map in maps})
                full = [depot_map for depot_map in maps if len(depot_map.bans) == 512]
                # At how many junctions the bans are, and after how many lines.
                spread = {(len({depot_map.lines[second].start_node for _, second in depot_map.bans}), len({first for first, _ in depot_map.bans}))
                          for depot_map in full}
                self.assertTrue(any(junctions > 1 for junctions, _ in spread))
                self.assertTrue(any(junctions == 1 and first_lines > 1 for junctions, first_lines in spread))
                self.assertIn((1, 1), spread)

    def test_longest_readings(self):
        counts = {int(row.split()[1]) for row in rows("test_reads") if row.startswith("lines")}
        self.assertEqual(sorted(counts)[-2:], [32_769, 65_473])

    def test_sizes(self):
        for name in PROGRAMS:
            self.assertLessEqual(len(case_bytes(name)), MOST_CASE_BYTES)


def calls_on_good_maps(name):
    """The map, the reference or stretch and the row of each stored call whose map is not refused."""
    for (map_bytes, subject, _), row in zip(cases_on_maps(parts_of(case_bytes(name))), rows(name)):
        depot_map = map_outcome(map_bytes)
        if not isinstance(depot_map, Refused):
            yield depot_map, subject, row


class StoredWriting(NamedTuple):
    """A stored call of the writer on a map that is not refused, and its row."""
    depot_map: DepotMap
    given: WriteInput
    row: str

    def is_accepted(self):
        return self.row.startswith("bytes")

    def refusal(self):
        return None if self.is_accepted() else int(self.row.split()[1])

    def tests_and_excess(self):
        """What an accepted row says of them."""
        return tuple(int(number) for number in re.match(r"bytes \d+ tests (\d+) excess (\d+) sum", self.row).groups())


def stored_writings():
    for (map_bytes, stretch, numbers), row in zip(cases_on_maps(parts_of(case_bytes("test_writes"))), rows("test_writes")):
        depot_map = map_outcome(map_bytes)
        if not isinstance(depot_map, Refused):
            pos, neg, tests, work_length, byte_room = numbers
            yield StoredWriting(depot_map, WriteInput(map_bytes, tuple(numbers_in(stretch)), pos, neg, work_length, byte_room, tests), row)


class AcrossTheMeridian(unittest.TestCase):
    @classmethod
    def setUpClass(cls):
        """Of the readings, the moves from point to point where the bytes have their form; of the writings, stretches with their rows."""
        cls.reads = list(calls_on_good_maps("test_reads"))
        cls.moves = []
        for depot_map, reference, _ in cls.reads:
            try:
                cls.moves += reading_moves(depot_map, reference)
            except RefusedCall:
                continue
        cls.crossings = [move for move in cls.moves if move.crosses()]
        cls.writes = [(writing.depot_map, writing.given.lines, writing.row) for writing in stored_writings()]

    def answers_on_maps_across(self, calls):
        """Refusals, and the first word of other rows."""
        words = [row.split() for depot_map, _, row in calls if lies_across(depot_map)]
        return {int(word[1]) if word[0] == "refused" else word[0] for word in words}

    def test_answers_on_maps_across(self):
        self.assertLessEqual({1, *range(12, 21), 22, "lines"}, self.answers_on_maps_across(self.reads))
        self.assertLessEqual({1, *range(7, 12), 21, 26, "bytes"}, self.answers_on_maps_across(self.writes))

    def test_nodes_found_across_at_the_ends_of_16_bits(self):
        found = {move.difference for move in self.crossings if move.found}
        self.assertLessEqual({2, 32_766, 32_767, -2, -32_767, -32_768}, found)

    def test_nodes_found_next_to_the_meridian(self):
        places = {(move.start.longitude, move.end.longitude) for move in self.crossings if move.found}
        self.assertLessEqual({(LAST_BEFORE, FIRST_BEHIND), (FIRST_BEHIND, LAST_BEFORE)}, places)

    def test_nodes_found_at_both_ends_of_the_longitudes_on_one_side(self):
        ends = {move.end.longitude for move in self.moves if move.found and move.difference != 0 and not move.crosses()}
        self.assertLessEqual({LAST_BEFORE, FIRST_BEHIND}, ends)

    def test_no_node_across(self):
        # Sums of 17,999,999 are counted by themselves.
        missing = [move for move in self.crossings if not move.found and move.end.longitude != 17_999_999]
        self.assertEqual({move.difference > 0 for move in missing}, {True, False})

    def test_sums_of_17_999_999(self):
        sums = [move for move in self.moves if move.end.longitude == 17_999_999]
        self.assertFalse(any(move.found for move in sums))
        self.assertLessEqual({1, 32_767, -1, -32_768}, {move.difference for move in sums})

    def test_latitudes_beyond_both_poles(self):
        latitudes = {move.end.latitude for move in self.moves}
        self.assertLessEqual({9_000_001, -9_000_001}, latitudes)

    def test_lines_across_at_the_ends_of_16_bits(self):
        # Stretches of one line, so that 10 is for its difference. Without tests it is 26.
        answers = {}
        for depot_map, lines, row in self.writes:
            if len(lines) == 1 and lines[0] < len(depot_map.lines):
                move, = stretch_moves(depot_map, lines)
                if move.crosses():
                    answers.setdefault(move.difference, set()).add(row.split(" work")[0].split(" sum")[0])
        for difference in (2, -2, 32_766, 32_767, -32_767, -32_768):
            self.assertIn("bytes 16 tests 1 excess 0", answers.get(difference, ()), difference)
        for difference in (32_768, -32_769, 17_999_999, -17_999_999, -18_000_000):
            self.assertEqual(answers.get(difference, set()) - {"refused 26"}, {"refused 10"}, difference)

    def test_nodes_35_999_998_apart(self):
        plain = {move.end.longitude - move.start.longitude for move in self.crossings if move.found}
        self.assertLessEqual({35_999_998, -35_999_998}, plain)
        for name in ("test_maps", "test_writes"):
            longitudes = [{node.longitude for node in depot_map.nodes} for depot_map in good_maps(name)]
            self.assertTrue(any({LAST_BEFORE, FIRST_BEHIND} <= found for found in longitudes), name)

    def test_stretches_across_with_bans_on_the_map(self):
        accepted = [depot_map for depot_map, lines, row in self.writes if row.startswith("bytes") and depot_map.bans
                    and any(move.crosses() for move in stretch_moves(depot_map, lines))]
        self.assertGreater(len(accepted), 10)

    def test_maps_across_occur_in_every_program(self):
        for name in PARTS_OF_A_CASE:
            across = [depot_map for depot_map in good_maps(name) if lies_across(depot_map)]
            self.assertGreater(len(across), 15, name)
            if name != "test_legs":
                self.assertIn(1_024, {len(depot_map.lines) for depot_map in across}, name)


class WrongStep(NamedTuple):
    """What refuses a map with 24: a step's field, and whether it is out of range or one of two that are zero."""
    field: str
    both_zero: bool


# Both zero is the north step's fault.
EVERY_WRONG_STEP = {WrongStep(name, False) for name in STEP_FIELDS} | {WrongStep(name, True) for name in NORTH_STEPS}


def wrong_step(map_bytes):
    """The faulty step of a map that is refused with 24. The numbers before it are good, so that they can be taken one after another."""
    numbers, position = [], 0
    while True:
        number, position = read_number(map_bytes, position)
        # Before the first line stand two counts and two numbers for each node.
        numbers.append(number)
        place = len(numbers) - 1 - (2 + 2 * numbers[0])
        name = LINE_NUMBERS[place % len(LINE_NUMBERS)] if place >= 0 else None
        both_zero = name in NORTH_STEPS and numbers[-2:] == [250, 250]
        if both_zero or (name in STEP_FIELDS and number > 500):
            return WrongStep(name, both_zero)


def sectors_of_lines_alike(depot_map):
    """For each two lines that differ in their steps out alone, or in their steps back alone: the sectors of the one and of the other."""
    for line, other in permutations(depot_map.lines, 2):
        for field in STEPS:
            if line != other and replace(line, **{field: getattr(other, field)}) == other:
                yield sector(getattr(line, field)), sector(getattr(other, field))


class StepsOfLines(unittest.TestCase):
    def test_24_by_range_and_by_both_zero(self):
        for name in ("test_maps", "test_reads", "test_writes", "test_points"):
            found = {wrong_step(map_bytes) for map_bytes in stored_maps(name) if map_bytes and map_outcome(map_bytes) == Refused(24)}
            self.assertEqual(found, EVERY_WRONG_STEP, name)

    def test_every_step_at_an_edge_is_in_a_good_map(self):
        found = {steps for depot_map in good_maps("test_maps") for line in depot_map.lines for steps in (line.steps_out, line.steps_back)}
        self.assertEqual(set(steps_at_edges()) - found, set())

    def test_ends_of_the_range_and_every_sector_in_each_program(self):
        for name in PARTS_OF_A_CASE:
            lines = [line for depot_map in good_maps(name) for line in depot_map.lines]
            for drawn in ({line.steps_out for line in lines}, {line.steps_back for line in lines}):
                self.assertEqual(set(ENDS_OF_RANGE) - drawn, set(), name)
                self.assertEqual({sector(steps) for steps in drawn}, set(range(32)), name)

    def test_lines_on_the_two_sides_of_each_edge(self):
        # On maps of two or three lines. Of one sector they are not told apart.
        for name, accepted, refused in (("test_reads", "lines", "refused 18"), ("test_writes", "bytes", "refused 10"),
                                        ("test_points", "lines", "refused 18"), ("test_points", "bytes", "refused 10")):
            calls = [(row, sectors) for depot_map, _, row in calls_on_good_maps(name) if len(depot_map.lines) <= 3
                     for sectors in sectors_of_lines_alike(depot_map)]
            edges = {second for row, (first, second) in calls if row.startswith(accepted) and second == (first + 1) % 32}
            self.assertEqual(edges, set(range(32)), name)
            self.assertGreater(sum(row.startswith(refused) and first == second for row, (first, second) in calls), 5, name)


class WrittenOffset(NamedTuple):
    """What is left of an offset of a stored stretch that is accepted, the length of its leg, and the span that is read back."""
    is_positive: bool
    offset: int
    leg_length: int
    span: tuple


class FlaggedByte(NamedTuple):
    """An offset byte of a stored reading, the length of its leg, and its span; None where the byte, the only one, is refused with 19."""
    is_positive: bool
    byte: int
    leg_length: int
    span: Optional[tuple]


def spans_in(row):
    """The positive and the negative span in a row that has them."""
    numbers = [int(number) for number in re.search(r"pos (\d+) (\d+) neg (\d+) (\d+)", row).groups()]
    return tuple(numbers[:2]), tuple(numbers[2:])


def written_offsets():
    """Those on maps of few lines, where finding the legs takes little time."""
    for depot_map, given, row in stored_writings():
        if not row.startswith("bytes") or len(depot_map.lines) > FEW_LINES:
            continue
        remaining, *offsets = skip_lines(depot_map, given.lines, given.pos, given.neg)
        legs = choose_points(depot_map, remaining, given.tests)
        for is_positive, offset, leg, span in zip((True, False), offsets, (legs[0], legs[-1]), spans_in(row)):
            if offset != 0:
                yield WrittenOffset(is_positive, offset, list_length(depot_map, leg), span)


def flagged_bytes():
    """Likewise. A refusal 19 of two bytes does not tell which of them, and is left out."""
    for depot_map, reference, row in calls_on_good_maps("test_reads"):
        refused = row.startswith("refused 19")
        if len(depot_map.lines) > FEW_LINES or not (refused or row.startswith("lines")):
            continue
        parts = take_apart(reference)
        given = parts.positive_byte, parts.negative_byte
        lists = leg_lists(depot_map, legs_of(parts, point_nodes(depot_map, parts)))
        spans = (None, None) if refused else spans_in(row)
        for is_positive, byte, leg, span in zip((True, False), given, (lists[0], lists[-1]), spans):
            if byte is not None and not (refused and None not in given):
                yield FlaggedByte(is_positive, byte, list_length(depot_map, leg), span)


def lengths_of_legs_written():
    """Of the stretches that are accepted. The maps have few lines, likewise."""
    for depot_map, given, row in stored_writings():
        if row.startswith("bytes") and len(depot_map.lines) <= FEW_LINES:
            remaining, *_ = skip_lines(depot_map, given.lines, given.pos, given.neg)
            yield from (list_length(depot_map, leg) for leg in choose_points(depot_map, remaining, given.tests))


class OffsetsOfStretches(unittest.TestCase):
    @classmethod
    def setUpClass(cls):
        cls.written, cls.flagged = list(written_offsets()), list(flagged_bytes())

    def flagged_on(self, is_positive):
        """The bytes of one side that are read, and those that are refused."""
        of_the_side = [found for found in self.flagged if found.is_positive == is_positive]
        return [found for found in of_the_side if found.span is not None], [found for found in of_the_side if found.span is None]

    def test_spans_hold_the_offsets_written(self):
        for found in self.written:
            self.assertEqual(found.span, offset_span(offset_byte(found.offset, found.leg_length), found.leg_length), found)
            self.assertTrue(found.span[0] <= found.offset <= found.span[1], found)

    def test_every_rounding_is_written_on_each_side(self):
        for is_positive in (True, False):
            counts = Counter(kind for found in self.written if found.is_positive == is_positive for kind in roundings(found.offset, found.leg_length))
            self.assertEqual(set(counts), EVERY_ROUNDING)
            self.assertGreater(min(counts.values()), 10, counts)

    def test_bytes_0_and_255_with_several_offsets(self):
        for is_positive in (True, False):
            accepted, _ = self.flagged_on(is_positive)
            for byte in (0, 255):
                self.assertGreater(sum(found.byte == byte and found.span[0] < found.span[1] for found in accepted), 10, byte)

    def test_byte_255_with_a_span_wider_than_a_256th(self):
        for is_positive in (True, False):
            accepted, _ = self.flagged_on(is_positive)
            wide = [found for found in accepted if 256 * (found.span[1] - found.span[0]) > found.leg_length]
            self.assertEqual({found.byte for found in wide}, {255})
            self.assertGreater(len(wide), 10)

    def test_bytes_0_and_255_at_their_edges(self):
        # Byte 0 is given by no offset up to a length of 512, byte 255 by none up to 170.
        for is_positive in (True, False):
            accepted, refused = ({(found.byte, found.leg_length) for found in side} for side in self.flagged_on(is_positive))
            self.assertLessEqual({(0, 513), (0, 514), (0, LONGEST_LEG)}, accepted)
            self.assertLessEqual({(255, length) for length in (171, 255, 256, 257, 511, 512, 513, LONGEST_LEG)}, accepted)
            self.assertLessEqual({(0, 1), (0, 170), (0, 256), (0, 257), (0, 511), (0, 512), (255, 1), (255, 170)}, refused)

    def test_spans_that_start_at_an_exact_half(self):
        # The half before the byte is its own, and the half behind it is the next byte's.
        for is_positive in (True, False):
            accepted, _ = self.flagged_on(is_positive)
            starts = [found for found in accepted if 512 * found.span[0] == (2 * found.byte - 1) * found.leg_length]
            ends = [found for found in accepted if 512 * (found.span[1] + 1) == (2 * found.byte + 1) * found.leg_length]
            self.assertGreater(min(len(starts), len(ends)), 3, (len(starts), len(ends)))


def is_fine(number):
    """Whether a number of centimetres is no whole decimetres."""
    return number % 10 != 0


def in_whole_decimetres(depot_map):
    """The map with each length taken down to whole decimetres, or to 1."""
    return replace(depot_map, lines=tuple(replace(line, length=max(1, line.length // 10 * 10)) for line in depot_map.lines))


def numbers_in_order(map_bytes):
    """Where each number of a map starts, and the number, up to the first in a wrong form."""
    position = 0
    while position < len(map_bytes):
        start = position
        try:
            number, position = read_number(map_bytes, position)
        except RefusedCall:
            return
        yield start, number


def wrong_lengths(name):
    """The lengths for which maps are refused. What stands before such a length is good: the map that ends there is refused for its end alone."""
    for map_bytes in stored_maps(name):
        if not map_bytes or map_outcome(map_bytes) != Refused(5):
            continue
        (_, node_count), *numbers = numbers_in_order(map_bytes)
        # Before the first line stand two numbers for each node and a count.
        for (start, number), field in zip(numbers[2 * node_count + 1:], cycle(LINE_NUMBERS)):
            if field == "length" and not 1 <= number <= 1_500_000 and map_outcome(map_bytes[:start]) == Refused(2):
                yield number


def leg_of(numbers):
    """A leg out of the numbers that are packed for it."""
    start, end, frc, fow, first_sector, lowest_frc, distance, is_last, *last = numbers
    return Leg(start, end, Marks(frc, fow, first_sector), lowest_frc, distance, Marks(*last) if is_last else None)


class Centimetres(unittest.TestCase):
    """Paper 02, "Centimetres". What stands here as a number is the paper's, and the maker of the cases has it from fields.py."""

    @classmethod
    def setUpClass(cls):
        cls.maps = {name: set(good_maps(name)) for name in PARTS_OF_A_CASE}
        cls.written = list(written_offsets())
        cls.writings = list(stored_writings())

    def check_common(self, numbers, what):
        """Of the numbers that are a decimetre or more, more than half are no whole decimetres, and every last digit occurs."""
        found = [number for number in numbers if number >= 10]
        self.assertGreater(len(found), 100, what)
        self.assertGreater(2 * sum(map(is_fine, found)), len(found), what)
        self.assertEqual({number % 10 for number in found}, set(range(10)), what)

    def test_lengths_that_are_no_multiple_of_ten_are_common(self):
        # Also without the full-size maps, which have most of the lines.
        for name, maps in self.maps.items():
            for kind, chosen in (("all", maps), ("small", [depot_map for depot_map in maps if len(depot_map.lines) < 1_024])):
                self.check_common([line.length for depot_map in chosen for line in depot_map.lines], (name, kind))

    def test_most_maps_have_such_a_length(self):
        for name, maps in self.maps.items():
            fine = [depot_map for depot_map in maps if any(line.length >= 10 and is_fine(line.length) for line in depot_map.lines)]
            self.assertGreater(2 * len(fine), len(maps), name)

    def test_offsets_that_are_no_multiple_of_ten_are_common(self):
        # Those of the writers that are accepted, and those at which a span of the readers starts or ends.
        self.check_common([offset for writing in self.writings if writing.is_accepted() for offset in (writing.given.pos, writing.given.neg)], "written")
        for name in ("test_reads", "test_points"):
            spans = [span for row in rows(name) if row.startswith("lines") for span in re.findall(r"(?:pos|neg|offset) (\d+) (\d+)", row)]
            for end in (0, 1):
                self.check_common([int(span[end]) for span in spans], (name, end))

    def test_offsets_of_points_that_are_no_multiple_of_ten_are_common(self):
        calls = zip(cases_on_maps(parts_of(case_bytes("test_points"))), rows("test_points"))
        self.check_common([numbers[4] for (_, _, numbers), row in calls if row.startswith("bytes")], "points")

    def test_readings_that_whole_decimetres_would_change(self):
        # Ways that are less than a decimetre apart, a leg that is too long by less, or D.
        changed, map_before = Counter(), None
        for (map_bytes, leg), row in zip(in_groups(parts_of(case_bytes("test_legs")), 2), rows("test_legs")):
            map_before = map_bytes or map_before
            depot_map = map_outcome(map_before)
            if len(depot_map.lines) <= MOST_LINES_TESTED_AGAIN:
                how_many = row.split()[0]
                coarse = LegSearch(in_whole_decimetres(depot_map)).readings(leg_of(numbers_in(leg))).how_many
                changed[how_many] += how_many != coarse
        self.assertEqual(set(changed), {"none", "one", "several"})
        self.assertGreater(min(changed.values()), 10, changed)

    def test_calls_that_whole_decimetres_would_change(self):
        # By the answer that is stored: other lines or another refusal of the reader, other bytes or another refusal of the writer.
        changed = Counter()
        for (map_bytes, reference, numbers), row in zip(cases_on_maps(parts_of(case_bytes("test_reads"))), rows("test_reads")):
            depot_map = map_outcome(map_bytes)
            if not isinstance(depot_map, Refused) and len(depot_map.lines) <= FEW_LINES:
                outcome, coarse = (read(map_to_bytes(drawn), reference, *numbers) for drawn in (depot_map, in_whole_decimetres(depot_map)))
                changed["read", " ".join(row.split()[:2])] += getattr(outcome, "lines", outcome) != getattr(coarse, "lines", coarse)
        for writing in self.writings:
            if len(writing.depot_map.lines) <= FEW_LINES:
                outcome, coarse = (write_outcome(replace(writing.given, map_bytes=map_to_bytes(drawn)))
                                   for drawn in (writing.depot_map, in_whole_decimetres(writing.depot_map)))
                changed["write", "bytes" if writing.is_accepted() else writing.refusal()] += outcome != coarse
        self.assertGreater(sum(count for (call, answer), count in changed.items() if call == "read" and answer.startswith("lines")), 20)
        self.assertGreater(changed["read", "refused 18"], 10)
        self.assertGreater(changed["write", "bytes"], 100)
        self.assertGreater(min(changed["write", 10], changed["write", 26]), 10)

    def test_lengths_of_lines_at_their_edges(self):
        for name, maps in self.maps.items():
            self.assertLessEqual({1, 1_499_999, 1_500_000}, {line.length for depot_map in maps for line in depot_map.lines}, name)
            self.assertTrue(any(150_000 < line.length < 1_499_999 for depot_map in maps for line in depot_map.lines), name)

    def test_lines_one_too_long(self):
        for name in ("test_maps", "test_reads", "test_writes", "test_points"):
            self.assertLessEqual({0, 1_500_001, LARGEST_NUMBER}, set(wrong_lengths(name)), name)

    def test_lengths_of_legs_at_the_edges_of_d(self):
        # 11,720 is twice 5,860, and 1,494,300 is 255 times that.
        edges = {1, 5_859, 5_860, 5_861, 11_719, 11_720, 11_721, 1_494_299, 1_494_300, 1_494_301, 1_499_999, 1_500_000}
        lengths = {int(row.split()[3]) for row in rows("test_legs") if row.startswith("one")}
        self.assertEqual(edges - lengths, set())
        self.assertEqual(max(lengths), 1_500_000)
        self.assertEqual(edges - set(lengths_of_legs_written()), set())

    def test_legs_one_too_long(self):
        # Two or more lines that make 1,500,001 are cut, and need a point more.
        points = []
        for depot_map, given, row in self.writings:
            if row.startswith("bytes") and len(depot_map.lines) <= FEW_LINES:
                remaining, *_ = skip_lines(depot_map, given.lines, given.pos, given.neg)
                if list_length(depot_map, remaining) == 1_500_001:
                    points.append(len(choose_points(depot_map, remaining, given.tests)) + 1)
        self.assertEqual(min(points), 3)
        self.assertGreater(len(points), 10)

    def test_offsets_of_a_centimetre_and_of_all_but_one(self):
        for is_positive in (True, False):
            of_the_side = [found for found in self.written if found.is_positive == is_positive]
            self.assertGreater(sum(found.offset == 1 and found.leg_length > 10_000 for found in of_the_side), 10)
            self.assertGreater(sum(found.offset == found.leg_length - 1 > 10_000 for found in of_the_side), 3)
            self.assertIn(1_499_999, {found.offset for found in of_the_side})

    def test_exact_halves_on_long_legs(self):
        # On multiples of 512 up to 1,499,648, which is 2,929 times that.
        halves = {found.leg_length for found in self.written if "an exact half upwards" in roundings(found.offset, found.leg_length)}
        self.assertLessEqual({512, 1_024, 1_536, 1_499_648}, halves)

    def test_sums_of_offsets_that_need_33_bits(self):
        # Of 32 bits the rest would be below the total.
        wide = [writing for writing in self.writings if writing.refusal() == 9 and writing.given.pos + writing.given.neg >= 2 ** 32]
        telling = [writing for writing in wide if (writing.given.pos + writing.given.neg) % 2 ** 32 < list_length(writing.depot_map, writing.given.lines)]
        self.assertGreater(len(telling), 5)

    def test_stretches_of_96_000_000(self):
        # 64 lines of 1,500,000, with no offset, with offsets up to one below the total, and with the total.
        longest = [writing for writing in self.writings if 1 <= len(writing.given.lines) <= 64 and max(writing.given.lines) < len(writing.depot_map.lines)
                   and list_length(writing.depot_map, writing.given.lines) == 96_000_000]
        sums = {(writing.given.pos + writing.given.neg, writing.refusal()) for writing in longest}
        self.assertLessEqual({(0, None), (95_999_999, None), (96_000_000, 9)}, sums)
        totals = {list_length(depot_map, range(64)) for depot_map, _, row in calls_on_good_maps("test_reads")
                  if row.startswith("lines 64 ") and len(depot_map.lines) == 64}
        self.assertIn(96_000_000, totals)


class NumbersOfTests(unittest.TestCase):
    """Paper 02, "Best found so far"."""

    @classmethod
    def setUpClass(cls):
        """The writings whose legs come to be tested, each with the count of its legs; and of those on small maps the outcome with all tests too."""
        cls.refused_before, cls.tested = [], []
        for writing in stored_writings():
            left = lines_left(writing.given)
            if left is None:
                cls.refused_before.append(writing)
            else:
                cls.tested.append((writing, leg_count(len(left[1]))))
        cls.on_small_maps = [(writing, count, write_outcome(replace(writing.given, tests=ALL_TESTS, byte_room=AMPLE_BYTES)))
                             for writing, count in cls.tested if len(writing.depot_map.lines) <= MOST_LINES_TESTED_AGAIN]

    def test_numbers_given(self):
        numbers = {writing.given.tests for writing, _ in self.tested}
        self.assertLessEqual({*range(11), 256, 65_536, 2 ** 31, LARGEST_NUMBER, ALL_TESTS - 1, ALL_TESTS, ALL_TESTS + 1}, numbers)
        beside = Counter(writing.given.tests - count for writing, count in self.tested)
        self.assertGreater(min(beside[-1], beside[1]), 50, beside)
        self.assertGreater(beside[0], 300)

    def test_tests_made(self):
        below = equal = 0
        for writing, count in self.tested:
            if writing.is_accepted():
                made, excess = writing.tests_and_excess()
                self.assertEqual(made, min(writing.given.tests, count))
                below += made < count
                equal += made == count
                self.assertTrue(made < count or excess == 0)
        self.assertGreater(below, 300)
        self.assertGreater(equal, 1_000)

    def test_no_tests(self):
        without = [writing for writing, _ in self.tested if writing.given.tests == 0]
        self.assertGreater(len(without), 50)
        self.assertEqual({writing.refusal() for writing in without}, {26})

    def test_no_tests_and_refused_before(self):
        self.assertLessEqual({1, 7, 8, 9, 21}, {writing.refusal() for writing in self.refused_before if writing.given.tests == 0})

    def test_10_with_all_tests_and_before(self):
        self.assertGreater(sum(writing.refusal() == 10 and writing.given.tests < count for writing, count in self.tested), 30)
        self.assertGreater(sum(writing.refusal() == 10 and writing.given.tests >= count for writing, count in self.tested), 100)

    def test_26(self):
        refused = [(writing, count) for writing, count in self.tested if writing.refusal() == 26]
        self.assertGreater(len(refused), 300)
        self.assertTrue(all(writing.given.tests < count for writing, count in refused))
        # One test before the last, of many lines and of few, and with a buffer that would be too short.
        self.assertLessEqual({1, 2, 5, 64}, {len(writing.given.lines) for writing, count in refused if writing.given.tests == count - 1})
        self.assertIn(0, {writing.given.byte_room for writing, _ in refused})

    def test_26_where_all_tests_are_accepted_and_where_they_give_10(self):
        with_all = Counter(isinstance(ordinary, StretchWritten) for writing, _, ordinary in self.on_small_maps if writing.refusal() == 26)
        self.assertGreater(min(with_all[True], with_all[False]), 50, with_all)

    def test_excess(self):
        excesses = Counter(writing.tests_and_excess()[1] for writing, _ in self.tested if writing.is_accepted())
        self.assertLessEqual({0, 1, 2, 3, 6, 61}, set(excesses))
        self.assertGreater(sum(excesses.values()) - excesses[0], 100)

    def accepted_before_all(self):
        """Accepted with fewer tests than legs on small maps: the row's count of bytes, sum and excess, and the ordinary outcome."""
        for writing, count, ordinary in self.on_small_maps:
            if writing.is_accepted() and writing.given.tests < count:
                length, excess, total = re.match(r"bytes (\d+) tests \d+ excess (\d+) sum (\d+)", writing.row).groups()
                yield int(length), int(total), int(excess), ordinary

    def test_references_other_than_the_ordinary(self):
        kinds = Counter()
        for length, total, excess, ordinary in self.accepted_before_all():
            points_more, rest = divmod(length - len(ordinary.reference), 7)
            self.assertEqual(rest, 0)
            self.assertTrue(0 <= points_more <= excess)
            kinds["more points"] += points_more > 0
            kinds["as many points"] += points_more == 0 and total != number_sum(ordinary.reference)
            kinds["the ordinary one"] += total == number_sum(ordinary.reference)
            kinds["an excess above the true one"] += excess > points_more
        self.assertEqual(len(kinds), 4)
        self.assertGreater(min(kinds.values()), 20, kinds)

    def test_11_where_all_tests_would_do(self):
        short = [writing for writing, _, ordinary in self.on_small_maps if writing.refusal() == 11 and len(ordinary.reference) <= writing.given.byte_room]
        self.assertGreater(len(short), 10)

    def test_full_size_maps(self):
        on_full_maps = [(writing, count) for writing, count in self.tested if len(writing.depot_map.lines) == 1_024]
        before_all = {writing.refusal() for writing, count in on_full_maps if writing.given.tests < count}
        self.assertLessEqual({None, 26}, before_all)
        self.assertGreater(sum(writing.given.tests >= count for writing, count in on_full_maps), 100)


if __name__ == "__main__":
    unittest.main()
