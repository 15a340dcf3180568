"""Cases of points along a line: what the generator makes, and what occurs among the stored ones (crates/test_points, and crates/test_reads for points given to
the reader of stretches)."""

import unittest
from collections import Counter
from dataclasses import replace
from fractions import Fraction
from itertools import combinations, product
from math import floor
from typing import NamedTuple

import cases
from cases import map_outcome, random_source
from check_host import read_point_calls, write_point_calls
from check_plain import cases_on_maps, parts_of
from crossings import stretch_moves
from depot_map import DepotMap, map_to_bytes, read_map
from fields import LONGEST_LEG, differences
from legs import LegSearch, list_length
from outcome import PointRead, PointWritten, Refused
from point_along_line import read_point, write_point
from point_read_recipes import FIELD_POSITIONS, R_POSITION, point_read_outcome
from point_write_recipes import point_write_outcome
from reader import LEAST_WORK_LENGTH
from roundings import EVERY_ROUNDING, roundings
from sample_maps import lies_across
from test_cases import CaseTests
from test_stored_cases import FEW_LINES, MAP_REFUSALS, calls_on_good_maps, case_bytes, rows
from writer import leg_is_usable

LARGEST = 4_294_967_295
# Of the reader and of the writer of points. There is one line only, so that 8 and 21 cannot be, and one leg, so that 22 cannot.
READ_REFUSALS = {1, *MAP_REFUSALS, *range(12, 21)}
WRITE_REFUSALS = {1, *MAP_REFUSALS, 7, 9, 25, 10, 11}
KINDS = ((cases.point_read_cases, cases.POINT_READ_RECIPES, 20), (cases.point_write_cases, cases.POINT_WRITE_RECIPES, 25),
         (cases.point_read_edge_cases, cases.POINT_READ_EDGES, 10), (cases.point_write_edge_cases, cases.POINT_WRITE_EDGES, 10),
         (cases.point_read_cases_across, cases.POINT_READ_RECIPES_ACROSS, 2), (cases.point_write_cases_across, cases.POINT_WRITE_RECIPES_ACROSS, 2),
         (cases.meridian_point_read_cases, cases.MERIDIAN_POINT_READ_RECIPES, 24), (cases.meridian_point_write_cases, cases.MERIDIAN_POINT_WRITE_RECIPES, 24),
         (cases.points_for_stretches_cases, cases.POINTS_FOR_STRETCHES_RECIPES, 10))


class Generator(CaseTests):
    def test_every_label_occurs_and_every_promise_is_kept(self):
        for make, recipes, turns in KINDS:
            made = make(1, turns * len(recipes))
            self.check_labels(made, recipes)
            self.check_promises(made)

    def test_same_seed_same_cases(self):
        for make, _, _ in KINDS:
            self.assertEqual(make(5, 30), make(5, 40)[:30])
            self.assertNotEqual(make(5, 30), make(6, 30))

    def test_no_other_refusals(self):
        for make, refusals in ((cases.point_read_cases, READ_REFUSALS), (cases.point_write_cases, WRITE_REFUSALS)):
            made = make(2, 820)
            self.assertEqual({case.expected.number for case in made if isinstance(case.expected, Refused)}, refusals)

    def test_calls_across_the_meridian_have_the_outcomes_they_have_elsewhere(self):
        # Of what is written only the first point's longitude code is another.
        for plain, across in ((cases.point_read_cases, cases.point_read_cases_across), (cases.point_write_cases, cases.point_write_cases_across)):
            for case, shifted_case in zip(plain(1, 100), across(1, 100)):
                expected, shifted_expected = case.expected, shifted_case.expected
                if isinstance(expected, PointWritten):
                    expected, shifted_expected = (outcome.reference[4:] for outcome in (expected, shifted_expected))
                self.assertEqual(shifted_expected, expected, case.label)

    def test_calls_from_c(self):
        for make_calls, accepted in ((read_point_calls, "lines"), (write_point_calls, "bytes")):
            calls = list(make_calls(1, 100))
            self.assertEqual(len(calls), 100)
            maps = [map_outcome(bytes.fromhex(row.split()[1].strip("-"))) for row, _ in calls]
            self.assertGreater(sum(isinstance(depot_map, DepotMap) and lies_across(depot_map) for depot_map in maps), 10)
            self.assertGreater(sum(answer.startswith(accepted) for _, answer in calls), 25)

    def test_of_two_faults_the_upper_row_is_given(self):
        seen = set()
        for turn in range(80):
            detail, given = cases.POINT_READ_RECIPES["two faults"](random_source("two faults", 1, turn), turn)
            self.assertEqual(point_read_outcome(given).number, min(map(int, detail.split(" and "))), detail)
            seen.add(detail)
        self.assertGreater(len(seen), 8)


    def test_offsets_at_a_half(self):
        found = set()
        for turn in range(30):
            detail, given = cases.POINT_WRITE_RECIPES["offset at a half"](random_source("halves", 1, turn), turn)
            length = read_map(given.map_bytes).lines[given.line].length
            nearest = floor(Fraction(256 * given.offset, length) + Fraction(1, 2))
            self.assertEqual(point_write_outcome(given).reference[-1], min(255, nearest), detail)
            found |= roundings(given.offset, length)
        self.assertEqual(found, EVERY_ROUNDING)

    def test_bytes_that_no_offset_gives(self):
        # Each of the pairs has its turn, with a line buffer that is too short and with one that is not.
        found = {(detail, given.line_room) for detail, given in (cases.POINT_READ_RECIPES["refusal 19"](random_source("no offset", 1, turn), turn)
                                                                 for turn in range(34))}
        self.assertEqual(len(found), 34)
        details = {detail for detail, _ in found}
        self.assertLessEqual({f"byte 0 on {length}" for length in (170, 171, 255, 256, 257, 511, 512)} | {"byte 255 on 169", "byte 255 on 170"}, details)


class StoredRead(NamedTuple):
    """A stored call of the reader on a good map, with its row."""
    depot_map: DepotMap
    map_bytes: bytes
    reference: bytes
    work_length: int
    room: int
    row: str

    def is_point(self):
        """Whether the bytes have a point's length and status."""
        return len(self.reference) in (16, 17) and self.reference[0] == 0x2B

    def refusal(self):
        return refusal_in(self.row)


class StoredWrite(NamedTuple):
    """Likewise of the writer."""
    depot_map: DepotMap
    map_bytes: bytes
    work_length: int
    room: int
    line: int
    offset: int
    orientation: int
    side: int
    row: str

    def refusal(self):
        return refusal_in(self.row)

    def faults(self):
        """The refusals from 7 on whose conditions hold, in the order in which they are asked. Without a line only 7, 25 and 11 can be told."""
        wrong_marks = [25] if max(self.orientation, self.side) > 3 else []
        short = [11] if self.room < 16 + (self.offset > 0) else []
        if self.line >= len(self.depot_map.lines):
            return [7, *wrong_marks, *short]
        too_large = [9] if self.offset >= self.depot_map.lines[self.line].length else []
        ambiguous = [] if leg_is_usable(LegSearch(self.depot_map), (self.line,), True) else [10]
        return [*too_large, *wrong_marks, *ambiguous, *short]


def refusal_in(row):
    words = row.split()
    return int(words[1]) if words[0] == "refused" else None


def stored_calls():
    """Every stored call, and its row: 0 to read or 1 to write, and what the call is given."""
    for (map_bytes, reference, (to_write, *numbers)), row in zip(cases_on_maps(parts_of(case_bytes("test_points"))), rows("test_points")):
        yield to_write, map_bytes, reference, numbers, row


class StoredPoints(unittest.TestCase):
    @classmethod
    def setUpClass(cls):
        cls.all_rows = {0: [], 1: []}
        cls.reads, cls.writes = [], []
        for to_write, map_bytes, reference, numbers, row in stored_calls():
            cls.all_rows[to_write].append(row)
            depot_map = map_outcome(map_bytes)
            if isinstance(depot_map, Refused):
                continue
            if to_write:
                cls.writes.append(StoredWrite(depot_map, map_bytes, *numbers, row))
            else:
                cls.reads.append(StoredRead(depot_map, map_bytes, reference, *numbers[:2], row))
        # Refusal 1 aside, which looks at nothing else.
        cls.read_here = [call for call in cls.reads if call.work_length >= LEAST_WORK_LENGTH]
        cls.written_here = [call for call in cls.writes if call.work_length >= LEAST_WORK_LENGTH]

    def test_answers_of_each_call(self):
        for to_write, refusals, accepted in ((0, READ_REFUSALS, "lines"), (1, WRITE_REFUSALS, "bytes")):
            counts = Counter(refusal_in(row) for row in self.all_rows[to_write])
            self.assertEqual(set(counts), {None, *refusals})
            self.assertGreater(min(counts.values()), 15, counts)
            self.assertGreater(counts[None], 400)
            self.assertEqual({row.split()[0] for row in self.all_rows[to_write]}, {"refused", accepted})

    def test_places(self):
        places = {tuple(row.split()[1:3]) for row in self.all_rows[0] if refusal_in(row) in (16, 17, 18)}
        self.assertEqual(places, {("16", "0"), ("16", "1"), ("17", "0"), ("18", "0")})

    def test_unused_parts_are_empty(self):
        for to_write, _, reference, numbers, _ in stored_calls():
            self.assertEqual(len(numbers), 6)
            self.assertEqual(reference if to_write else bytes(sum(numbers[2:])), b"")

    def test_every_orientation_and_side(self):
        pairs = set(product(range(4), repeat=2))
        self.assertEqual({(call.orientation, call.side) for call in self.written_here if call.refusal() is None}, pairs)
        self.assertEqual({(call.reference[7] // 64, call.reference[14] // 64) for call in self.read_here if call.refusal() is None}, pairs)

    def test_orientation_and_side_at_their_edges(self):
        refused = {(call.orientation, call.side) for call in self.written_here if call.refusal() == 25}
        self.assertLessEqual({(4, 0), (0, 4), (4, 3), (3, 4), (256, 0), (0, 256), (LARGEST, 3), (3, LARGEST), (LARGEST, LARGEST)}, refused)

    def test_offsets_at_their_edges(self):
        # How far below the length an offset is, by answer.
        below = {}
        for call in self.written_here:
            if call.line < len(call.depot_map.lines):
                below.setdefault(call.refusal(), set()).add((call.offset, call.depot_map.lines[call.line].length - call.offset))
        self.assertLessEqual({0, 1}, {offset for offset, _ in below[None]})
        self.assertIn(1, {rest for _, rest in below[None]})
        self.assertIn((0, 1), below[None])
        self.assertLessEqual({0, -1}, {rest for _, rest in below[9]})
        self.assertIn(LARGEST, {offset for offset, _ in below[9]})

    def test_two_faults_of_the_writer(self):
        seen = set()
        for call in self.written_here:
            faults = call.faults()
            self.assertEqual(call.refusal(), faults[0] if faults else None)
            seen.update(combinations(faults, 2))
        self.assertLessEqual({(7, 25), (9, 25), (25, 10), (25, 11), (7, 11), (9, 11), (10, 11)}, seen)

    def test_lines_that_are_none(self):
        # The count of lines, numbers whose last bits are a line's, the greatest, and a node's number.
        refused = [(call.line, len(call.depot_map.lines), len(call.depot_map.nodes)) for call in self.written_here if call.refusal() == 7]
        self.assertTrue(any(line == count for line, count, _ in refused))
        for bits in (16, 31):
            self.assertTrue(any(0 <= line - 2 ** bits < count for line, count, _ in refused))
        self.assertTrue(any(line == LARGEST for line, _, _ in refused))
        self.assertTrue(any(count <= line < nodes for line, count, nodes in refused))

    def test_lengths_of_buffers_and_work_areas(self):
        for calls in (self.reads, self.writes):
            self.assertLessEqual({0, LEAST_WORK_LENGTH - 1, LEAST_WORK_LENGTH, LEAST_WORK_LENGTH + 1}, {call.work_length for call in calls})
        spare_lines = {call.room - int(call.row.split()[1]) for call in self.read_here if call.refusal() is None}
        self.assertLessEqual({0, 1}, spare_lines)
        rooms = {(call.room, call.refusal(), call.offset > 0) for call in self.written_here}
        self.assertLessEqual({(15, 11, False), (16, None, False), (16, 11, True), (17, None, True), (0, 11, True), (20, None, True)}, rooms)

    def without_bans(self, call):
        return map_to_bytes(replace(call.depot_map, bans=()))

    def test_ties_that_a_ban_decides(self):
        with_bans = [call for call in self.read_here if call.depot_map.bans and call.is_point() and len(call.depot_map.lines) < 100]
        untied = [read_point(self.without_bans(call), call.reference, LEAST_WORK_LENGTH, call.room) for call in with_bans if call.refusal() is None]
        self.assertGreater(untied.count(Refused(18, 0)), 4)
        others = [read_point(self.without_bans(call), call.reference, LEAST_WORK_LENGTH, call.room) for call in with_bans if call.refusal() == 18]
        self.assertGreater(sum(outcome != Refused(18, 0) for outcome in others), 4)

    def test_lines_that_a_ban_tells_apart(self):
        outcomes = {None: [], 10: []}
        for call in self.written_here:
            if call.depot_map.bans and call.refusal() in outcomes and len(call.depot_map.lines) < 100:
                outcomes[call.refusal()].append(write_point(self.without_bans(call), call.line, call.offset, 0, 0, LEAST_WORK_LENGTH, 17))
        self.assertGreater(outcomes[None].count(Refused(10)), 4)
        self.assertGreater(sum(isinstance(outcome, PointWritten) for outcome in outcomes[10]), 4)

    def test_parallel_lines(self):
        # By the fields in which two lines differ that join the same nodes. D is 1 for 10,003 and 11,719.
        answers = {}
        for call in self.written_here:
            if len(call.depot_map.lines) <= 3 and call.refusal() in (None, 10):
                line = call.depot_map.lines[call.line]
                beside = [other for number, other in enumerate(call.depot_map.lines)
                          if number != call.line and (other.start_node, other.end_node) == (line.start_node, line.end_node)]
                for other in beside if len(beside) == 1 else ():
                    differing = tuple(name for name in ("length", "frc", "fow", "steps_out", "steps_back") if getattr(line, name) != getattr(other, name))
                    answers.setdefault(differing, set()).add(call.refusal())
        self.assertEqual(answers[()], {10})
        self.assertEqual(answers[("length",)], {None, 10})
        for name in ("frc", "fow"):
            self.assertEqual(answers[(name,)], {None}, name)
        for name in ("steps_out", "steps_back"):
            self.assertEqual(answers[(name,)], {None, 10}, name)

    def test_nodes_too_far_apart(self):
        # Differences of longitudes and of latitudes, by answer, on maps of one line.
        answers = {}
        for call in self.written_here:
            if len(call.depot_map.lines) == 1 and call.refusal() in (None, 10):
                for which, difference in enumerate(differences(*self.ends(call))):
                    answers.setdefault(call.refusal(), set()).add((which, difference))
        for which in (0, 1):
            self.assertLessEqual({(which, difference) for difference in (32_768, -32_769, 65_535, 65_536, 65_537, -65_537)}, answers[10])
            self.assertLessEqual({(which, difference) for difference in (32_766, 32_767, -32_767, -32_768)}, answers[None])

    def ends(self, call):
        line = call.depot_map.lines[call.line]
        return call.depot_map.nodes[line.start_node], call.depot_map.nodes[line.end_node]

    def test_lines_across_the_meridian(self):
        answers = {}
        for call in self.written_here:
            if call.refusal() in (None, 10):
                move, = stretch_moves(call.depot_map, [call.line])
                if move.crosses():
                    answers.setdefault(call.refusal(), set()).add(move.difference)
        self.assertLessEqual({2, -2, 32_766, 32_767, -32_767, -32_768}, answers[None])
        self.assertLessEqual({32_768, -32_769, 17_999_999, -18_000_000}, answers[10])

    def test_points_read_across_the_meridian(self):
        read_across = {int.from_bytes(call.reference[10:12], "big", signed=True) for call in self.read_here
                       if call.refusal() is None and lies_across(call.depot_map)}
        self.assertLessEqual({2, -2, 32_767, -32_768}, read_across)
        self.assertGreater(sum(call.refusal() == 16 and lies_across(call.depot_map) for call in self.read_here), 40)

    def test_counts_of_lines(self):
        counts = {int(call.row.split()[1]) for call in self.read_here if call.refusal() is None}
        self.assertLessEqual({1, 2, 3, 4, 41, 101, 301, 1_024}, counts)
        self.assertEqual(max(counts), 1_024)
        longest = {(call.room, call.refusal()) for call in self.read_here if len(call.depot_map.lines) == 1_024}
        self.assertLessEqual({(1_024, None), (1_023, 20), (1_025, None)}, longest)

    def test_calls_on_full_size_maps(self):
        for calls, refusals in ((self.read_here, {None, 16, 17, 18}), (self.written_here, {None, 9, 10})):
            counts = Counter(call.refusal() for call in calls if len(call.depot_map.lines) == 1_024)
            self.assertLessEqual(refusals, set(counts))
            self.assertGreater(counts[None], 50)

    def test_both_lengths_with_each_value_of_the_flags(self):
        # Bits 7, 6 and 5 of R, by length.
        answers = {}
        for call in self.read_here:
            if call.is_point():
                answers.setdefault((len(call.reference), call.reference[R_POSITION] // 32), set()).add(call.refusal())
        self.assertEqual(set(answers), set(product((16, 17), range(8))))
        for (length, bits), refusals in answers.items():
            if bits not in (0b000, 0b010):
                self.assertEqual(refusals, {14})
            elif (length, bits) in ((16, 0b010), (17, 0b000)):
                self.assertEqual(refusals, {15})
            else:
                self.assertIn(None, refusals)

    def test_each_bit_of_each_field(self):
        # Points that are one bit off one that is read. The orientation's and the side's bits are read as they are.
        missing = set(product(FIELD_POSITIONS, range(8)))
        found = {}
        for call in self.read_here:
            if not call.is_point() or len(call.depot_map.lines) > 64:
                continue
            for position, bit in sorted(missing):
                good = call.reference[:position] + bytes([call.reference[position] ^ 1 << bit]) + call.reference[position + 1:]
                if isinstance(read_point(call.map_bytes, good, LEAST_WORK_LENGTH, 1_024), PointRead):
                    found[position, bit] = call.refusal()
                    missing.remove((position, bit))
        self.assertEqual(missing, set())
        self.assertEqual([found[R_POSITION, bit] for bit in (7, 6, 5)], [14, 15, 14])
        self.assertEqual([found[position, bit] for position in (7, 14) for bit in (7, 6)], [None] * 4)

    def leg_length(self, call):
        """The length of the leg, without the offset."""
        unflagged = call.reference[:R_POSITION] + bytes([call.reference[R_POSITION] & 0xBF])
        return list_length(call.depot_map, read_point(call.map_bytes, unflagged, LEAST_WORK_LENGTH, 1_024).lines)

    def flagged_bytes(self, refusal):
        """The byte, the length of the leg and the row of each point with an offset that is refused so or, for None, read. The maps have few lines."""
        return [(call.reference[16], self.leg_length(call), call.row) for call in self.read_here
                if call.is_point() and len(call.reference) == 17 and call.refusal() == refusal and len(call.depot_map.lines) <= FEW_LINES]

    def spans(self):
        """The byte, the length of the leg and the span of each that is read."""
        return [(byte, length, *map(int, row.split()[3:5])) for byte, length, row in self.flagged_bytes(None)]

    def test_offset_bytes_at_their_edges(self):
        # Byte 0 is given by no offset up to a length of 512, byte 255 by none up to 170.
        accepted, refused = ({(byte, length) for byte, length, _ in self.flagged_bytes(refusal)} for refusal in (None, 19))
        self.assertLessEqual({(0, 513), (0, 514), (0, LONGEST_LEG), *((255, length) for length in (171, 255, 256, 257, 511, 512, 513, LONGEST_LEG))}, accepted)
        self.assertLessEqual({(0, 1), (0, 170), (0, 256), (0, 257), (0, 511), (0, 512), (255, 1), (255, 170)}, refused)

    def test_bytes_0_and_255_with_several_offsets(self):
        several = Counter(byte for byte, _, least, greatest in self.spans() if least < greatest)
        self.assertGreater(min(several[0], several[255]), 3, several)

    def test_byte_255_with_a_span_wider_than_a_256th(self):
        wide = [byte for byte, length, least, greatest in self.spans() if 256 * (greatest - least) > length]
        self.assertEqual(set(wide), {255})
        self.assertGreater(len(wide), 10)

    def test_spans_that_start_at_an_exact_half(self):
        # The half before the byte is its own, and the half behind it is the next byte's.
        starts = [byte for byte, length, least, _ in self.spans() if 512 * least == (2 * byte - 1) * length]
        ends = [byte for byte, length, _, greatest in self.spans() if 512 * (greatest + 1) == (2 * byte + 1) * length]
        self.assertGreater(min(len(starts), len(ends)), 3, (starts, ends))

    def test_every_rounding_is_written(self):
        written = [call for call in self.written_here if call.refusal() is None and call.offset > 0]
        counts = Counter(kind for call in written for kind in roundings(call.offset, call.depot_map.lines[call.line].length))
        self.assertEqual(set(counts), EVERY_ROUNDING)
        self.assertGreater(min(counts.values()), 10, counts)

    def accepted_offsets(self):
        """The offset and the length of the line of each point that is written."""
        return [(call.offset, call.depot_map.lines[call.line].length) for call in self.written_here if call.refusal() is None]

    def test_lengths_of_lines_at_their_edges_and_at_those_of_d(self):
        # Paper 02, "Centimetres": 11,720 is twice 5,860, and 1,494,300 is 255 times that.
        edges = {1, 5_859, 5_860, 5_861, 11_719, 11_720, 11_721, 1_494_299, 1_494_300, 1_494_301, 1_499_999, 1_500_000}
        self.assertEqual(edges - {length for _, length in self.accepted_offsets()}, set())

    def test_offsets_of_a_centimetre_and_of_all_but_one(self):
        found = [(offset, length - offset) for offset, length in self.accepted_offsets() if length > 10_000]
        self.assertGreater(sum(offset == 1 for offset, _ in found), 10)
        self.assertGreater(sum(rest == 1 for _, rest in found), 10)
        self.assertIn((1_499_999, 1), found)

    def test_ways_around_that_are_a_centimetre_longer_or_shorter(self):
        # A line and a way of two lines with its marks: told apart by D alone, and by the longest leg. How much longer the way is, whether D is another, whether
        # the way is too long for a leg, and the answer.
        answers = set()
        for call in self.written_here:
            lines = call.depot_map.lines
            if [(line.start_node, line.end_node) for line in lines] == [(0, 2), (0, 1), (1, 2)] and not call.depot_map.bans and call.refusal() in (None, 10):
                line, way = lines[0].length, lines[1].length + lines[2].length
                if call.line == 0 and len({(line.frc, line.fow, line.steps_out, line.steps_back) for line in lines}) == 1:
                    answers.add((way - line, way // 5_860 != line // 5_860, way > 1_500_000, call.refusal()))
        self.assertLessEqual({(-1, True, False, None), (1, True, False, None), (1, False, True, None), (-1, False, False, 10), (0, False, False, 10),
                              (1, False, False, 10)}, answers)
        self.assertFalse(any((other_d or too_long) != (refusal is None) for _, other_d, too_long, refusal in answers))

    def test_references_to_stretches(self):
        answers = {(len(call.reference), call.refusal()) for call in self.read_here if call.reference[:1] == b"\x0B"}
        self.assertLessEqual({(16, 13), (17, 13), (18, 12), (23, 12)}, answers)

    def test_points_for_the_reader_of_stretches(self):
        lengths = set()
        for depot_map, reference, row in calls_on_good_maps("test_reads"):
            if refusal_in(row) == 13 and isinstance(read_point(map_to_bytes(depot_map), reference, LEAST_WORK_LENGTH, 1), PointRead):
                lengths.add(len(reference))
        self.assertEqual(lengths, {16, 17})


if __name__ == "__main__":
    unittest.main()
