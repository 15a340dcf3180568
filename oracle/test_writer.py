"""The writer: its refusals and their order, skipped lines, the choice of points against all choices."""

import itertools
import random
import unittest

from depot_map import DepotMap, Line, Node, Steps, map_to_bytes
from drawn_steps import EASTWARD, NORTHWARD, SOUTHWARD, WESTWARD
from fields import LONGEST_LEG, differences_fit
from legs import describe_leg, list_length, readings_by_enumeration
from lengths import HALF_LEG
from outcome import Refused, StretchWritten
from reader import read
from sample_maps import (MapBuilder, parallel_sample, random_walk, ring_sample, short_first_leg_sample,
                         tie_sample)
from test_legs import random_tiny_map
from test_scope_paper import RIDGE, THREE_POINTS, WORK, all_tested, row_map
from writer import choose_points, skip_lines, write

ROW = map_to_bytes(row_map((0, 1, 1000), (1, 2, 500), (2, 3, 700)))
TWINS = map_to_bytes(row_map((0, 1, 1000), (0, 1, 1000)))
LARGEST = 4_294_967_295


class EachRefusal(unittest.TestCase):
    def check(self, lines, refusal, pos=0, neg=0, map_bytes=ROW, work_length=WORK, byte_room=459):
        self.assertEqual(write(map_bytes, lines, pos, neg, work_length, byte_room), Refused(refusal))

    def test_1(self):
        self.check([0], 1, work_length=14_335)
        self.check([], 1, work_length=0, map_bytes=b"")

    def test_7(self):
        self.check([], 7)
        self.check([3], 7)
        self.check([0, 1, LARGEST], 7)
        self.check([LARGEST, 0, 1], 7)

    def test_7_over_64_lines(self):
        ring = row_map((0, 1, 1000), (1, 0, 1000))
        self.check([0, 1] * 32 + [0], 7, map_bytes=map_to_bytes(ring))
        outcome = write(map_to_bytes(ring), [0, 1] * 32, 0, 0, WORK, 459)
        self.assertIsInstance(outcome, StretchWritten)

    def test_8(self):
        self.check([0, 2], 8)
        self.check([0, 0], 8)
        self.check([0, 1, 1], 8)
        self.check([1, 0], 8)

    def test_9(self):
        for pos, neg in ((2_200, 0), (0, 2_200), (1_000, 1_200), (LARGEST, 0), (LARGEST, 1), (0, LARGEST),
                         (LARGEST, LARGEST), (2 ** 31, 2 ** 31)):
            self.check([0, 1, 2], 9, pos, neg)
        for pos, neg in ((2_199, 0), (0, 2_199), (1_000, 1_199)):
            self.assertIsInstance(write(ROW, [0, 1, 2], pos, neg, WORK, 459), StretchWritten)

    def test_10_for_equal_lines(self):
        self.check([0], 10, map_bytes=TWINS)
        self.check([1], 10, map_bytes=TWINS)

    def test_10_for_differences(self):
        for reach, fits in ((32_767, True), (32_768, False), (-32_768, True), (-32_769, False)):
            for far in (Node(reach, 0), Node(0, reach)):
                depot_map = DepotMap((Node(0, 0), far), (Line(0, 1, 1000, 3, 3, EASTWARD, WESTWARD),))
                outcome = write(map_to_bytes(depot_map), [0], 0, 0, WORK, 459)
                self.assertEqual(isinstance(outcome, StretchWritten), fits)
                if not fits:
                    self.assertEqual(outcome, Refused(10))

    def test_differences_are_asked_between_points_only(self):
        # Out by 32,768 and back to a near node: the far node is no point, so that one leg will do.
        depot_map = DepotMap((Node(0, 0), Node(32_768, 0), Node(100, 0)),
                             (Line(0, 1, 10_000, 3, 3, EASTWARD, WESTWARD), Line(1, 2, 10_000, 3, 3, EASTWARD, WESTWARD)))
        written = bytes.fromhex("0B 000000 000000 1B 68 03 0064 0000 1B 18")
        self.assertEqual(write(map_to_bytes(depot_map), [0, 1], 0, 0, WORK, 16), all_tested(written, 2))

    def test_11(self):
        self.check([0, 1], 11, map_bytes=RIDGE, byte_room=22)
        self.assertEqual(write(RIDGE, [0, 1], 0, 0, WORK, 23), all_tested(THREE_POINTS, 2))
        self.check([0, 1], 11, pos=1, neg=1, map_bytes=RIDGE, byte_room=24)
        self.check([0, 1], 11, map_bytes=RIDGE, byte_room=0)

    def test_upper_row_of_two(self):
        self.check([0, 2, 3], 7)
        self.check([3], 7, pos=LARGEST)
        self.check([0, 0], 8, pos=LARGEST)
        self.check([0], 9, pos=1000, map_bytes=TWINS)
        self.check([0], 10, map_bytes=TWINS, byte_room=0)
        self.check([0], 9, pos=1000, byte_room=0)
        self.check([], 2, map_bytes=ROW + b"\x00")
        same_codes = DepotMap((Node(0, 0), Node(1, 0)), (Line(0, 1, 1, 0, 0, EASTWARD, WESTWARD),))
        self.check([], 6, map_bytes=map_to_bytes(same_codes))

    def test_7_to_9_look_at_the_stretch_as_given(self):
        # 65 lines of which an offset would skip one, and a gap in a part that an offset would skip.
        ring = map_to_bytes(row_map((0, 1, 1000), (1, 0, 1000)))
        self.check([0, 1] * 32 + [0], 7, pos=1000, map_bytes=ring)
        self.check([0, 2], 8, pos=1000)


class SkippedLines(unittest.TestCase):
    def check(self, given, remaining):
        depot_map = row_map((0, 1, 1000), (1, 2, 500), (2, 3, 700))
        self.assertEqual(skip_lines(depot_map, *given), remaining)
        written = write(ROW, *given, WORK, 459)
        self.assertEqual(written, write(ROW, *remaining, WORK, 459))

    def test_positive_offset_at_line_ends(self):
        self.check(((0, 1, 2), 999, 0), ((0, 1, 2), 999, 0))
        self.check(((0, 1, 2), 1000, 0), ((1, 2), 0, 0))
        self.check(((0, 1, 2), 1001, 0), ((1, 2), 1, 0))
        self.check(((0, 1, 2), 1500, 0), ((2,), 0, 0))
        self.check(((0, 1, 2), 2199, 0), ((2,), 699, 0))

    def test_negative_offset_at_line_ends(self):
        self.check(((0, 1, 2), 0, 699), ((0, 1, 2), 0, 699))
        self.check(((0, 1, 2), 0, 700), ((0, 1), 0, 0))
        self.check(((0, 1, 2), 0, 1200), ((0,), 0, 0))
        self.check(((0, 1, 2), 0, 2199), ((0,), 0, 999))

    def test_both(self):
        self.check(((0, 1, 2), 1000, 700), ((1,), 0, 0))
        self.check(((0, 1, 2), 1200, 999), ((1,), 200, 299))

    def test_a_stretch_that_can_be_written_only_after_skipping(self):
        # Line 0 has a twin. The rest can be written.
        map_bytes = map_to_bytes(row_map((0, 1, 1000), (0, 1, 1000), (1, 2, 500)))
        self.assertEqual(write(map_bytes, [0, 2], 999, 0, WORK, 459), Refused(10))
        # 500 is less than 5,860: D is 0. The node at longitude 1000 has the code 466.
        written = bytes.fromhex("0B 0001D2 000000 1B 68 00 03E8 0000 1B 18")
        self.assertEqual(write(map_bytes, [0, 2], 1000, 0, WORK, 16), all_tested(written, 1))

    def test_flag_is_set_by_what_is_left_of_an_offset(self):
        written = write(ROW, [0, 1, 2], 1000, 700, WORK, 16)
        self.assertEqual(len(written.reference), 16)


def leg_is_usable_by_enumeration(depot_map, lines, is_last):
    """The definition of a usable leg, with the readings enumerated."""
    leg = describe_leg(depot_map, lines, is_last)
    return (list_length(depot_map, lines) <= LONGEST_LEG
            and differences_fit(depot_map.nodes[leg.start_node], depot_map.nodes[leg.end_node])
            and readings_by_enumeration(depot_map, leg) == [lines])


def best_choice_of_all(depot_map, lines):
    """Goes through every choice of points: fewest points, then the first leg with most lines, and so on."""
    usable = []
    places = range(1, len(lines))
    for cut_count in range(len(lines)):
        for cuts in itertools.combinations(places, cut_count):
            ends = cuts + (len(lines),)
            legs = [lines[start:end] for start, end in zip((0,) + cuts, ends)]
            if all(leg_is_usable_by_enumeration(depot_map, leg, leg_number == len(legs) - 1)
                   for leg_number, leg in enumerate(legs)):
                usable.append(legs)
        if usable:
            return max(usable, key=lambda legs: [len(leg) for leg in legs])
    return None


class BytesByHand(unittest.TestCase):
    def test_lowest_class_is_the_greatest_frc_of_the_leg(self):
        nodes = tuple(Node(1000 * number, 0) for number in range(4))
        lines = (Line(0, 1, 10_000, 2, 1, Steps(5, 5), SOUTHWARD), Line(1, 2, 10_000, 5, 4, EASTWARD, WESTWARD),
                 Line(2, 3, 10_000, 3, 6, NORTHWARD, Steps(-1, 250)))
        # P: FRC 2 and FOW 1 are 11. Q: class 5 and sector 4, of 45 degrees, are A4. D of 30,000 is 5.
        # The difference 3000 is 0BB8. Last P: FRC 3 and FOW 6 are 1E. R: sector 31, just west of north, is 1F.
        expected = bytes.fromhex("0B 000000 000000 11 A4 05 0BB8 0000 1E 1F")
        outcome = write(map_to_bytes(DepotMap(nodes, lines)), [0, 1, 2], 0, 0, WORK, 16)
        self.assertEqual(outcome, all_tested(expected, 3))

    def test_lowest_class_is_each_legs_own(self):
        nodes = tuple(Node(1000 * number, 0) for number in range(3))
        lines = (Line(0, 1, 1_000_000, 2, 3, EASTWARD, WESTWARD), Line(1, 2, 1_000_000, 0, 3, EASTWARD, WESTWARD))
        # FRC 2 gives P 13 and Q 48; FRC 0 gives P 03 and Q 08. 1,000,000 / 5,860 is 170.6, AA.
        expected = bytes.fromhex("0B 000000 000000 13 48 AA 03E8 0000 03 08 AA 03E8 0000 03 18")
        outcome = write(map_to_bytes(DepotMap(nodes, lines)), [0, 1], 0, 0, WORK, 23)
        self.assertEqual(outcome, all_tested(expected, 2))


class ChoiceOfPoints(unittest.TestCase):
    def test_against_all_choices(self):
        rng = random.Random("choices")
        counts = {}
        for turn in range(700):
            if turn % 7:
                depot_map = random_tiny_map(rng, 5, 8)
                lines = random_walk(rng, depot_map, rng.randrange(1, 7))
            else:
                sample = rng.choice([parallel_sample, tie_sample, short_first_leg_sample])(rng)
                depot_map, lines = sample.depot_map, sample.stretch
            expected = best_choice_of_all(depot_map, lines)
            self.assertEqual(choose_points(depot_map, lines), expected, (depot_map, lines))
            counts[len(expected or ())] = counts.get(len(expected or ()), 0) + 1
        self.assertTrue(all(counts.get(leg_count, 0) >= 20 for leg_count in (0, 1, 2, 3)), counts)

    def test_first_leg_with_most_lines_among_the_fewest_points(self):
        # Four lines of 500,000: two legs are needed. Both 3 + 1 and 2 + 2 and 1 + 3 are usable.
        depot_map = row_map(*[(hop, hop + 1, 500_000) for hop in range(4)])
        self.assertEqual(choose_points(depot_map, (0, 1, 2, 3)), [(0, 1, 2), (3,)])

    def test_fewest_points_before_a_long_first_leg(self):
        # The first leg could be 0, 1 but what follows could not be written then: line 2 has a twin, line 4.
        depot_map = row_map((0, 1, 1_000_000), (1, 2, 400_000), (2, 3, 300_000), (3, 4, 10_000), (2, 3, 300_001))
        self.assertEqual(choose_points(depot_map, (0, 1, 2, 3)), [(0,), (1, 2, 3)])

    def test_64_legs_fill_459_bytes(self):
        builder = MapBuilder()
        nodes = builder.row_of_nodes(65)
        for start, end in zip(nodes, nodes[1:]):
            builder.line(start, end, HALF_LEG + 1)
        map_bytes = map_to_bytes(builder.build())
        outcome = write(map_bytes, range(64), HALF_LEG, HALF_LEG, WORK, 459)
        self.assertEqual(len(outcome.reference), 459)
        self.assertEqual(write(map_bytes, range(64), HALF_LEG, HALF_LEG, WORK, 458), Refused(11))
        self.assertEqual(read(map_bytes, outcome.reference, WORK, 64).lines, tuple(range(64)))

    def test_line_taken_twice(self):
        # Once around and over the first line again: as one leg from node 0 to 1 it would be line 0 alone.
        ring = row_map((0, 1, 1000), (1, 2, 1000), (2, 0, 1000))
        self.assertEqual(choose_points(ring, (0, 1, 2)), [(0, 1, 2)])
        self.assertEqual(choose_points(ring, (0, 1, 2, 0)), [(0, 1, 2), (0,)])

    def test_rings_are_cut_once_around(self):
        rng = random.Random("rings")
        for _ in range(20):
            sample = ring_sample(rng)
            node_count = len(sample.depot_map.nodes)
            legs = choose_points(sample.depot_map, sample.stretch)
            self.assertTrue(all(len(set(leg)) == len(leg) <= node_count for leg in legs))


if __name__ == "__main__":
    unittest.main()
