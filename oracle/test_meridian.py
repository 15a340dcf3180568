"""Paper 02, "Depots on the 180th meridian", sentence by sentence: differences, sums, stretches across it, and what gives the bytes it gave."""

import random
import unittest
from dataclasses import replace
from unittest import mock

from depot_map import DepotMap, Line, Node, map_to_bytes, read_map
from drawn_steps import EASTWARD, NORTHWARD, WESTWARD
from fields import DISTANCE_STEP, brought_round, code_pair, differences, differences_fit
from lengths import HALF_LEG
from meridian_recipes import reference_across
from outcome import Refused, RefusedCall, StretchRead, StretchWritten
from read_recipes import composed_from
from reader import read
from reference import take_apart
from sample_maps import (FIRST_BEHIND, LAST_BEFORE, SMALL_SAMPLES, MapBuilder, Sample, across_meridian, full_sample, lies_across, random_walk, ridge_map,
                         sample_across, shifted, with_bans)
from test_scope_paper import THREE_POINTS, THREE_POINTS_HALF_WAY, TWO_POINTS, WORK, all_tested
from write_recipes import edge_offsets
from writer import skip_lines, write

NO_OFFSETS = (0, 0), (0, 0)
HALF_CIRCLE = 18_000_000
# The ridge with node 0 at 17,999,000: nodes 1 and 2 come to -18,000,000 and node 3 to -17,999,000.
# Code of 17,999,000: 8,388,608 - 466.03 + 0.5, cut to 8,388,142, which is 7FFE2E.
RIDGE_ACROSS = map_to_bytes(shifted(ridge_map(), 17_999_000))
CODE_ACROSS = bytes.fromhex("7FFE2E")


def from_the_ridge_across(reference):
    """A reference on the ridge at longitude 0, from node 0, on the ridge across the meridian."""
    return reference[:1] + CODE_ACROSS + reference[4:]


def plain_differences():
    """The writer as it was: differences are taken plainly. Nothing is brought round while this is in force."""
    return mock.patch("fields.brought_round", lambda longitude: longitude)


def plain_sums():
    """The reader as it was."""
    return mock.patch("reader.brought_round", lambda longitude: longitude)


def road(*nodes, bans=()):
    """Nodes, and a line from each to the next and one back: lines 0, 2, .. lead on, lines 1, 3, .. back."""
    lines = []
    for start in range(len(nodes) - 1):
        lines += [Line(start, start + 1, 10_000, 3, 3, EASTWARD, WESTWARD), Line(start + 1, start, 10_000, 3, 3, WESTWARD, EASTWARD)]
    return DepotMap(tuple(Node(*node) for node in nodes), tuple(lines), tuple(bans))


def one_leg(node, longitude_difference, latitude_difference=0):
    """The bytes of a leg of 10,000 to the east from a node, to where the differences lead."""
    parts = [code.to_bytes(3, "big", signed=True) for code in code_pair(Node(*node))]
    parts += [difference.to_bytes(2, "big", signed=True) for difference in (longitude_difference, latitude_difference)]
    return b"\x0B" + parts[0] + parts[1] + bytes.fromhex("1B 68 01") + parts[2] + parts[3] + bytes.fromhex("1B 18")


class Differences(unittest.TestCase):
    def test_the_papers_figure(self):
        self.assertEqual(differences(Node(17_999_998, 0), Node(-18_000_000, 0)), (2, 0))
        self.assertEqual(differences(Node(-18_000_000, 0), Node(17_999_998, 0)), (-2, 0))

    def test_ends_of_16_bits_across_the_meridian(self):
        for difference, fits in ((32_767, True), (32_768, False), (-32_768, True), (-32_769, False)):
            this_side, other_side = (LAST_BEFORE, FIRST_BEHIND) if difference > 0 else (FIRST_BEHIND, LAST_BEFORE)
            # From next to the meridian, to next to it, and half of it on each side.
            for start in (this_side, brought_round(other_side - difference), brought_round(other_side - difference // 2)):
                end = brought_round(start + difference)
                self.assertGreater(abs(end - start), HALF_CIRCLE)
                self.assertEqual(differences(Node(start, 0), Node(end, 0)), (difference, 0))
                self.assertEqual(differences_fit(Node(start, 0), Node(end, 0)), fits)

    def test_ends_of_16_bits_with_plain_longitudes_that_far_apart(self):
        for west_node, fits_east, fits_west in ((17_967_233, True, True), (17_967_232, False, True), (17_967_231, False, False)):
            east, west = (Node(west_node, 0), Node(-18_000_000, 0)), (Node(-18_000_000, 0), Node(west_node, 0))
            self.assertEqual((differences_fit(*east), differences_fit(*west)), (fits_east, fits_west))

    def test_half_a_circle(self):
        # 18,000,000 becomes -18,000,000; 17,999,999 stays, and so does -18,000,000.
        worked = {17_999_998: 17_999_998, 17_999_999: 17_999_999, 18_000_000: -18_000_000, 18_000_001: -17_999_999,
                  -17_999_999: -17_999_999, -18_000_000: -18_000_000, -18_000_001: 17_999_999, 35_999_998: -2, -35_999_998: 2}
        for plain, brought in worked.items():
            self.assertEqual(brought_round(plain), brought)
            start = LAST_BEFORE if plain < 0 else FIRST_BEHIND
            self.assertEqual(differences(Node(start, 5), Node(start + plain, 5)), (brought, 0))

    def test_every_difference_and_every_sum_comes_into_the_range(self):
        rng = random.Random("brought round")
        ends = [FIRST_BEHIND, FIRST_BEHIND + 1, -1, 0, 1, LAST_BEFORE - 1, LAST_BEFORE]
        for _ in range(3_000):
            start, end = (rng.choice([rng.choice(ends), rng.randrange(FIRST_BEHIND, LAST_BEFORE + 1)]) for _ in range(2))
            difference, _ = differences(Node(start, 0), Node(end, 0))
            self.assertTrue(-HALF_CIRCLE <= difference < HALF_CIRCLE)
            self.assertIn(end - start - difference, (0, 36_000_000, -36_000_000))
            # The reader's sum brings it back.
            self.assertEqual(brought_round(start + difference), end)

    def test_less_than_half_a_circle_apart_nothing_changes(self):
        rng = random.Random("plain differences")
        for difference in [0, 17_999_999, -17_999_999] + [rng.randrange(1 - HALF_CIRCLE, HALF_CIRCLE) for _ in range(500)]:
            start = max(FIRST_BEHIND, FIRST_BEHIND - difference)
            self.assertEqual(differences(Node(start, 0), Node(start + difference, 0)), (difference, 0))

    def test_latitude_stays_plain(self):
        poles = Node(0, 9_000_000), Node(0, -9_000_000)
        self.assertEqual(differences(*poles), (0, -18_000_000))
        self.assertEqual(differences(*poles[::-1]), (0, 18_000_000))
        self.assertFalse(differences_fit(*poles))


class RidgeAcross(unittest.TestCase):
    def test_nodes(self):
        longitudes = [node.longitude for node in read_map(RIDGE_ACROSS).nodes]
        self.assertEqual(longitudes, [17_999_000, -18_000_000, -18_000_000, -17_999_000])

    def test_only_the_first_points_code_is_another(self):
        written = bytes.fromhex("0B 7FFE2E 000000 1B 68 01 03E8 0000 1B 68 01 03E8 0000 1B 18")
        self.assertEqual(written, from_the_ridge_across(THREE_POINTS))
        self.assertEqual(write(RIDGE_ACROSS, [0, 1], 0, 0, WORK, 23), all_tested(written, 2))
        self.assertEqual(read(RIDGE_ACROSS, written, WORK, 2), StretchRead((0, 1), *NO_OFFSETS))

    def test_offset(self):
        written = from_the_ridge_across(THREE_POINTS_HALF_WAY)
        self.assertEqual(write(RIDGE_ACROSS, [0, 1], 5_000, 0, WORK, 24), all_tested(written, 2))
        self.assertEqual(read(RIDGE_ACROSS, written, WORK, 2), StretchRead((0, 1), (4_981, 5_019), (0, 0)))

    def test_tie(self):
        self.assertEqual(read(RIDGE_ACROSS, from_the_ridge_across(TWO_POINTS), WORK, 3), Refused(18, 0))

    def test_turn_banned(self):
        map_bytes = map_to_bytes(shifted(ridge_map((0, 2)), 17_999_000))
        self.assertEqual(write(map_bytes, [0, 1], 0, 0, WORK, 16), all_tested(from_the_ridge_across(TWO_POINTS), 2))
        self.assertEqual(write(map_bytes, [0, 2, 3], 0, 0, WORK, 459), Refused(21))

    def test_it_could_not_be_written_or_read(self):
        with plain_differences():
            self.assertEqual(write(RIDGE_ACROSS, [0, 1], 0, 0, WORK, 23), Refused(10))
        with plain_sums():
            self.assertEqual(read(RIDGE_ACROSS, from_the_ridge_across(THREE_POINTS), WORK, 2), Refused(16, 1))


class Writer(unittest.TestCase):
    def write_line(self, depot_map, line):
        return write(map_to_bytes(depot_map), [line], 0, 0, WORK, 16)

    def test_nodes_next_to_each_other_across_the_meridian(self):
        # Codes of 17,999,998 and -18,000,000: the last and the first of 24 bits.
        depot_map = road((17_999_998, 0), (-18_000_000, 0))
        there = bytes.fromhex("0B 7FFFFF 000000 1B 68 01 0002 0000 1B 18")
        back = bytes.fromhex("0B 800000 000000 1B 78 01 FFFE 0000 1B 08")
        for line, written in ((0, there), (1, back)):
            self.assertEqual(self.write_line(depot_map, line), all_tested(written, 1))
            self.assertEqual(read(map_to_bytes(depot_map), written, WORK, 1), StretchRead((line,), *NO_OFFSETS))
            with plain_differences():
                self.assertEqual(self.write_line(depot_map, line), Refused(10))

    def test_greatest_differences(self):
        for before, outcomes in ((17_967_233, ("7FFF", "8001")), (17_967_232, (None, "8000")), (17_967_231, (None, None))):
            for line, written in enumerate(outcomes):
                outcome = self.write_line(road((before, 0), (-18_000_000, 0)), line)
                if written is None:
                    self.assertEqual(outcome, Refused(10))
                else:
                    self.assertEqual(outcome.reference[10:12], bytes.fromhex(written))

    def test_too_far_for_one_leg_and_not_for_two(self):
        depot_map = road((17_980_000, 0), (-18_000_000, 0), (-17_980_000, 0))
        written = write(map_to_bytes(depot_map), [0, 2], 0, 0, WORK, 23)
        self.assertEqual([point.longitude for point in take_apart(written.reference).points[1:]], [20_000, 20_000])

    def test_half_a_circle_does_not_fit(self):
        for start, end in ((-18_000_000, 0), (-2, 17_999_998), (-1, 17_999_998), (-18_000_000, -1)):
            for line in (0, 1):
                self.assertEqual(self.write_line(road((start, 0), (end, 0)), line), Refused(10))

    def test_there_and_back_is_no_difference(self):
        # Far apart in plain longitude, and the same bytes as before: one leg from a node to itself.
        map_bytes = map_to_bytes(road((-18_000_000, 0), (0, 0)))
        written = write(map_bytes, [0, 1], 0, 0, WORK, 16)
        self.assertEqual(written, all_tested(bytes.fromhex("0B 800000 000000 1B 68 03 0000 0000 1B 08"), 2))
        with plain_differences():
            self.assertEqual(write(map_bytes, [0, 1], 0, 0, WORK, 16), written)

    def test_no_way_over_a_pole(self):
        # 2 apart over the pole, on opposite meridians; and from pole to pole.
        for nodes in (((0, 8_999_999), (-18_000_000, 8_999_999)), ((0, 9_000_000), (0, -9_000_000)), ((0, -9_000_000), (0, 9_000_000))):
            self.assertEqual(self.write_line(road(*nodes), 0), Refused(10))


class Reader(unittest.TestCase):
    def check(self, depot_map, reference, outcome):
        self.assertEqual(read(map_to_bytes(depot_map), reference, WORK, 9), outcome)

    def test_sum_over_the_meridian(self):
        for start, end in ((17_999_998, -18_000_000), (17_999_000, -17_999_000), (17_967_233, -18_000_000), (17_999_998, -17_967_235)):
            depot_map = road((start, 700), (end, 700))
            self.check(depot_map, one_leg((start, 700), 36_000_000 + end - start), StretchRead((0,), *NO_OFFSETS))
            # From the other node the first line has another sector. Its bytes are the writer's, not made here.
            back = write(map_to_bytes(depot_map), [1], 0, 0, WORK, 16).reference
            self.check(depot_map, back, StretchRead((1,), *NO_OFFSETS))

    def test_least_difference_over_the_meridian(self):
        # From -17,967,234 by -32,768 to 17,999,998.
        depot_map = road((-17_967_234, 0), (17_999_998, 0))
        self.check(depot_map, one_leg((-17_967_234, 0), -32_768), StretchRead((0,), *NO_OFFSETS))

    def test_sum_next_to_a_node(self):
        depot_map = road((17_999_990, 0), (-17_999_990, 0))
        for longitude, latitude, found in ((20, 0, True), (19, 0, False), (21, 0, False), (20, 1, False), (20, -1, False), (-20, 0, False)):
            outcome = StretchRead((0,), *NO_OFFSETS) if found else Refused(16, 1)
            self.check(depot_map, one_leg((17_999_990, 0), longitude, latitude), outcome)

    def test_sum_of_17_999_999_is_no_nodes(self):
        # Every node from which 16 bits lead there, on both sides: the ends of 16 bits, and next to the meridian.
        for start, difference in ((17_999_998, 1), (17_967_232, 32_767), (-18_000_000, -1), (-17_999_997, -4), (-17_967_233, -32_768)):
            nodes = [(start, 0), (start, 500), (17_999_998, 300), (-18_000_000, 300)]
            self.assertEqual(brought_round(start + difference), 17_999_999)
            for latitude in (0, 300):
                self.check(road(*nodes), one_leg((start, 0), difference, latitude), Refused(16, 1))
            # One less or one more is a node's.
            for end, step in ((17_999_998, -1), (-18_000_000, 1)):
                if -32_768 <= difference + step <= 32_767:
                    depot_map = road((start, 0), (end, 300))
                    self.check(depot_map, one_leg((start, 0), difference + step, 300), StretchRead((0,), *NO_OFFSETS))

    def test_longitude_17_999_999_is_in_no_map(self):
        with self.assertRaises(RefusedCall) as caught:
            read_map(map_to_bytes(road((17_999_999, 0), (0, 0))))
        self.assertEqual(caught.exception.refused, Refused(4))

    def test_every_later_point(self):
        # Back and forth over the meridian by 2 each time, the last time by 1.
        depot_map = road((17_999_998, 0), (-18_000_000, 10), (17_999_998, 20), (-18_000_000, 30))
        reference = bytes.fromhex("0B 7FFFFF 000000 1B 68 01 0002 000A 1B 68 01 FFFE 000A 1B 68 01 0002 000A 1B 18")
        self.check(depot_map, reference, StretchRead((0, 2, 4), *NO_OFFSETS))
        self.check(depot_map, reference[:24] + b"\x00\x01" + reference[26:], Refused(16, 3))
        self.check(depot_map, reference[:17] + b"\xFF\xFF" + reference[19:], Refused(16, 2))

    def test_first_points_code_is_not_brought_round(self):
        # 8,388,607 and -8,388,608 stand for neighbours, and not for each other.
        for longitude, other in ((17_999_998, -18_000_000), (-18_000_000, 17_999_998)):
            depot_map = road((longitude, 0), (longitude, 500))
            self.check(depot_map, one_leg((longitude, 0), 0, 500), StretchRead((0,), *NO_OFFSETS))
            self.check(depot_map, one_leg((other, 0), 0, 500), Refused(16, 0))

    def test_no_node_beyond_a_pole(self):
        for north in (1, -1):
            start = (100, north * 8_999_990)
            # Where a way over the pole comes down, where the sum would turn back, and where it would come around.
            others = [(100 - HALF_CIRCLE, north * 8_999_900), (100, north * 8_999_900), (100, north * -8_999_900)]
            depot_map = road(start, (100, north * 9_000_000), *others)
            self.check(depot_map, one_leg(start, 0, north * 10), StretchRead((0,), *NO_OFFSETS))
            for beyond in (1, 10, 100):
                self.check(depot_map, one_leg(start, 0, north * (10 + beyond)), Refused(16, 1))


def nodes_of(depot_map, lines):
    ends = {depot_map.lines[lines[0]].start_node} | {depot_map.lines[line].end_node for line in lines}
    return [depot_map.nodes[node] for node in ends]


def plainly_apart(depot_map, lines):
    """The greatest plain difference of longitudes between two nodes of a stretch."""
    longitudes = [node.longitude for node in nodes_of(depot_map, lines)]
    return max(longitudes) - min(longitudes)


def sample_around_the_earth(rng):
    """A map with nodes at the meridian, at longitude 0 and half a circle apart, and a walk on it."""
    builder = MapBuilder()
    for number in range(rng.randrange(3, 7)):
        anywhere = rng.randrange(FIRST_BEHIND, LAST_BEFORE + 1)
        longitude = rng.choice([LAST_BEFORE, LAST_BEFORE - 16_000, FIRST_BEHIND, FIRST_BEHIND + 16_000, 0, -1, -2, anywhere])
        builder.node(longitude, 400 * number)
    for _ in range(rng.randrange(3, 12)):
        length = rng.choice([1_001, DISTANCE_STEP, 10_003, HALF_LEG])
        builder.line(*rng.sample(range(len(builder.nodes)), 2), length, steps_out=rng.choice([NORTHWARD, EASTWARD]))
    depot_map = builder.build()
    return Sample("around the earth", depot_map, random_walk(rng, depot_map, rng.randrange(1, 6)))


def any_sample_anywhere(rng):
    """A sample at longitude 0, across the meridian or around the earth, with bans or without."""
    make_sample = rng.choice(SMALL_SAMPLES)
    sample = rng.choice([make_sample, lambda source: sample_across(make_sample(source)), sample_around_the_earth])(rng)
    return with_bans(rng, sample, rng.random() < 0.75)


class WhatStays(unittest.TestCase):
    def test_stretches_with_no_nodes_half_a_circle_apart(self):
        # The nodes of what remains are asked; refusals stay too.
        rng = random.Random("bytes it gave")
        near, far, changed, refused = 0, 0, 0, 0
        for _ in range(700):
            sample = any_sample_anywhere(rng)
            map_bytes, lines = map_to_bytes(sample.depot_map), sample.stretch
            pos, neg = rng.choice([(0, 0), edge_offsets(rng, sample.depot_map, lines)])
            outcome = write(map_bytes, lines, pos, neg, WORK, 459)
            with plain_differences():
                before = write(map_bytes, lines, pos, neg, WORK, 459)
            if pos + neg < sum(sample.depot_map.lines[line].length for line in lines):
                lines, _, _ = skip_lines(sample.depot_map, lines, pos, neg)
            if plainly_apart(sample.depot_map, lines) < HALF_CIRCLE:
                self.assertEqual(outcome, before)
                near += 1
                refused += isinstance(before, Refused)
            else:
                far += 1
                changed += outcome != before
        self.assertGreater(min(near - refused, refused, far, changed), 60, (near, refused, far, changed))

    def test_what_was_read_is_read(self):
        # Only a 16 can become something else.
        rng = random.Random("read before")
        same, read_now = 0, 0
        for _ in range(700):
            given = composed_from(rng, any_sample_anywhere(rng))
            if given is None:
                continue
            outcome = read(given.map_bytes, given.reference, WORK, 1_024)
            with plain_sums():
                before = read(given.map_bytes, given.reference, WORK, 1_024)
            if outcome == before:
                same += 1
            else:
                self.assertEqual(before.number, 16)
                read_now += isinstance(outcome, StretchRead)
        self.assertGreater(min(same, read_now), 60, (same, read_now))

    def test_what_is_written_is_read_back(self):
        rng = random.Random("round trips across")
        across = 0
        for _ in range(400):
            sample = any_sample_anywhere(rng)
            written = write(map_to_bytes(sample.depot_map), sample.stretch, 0, 0, WORK, 459)
            if isinstance(written, StretchWritten):
                outcome = read(map_to_bytes(sample.depot_map), written.reference, WORK, 64)
                self.assertEqual(outcome, StretchRead(sample.stretch, *NO_OFFSETS))
                across += plainly_apart(sample.depot_map, sample.stretch) >= HALF_CIRCLE
        self.assertGreater(across, 40)


class ShiftedMaps(unittest.TestCase):
    def test_a_map_is_shifted_across_the_meridian(self):
        rng = random.Random("shifted")
        places = set()
        for make_sample in SMALL_SAMPLES * 12 + [full_sample] * 4:
            depot_map = make_sample(rng).depot_map
            moved = across_meridian(depot_map)
            longitudes = {node.longitude for node in moved.nodes}
            self.assertTrue(lies_across(moved) or len(longitudes) == 1)
            self.assertEqual(read_map(map_to_bytes(moved)), moved)
            self.assertEqual(moved, across_meridian(depot_map))
            places |= longitudes & {LAST_BEFORE, FIRST_BEHIND}
            first, moved_first = depot_map.nodes[0], moved.nodes[0]
            for node, moved_node in zip(depot_map.nodes, moved.nodes):
                self.assertEqual(differences(first, node), differences(moved_first, moved_node))
        self.assertEqual(places, {LAST_BEFORE, FIRST_BEHIND})

    def test_a_map_with_one_longitude_comes_to_an_end_of_the_range(self):
        ends = {across_meridian(road((5 * number, 0), (5 * number, 400))).nodes[0].longitude for number in range(20)}
        self.assertEqual(ends, {LAST_BEFORE, FIRST_BEHIND})

    def test_nodes_1_apart_stay_on_one_side(self):
        # The gap of 1 would put a node at 17,999,999. Their latitudes tell them apart.
        for number in range(20):
            moved = across_meridian(road((number, 0), (number + 1, 400), (number + 5, 800)))
            self.assertEqual(moved.nodes[1].longitude - moved.nodes[0].longitude, 1)

    def test_a_shift_changes_nothing_but_the_first_points_code(self):
        rng = random.Random("shifts")
        accepted = 0
        for _ in range(300):
            sample = with_bans(rng, rng.choice(SMALL_SAMPLES)(rng), rng.random() < 0.75)
            depot_map, moved = sample.depot_map, across_meridian(sample.depot_map)
            pos, neg = edge_offsets(rng, depot_map, sample.stretch)
            outcome = write(map_to_bytes(depot_map), sample.stretch, pos, neg, WORK, 459)
            if isinstance(outcome, StretchWritten):
                accepted += 1
                read_there = read(map_to_bytes(moved), reference_across(depot_map, moved, outcome.reference), WORK, 64)
                self.assertEqual(read_there, read(map_to_bytes(depot_map), outcome.reference, WORK, 64))
                outcome = replace(outcome, reference=reference_across(depot_map, moved, outcome.reference))
            self.assertEqual(write(map_to_bytes(moved), sample.stretch, pos, neg, WORK, 459), outcome)
        self.assertGreater(accepted, 100)


if __name__ == "__main__":
    unittest.main()
