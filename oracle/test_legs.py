"""A leg's readings: worked cases, and the counting method against the enumeration of the definition."""

import random
import unittest
from dataclasses import replace

from cases import LEG_RECIPES
from depot_map import DepotMap, Line, Node
from drawn_steps import EASTWARD, SOUTHWARD, WESTWARD, steps_of_sector
from fields import DISTANCE_STEP, LONGEST_LEG
from legs import Leg, LegSearch, Marks, Readings, describe_leg, passes_a_node_twice, readings_by_enumeration
from lengths import HALF_LEG
from sample_maps import MapBuilder, chain_sample, joining_pairs, random_walk
from test_scope_paper import row_map

EAST = Marks(3, 3, 8)
WEST_ARRIVAL = Marks(3, 3, 24)


def as_readings(lists):
    if len(lists) == 1:
        return Readings("one", lists[0])
    return Readings("several" if lists else "none")


def random_tiny_map(rng, most_nodes, most_lines):
    """Few values everywhere, so that ties, parallel lines and equal marks are common. Three of four have bans where lines join."""
    builder = MapBuilder()
    builder.row_of_nodes(rng.randrange(2, most_nodes + 1))
    lengths = rng.choice([[1], [1, 2], [1_001, 2_002, 3_003], [DISTANCE_STEP // 2 - 1, DISTANCE_STEP // 2, DISTANCE_STEP],
                          [LONGEST_LEG // 3 - 1, LONGEST_LEG // 3, HALF_LEG, HALF_LEG + 1, LONGEST_LEG]])
    classes, drawn = rng.choice([[3], [3, 4]]), rng.choice([[EASTWARD], [EASTWARD, SOUTHWARD]])
    for _ in range(rng.randrange(1, most_lines + 1)):
        start, end = rng.sample(range(len(builder.nodes)), 2)
        builder.line(start, end, rng.choice(lengths), rng.choice(classes), 3, rng.choice(drawn), rng.choice(drawn))
    share = rng.choice([0, 0.1, 0.3, 0.6])
    builder.bans += [pair for pair in joining_pairs(builder.lines) if rng.random() < share]
    return builder.build()


def random_knot(rng):
    """Many lines between few nodes, all of length 1, each with a sector of its own, and many bans: a way has to go around, or is told by its ends."""
    builder = MapBuilder()
    builder.row_of_nodes(rng.randrange(3, 5))
    for number in range(rng.randrange(6, 10)):
        start, end = rng.sample(range(len(builder.nodes)), 2)
        builder.line(start, end, 1, steps_out=steps_of_sector(rng, number), steps_back=steps_of_sector(rng, number))
    builder.bans += [pair for pair in joining_pairs(builder.lines) if rng.random() < 0.4]
    return builder.build()


def random_bans_on_a_block(rng):
    """Two nodes joined both ways and a node before and behind, so that a ban makes a way go back and forth."""
    bans = [pair for pair in ((0, 1), (0, 2), (2, 3), (3, 1), (3, 2)) if rng.random() < 0.4]
    return row_map((0, 1, 1), (1, 2, 1), (1, 3, 1), (3, 1, 1), bans=bans)


def random_leg(rng, depot_map):
    """A leg that some walk describes, with changed D, class or end now and then."""
    walk = random_walk(rng, depot_map, rng.randrange(1, 5))
    leg = describe_leg(depot_map, walk, rng.random() < 0.5)
    end_node = leg.end_node if rng.random() < 0.8 else rng.randrange(len(depot_map.nodes))
    lowest_frc = leg.lowest_frc if rng.random() < 0.7 else rng.choice([3, 4])
    byte = leg.distance_byte if rng.random() < 0.8 else rng.choice([0, 1, 255])
    return Leg(leg.start_node, end_node, leg.first_marks, lowest_frc, byte, leg.last_marks)


class WorkedLegs(unittest.TestCase):
    def check(self, depot_map, leg, *readings):
        """The expected readings, by counting and by enumeration."""
        self.assertEqual(sorted(readings_by_enumeration(depot_map, leg)), sorted(readings))
        self.assertEqual(LegSearch(depot_map).readings(leg), as_readings(readings))

    def test_middle_leg_is_least_for_a_first_line(self):
        # Two ways after line 0: 200 and 150 + 50; both are least. With 201 only one is.
        leg = Leg(0, 3, EAST, 3, 0)
        self.check(row_map((0, 1, 10), (1, 3, 200), (1, 2, 150), (2, 3, 50)), leg, (0, 1), (0, 2, 3))
        self.check(row_map((0, 1, 10), (1, 3, 201), (1, 2, 150), (2, 3, 50)), leg, (0, 2, 3))

    def test_last_leg_is_least_for_a_first_and_a_last_line(self):
        # 201 is not least over all, but it is the least that ends with line 1.
        depot_map = row_map((0, 1, 10), (1, 3, 201), (1, 2, 150), (2, 3, 50))
        self.check(depot_map, Leg(0, 3, EAST, 3, 0, WEST_ARRIVAL), (0, 1), (0, 2, 3))

    def test_least_comes_before_the_distance_byte(self):
        # The least way is 3,000 (D 0). The way of 7,000 gives D 1, but it is not least.
        depot_map = row_map((0, 1, 1_000), (1, 2, 2_000), (1, 2, 6_000))
        self.check(depot_map, Leg(0, 2, EAST, 3, 0), (0, 1))
        self.check(depot_map, Leg(0, 2, EAST, 3, 1))
        self.check(depot_map, Leg(0, 2, EAST, 3, 1, WEST_ARRIVAL), (0, 2))

    def test_lowest_class_comes_before_least(self):
        # The shorter way has FRC 4; a lowest class of 3 leaves it out.
        nodes = tuple(Node(1000 * number, 0) for number in range(2))
        depot_map = DepotMap(nodes + (Node(0, 1000),), (
            Line(2, 0, 100, 3, 3, EASTWARD, WESTWARD), Line(0, 1, 200, 4, 3, EASTWARD, WESTWARD), Line(0, 1, 300, 3, 3, EASTWARD, WESTWARD)))
        self.check(depot_map, Leg(2, 1, EAST, 3, 0), (0, 2))
        self.check(depot_map, Leg(2, 1, EAST, 4, 0), (0, 1))

    def test_first_line_must_not_be_over_the_lowest_class(self):
        depot_map = row_map((0, 1, 100))
        self.check(depot_map, Leg(0, 1, EAST, 2, 0))

    def test_first_line_that_ends_at_the_next_point_is_least_alone(self):
        depot_map = row_map((0, 1, 100), (1, 0, 100))
        self.check(depot_map, Leg(0, 1, EAST, 3, 0), (0,))
        self.check(depot_map, Leg(0, 1, EAST, 3, 0, WEST_ARRIVAL), (0,))

    def test_leg_from_a_node_to_itself_is_not_empty(self):
        self.check(row_map((0, 1, 100), (1, 0, 100)), Leg(0, 0, EAST, 3, 0), (0, 1))
        self.check(row_map((0, 1, 100)), Leg(0, 0, EAST, 3, 0))

    def test_length_at_most_1_500_000(self):
        for second, readings in ((749_999, [(0, 1)]), (750_000, [(0, 1)]), (750_001, [])):
            depot_map = row_map((0, 1, 750_000), (1, 2, second))
            self.check(depot_map, Leg(0, 2, EAST, 3, 255), *readings)
            self.check(depot_map, Leg(0, 2, EAST, 3, 255, WEST_ARRIVAL), *readings)

    def test_distance_byte_at_its_edges(self):
        # 255 x 5,860 is 1,494,300.
        for length, byte in ((5_850, 0), (5_859, 0), (5_860, 1), (5_861, 1), (11_719, 1), (11_720, 2), (1_494_299, 254), (1_494_300, 255), (1_500_000, 255)):
            for asked in (byte - 1, byte, byte + 1):
                readings = [(0,)] if asked == byte else []
                self.check(row_map((0, 1, length)), Leg(0, 1, EAST, 3, asked), *readings)

    def test_many_ways_are_counted_without_listing_them(self):
        # Sixty times two parallel lines: 2 to the power of 60 ways.
        depot_map = row_map(*[(hop, hop + 1, 1) for hop in range(60) for _ in range(2)])
        self.assertEqual(LegSearch(depot_map).readings(Leg(0, 60, EAST, 3, 0)).how_many, "several")

    def test_long_list(self):
        # 200 x 1,003 / 5,860 is 34.2.
        depot_map = row_map(*[(hop, hop + 1, 1_003) for hop in range(200)])
        leg = Leg(0, 200, EAST, 3, 34, WEST_ARRIVAL)
        self.assertEqual(LegSearch(depot_map).readings(leg), Readings("one", tuple(range(200))))


class CountingAgainstEnumeration(unittest.TestCase):
    def test_random_small_legs(self):
        rng = random.Random("small legs")
        seen = {"none": 0, "one": 0, "several": 0}
        for _ in range(4_000):
            depot_map = random_tiny_map(rng, 5, 9)
            seen[self.readings_both_ways(depot_map, random_leg(rng, depot_map)).how_many] += 1
        self.assertGreater(min(seen.values()), 400, seen)

    def readings_both_ways(self, depot_map, leg):
        by_counting = LegSearch(depot_map).readings(leg)
        self.assertEqual(by_counting, as_readings(readings_by_enumeration(depot_map, leg)), (depot_map, leg))
        return by_counting

    def test_legs_that_bans_decide(self):
        rng = random.Random("knots")
        by_a_ban = {"none": 0, "one": 0, "several": 0}
        node_twice = 0
        for _ in range(4_500):
            depot_map = random_knot(rng)
            first, last = (rng.randrange(len(depot_map.lines)) for _ in range(2))
            leg = describe_leg(depot_map, (first, last), rng.random() < 0.7)
            readings = self.readings_both_ways(depot_map, leg)
            by_a_ban[readings.how_many] += LegSearch(replace(depot_map, bans=())).readings(leg) != readings
            node_twice += passes_a_node_twice(depot_map, readings.lines or ())
        self.assertGreater(min(by_a_ban.values()), 20, by_a_ban)
        self.assertGreater(node_twice, 40)

    def test_lists_that_repeat_a_line_change_nothing(self):
        # All connected lists of up to two lines more than the map has, repeated lines and all.
        rng = random.Random("repeated lines")
        for turn in range(300):
            depot_map = random_tiny_map(rng, 3, 4) if turn % 2 else random_bans_on_a_block(rng)
            leg = random_leg(rng, depot_map)
            most_lines = len(depot_map.lines) + 2
            self.assertEqual(sorted(readings_by_enumeration(depot_map, leg)),
                             sorted(readings_by_enumeration(depot_map, leg, True, most_lines)))

    def test_legs_of_the_case_generator(self):
        rng = random.Random("case legs")
        for name, recipe in LEG_RECIPES.items():
            for turn in range(0 if name == "full size" else 60):
                sample, leg = recipe(rng, turn)
                if len(sample.depot_map.lines) <= 10 or sample.label == chain_sample(rng).label:
                    by_counting = LegSearch(sample.depot_map).readings(leg)
                    self.assertEqual(by_counting, as_readings(readings_by_enumeration(sample.depot_map, leg)))


if __name__ == "__main__":
    unittest.main()
