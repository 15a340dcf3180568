"""Paper 02, "Bearings from the drawing", sentence by sentence: the steps of a map's lines, their sectors, and refusal 24."""

import math
import random
import unittest

from depot_map import DepotMap, Line, Node, Steps, map_to_bytes, read_map
from drawn_steps import EASTWARD, WESTWARD, all_steps, redrawn, steps_at_edges, turned
from fields import edge_tangents, sector
from legs import Marks, marks_arriving, marks_leaving
from outcome import Refused, StretchRead, StretchWritten, outcome_text
from reader import read
from recipes import any_sample
from sample_maps import SMALL_SAMPLES
from test_depot_map import NO_BANS, TWO_NODES, refusal_of_hex
from test_scope_paper import THREE_POINTS, WORK, all_tested
from writer import write

LENGTHS = range(1, 251)


def on_a_multiple_of_45_degrees(steps):
    east, north = steps
    return east == 0 or north == 0 or abs(east) == abs(north)


class Sectors(unittest.TestCase):
    def test_the_papers_three_cases(self):
        # They replace the scope paper's cases on the bearings 11, 12 and 359.
        self.assertEqual(sector((0, 5)), 0)
        self.assertEqual(sector((5, 5)), 4)
        self.assertEqual(sector((-5, 0)), 24)

    def test_every_step_against_its_angle(self):
        # Multiples of 45 degrees lie on edges, and are asked exactly in the next test. No others do, since the tangents of the other edges are no fractions.
        # Squared twice as a complex number, a direction has four times its angle, whole parts a and b, and a length of 15,625,000,000 at most. Unless it was on
        # an edge, none of a, b, a + b and a - b is 0, and so its end is 1 / root 2 or more away from every multiple of 45 degrees: an angle of 4.5e-11 or more.
        # A quarter of that is 5e-11 of a sector. In truth the least distance is 1.1e-5 of a sector. The error of atan2 and of the division is below 1e-13.
        self.assertEqual(len(all_steps()), 501 * 501 - 1)
        least_distance = 1
        for steps in all_steps():
            if not on_a_multiple_of_45_degrees(steps):
                sectors = math.atan2(*steps) % math.tau / (math.tau / 32)
                least_distance = min(least_distance, abs(sectors - round(sectors)))
                self.assertEqual(sector(steps), math.floor(sectors), steps)
        self.assertGreater(least_distance, 1e-5)

    def test_an_edge_belongs_to_the_sector_that_starts_there(self):
        for length in LENGTHS:
            axes = [(0, length), (length, 0), (0, -length), (-length, 0)]
            diagonals = [(length, length), (length, -length), (-length, -length), (-length, length)]
            self.assertEqual([sector(steps) for steps in axes], [0, 8, 16, 24])
            self.assertEqual([sector(steps) for steps in diagonals], [4, 12, 20, 28])

    def test_steps_next_to_a_multiple_of_45_degrees(self):
        # Within 11.25 degrees of it: 1 of 6 is 9.5 degrees, 3 of 4 is 36.9 degrees.
        for length in LENGTHS[5:]:
            near = [(-1, length), (1, length), (length - 1, length), (length, length - 1)]
            for quarters in range(4):
                found = [sector(turned(steps, quarters)) for steps in near]
                self.assertEqual(found, [(first + 8 * quarters) % 32 for first in (31, 0, 3, 4)], (length, quarters))

    def test_steps_nearest_to_22_and_a_half_degrees(self):
        # The tangent there is root 2 - 1. (29 + 70) squared is 9,801, twice 70 squared is 9,800. (70 + 169) squared is 57,121, twice 169 squared is 57,122.
        self.assertEqual([sector(steps) for steps in ((29, 70), (70, 169))], [2, 1])
        # Mirrored at 45 degrees, beyond comes to before.
        self.assertEqual([sector(steps) for steps in ((70, 29), (169, 70))], [5, 6])

    def test_a_quarter_turn_adds_8(self):
        for steps in all_steps():
            self.assertEqual(sector(turned(steps, 1)), (sector(steps) + 8) % 32, steps)

    def test_mirrored_at_north_the_sector_counts_backwards(self):
        for east, north in all_steps():
            last = 32 if on_a_multiple_of_45_degrees((east, north)) else 31
            self.assertEqual(sector((-east, north)), (last - sector((east, north))) % 32, (east, north))

    def test_positive_multiples_have_the_same_sector(self):
        for east, north in all_steps():
            times = math.gcd(east, north)
            self.assertEqual(sector((east // times, north // times)), sector((east, north)), (east, north))

    def test_all_sectors_have_steps_at_both_edges(self):
        sectors = [sector(steps) for steps in steps_at_edges()]
        self.assertEqual(set(sectors), set(range(32)))
        self.assertGreater(min(sectors.count(number) for number in range(32)), 400)

    def test_bounds_of_the_tangents(self):
        for number, (low, high) in enumerate(edge_tangents(), 1):
            self.assertAlmostEqual(float(low), math.tan(math.radians(11.25 * number)), delta=1e-10)
            self.assertTrue(low <= high < low + 1e-10)

    def test_both_zero_have_no_direction(self):
        with self.assertRaises(ValueError):
            sector((0, 0))


def map_with(numbers, lines="01", after=NO_BANS):
    """Two nodes and a line with these four numbers for its steps, as hexadecimal."""
    return f"{TWO_NODES} {lines} 00 01 E807 03 03 {numbers} {after}"


class StepsOfAMap(unittest.TestCase):
    # 450 and 250, 50 and 250: 200 to the east, and 200 to the west.
    GOOD = ("C203", "FA01", "32", "FA01")

    def check(self, numbers, refusal):
        self.assertEqual(refusal_of_hex(map_with(numbers)), refusal, numbers)

    def each_place(self, number):
        """The good numbers, each in its turn replaced by the number."""
        return [" ".join((*self.GOOD[:place], number, *self.GOOD[place + 1:])) for place in range(4)]

    def each_pair(self, numbers):
        """The numbers as those out with good ones behind them, and as those back with good ones before them."""
        return f"{numbers} {self.GOOD[2]} {self.GOOD[3]}", f"{self.GOOD[0]} {self.GOOD[1]} {numbers}"

    def check_map_that_stops(self, numbers, refusal):
        """The map ends after numbers of the steps out, or of the steps back."""
        for before in ("", f"{self.GOOD[0]} {self.GOOD[1]}"):
            text = map_with(f"{before} {numbers}", after="")
            self.assertEqual(refusal_of_hex(text), refusal, text)

    def test_order_of_the_four(self):
        # 251, 253, 247 and 246 are FB 01, FD 01, F7 01 and F6 01.
        line = Line(0, 1, 1000, 3, 3, Steps(east=1, north=3), Steps(east=-3, north=-4))
        depot_map = DepotMap((Node(0, 0), Node(1000, 0)), (line,))
        written = bytes.fromhex(map_with("FB01 FD01 F701 F601"))
        self.assertEqual(read_map(written), depot_map)
        self.assertEqual(map_to_bytes(depot_map), written)
        # Steps out are the start node's, 18.4 degrees, and steps back the end node's, 216.9 degrees.
        self.assertEqual((marks_leaving(line), marks_arriving(line)), (Marks(3, 3, 1), Marks(3, 3, 19)))

    def test_range_ends_of_each_step(self):
        # 500 is F4 03.
        for number in ("00", "F403"):
            for numbers in self.each_place(number):
                self.check(numbers, None)
        self.assertEqual(read_map(bytes.fromhex(map_with("00 F403 F403 00"))).lines[0].steps_out, (-250, 250))

    def test_one_past_and_far_past(self):
        # 501 is F5 03, 5,000 is 88 27.
        for number in ("F503", "8827", "FFFFFFFF0F"):
            for numbers in self.each_place(number):
                self.check(numbers, 24)

    def test_one_of_a_pair_zero(self):
        for number in ("00", "F901", "FB01", "F403"):
            for numbers in (*self.each_pair(f"FA01 {number}"), *self.each_pair(f"{number} FA01")):
                self.check(numbers, None)

    def test_both_of_a_pair_zero(self):
        for numbers in (*self.each_pair("FA01 FA01"), "FA01 FA01 FA01 FA01"):
            self.check(numbers, 24)

    def test_zero_out_and_zero_back_are_not_a_pair(self):
        for numbers in ("FA01 C203 FA01 C203", "C203 FA01 FA01 C203", "FA01 C203 C203 FA01"):
            self.check(numbers, None)

    def test_east_out_of_range_whatever_the_north(self):
        # The north step is zero, out of range, not shortest, too large, without an end; it ends early, or is missing.
        for north in ("FA01", "F503", "8000", "FA8100", "8080808010", "FFFFFFFFFFFF"):
            for numbers in self.each_pair(f"F503 {north}"):
                self.check(numbers, 24)
        for numbers in ("F503", "F503 FA", "FFFFFFFF0F", "FFFFFFFF0F 80"):
            self.check_map_that_stops(numbers, 24)

    def test_both_zero_is_found_at_the_north_step(self):
        # An early end and a wrong form of it go before. FA 81 00 is 250 and not shortest.
        for numbers in ("FA01", "FA01 FA"):
            self.check_map_that_stops(numbers, 2)
        for numbers in self.each_pair("FA01 FA8100"):
            self.check(numbers, 2)
        for numbers in self.each_pair("FA8100 FA01"):
            self.check(numbers, 2)
        # What comes after it is not looked at.
        self.check_map_that_stops("FA01 FA01", 24)
        self.check_map_that_stops("FA01 FA01 8000", 24)

    def test_wrong_forms(self):
        # F5 83 00 would be 501.
        for number in ("8000", "F58300", "FA8100", "8080808010", "FFFFFFFF1F", "FFFFFFFFFFFF"):
            for numbers in self.each_place(number):
                self.check(numbers, 2)

    def test_ends_early(self):
        for numbers in ("", "C2", "C203", "C203 FA", "C203 FA01"):
            self.check_map_that_stops(numbers, 2)

    def test_first_faulty_number_decides(self):
        # A wrong FRC or FOW before; steps back after steps out; another line after; a count of bans of 513 after.
        rows = [(f"{TWO_NODES} 01 00 01 E807 08 03 F503", 5), (f"{TWO_NODES} 01 00 01 E807 03 08 F503", 5), (f"{TWO_NODES} 01 00 01 E807 03 8000 F503", 2),
                (map_with("F503 FA01 8000"), 24), (map_with("C203 FA01 8000 F503"), 2), (map_with("FA01 FA01 8000"), 24),
                (map_with("C203 FA01 32 F503", lines="02", after="00 02"), 24), (map_with("C203 FA01 32 FA01", lines="02", after="00 02 E807 03 03 F503"), 5),
                (map_with("C203 FA01 FA01 FA01", lines="02", after="8000"), 24), (map_with("C203 FA01 32 F503", after="8104"), 24)]
        for text, refusal in rows:
            self.assertEqual(refusal_of_hex(text), refusal, text)

    def test_24_before_left_over_bytes_6_and_23(self):
        for numbers in ("C203 FA01 32 F503", "C203 FA01 FA01 FA01"):
            self.check_faults_after(numbers, (24, 24, 24))
        self.check_faults_after("C203 FA01 32 FA01", (2, 6, 23))

    def check_faults_after(self, numbers, refusals):
        """A map with a byte left over, one with two equal nodes, and one with a ban of a line and itself."""
        good = map_with(numbers)
        equal_nodes = good.replace("E8D8CA08", "80D1CA08")
        wrong_ban = map_with(numbers, after="01 00 00")
        self.assertEqual(tuple(map(refusal_of_hex, (good + "00", equal_nodes, wrong_ban))), refusals)

    def test_24_stands_above_what_the_calls_ask(self):
        map_bytes = bytes.fromhex(map_with("C203 FA01 32 F503"))
        self.assertEqual(write(map_bytes, [], 0, 0, WORK, 0), Refused(24))
        self.assertEqual(read(map_bytes, b"", WORK, 0), Refused(24))
        self.assertEqual(outcome_text(read(map_bytes, THREE_POINTS, WORK, 2)), "refused 24")
        self.assertEqual(read(map_bytes, THREE_POINTS, WORK - 1, 2), Refused(1))


class Comparison(unittest.TestCase):
    def two_lines(self, *drawn):
        """Lines 0 and 1 from node 0 to node 1 that differ in nothing but their steps out and back."""
        lines = tuple(Line(0, 1, 10_000, 3, 3, steps_out, steps_back) for steps_out, steps_back in drawn)
        return map_to_bytes(DepotMap((Node(0, 0), Node(1000, 0)), lines))

    def check_told_apart(self, map_bytes, *references):
        """Each line is written as its reference, and read back."""
        for line, text in enumerate(references):
            reference = bytes.fromhex(text)
            self.assertEqual(write(map_bytes, [line], 0, 0, WORK, 16), all_tested(reference, 1))
            self.assertEqual(read(map_bytes, reference, WORK, 1), StretchRead((line,), (0, 0), (0, 0)))

    def test_steps_out_of_neighbouring_sectors(self):
        # North is sector 0, and just west of it is sector 31. Class 3 and these give Q 60 and 7F.
        self.check_told_apart(self.two_lines(((0, 5), WESTWARD), ((-1, 250), WESTWARD)),
                              "0B 000000 000000 1B 60 01 03E8 0000 1B 18", "0B 000000 000000 1B 7F 01 03E8 0000 1B 18")

    def test_steps_back_of_neighbouring_sectors(self):
        # South-west is sector 20, and (-249, -250) comes just before it, in sector 19.
        self.check_told_apart(self.two_lines((EASTWARD, (-250, -250)), (EASTWARD, (-249, -250))),
                              "0B 000000 000000 1B 68 01 03E8 0000 1B 14", "0B 000000 000000 1B 68 01 03E8 0000 1B 13")

    def test_different_steps_of_one_sector(self):
        # (200, 0) and (250, -49) are both of sector 8: 49 of 250 is 11.1 degrees.
        map_bytes = self.two_lines((EASTWARD, WESTWARD), (Steps(250, -49), Steps(-1, 0)))
        for line in range(2):
            self.assertEqual(write(map_bytes, [line], 0, 0, WORK, 459), Refused(10))
        self.assertEqual(read(map_bytes, bytes.fromhex("0B 000000 000000 1B 68 01 03E8 0000 1B 18"), WORK, 1), Refused(18, 0))

    def test_other_steps_of_the_same_sectors_change_nothing(self):
        rng = random.Random("redrawn")
        accepted = 0
        for turn in range(20 * len(SMALL_SAMPLES)):
            sample = any_sample(rng, turn)
            other = redrawn(rng, sample.depot_map)
            self.assertNotEqual(other, sample.depot_map)
            written, written_on_other = (write(map_to_bytes(depot_map), sample.stretch, 1, 1, WORK, 459) for depot_map in (sample.depot_map, other))
            self.assertEqual(written, written_on_other)
            if isinstance(written, StretchWritten):
                accepted += 1
                self.assertIsInstance(read(map_to_bytes(other), written.reference, WORK, 64), StretchRead)
        self.assertGreater(accepted, 80)


if __name__ == "__main__":
    unittest.main()
