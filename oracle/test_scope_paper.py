"""What the scope paper works out by hand: "The tie at the ridge", "At the edges", "Ways to go wrong".

Paper 02, "Bearings from the drawing": "The ridge map takes steps of the same sectors, and these three cases replace the marked ones on bearings." "Offsets to
the nearest": "byte 80 on a leg of 1000 then means 499 to 501". And "Centimetres": "The ridge example with lengths and offset tenfold keeps its bytes; its
offset span must be worked out afresh." More of it is in test_centimetres.py.
"""

import unittest

from depot_map import DepotMap, Line, Node, Steps, map_to_bytes, read_map
from drawn_steps import EASTWARD, NORTHWARD, SOUTHWARD, WESTWARD
from fields import sector
from legs import LegSearch, Marks, Leg
from outcome import Refused, StretchRead, StretchWritten, outcome_text
from reader import read
from reference import put_together
from writer import reference_of_legs, write

WORK = 14_336
RIDGE_NODES = (Node(0, 0), Node(1000, 0), Node(1000, 1000), Node(2000, 0))
RIDGE_LINES = (Line(0, 1, 10_000, 3, 3, EASTWARD, WESTWARD), Line(1, 3, 10_000, 3, 3, EASTWARD, WESTWARD),
               Line(1, 2, 5_000, 3, 3, NORTHWARD, SOUTHWARD), Line(2, 3, 5_000, 3, 3, Steps(141, -141), Steps(-200, 7)))
RIDGE = map_to_bytes(DepotMap(RIDGE_NODES, RIDGE_LINES))
THREE_POINTS = bytes.fromhex("0B 000000 000000 1B 68 01 03E8 0000 1B 68 01 03E8 0000 1B 18")
THREE_POINTS_HALF_WAY = bytes.fromhex("0B 000000 000000 1B 68 01 03E8 0000 1B 68 01 03E8 0000 1B 58 80")
TWO_POINTS = bytes.fromhex("0B 000000 000000 1B 68 03 07D0 0000 1B 18")


def row_map(*lines, bans=()):
    """Nodes at longitude 0, 1000, 2000, ..., lines between them as (start, end, length), and banned pairs of lines."""
    last = max(max(line[:2]) for line in lines)
    nodes = tuple(Node(1000 * number, 0) for number in range(last + 1))
    return DepotMap(nodes, tuple(Line(start, end, length, 3, 3, EASTWARD, WESTWARD) for start, end, length in lines), tuple(bans))


def all_tested(reference, line_count):
    """What the writer answers where it may make all tests: one for each leg of the lines that remain, and an excess of 0."""
    return StretchWritten(reference, line_count * (line_count + 1) // 2, 0)


class TieAtTheRidge(unittest.TestCase):
    def test_stretch_takes_three_points(self):
        self.assertEqual(write(RIDGE, [0, 1], 0, 0, WORK, 23), all_tested(THREE_POINTS, 2))

    def test_positive_offset_5000(self):
        self.assertEqual(write(RIDGE, [0, 1], 5_000, 0, WORK, 24), all_tested(THREE_POINTS_HALF_WAY, 2))

    def test_program_prints_the_reading(self):
        # Byte 128 on 10,000: 127.5 x 10,000 / 256 is 4,980.47 and 128.5 x 10,000 / 256 is 5,019.53.
        outcome = read(RIDGE, THREE_POINTS_HALF_WAY, WORK, 1024)
        self.assertEqual(outcome, StretchRead((0, 1), (4_981, 5_019), (0, 0)))
        self.assertEqual(outcome_text(outcome), "lines 2 pos 4981 5019 neg 0 0\n0\n1")

    def test_reading_without_offsets(self):
        self.assertEqual(read(RIDGE, THREE_POINTS, WORK, 1024), StretchRead((0, 1), (0, 0), (0, 0)))

    def test_two_points_fit_both_ways(self):
        outcome = read(RIDGE, TWO_POINTS, WORK, 1024)
        self.assertEqual(outcome, Refused(18, 0))
        self.assertEqual(outcome_text(outcome), "refused 18 0")

    def test_other_texts(self):
        self.assertEqual(outcome_text(read(RIDGE, b"", WORK, 1024)), "refused 12")
        self.assertEqual(outcome_text(read(b"", THREE_POINTS, WORK, 1024)), "refused 2")
        written = write(RIDGE, [0, 1], 0, 0, WORK, 23)
        self.assertEqual(outcome_text(written),
                         "bytes 23 tests 3 excess 0\n0B0000000000001B680103E800001B680103E800001B18")

    def test_way_over_the_ridge_takes_three_points_too(self):
        # With two points both ways fit here too. The first leg with most lines is 0, 2, and then comes 3.
        # Q of the first point: lowest class 3, sector 8. D of 15,000 is 2. The last leg is 5,000 long, D is 0;
        # line 3 leaves to the south-east, sector 12, and arrives from just north of west, sector 24.
        expected = bytes.fromhex("0B 000000 000000 1B 68 02 03E8 03E8 1B 6C 00 03E8 FC18 1B 18")
        self.assertEqual(write(RIDGE, [0, 2, 3], 0, 0, WORK, 100), all_tested(expected, 3))


class AtTheEdges(unittest.TestCase):
    def test_sectors_of_paper_02(self):
        # In place of the bearings 11, 12 and 359.
        self.assertEqual([sector(steps) for steps in ((0, 5), (5, 5), (-5, 0))], [0, 4, 24])

    def test_byte_80_on_a_leg_of_1000(self):
        # The case names no unit, and stays as it is. In centimetres D of 1000 is 0.
        depot_map = map_to_bytes(row_map((0, 1, 1000)))
        reference = bytes.fromhex("0B 000000 000000 1B 68 00 03E8 0000 1B 58 80")
        self.assertEqual(read(depot_map, reference, WORK, 1), StretchRead((0,), (499, 501), (0, 0)))

    def test_offset_1_on_a_leg_of_512(self):
        # 256 x 1 / 512 is exactly a half. Byte 1 on 512 then goes up to 2, since 256 x 3 / 512 is 1.5, which gives 2.
        depot_map = map_to_bytes(row_map((0, 1, 512)))
        reference = bytes.fromhex("0B 000000 000000 1B 68 00 03E8 0000 1B 58 01")
        self.assertEqual(write(depot_map, [0], 1, 0, WORK, 17), all_tested(reference, 1))
        self.assertEqual(read(depot_map, reference, WORK, 1), StretchRead((0,), (1, 2), (0, 0)))

    def test_byte_1_on_a_leg_of_100(self):
        # 256 x 1 / 100 is 2.56, and so offset 1 gives 3.
        depot_map = map_to_bytes(row_map((0, 1, 100)))
        reference = bytes.fromhex("0B 000000 000000 1B 68 00 03E8 0000 1B 58 01")
        self.assertEqual(read(depot_map, reference, WORK, 1), Refused(19))

    def test_nodes_at_longitude_0_and_1(self):
        depot_map = DepotMap((Node(0, 7), Node(1, 7)), (Line(0, 1, 1000, 3, 3, EASTWARD, WESTWARD),))
        self.assertEqual(write(map_to_bytes(depot_map), [0], 0, 0, WORK, 459), Refused(6))
        self.assertEqual(read(map_to_bytes(depot_map), THREE_POINTS, WORK, 459), Refused(6))


class WaysToGoWrong(unittest.TestCase):
    def test_first_of_two_equal_ways_must_not_be_taken(self):
        self.assertEqual(read(RIDGE, TWO_POINTS, WORK, 1024), Refused(18, 0))

    def test_least_is_per_first_line(self):
        # Two first lines with equal marks: one way is 3,000 long (D 0), the other 7,000 (D 1). The least way over
        # both first lines would be 3,000 and give no reading for D 1.
        depot_map = row_map((0, 1, 3_000), (0, 1, 7_000))
        leg = Leg(0, 1, Marks(3, 3, 8), 3, 1)
        self.assertEqual(LegSearch(depot_map).readings(leg).lines, (1,))

    def test_two_first_lines_with_the_same_distance_byte_are_several(self):
        # 3,000 and 4,000 both give D 0, although 3,000 is less.
        depot_map = row_map((0, 1, 3_000), (0, 1, 4_000))
        self.assertEqual(LegSearch(depot_map).readings(Leg(0, 1, Marks(3, 3, 8), 3, 0)).how_many, "several")
        self.assertEqual(write(map_to_bytes(depot_map), [0], 0, 0, WORK, 459), Refused(10))

    def test_one_point_per_line_is_not_always_safest(self):
        # Lines 1 and 2 are parallel with equal marks; in mid-leg only the shorter one is least.
        depot_map = row_map((0, 1, 1_000), (1, 2, 1_000), (1, 2, 5_000), (2, 3, 500))
        map_bytes = map_to_bytes(depot_map)
        two_points = bytes.fromhex("0B 000000 000000 1B 68 00 0BB8 0000 1B 18")
        self.assertEqual(write(map_bytes, [0, 1, 3], 0, 0, WORK, 16), all_tested(two_points, 3))
        self.assertEqual(read(map_bytes, two_points, WORK, 3), StretchRead((0, 1, 3), (0, 0), (0, 0)))
        a_point_each = put_together(reference_of_legs(depot_map, [(0,), (1,), (3,)], 0, 0))
        self.assertEqual(read(map_bytes, a_point_each, WORK, 3), Refused(18, 1))
        self.assertEqual(write(map_bytes, [0, 2, 3], 0, 0, WORK, 459), Refused(10))

    def test_negative_coordinates_are_not_rounded_by_a_floor(self):
        depot_map = DepotMap((Node(-2, -100_000), Node(1000, -100_000)), (Line(0, 1, 10_000, 3, 3, EASTWARD, WESTWARD),))
        # -2 has the code -1 and -100,000 has the code -46,603, FF49F5 in 24 bits.
        expected = bytes.fromhex("0B FFFFFF FF49F5 1B 68 01 03EA 0000 1B 18")
        self.assertEqual(write(map_to_bytes(depot_map), [0], 0, 0, WORK, 16), all_tested(expected, 1))
        self.assertEqual(read(map_to_bytes(depot_map), expected, WORK, 1), StretchRead((0,), (0, 0), (0, 0)))

    def test_negative_offset_is_measured_against_the_last_leg(self):
        # Legs of 1,000,000 and 600,000, too long for one leg. 256 x 150,000 / 600,000 is 64, on the first leg 38.4.
        map_bytes = map_to_bytes(row_map((0, 1, 1_000_000), (1, 2, 600_000)))
        written = write(map_bytes, [0, 1], 0, 150_000, WORK, 24)
        # D: 1,000,000 / 5,860 is 170.6, AA; 600,000 / 5,860 is 102.4, 66.
        expected = bytes.fromhex("0B 000000 000000 1B 68 AA 03E8 0000 1B 68 66 03E8 0000 1B 38 40")
        self.assertEqual(written, all_tested(expected, 2))
        # A positive offset of 150,000 comes first: 256 x 150,000 / 1,000,000 is 38.4; 38 is 26 in hexadecimal.
        both = write(map_bytes, [0, 1], 150_000, 150_000, WORK, 25)
        self.assertEqual(both, all_tested(expected[:-2] + bytes.fromhex("78 26 40"), 2))
        # 63.5 x 600,000 / 256 is 148,828.1 and 64.5 x 600,000 / 256 is 151,171.9.
        self.assertEqual(read(map_bytes, expected, WORK, 2), StretchRead((0, 1), (0, 0), (148_829, 151_171)))


class DepotMapOfTheRidge(unittest.TestCase):
    def test_steps_have_the_sectors_of_the_papers_bearings(self):
        bearings = [(90, 270), (90, 270), (0, 180), (135, 272)]
        sectors = [(sector(line.steps_out), sector(line.steps_back)) for line in RIDGE_LINES]
        self.assertEqual(sectors, [(out * 4 // 45, back * 4 // 45) for out, back in bearings])

    def test_map_is_read_as_the_paper_lists_it(self):
        self.assertEqual(read_map(RIDGE), DepotMap(RIDGE_NODES, RIDGE_LINES))


if __name__ == "__main__":
    unittest.main()
