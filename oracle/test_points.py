"""Points along a line: the sentences of paper 02, "Signs and hydrants", the white paper's example (13.2.3) and a hydrant on the ridge, worked out by hand.

Offset bytes are paper 02's, "Offsets to the nearest". The white paper's own are not: it takes the 256ths down.
"""

import base64
import itertools
import random
import unittest
from dataclasses import replace

from damages import point_along_line_damages
from depot_map import DepotMap, Line, Node, map_to_bytes, read_map
from drawn_steps import EASTWARD, NORTHWARD, WESTWARD
from fields import coordinate_code, distance_byte, offset_byte, sector
from legs import describe_leg, readings_by_enumeration
from outcome import PointRead, PointWritten, Refused, outcome_text
from point_along_line import bytes_of_point, read_point, write_point
from point_read_recipes import point_read_outcome, point_that_is_read
from point_write_recipes import point_on
from read_recipes import legs_can_be_written
from reader import legs_of, point_nodes, read
from recipes import any_sample
from reference import POINT_STATUS, Point, Reference, put_together, take_point_along_line
from sample_maps import SMALL_SAMPLES, dense_sample, full_sample
from test_legs import random_tiny_map
from test_reader import changed
from test_scope_paper import RIDGE, RIDGE_LINES, RIDGE_NODES, THREE_POINTS, TWO_POINTS, WORK, row_map
from test_white_paper import drawn_at

LINE_0, LINE_1, LINE_2, LINE_3 = range(4)
LARGEST = 4_294_967_295
# A hydrant 12 m up line 2 of the ridge, on its right side, without orientation.
HYDRANT = bytes.fromhex("2B 0001D2 000000 1B 60 00 0000 03E8 5B 50 3D")
STATUS, FIRST_P, Q, D, LAST_P, R, OFFSET = 0, 7, 8, 9, 14, 15, 16


class HydrantOnTheRidge(unittest.TestCase):
    def test_written(self):
        # Line 2 runs north from node 1 at (1000, 0) to node 2 at (1000, 1000), 5,000 long.
        # Status 2B. Longitude 1000: 1000 x 16,777,216 / 36,000,000 is 466.03, plus a half cut to 466, 0001D2. Latitude 0: 000000.
        # P: orientation 0, FRC 3 and FOW 3 are 8 x 3 + 3, 1B. Q: lowest class 3 and sector 0 are 32 x 3, 60. D: 5,000 / 5,860 is 0.
        # Differences 0 and 1000: 0000 03E8. P: side 1, 64 + 1B, 5B. R: positive flag 40 and sector 16 of (0, -200), 10, together 50.
        # 256 x 1,200 / 5,000 is 61.44; 61 is 3D.
        self.assertEqual(write_point(RIDGE, LINE_2, 1_200, 0, 1, WORK, 17), PointWritten(HYDRANT))

    def test_read_back(self):
        # Byte 61: 60.5 x 5,000 / 256 is 1,181.6 and 61.5 x 5,000 / 256 is 1,201.2.
        outcome = read_point(RIDGE, HYDRANT, WORK, 1)
        self.assertEqual(outcome, PointRead((LINE_2,), (1_182, 1_201), 0, 1))
        self.assertEqual(outcome_text(outcome), "lines 1 offset 1182 1201 orientation 0 side 1\n2")

    def test_at_the_start_of_the_line(self):
        # No flag and no byte: R is the sector alone.
        start = HYDRANT[:R] + b"\x10"
        self.assertEqual(write_point(RIDGE, LINE_2, 0, 0, 1, WORK, 16), PointWritten(start))
        self.assertEqual(read_point(RIDGE, start, WORK, 1), PointRead((LINE_2,), (0, 0), 0, 1))

    def test_point_along_two_lines(self):
        # Lines 0 and 2, 15,000 long, to node 2: Q has sector 8, D is 2, and line 2 arrives. Byte 80 is 128: 127.5 x 15,000 / 256 is 7,470.7 and
        # 128.5 x 15,000 / 256 is 7,529.3.
        reference = bytes.fromhex("2B 000000 000000 DB 68 02 03E8 03E8 9B 50 80")
        self.assertEqual(read_point(RIDGE, reference, WORK, 2), PointRead((LINE_0, LINE_2), (7_471, 7_529), 3, 2))
        self.assertEqual(read_point(RIDGE, reference, WORK, 1), Refused(20))

    def test_tie_of_the_ridge(self):
        # The two-point bytes of lines 0 and 1, and of 0, 2 and 3: as a point they tie as well, until a turn is banned.
        tie = changed(TWO_POINTS, STATUS, POINT_STATUS)
        self.assertEqual(read_point(RIDGE, tie, WORK, 9), Refused(18, 0))
        for ban, lines in (((0, 2), (LINE_0, LINE_1)), ((2, 3), (LINE_0, LINE_1)), ((0, 1), (LINE_0, LINE_2, LINE_3))):
            banned = map_to_bytes(DepotMap(RIDGE_NODES, RIDGE_LINES, (ban,)))
            self.assertEqual(read_point(banned, tie, WORK, 9), PointRead(lines, (0, 0), 0, 0))

    def test_the_other_lines(self):
        # 256 x 1,200 / 10,000 is 30.72; 31 is 1F. Lines 0 and 1 leave in sector 8 and arrive in 24, D is 1. Line 3 leaves in 12 and arrives in 24; it leads
        # from (1000, 1000) by 1000 and -1000, and is 5,000 long as line 2 is. It is so with every turn of the ridge banned as well.
        banned = map_to_bytes(DepotMap(RIDGE_NODES, RIDGE_LINES, ((0, 1), (0, 2), (2, 3))))
        for line, text in ((LINE_0, "2B 000000 000000 9B 68 01 03E8 0000 DB 58 1F"), (LINE_1, "2B 0001D2 000000 9B 68 01 03E8 0000 DB 58 1F"),
                           (LINE_3, "2B 0001D2 0001D2 9B 6C 00 03E8 FC18 DB 58 3D")):
            for map_bytes in (RIDGE, banned):
                self.assertEqual(write_point(map_bytes, line, 1_200, 2, 3, WORK, 17), PointWritten(bytes.fromhex(text)))

    def test_texts(self):
        written = write_point(RIDGE, LINE_2, 1_200, 0, 1, WORK, 17)
        self.assertEqual(outcome_text(written), "bytes 17\n2B0001D20000001B6000000003E85B503D")
        self.assertEqual(outcome_text(read_point(RIDGE, changed(HYDRANT, 13, 0), WORK, 1)), "refused 16 1")
        self.assertEqual(outcome_text(write_point(RIDGE, LINE_2, 1_200, 4, 1, WORK, 17)), "refused 25")


# 13.2.3, Tables 101 to 111. They are those of the line example's form (13.1.3), but for what Tables 104 and 109 name orientation and side of road.
EXAMPLE = base64.b64decode("KwRboCNGfhJRAf/O/7SSQ00=")
# FRC2 and several carriageways; bearing 202 at the start; and in 13.2.4, which has the same line, 92 m long and bearing 42 at its end.
EXAMPLE_NODES = (Node(612_829, 4_960_597), Node(612_779, 4_960_521))
EXAMPLE_LENGTH, EXAMPLE_OFFSET = 9_200, 2_800
EXAMPLE_POINTS = (Point(285_600, 2_311_806, 2, 2, 17, 2, 1, top_bits=0), Point(-50, -76, 2, 2, 3, top_bits=2))


class WhitePaper(unittest.TestCase):
    def test_bytes_field_by_field(self):
        fields = (("2B", STATUS), ("045BA0", 1), ("23467E", 4), ("12", FIRST_P), ("51", Q), ("01", D), ("FFCE", 10), ("FFB4", 12), ("92", LAST_P), ("43", R),
                  ("4D", OFFSET))
        self.assertEqual("".join(text for text, _ in fields), EXAMPLE.hex().upper())
        for text, position in fields:
            self.assertEqual(EXAMPLE[position:position + len(text) // 2].hex().upper(), text)

    def test_status(self):
        # Table 101: RFU 0, ArF1 0, is point 1, ArF0 0, has attributes 1, version 3.
        self.assertEqual(EXAMPLE[STATUS], 0b0_0_1_0_1_011)

    def test_orientation_and_side(self):
        # Table 100: no orientation or unknown, and left. Table 20 has 00 for the one, Table 21 has 10 for the other.
        self.assertEqual((EXAMPLE[FIRST_P], EXAMPLE[LAST_P]), (0b00_010_010, 0b10_010_010))

    def test_longitude_is_one_too_many(self):
        # Equation 1 gives 285,599.2 + 0.5, cut to 285,599, which is 045B9F. The bytes have one more, 045BA0, and so have those of 13.2.4 (Table 115).
        self.assertEqual(coordinate_code(612_829), 0x045B9F)
        self.assertEqual(int.from_bytes(EXAMPLE[1:4], "big"), coordinate_code(612_829) + 1)
        self.assertEqual(coordinate_code(4_960_597), int.from_bytes(EXAMPLE[4:7], "big"))

    def test_last_bearing(self):
        # Table 110 prints 01010100, which is 54 and sector 20, and so does Table 123 of 13.2.4. The bytes of both examples have 43, sector 3, which is that of
        # bearing 42.
        self.assertEqual(EXAMPLE[R], 0b0_1_0_00011)
        self.assertEqual(sector(drawn_at(42)), 3)
        self.assertNotEqual(EXAMPLE[R], 0b01010100)
        longer = base64.b64decode("KwRboCNGfhJRAf/O/7SSQ03/fgCD")
        self.assertEqual(longer[:17], EXAMPLE)

    def test_other_fields(self):
        self.assertEqual(EXAMPLE[Q], 32 * 2 + sector(drawn_at(202)))
        self.assertEqual(EXAMPLE[D], distance_byte(EXAMPLE_LENGTH))

    def test_offset_byte(self):
        # "30.43% falls into the bucket number 77": 256 x 28 / 92 is 77.9, and the white paper takes it down. So 13.2.3 reads it as "30.27%", 77.5 256ths,
        # the middle of a bucket from 77 to 78. Paper 02 does not follow it: the nearest to 77.9 is 78, 4E.
        self.assertEqual(EXAMPLE[OFFSET], 77)
        self.assertEqual(EXAMPLE[OFFSET], 256 * EXAMPLE_OFFSET // EXAMPLE_LENGTH)
        self.assertEqual(offset_byte(EXAMPLE_OFFSET, EXAMPLE_LENGTH), 78)

    def test_taken_apart_and_put_together(self):
        reference = Reference(EXAMPLE_POINTS, positive_byte=77)
        self.assertEqual(take_point_along_line(EXAMPLE), reference)
        self.assertEqual(put_together(reference, POINT_STATUS), EXAMPLE)

    def test_written_and_read_on_a_map_of_the_example_s_line(self):
        # Node 0 has the code of the equation, so that the example itself has no first point here. The offset byte is 4E in place of 4D.
        line = Line(0, 1, EXAMPLE_LENGTH, 2, 2, drawn_at(202), drawn_at(42))
        map_bytes = map_to_bytes(DepotMap(EXAMPLE_NODES, (line,)))
        of_the_equation = changed(EXAMPLE, 3, 0x9F)
        expected = changed(of_the_equation, OFFSET, 0x4E)
        self.assertEqual(write_point(map_bytes, 0, EXAMPLE_OFFSET, 0, 2, WORK, 17), PointWritten(expected))
        # 77.5 x 9,200 / 256 is 2,785.2 and 78.5 x 9,200 / 256 is 2,821.1: the white paper's 28 m are among them.
        self.assertEqual(read_point(map_bytes, expected, WORK, 1), PointRead((0,), (2_786, 2_821), 0, 2))
        # Its own byte, 77: 76.5 x 9,200 / 256 is 2,749.2, up to the same 2,785.2. Among them is what 13.2.3 reads, "27.8 meter", and no longer the 28 m that it
        # wrote.
        self.assertEqual(read_point(map_bytes, of_the_equation, WORK, 1), PointRead((0,), (2_750, 2_785), 0, 2))
        self.assertEqual(read_point(map_bytes, EXAMPLE, WORK, 1), Refused(16, 0))


# A line of 10,000 from node 0 to node 1, and another of 100 on to node 2.
ROW = row_map((0, 1, 10_000), (1, 2, 100))
ROW_BYTES = map_to_bytes(ROW)
# 2,500 along line 0: byte 40. Orientation 1, side 2.
ROW_POINT = bytes.fromhex("2B 000000 000000 5B 68 01 03E8 0000 9B 58 40")


class Sentences(unittest.TestCase):
    def test_16_or_17_bytes(self):
        for offset, length in ((0, 16), (1, 17), (9_999, 17)):
            written = write_point(ROW_BYTES, 0, offset, 1, 2, WORK, 17).reference
            self.assertEqual((len(written), written[STATUS]), (length, 0x2B))

    def test_orientation_and_side_in_bits_7_and_6(self):
        # Byte 64 on 10,000: 63.5 x 10,000 / 256 is 2,480.5 and 64.5 x 10,000 / 256 is 2,519.5.
        self.assertEqual(write_point(ROW_BYTES, 0, 2_500, 1, 2, WORK, 17), PointWritten(ROW_POINT))
        for orientation, side in itertools.product(range(4), repeat=2):
            expected = changed(changed(ROW_POINT, FIRST_P, 64 * orientation + 0x1B), LAST_P, 64 * side + 0x1B)
            self.assertEqual(write_point(ROW_BYTES, 0, 2_500, orientation, side, WORK, 17), PointWritten(expected))
            self.assertEqual(read_point(ROW_BYTES, expected, WORK, 1), PointRead((0,), (2_481, 2_519), orientation, side))

    def test_negative_flag_must_be_0(self):
        for bits in (0x20, 0x80, 0xA0):
            self.assertEqual(read_point(ROW_BYTES, changed(ROW_POINT, R, 0x58 | bits), WORK, 1), Refused(14))

    def test_10_where_differences_do_not_fit(self):
        for difference, fits in ((32_767, True), (32_768, False), (-32_768, True), (-32_769, False), (65_537, False)):
            for end in (Node(difference, 0), Node(0, difference)):
                map_bytes = map_to_bytes(DepotMap((Node(0, 0), end), (Line(0, 1, 1000, 3, 3, EASTWARD, WESTWARD),)))
                self.assertEqual(write_point(map_bytes, 0, 0, 0, 0, WORK, 17) != Refused(10), fits, end)

    def test_differences_go_round_the_globe(self):
        # From 17,999,998 to -18,000,000 the difference is 2. 256 x 5 / 20 is 64, 40; 63.5 x 20 / 256 is 4.96 and 64.5 x 20 / 256 is 5.04.
        nodes = (Node(17_999_998, 0), Node(-18_000_000, 0))
        map_bytes = map_to_bytes(DepotMap(nodes, (Line(0, 1, 20, 3, 3, EASTWARD, WESTWARD),)))
        written = write_point(map_bytes, 0, 5, 0, 3, WORK, 17)
        self.assertEqual(written, PointWritten(bytes.fromhex("2B 7FFFFF 000000 1B 68 00 0002 0000 DB 58 40")))
        self.assertEqual(read_point(map_bytes, written.reference, WORK, 1), PointRead((0,), (5, 5), 0, 3))

    def test_10_where_the_line_is_not_the_only_reading(self):
        # D is 1 for 10,000 and 11,719, and 2 for 11,720. Else the other line is told apart by class, form or sector, at its start or at its end.
        line = Line(0, 1, 10_000, 3, 3, EASTWARD, WESTWARD)
        twins = ((line, True), (replace(line, length=11_719), True), (replace(line, length=11_720), False), (replace(line, frc=4), False),
                 (replace(line, fow=4), False), (replace(line, steps_out=NORTHWARD), False), (replace(line, steps_back=NORTHWARD), False))
        for twin, same in twins:
            map_bytes = map_to_bytes(DepotMap((Node(0, 0), Node(1000, 0)), (line, twin)))
            for number in (0, 1):
                outcome = write_point(map_bytes, number, 0, 0, 0, WORK, 17)
                self.assertEqual(outcome == Refused(10), same, twin)

    def test_10_where_a_way_of_two_lines_fits_as_well(self):
        # Least is among lists with the same first and last line: the line alone is one, 1 and 2 another, as long and with the same marks at both ends.
        way = ((0, 2, 10_000), (0, 1, 4_003), (1, 2, 5_997))
        self.assertEqual(write_point(map_to_bytes(row_map(*way)), 0, 0, 0, 0, WORK, 17), Refused(10))
        self.assertIsInstance(write_point(map_to_bytes(row_map(*way, bans=((1, 2),))), 0, 0, 0, 0, WORK, 17), PointWritten)
        # And a shorter way does not matter where D tells it apart, since it has another first line.
        self.assertIsInstance(write_point(map_to_bytes(row_map((0, 2, 10_000), (0, 1, 2_000), (1, 2, 3_000))), 0, 0, 0, 0, WORK, 17), PointWritten)

    def test_reading_hands_back_several_lines(self):
        count = 40
        row = row_map(*((number, number + 1, 100) for number in range(count)))
        nodes = tuple(Node(800 * number, 0) for number in range(count + 1))
        depot_map = replace(row, nodes=nodes)
        reference = bytes_of_point(depot_map, tuple(range(count)), 3_999, 2, 1)
        outcome = read_point(map_to_bytes(depot_map), reference, WORK, count)
        # 256 x 3,999 / 4,000 is 255.9, nearest to 256, and so 255 is written. 254.5 x 4,000 / 256 is 3,976.6.
        self.assertEqual(outcome, PointRead(tuple(range(count)), (3_977, 3_999), 2, 1))
        self.assertEqual(read_point(map_to_bytes(depot_map), reference, WORK, count - 1), Refused(20))

    def test_references_of_the_one_kind_for_the_reader_of_the_other(self):
        self.assertEqual(read(ROW_BYTES, ROW_POINT, WORK, 9), Refused(13))
        self.assertEqual(read(ROW_BYTES, ROW_POINT[:R] + b"\x18", WORK, 9), Refused(13))
        self.assertEqual(read_point(ROW_BYTES, TWO_POINTS, WORK, 9), Refused(13))
        self.assertEqual(read_point(ROW_BYTES, TWO_POINTS[:R] + b"\x58\x00", WORK, 9), Refused(13))
        # 18 bytes and 23 bytes.
        self.assertEqual(read_point(ROW_BYTES, TWO_POINTS[:R] + b"\x78\x00\x00", WORK, 9), Refused(12))
        self.assertEqual(read_point(RIDGE, THREE_POINTS, WORK, 9), Refused(12))


class EachRefusalOfTheReader(unittest.TestCase):
    def check(self, reference, *refusal, map_bytes=ROW_BYTES, line_room=1):
        self.assertEqual(read_point(map_bytes, reference, WORK, line_room), Refused(*refusal))

    def test_12(self):
        for length in range(500):
            outcome = read_point(ROW_BYTES, bytes(length), WORK, 1)
            self.assertEqual(outcome, Refused(13 if length in (16, 17) else 12), length)

    def test_13(self):
        for status in range(256):
            if status != 0x2B:
                self.check(changed(ROW_POINT, STATUS, status), 13)

    def test_15(self):
        self.check(ROW_POINT[:OFFSET], 15)
        self.check(changed(ROW_POINT, R, 0x18), 15)

    def test_16(self):
        self.check(changed(ROW_POINT, 3, 1), 16, 0)
        self.check(changed(ROW_POINT, 11, 0xE7), 16, 1)
        self.check(changed(ROW_POINT, 13, 1), 16, 1)

    def test_17(self):
        # FRC 2 and 4 in the first P; FOW; sector and lowest class in Q; D; FRC and FOW in the last P; sector in R.
        for position, byte in ((FIRST_P, 0x53), (FIRST_P, 0x63), (FIRST_P, 0x5A), (Q, 0x69), (Q, 0x48), (D, 0), (D, 2), (LAST_P, 0x93), (LAST_P, 0x9A),
                               (R, 0x59)):
            self.check(changed(ROW_POINT, position, byte), 17, 0)

    def test_19(self):
        # Byte 0 is given by no offset up to a length of 512: 256 x 1 / 512 is a half, and 256 x 1 / 513 is 0.499. Byte 255 is given by none up to 170:
        # 256 x 169 / 170 is 254.49 and 256 x 170 / 171 is 254.503. And a line of 1 has no offset but 0.
        # 254.5 x 255 / 256 is 253.5, 254.5 x 256 / 256 is 254.5 and 254.5 x 512 / 256 is 509. 256 x 1 / 100 is 2.56, which gives 3.
        for length, byte, span in ((256, 0, None), (257, 0, None), (512, 0, None), (513, 0, (1, 1)), (170, 255, None), (171, 255, (170, 170)),
                                   (255, 255, (254, 254)), (256, 255, (255, 255)), (512, 255, (509, 511)), (1, 0, None), (1, 255, None), (100, 1, None)):
            map_bytes = map_to_bytes(row_map((0, 1, length)))
            reference = bytes.fromhex("2B 000000 000000 1B 68 00 03E8 0000 1B 58") + bytes([byte])
            expected = Refused(19) if span is None else PointRead((0,), span, 0, 0)
            self.assertEqual(read_point(map_bytes, reference, WORK, 1), expected, (length, byte))

    def test_20(self):
        self.check(ROW_POINT, 20, line_room=0)

    def test_known_damages(self):
        rng = random.Random("point damages")
        for turn in range(3 * len(SMALL_SAMPLES)):
            _, given = point_that_is_read(rng, turn)
            self.assertIsInstance(point_read_outcome(given), PointRead)
            for damage in point_along_line_damages(read_map(given.map_bytes), given.reference):
                outcome = read_point(given.map_bytes, damage.reference, WORK, 64)
                self.assertEqual(outcome, Refused(damage.refusal, damage.place), damage.label)


class OrderOfRefusals(unittest.TestCase):
    # The last line ends with its step back north, FA 01; then comes the count of bans. 506 is FA 03.
    MAP_FAULTS = {2: lambda map_bytes: map_bytes + b"\x00", 24: lambda map_bytes: changed(map_bytes, len(ROW_BYTES) - 2, 3)}
    POINT_FAULTS = {12: lambda data: data + b"\x00", 13: lambda data: changed(data, STATUS, 0x0B), 14: lambda data: changed(data, R, data[R] | 0x20),
                    15: lambda data: changed(data, R, data[R] ^ 0x40), 16: lambda data: changed(data, 13, 1), 17: lambda data: changed(data, D, 9),
                    19: lambda data: changed(data, OFFSET, 1)}
    LINE, OFFSET_GIVEN = 1, 50

    def map_with(self, faults):
        map_bytes = map_to_bytes(replace(ROW, bans=((0, 0),) if 23 in faults else ()))
        for number in faults:
            map_bytes = self.MAP_FAULTS.get(number, lambda data: data)(map_bytes)
        return map_bytes

    def test_reader(self):
        # On line 1, 100 long, byte 1 is given by no offset: 256 x 1 / 100 is 2.56.
        good = bytes_of_point(ROW, (self.LINE,), self.OFFSET_GIVEN, 1, 2)
        for pair in itertools.combinations((1, 24, 2, 23, 12, 13, 14, 15, 16, 17, 19, 20), 2):
            reference = good
            for number in pair:
                reference = self.POINT_FAULTS.get(number, lambda data: data)(reference)
            outcome = read_point(self.map_with(pair), reference, WORK - (1 in pair), 1 - (20 in pair))
            self.assertEqual(outcome.number, pair[0], pair)

    def test_writer(self):
        # 10: lines 2 and 3 are equal, so that line 3 cannot be told.
        twins = replace(ROW, lines=ROW.lines + (ROW.lines[1], ROW.lines[1]))
        for faults in itertools.chain.from_iterable(itertools.combinations((1, 2, 23, 7, 9, 25, 10, 11), size) for size in (1, 2, 3)):
            depot_map = replace(twins, bans=((0, 0),)) if 23 in faults else twins
            map_bytes = map_to_bytes(depot_map) + b"\x00" * (2 in faults)
            line = 4 if 7 in faults else 3 if 10 in faults else 0
            offset = LARGEST if 9 in faults else 50
            for orientation, side in ((4, 0), (0, 4), (LARGEST, LARGEST)) if 25 in faults else ((3, 3),):
                outcome = write_point(map_bytes, line, offset, orientation, side, WORK - (1 in faults), 16 if 11 in faults else 17)
                self.assertEqual(outcome, Refused(faults[0]), faults)

    def test_25_stands_right_after_9(self):
        for marks in ((4, 0), (0, 4), (4, 4), (LARGEST, 0), (0, LARGEST), (256, 0), (0, 256)):
            self.assertEqual(write_point(ROW_BYTES, 0, 9_999, *marks, WORK, 17), Refused(25))
            self.assertEqual(write_point(ROW_BYTES, 0, 10_000, *marks, WORK, 17), Refused(9))
            self.assertEqual(write_point(ROW_BYTES, 2, 0, *marks, WORK, 17), Refused(7))
            self.assertEqual(write_point(ROW_BYTES, 0, 0, *marks, WORK, 0), Refused(25))
        self.assertIsInstance(write_point(ROW_BYTES, 0, 9_999, 3, 3, WORK, 17), PointWritten)

    def test_11_by_the_length_that_the_offset_asks_for(self):
        for offset, length in ((0, 16), (1, 17)):
            self.assertEqual(write_point(ROW_BYTES, 0, offset, 0, 0, WORK, length - 1), Refused(11))
            self.assertIsInstance(write_point(ROW_BYTES, 0, offset, 0, 0, WORK, length), PointWritten)


def written_and_read(given):
    """What is written, and what reading it with room for one line gives; None where the writer refuses."""
    written = write_point(given.map_bytes, given.line, given.offset, given.orientation, given.side, WORK, 17)
    return written, read_point(given.map_bytes, written.reference, WORK, 1) if isinstance(written, PointWritten) else None


class ReadBack(unittest.TestCase):
    def check(self, given):
        """True if the writer accepts. Then that one line is read, orientation and side, and the offset lies in the span."""
        written, outcome = written_and_read(given)
        if outcome is None:
            return False
        self.assertIsInstance(outcome, PointRead)
        self.assertEqual((outcome.lines, outcome.orientation, outcome.side), ((given.line,), given.orientation, given.side))
        least, greatest = outcome.span
        self.assertTrue(least <= given.offset <= greatest < read_map(given.map_bytes).lines[given.line].length)
        self.assertEqual((given.offset == 0, len(written.reference)), ((0, 0) == outcome.span, 16 + (given.offset > 0)))
        return True

    def test_samples(self):
        rng = random.Random("points read back")
        samples = [any_sample(rng, turn) for turn in range(30 * len(SMALL_SAMPLES))]
        accepted = sum(self.check(point_on(rng, sample.depot_map)) for sample in samples for _ in range(3))
        self.assertGreater(accepted, 400)

    def test_full_size_maps(self):
        rng = random.Random("points on full-size maps")
        samples = [make_sample(rng) for make_sample in [full_sample] * 3 + [dense_sample]]
        self.assertGreater(sum(self.check(point_on(rng, sample.depot_map)) for sample in samples for _ in range(12)), 20)

    def test_every_offset_of_a_line(self):
        for length in (1, 2, 170, 171, 255, 256, 257, 511, 512, 513, 514, 1_000, 5_861):
            depot_map = row_map((0, 1, length))
            given = point_on(random.Random(length), depot_map)
            self.assertTrue(all(self.check(replace(given, offset=offset)) for offset in range(length)))


class Rounding(unittest.TestCase):
    """Paper 02, "Offsets to the nearest", for points."""

    def bytes_by_offset(self, length):
        """What is written for each offset of a line that is not 0."""
        map_bytes = map_to_bytes(row_map((0, 1, length)))
        return {offset: write_point(map_bytes, 0, offset, 0, 0, WORK, 17).reference for offset in range(1, length)}

    def test_nearest_exact_half_upwards_and_255_for_256(self):
        # 256 x offset / 512 is half of the offset: 0.5, 1, 1.5, 2, and 254, 254.5, 255, 255.5.
        written = self.bytes_by_offset(512)
        self.assertEqual([written[offset][OFFSET] for offset in (1, 2, 3, 4, 508, 509, 510, 511)], [1, 1, 2, 2, 254, 255, 255, 255])

    def test_flag_where_the_byte_is_0(self):
        # 256 x 1 / 1000 is 0.256 and 256 x 2 / 1000 is 0.512. R has the flag and sector 24.
        written = self.bytes_by_offset(1000)
        self.assertEqual([written[offset][R:] for offset in (1, 2)], [b"\x58\x00", b"\x58\x01"])

    def test_points_with_equal_bytes_are_less_than_three_512ths_apart(self):
        for length in (2, 171, 512, 513, 1000):
            offsets = {}
            for offset, reference in self.bytes_by_offset(length).items():
                offsets.setdefault(reference, []).append(offset)
            map_bytes = map_to_bytes(row_map((0, 1, length)))
            for reference, equal in offsets.items():
                self.assertLess(512 * (equal[-1] - equal[0]), 3 * length)
                self.assertEqual(read_point(map_bytes, reference, WORK, 1).span, (equal[0], equal[-1]))


class ByTheDefinition(unittest.TestCase):
    def test_tiny_maps(self):
        # A line is written where all readings of its leg, enumerated, are that line alone; and a point is read where there is one reading.
        rng = random.Random("points on tiny maps")
        found = {number: 0 for number in ("written", 10, "several lines", 17, 18)}
        for _ in range(1_200):
            depot_map = random_tiny_map(rng, 4, 7)
            map_bytes = map_to_bytes(depot_map)
            line = rng.randrange(len(depot_map.lines))
            readings = readings_by_enumeration(depot_map, describe_leg(depot_map, (line,), True))
            outcome = write_point(map_bytes, line, 0, 0, 0, WORK, 17)
            self.assertEqual(isinstance(outcome, PointWritten), readings == [(line,)])
            found["written" if readings == [(line,)] else outcome.number] += 1
            self.check_reading(rng, depot_map, map_bytes, found)
        self.assertGreater(min(found.values()), 50, found)

    def check_reading(self, rng, depot_map, map_bytes, found):
        """A point from any line to any line, with the lowest class of the two and, as D, that of both together."""
        lines = tuple(rng.randrange(len(depot_map.lines)) for _ in range(2))
        if not legs_can_be_written(depot_map, [lines]):
            return
        reference = bytes_of_point(depot_map, lines, 0, rng.randrange(4), rng.randrange(4))
        parts = take_point_along_line(reference)
        leg, = legs_of(parts, point_nodes(depot_map, parts))
        readings = readings_by_enumeration(depot_map, leg)
        outcome = read_point(map_bytes, reference, WORK, 9)
        if len(readings) == 1:
            self.assertEqual(outcome, PointRead(readings[0], (0, 0), parts.points[0].top_bits, parts.points[1].top_bits))
            found["several lines"] += len(readings[0]) > 1
        else:
            self.assertEqual(outcome, Refused(18 if readings else 17, 0))
            found[outcome.number] += 1


if __name__ == "__main__":
    unittest.main()
