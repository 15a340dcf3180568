"""Refusals 1 to 6, 24 and 12 to 20 of the reader by hand-made cases, the order of all, and what is accepted.

Refusals 22 and 23 are in test_bans.py, and more of 24 is in test_steps.py.
"""

import itertools
import random
import unittest
from dataclasses import replace

from damages import reference_damages
from depot_map import DepotMap, Line, Node, map_numbers, map_to_bytes, numbers_to_bytes, read_map
from drawn_steps import EASTWARD, WESTWARD
from outcome import Refused, StretchRead
from read_recipes import read_outcome, written_input
from reader import read
from sample_maps import SMALL_SAMPLES
from test_scope_paper import RIDGE, THREE_POINTS, TWO_POINTS, WORK, row_map

ROW = row_map((0, 1, 100), (1, 2, 10_000))
ROW_BYTES = map_to_bytes(ROW)
# Legs of 100 and 10,000 with the positive offset 50 and the negative offset 5,000, both of byte 80.
ROW_REFERENCE = bytes.fromhex("0B 000000 000000 1B 68 00 03E8 0000 1B 68 01 03E8 0000 1B 78 80 80")
STATUS, FIRST_P, FIRST_D, LAST_P, LAST_R, POSITIVE = 0, 7, 9, 21, 22, 23


def changed(reference, position, byte):
    return reference[:position] + bytes([byte]) + reference[position + 1:]


class EachRefusal(unittest.TestCase):
    def check(self, reference, *refusal, map_bytes=ROW_BYTES, work_length=WORK, line_room=2):
        self.assertEqual(read(map_bytes, reference, work_length, line_room), Refused(*refusal))

    def test_good_reference_is_read(self):
        # Byte 128 on 100: 127.5 x 100 / 256 is 49.8 and 128.5 x 100 / 256 is 50.2. On 10,000 it is 4,980.5 and 5,019.5.
        self.assertEqual(read(ROW_BYTES, ROW_REFERENCE, WORK, 2), StretchRead((0, 1), (50, 50), (4_981, 5_019)))

    def test_1(self):
        for work_length in (0, 14_335):
            self.check(ROW_REFERENCE, 1, work_length=work_length)

    def test_2_to_6_and_24(self):
        numbers = map_numbers(ROW)
        self.check(ROW_REFERENCE, 2, map_bytes=ROW_BYTES[:-1])
        last_step = len(numbers) - 2
        last_form = last_step - 4
        for index, value, refusal in ((0, 1, 3), (6, 18_000_001, 4), (last_form, 8, 5), (last_step, 501, 24), (3, 18_000_001, 6)):
            self.check(ROW_REFERENCE, refusal,
                       map_bytes=numbers_to_bytes(numbers[:index] + [value] + numbers[index + 1:]))

    def test_12_lengths(self):
        allowed = {length for length in range(16, 460) if (length - 16) % 7 <= 2}
        self.assertEqual(max(allowed), 459)
        self.assertEqual(len(allowed), 64 * 3)
        for length in range(500):
            outcome = read(ROW_BYTES, bytes(length), WORK, 2)
            self.assertEqual(outcome, Refused(13 if length in allowed else 12), length)

    def test_13(self):
        for status in range(256):
            if status != 0x0B:
                self.check(changed(ROW_REFERENCE, STATUS, status), 13)

    def test_14(self):
        for position in (FIRST_P, 14, LAST_P):
            for bit in (0x40, 0x80, 0xC0):
                self.check(changed(ROW_REFERENCE, position, 0x1B | bit), 14)
        self.check(changed(ROW_REFERENCE, LAST_R, 0xF8), 14)

    def test_15(self):
        for r_byte, flag_count in ((0x18, 0), (0x38, 1), (0x58, 1), (0x78, 2)):
            for offset_byte_count in {0, 1, 2} - {flag_count}:
                self.check(changed(ROW_REFERENCE, LAST_R, r_byte)[:23 + offset_byte_count], 15)

    def test_16(self):
        self.check(changed(ROW_REFERENCE, 3, 1), 16, 0)
        self.check(changed(ROW_REFERENCE, 11, 0), 16, 1)
        self.check(changed(ROW_REFERENCE, 20, 1), 16, 2)

    def test_16_needs_the_exact_node_of_a_difference(self):
        # The first point is found by codes, and 1000 and 999 have the same code; a later point is exact.
        self.check(changed(ROW_REFERENCE, 11, 0xE7), 16, 1)

    def test_17(self):
        self.check(changed(ROW_REFERENCE, FIRST_D, 1), 17, 0)
        self.check(changed(ROW_REFERENCE, 8, 0x69), 17, 0)
        self.check(changed(ROW_REFERENCE, 8, 0x48), 17, 0)
        self.check(changed(ROW_REFERENCE, FIRST_P, 0x1A), 17, 0)
        self.check(changed(ROW_REFERENCE, 16, 0), 17, 1)
        self.check(changed(ROW_REFERENCE, LAST_P, 0x23), 17, 1)
        self.check(changed(ROW_REFERENCE, LAST_P, 0x1A), 17, 1)
        self.check(changed(ROW_REFERENCE, LAST_R, 0x79), 17, 1)

    def test_18(self):
        self.check(TWO_POINTS, 18, 0, map_bytes=RIDGE)

    def test_19_for_either_offset(self):
        # On 100, offset 1 gives 2.56, and so 3, and offset 99 gives 253.44, and so 253: neither byte 1 nor 255 is given.
        self.check(changed(ROW_REFERENCE, POSITIVE, 1), 19)
        backwards = map_to_bytes(row_map((0, 1, 10_000), (1, 2, 100)))
        reference = bytes.fromhex("0B 000000 000000 1B 68 01 03E8 0000 1B 68 00 03E8 0000 1B 78 80 01")
        self.check(reference, 19, map_bytes=backwards)
        self.check(changed(reference, 24, 0xFF), 19, map_bytes=backwards)

    def test_19_when_the_least_offsets_reach_the_total(self):
        # One leg of 10: byte 80 means 5, and 256 x 4 / 10 is 102.4; 102 is 66 in hexadecimal.
        map_bytes = map_to_bytes(row_map((0, 1, 10)))
        reference = bytes.fromhex("0B 000000 000000 1B 68 00 03E8 0000 1B 78 80 80")
        self.check(reference, 19, map_bytes=map_bytes)
        outcome = read(map_bytes, changed(reference, 17, 0x66), WORK, 1)
        self.assertEqual(outcome, StretchRead((0,), (5, 5), (4, 4)))

    def test_19_by_the_least_offsets_of_the_nearest(self):
        # One leg of 1000. Byte 80 starts at 499, and twice that is below 1000. 128.5 x 1000 / 256 is 501.95 and 129.5 x 1000 / 256 is 505.9, so that byte 81
        # starts at 502, and 499 + 502 is not. 126.5 x 1000 / 256 is 494.1, where byte 7F starts: 495 + 502 is below 1000.
        map_bytes = map_to_bytes(row_map((0, 1, 1000)))
        start = bytes.fromhex("0B 000000 000000 1B 68 00 03E8 0000 1B 78")
        self.assertEqual(read(map_bytes, start + b"\x80\x80", WORK, 1), StretchRead((0,), (499, 501), (499, 501)))
        self.check(start + b"\x80\x81", 19, map_bytes=map_bytes)
        self.check(start + b"\x81\x80", 19, map_bytes=map_bytes)
        self.assertEqual(read(map_bytes, start + b"\x7F\x81", WORK, 1), StretchRead((0,), (495, 498), (502, 505)))

    def test_19_on_a_leg_of_length_1(self):
        map_bytes = map_to_bytes(row_map((0, 1, 1)))
        for byte in (0, 1, 128, 255):
            self.check(bytes.fromhex("0B 000000 000000 1B 68 00 03E8 0000 1B 58") + bytes([byte]), 19,
                       map_bytes=map_bytes)

    def test_19_for_bytes_0_and_255_at_their_edges(self):
        # 256 x 1 / 512 is a half, which gives 1, and 256 x 1 / 513 is 0.499. 256 x 169 / 170 is 254.49 and 256 x 170 / 171 is 254.503.
        # 254.5 x 256 / 256 is 254.5, and 254.5 x 512 / 256 is 509: from there to the last offset all give 255, also the last, 255.5.
        for length, byte, span in ((257, 0, None), (512, 0, None), (513, 0, (1, 1)), (170, 255, None), (171, 255, (170, 170)), (256, 255, (255, 255)),
                                   (512, 255, (509, 511))):
            map_bytes = map_to_bytes(row_map((0, 1, length)))
            for r_byte in (0x58, 0x38):
                reference = bytes.fromhex("0B 000000 000000 1B 68 00 03E8 0000 1B") + bytes([r_byte, byte])
                spans = (span, (0, 0)) if r_byte == 0x58 else ((0, 0), span)
                expected = Refused(19) if span is None else StretchRead((0,), *spans)
                self.assertEqual(read(map_bytes, reference, WORK, 1), expected, (length, byte))

    def test_20(self):
        for room in (0, 1):
            self.check(ROW_REFERENCE, 20, line_room=room)


class OrderOfRefusals(unittest.TestCase):
    # Faults that can be put in independently. The upper one in the order must be given.
    ORDER = (1, 2, 3, 5, 24, 23, 12, 13, 14, 15, 16, 17, 22, 19, 20)
    # Line 1 ends with FOW 03, steps out C203 FA01 and steps back 32 FA01. Then comes the count of bans. 506 is FA 03.
    LAST_FORM, LAST_STEP = len(ROW_BYTES) - 9, len(ROW_BYTES) - 3
    MAP_FAULTS = {2: lambda map_bytes: map_bytes + b"\x00", 3: lambda map_bytes: changed(map_bytes, 0, 1),
                  5: lambda map_bytes: changed(map_bytes, OrderOfRefusals.LAST_FORM, 8),
                  24: lambda map_bytes: changed(map_bytes, OrderOfRefusals.LAST_STEP + 1, 3)}
    # The joint of the two legs, and a line and itself.
    BAN_FAULTS = {22: (0, 1), 23: (0, 0)}
    REFERENCE_FAULTS = {12: lambda data: data + b"\x00", 13: lambda data: changed(data, STATUS, 0x0A),
                        14: lambda data: changed(data, FIRST_P, 0x9B),
                        15: lambda data: changed(data, LAST_R, data[LAST_R] ^ 0x20),
                        16: lambda data: changed(data, 20, 1), 17: lambda data: changed(data, FIRST_D, 9),
                        19: lambda data: changed(data, POSITIVE, 1)}

    def outcome(self, faults):
        map_bytes = map_to_bytes(replace(ROW, bans=tuple(self.BAN_FAULTS[number] for number in faults if number in self.BAN_FAULTS)))
        reference = ROW_REFERENCE
        for number in faults:
            map_bytes = self.MAP_FAULTS.get(number, lambda data: data)(map_bytes)
            reference = self.REFERENCE_FAULTS.get(number, lambda data: data)(reference)
        return read(map_bytes, reference, WORK - (1 in faults), 2 - (20 in faults))

    def test_upper_row_of_two(self):
        self.assertEqual(set(self.ORDER), {1, *self.MAP_FAULTS, *self.BAN_FAULTS, *self.REFERENCE_FAULTS, 20})
        for pair in itertools.combinations(self.ORDER, 2):
            if pair in ((2, 3), (2, 5), (2, 24)):
                continue  # Among 2 to 5 and 24 the first faulty number decides; left-over bytes come last.
            self.assertEqual(self.outcome(pair).number, pair[0], pair)

    def test_left_over_bytes_come_after_other_faults_of_the_map(self):
        self.assertEqual(self.outcome((2, 3)), Refused(3))
        self.assertEqual(self.outcome((2, 5)), Refused(5))
        self.assertEqual(self.outcome((2, 24)), Refused(24))

    def test_all_points_before_all_legs(self):
        self.assertEqual(self.outcome((16, 17)), Refused(16, 2))

    def test_first_leg_without_exactly_one_reading_decides(self):
        # The ridge twice, joined: the first leg ties, the second has no reading, and the other way around.
        nodes = tuple(Node(1000 * number, 500 * (number % 3 == 2)) for number in range(7))
        ridge = ((0, 1, 100), (1, 3, 200), (1, 2, 100), (2, 3, 100))
        lines = tuple(Line(start + shift, end + shift, length, 3, 3, EASTWARD, WESTWARD)
                      for shift in (0, 3) for start, end, length in ridge)
        map_bytes = map_to_bytes(DepotMap(nodes, lines))
        tie_then_none = bytes.fromhex("0B 000000 000000 1B 68 00 0BB8 0000 1B 68 07 0BB8 0000 1B 18")
        none_then_tie = bytes.fromhex("0B 000000 000000 1B 68 07 0BB8 0000 1B 68 00 0BB8 0000 1B 18")
        self.assertEqual(read(map_bytes, tie_then_none, WORK, 64), Refused(18, 0))
        self.assertEqual(read(map_bytes, none_then_tie, WORK, 64), Refused(17, 0))


class Accepted(unittest.TestCase):
    def test_reference_that_the_writer_would_not_write(self):
        # A point more than needed, in the middle of a row without any other way.
        map_bytes = map_to_bytes(row_map((0, 1, 10_000), (1, 2, 10_000)))
        self.assertEqual(read(map_bytes, THREE_POINTS, WORK, 2), StretchRead((0, 1), (0, 0), (0, 0)))
        self.assertEqual(read(map_bytes, TWO_POINTS, WORK, 2), StretchRead((0, 1), (0, 0), (0, 0)))

    def test_lowest_class_may_be_higher_than_needed(self):
        map_bytes = map_to_bytes(row_map((0, 1, 10_000)))
        reference = bytes.fromhex("0B 000000 000000 1B E8 01 03E8 0000 1B 18")
        self.assertEqual(read(map_bytes, reference, WORK, 1), StretchRead((0,), (0, 0), (0, 0)))

    def test_leg_from_a_node_to_itself(self):
        map_bytes = map_to_bytes(row_map((0, 1, 3_000), (1, 0, 3_000)))
        reference = bytes.fromhex("0B 000000 000000 1B 68 01 0000 0000 1B 18")
        self.assertEqual(read(map_bytes, reference, WORK, 2), StretchRead((0, 1), (0, 0), (0, 0)))

    def test_leg_of_1_500_000_and_one_more(self):
        # Both give D 255, but only the first may be a reading.
        reference = bytes.fromhex("0B 000000 000000 1B 68 FF 07D0 0000 1B 18")
        for second, outcome in ((750_000, StretchRead((0, 1), (0, 0), (0, 0))), (750_001, Refused(17, 0))):
            map_bytes = map_to_bytes(row_map((0, 1, 750_000), (1, 2, second)))
            self.assertEqual(read(map_bytes, reference, WORK, 2), outcome)

    def test_first_codes_may_be_of_another_coordinate(self):
        # Nodes at 2 and 3 have the code 1; the node at 3 is found, and the next is 3 plus the difference.
        depot_map = DepotMap((Node(3, 0), Node(1003, 0)), (Line(0, 1, 10_000, 3, 3, EASTWARD, WESTWARD),))
        reference = bytes.fromhex("0B 000001 000000 1B 68 01 03E8 0000 1B 18")
        self.assertEqual(read(map_to_bytes(depot_map), reference, WORK, 1), StretchRead((0,), (0, 0), (0, 0)))

    def test_known_damages_of_written_references(self):
        rng = random.Random("reference damages")
        for turn in range(3 * len(SMALL_SAMPLES)):
            _, given = written_input(rng, turn)
            self.assertIsInstance(read_outcome(given), StretchRead)
            for damage in reference_damages(read_map(given.map_bytes), given.reference):
                outcome = read(given.map_bytes, damage.reference, WORK, 64)
                self.assertEqual(outcome, Refused(damage.refusal, damage.place), damage.label)


if __name__ == "__main__":
    unittest.main()
