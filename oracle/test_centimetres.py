"""Paper 02, "Centimetres", sentence by sentence: lines, legs, D, offsets and spans, the ridge tenfold, and what stays as it was.

The hydrant on the ridge is in test_points.py; bytes and spans on legs of every kind are in test_fields.py.
"""

import random
import unittest
from contextlib import ExitStack
from dataclasses import replace
from unittest import mock

from depot_map import DepotMap, map_to_bytes, read_map
from legs import list_length
from outcome import Refused, StretchRead, StretchWritten
from read_recipes import composed_from
from reader import read
from sample_maps import SMALL_SAMPLES, with_bans
from test_depot_map import NO_BANS, TWO_NODES, refusal_of_hex
from test_scope_paper import RIDGE, RIDGE_LINES, RIDGE_NODES, THREE_POINTS, THREE_POINTS_HALF_WAY, TWO_POINTS, WORK, all_tested, row_map
from write_recipes import edge_offsets
from writer import write

LARGEST = 4_294_967_295
D_POSITION = 9
# The scope paper's lengths of the ridge, in decimetres, and 1,000 and 500 as a map's numbers: 7 x 128 + 104 and 3 x 128 + 116.
RIDGE_IN_DECIMETRES = (1_000, 1_000, 500, 500)
DECIMETRE_NUMBERS = "E807", "F403"
# 10,000 and 5,000: 78 x 128 + 16 and 39 x 128 + 8.
CENTIMETRE_NUMBERS = "904E", "8827"


def with_lengths(depot_map, lengths):
    return replace(depot_map, lines=tuple(replace(line, length=length) for line, length in zip(depot_map.lines, lengths)))


def tenfold(depot_map):
    return with_lengths(depot_map, [10 * line.length for line in depot_map.lines])


def in_decimetres():
    """The implementation as it was: lines and legs up to 150,000, and D in steps of 586."""
    stack = ExitStack()
    for name, number in (("fields.DISTANCE_STEP", 586), ("legs.LONGEST_LEG", 150_000), ("writer.LONGEST_LEG", 150_000), ("depot_map.LONGEST_LINE", 150_000)):
        stack.enter_context(mock.patch(name, number))
    return stack


class Lines(unittest.TestCase):
    def test_a_line_is_1_to_1_500_000(self):
        # 1,499,999 is DF C6 5B, 1,500,000 is E0 C6 5B and 1,500,001 is E1 C6 5B: 91 x 16,384 + 70 x 128 + 96 is 1,500,000. 150,001, F1 93 09, was too long.
        for length, refusal in (("00", 5), ("01", None), ("F19309", None), ("DFC65B", None), ("E0C65B", None), ("E1C65B", 5), ("FFFFFFFF0F", 5)):
            self.assertEqual(refusal_of_hex(f"{TWO_NODES} 01 00 01 {length} 03 03 C203 FA01 32 FA01 {NO_BANS}"), refusal, length)

    def test_steps_stay_in_decimetres(self):
        # 500 is F4 03 and 501 is F5 03: 250 and 251.
        for step, refusal in (("F403", None), ("F503", 24)):
            self.assertEqual(refusal_of_hex(f"{TWO_NODES} 01 00 01 E0C65B 03 03 {step} FA01 32 FA01 {NO_BANS}"), refusal, step)


class Legs(unittest.TestCase):
    def test_d_of_the_marked_cases(self):
        # And on both sides of the edges: 11,720 is twice 5,860, and 1,494,300 is 255 times that.
        for length, byte in ((5_850, 0), (5_860, 1), (1_500_000, 255), (1, 0), (5_859, 0), (5_861, 1), (11_719, 1), (11_720, 2), (1_494_299, 254),
                             (1_494_300, 255), (1_499_999, 255)):
            map_bytes = map_to_bytes(row_map((0, 1, length)))
            written = write(map_bytes, [0], 0, 0, WORK, 16).reference
            self.assertEqual(written[D_POSITION], byte, length)
            self.assertEqual(read(map_bytes, written, WORK, 1), StretchRead((0,), (0, 0), (0, 0)))

    def test_leg_limit(self):
        # Two lines in one leg, up to the limit; past it each has its own. 1,499,999 and 1 are 1,500,000.
        for first, second, points in ((1_499_998, 1, 2), (1_499_999, 1, 2), (1_500_000, 1, 3), (750_000, 750_000, 2), (750_001, 750_000, 3)):
            map_bytes = map_to_bytes(row_map((0, 1, first), (1, 2, second)))
            self.assertEqual(len(write(map_bytes, [0, 1], 0, 0, WORK, 459).reference), 16 + 7 * (points - 2), (first, second))
            one_leg = bytes.fromhex("0B 000000 000000 1B 68 FF 07D0 0000 1B 18")
            expected = StretchRead((0, 1), (0, 0), (0, 0)) if points == 2 else Refused(17, 0)
            self.assertEqual(read(map_bytes, one_leg, WORK, 2), expected, (first, second))

    def test_a_centimetre_decides(self):
        # After line 0 a line of 10,001 and a way of two lines. As long as the line it is a tie, and one centimetre shorter or longer it is not.
        for last, lines in ((3_000, (0, 2, 3)), (3_001, None), (3_002, (0, 1))):
            depot_map = row_map((0, 1, 10), (1, 3, 10_001), (1, 2, 7_000), (2, 3, last), (3, 4, 10))
            reference = bytes.fromhex("0B 000000 000000 1B 68 01 0FA0 0000 1B 18")
            expected = Refused(18, 0) if lines is None else StretchRead(lines + (4,), (0, 0), (0, 0))
            self.assertEqual(read(map_to_bytes(depot_map), reference, WORK, 9), expected, last)


class Offsets(unittest.TestCase):
    def test_one_centimetre_at_the_start_and_at_the_end(self):
        # 256 x 1 / 10,000 is 0.03, and so both bytes are 0, and flagged. 0.5 x 10,000 / 256 is 19.5: they mean 1 to 19.
        written = THREE_POINTS[:-1] + bytes.fromhex("78 00 00")
        self.assertEqual(write(RIDGE, [0, 1], 1, 1, WORK, 25), all_tested(written, 2))
        self.assertEqual(read(RIDGE, written, WORK, 2), StretchRead((0, 1), (1, 19), (1, 19)))

    def test_all_but_one_centimetre_of_a_line(self):
        # 256 x 9,999 / 10,000 is 255.97, nearest to 256, and so 255 is written. 254.5 x 10,000 / 256 is 9,941.4.
        written = THREE_POINTS[:-1] + bytes.fromhex("78 FF FF")
        self.assertEqual(write(RIDGE, [0, 1], 9_999, 9_999, WORK, 25), all_tested(written, 2))
        self.assertEqual(read(RIDGE, written, WORK, 2), StretchRead((0, 1), (9_942, 9_999), (9_942, 9_999)))
        # With 10,000 the line is dropped. Node 1 at 1000 has the code 466, 0001D2.
        self.assertEqual(write(RIDGE, [0, 1], 10_000, 0, WORK, 16), all_tested(bytes.fromhex("0B 0001D2 000000 1B 68 01 03E8 0000 1B 18"), 1))

    def test_offsets_where_the_byte_changes(self):
        # 19.53 and 58.59 are half a 256th of 10,000 and three halves.
        written = [write(RIDGE, [0, 1], offset, 0, WORK, 24).reference[-1] for offset in (19, 20, 58, 59)]
        self.assertEqual(written, [0, 1, 1, 2])

    def test_longest_leg(self):
        # 256 x 2,929 / 1,500,000 is 0.4999 and 256 x 2,930 / 1,500,000 is 0.50005. 254.5 x 1,500,000 / 256 is 1,491,210.9.
        map_bytes = map_to_bytes(row_map((0, 1, 1_500_000)))
        start = bytes.fromhex("0B 000000 000000 1B 68 FF 03E8 0000 1B")
        for pos, neg, end, spans in ((2_929, 0, "58 00", ((1, 2_929), (0, 0))), (2_930, 0, "58 01", ((2_930, 8_789), (0, 0))),
                                     (0, 1_491_210, "38 FE", ((0, 0), (1_485_352, 1_491_210))), (0, 1_491_211, "38 FF", ((0, 0), (1_491_211, 1_499_999))),
                                     (1_499_998, 1, "78 FF 00", ((1_491_211, 1_499_999), (1, 2_929)))):
            # 1.5 x 1,500,000 / 256 is 8,789.1 and 253.5 x 1,500,000 / 256 is 1,485,351.6.
            self.assertEqual(write(map_bytes, [0], pos, neg, WORK, 18), all_tested(start + bytes.fromhex(end), 1))
            self.assertEqual(read(map_bytes, start + bytes.fromhex(end), WORK, 1), StretchRead((0,), *spans))
        self.assertEqual(write(map_bytes, [0], 1_499_999, 1, WORK, 18), Refused(9))

    def test_sums_over_the_longest_stretch(self):
        # 64 lines of 1,500,000 are 96,000,000 together. What is left below is one line with 1,499,999 covered: 255.9998 256ths, written as 255.
        depot_map = row_map(*((number, number + 1, 1_500_000) for number in range(64)))
        map_bytes = map_to_bytes(depot_map)
        self.assertEqual(list_length(depot_map, range(64)), 96_000_000)
        for pos, neg, r_byte in ((95_999_999, 0, 0x58), (0, 95_999_999, 0x38), (48_000_000, 47_999_999, 0x38), (47_999_999, 48_000_000, 0x58)):
            written = write(map_bytes, range(64), pos, neg, WORK, 17).reference
            self.assertEqual((len(written), written[15:]), (17, bytes([r_byte, 255])), (pos, neg))
        for pos, neg in ((96_000_000, 0), (0, 96_000_000), (48_000_000, 48_000_000), (LARGEST, 1), (1, LARGEST), (2 ** 31, 2 ** 31), (LARGEST, LARGEST),
                         (LARGEST, 95_999_999)):
            # The last of these sums need 33 bits. In 32 bits they would be 0, or another number below the total.
            self.assertEqual(write(map_bytes, range(64), pos, neg, WORK, 459), Refused(9), (pos, neg))

    def test_both_offsets_on_the_longest_reading(self):
        # 64 legs of 1,500,000: D is 255 on each.
        map_bytes = map_to_bytes(row_map(*((number, number + 1, 1_500_000) for number in range(64))))
        written = write(map_bytes, range(64), 1_499_999, 1, WORK, 459).reference
        self.assertEqual((len(written), written[-3:]), (459, bytes.fromhex("78 FF 00")))
        self.assertEqual(read(map_bytes, written, WORK, 64), StretchRead(tuple(range(64)), (1_491_211, 1_499_999), (1, 2_929)))


class RidgeTenfold(unittest.TestCase):
    """The ridge as the scope paper has it, in decimetres, and with lengths and offset tenfold."""

    def setUp(self):
        self.before = with_lengths(DepotMap(RIDGE_NODES, RIDGE_LINES), RIDGE_IN_DECIMETRES)

    def test_lengths_are_the_scope_papers_tenfold(self):
        self.assertEqual(map_to_bytes(tenfold(self.before)), RIDGE)
        text = map_to_bytes(self.before).hex().upper()
        for before, now in zip(DECIMETRE_NUMBERS, CENTIMETRE_NUMBERS):
            # Between an end node below 4 and FRC 3 and FOW 3 stands a length, and nowhere else do these numbers.
            self.assertEqual(text.count(f"{before}0303"), 2)
            text = text.replace(f"{before}0303", f"{now}0303")
        self.assertEqual(text, RIDGE.hex().upper())

    def test_it_keeps_its_bytes(self):
        # The scope paper's own: "With positive offset 500 the last two bytes are 58 80."
        three_points = bytes.fromhex("0B 000000 000000 1B 68 01 03E8 0000 1B 68 01 03E8 0000 1B 18")
        half_way = three_points[:-1] + bytes.fromhex("58 80")
        self.assertEqual((THREE_POINTS, THREE_POINTS_HALF_WAY), (three_points, half_way))
        with in_decimetres():
            self.assertEqual(write(map_to_bytes(self.before), [0, 1], 0, 0, WORK, 23), all_tested(three_points, 2))
            self.assertEqual(write(map_to_bytes(self.before), [0, 1], 500, 0, WORK, 24), all_tested(half_way, 2))
        self.assertEqual(write(RIDGE, [0, 1], 0, 0, WORK, 23), all_tested(three_points, 2))
        self.assertEqual(write(RIDGE, [0, 1], 5_000, 0, WORK, 24), all_tested(half_way, 2))

    def test_its_span_is_worked_out_afresh(self):
        # It was 499 to 501. Tenfold it would be 4,990 to 5,010, but centimetres reach further to both sides: 127.5 x 10,000 / 256 is 4,980.47 and
        # 128.5 x 10,000 / 256 is 5,019.53.
        with in_decimetres():
            self.assertEqual(read(map_to_bytes(self.before), THREE_POINTS_HALF_WAY, WORK, 2), StretchRead((0, 1), (499, 501), (0, 0)))
        self.assertEqual(read(RIDGE, THREE_POINTS_HALF_WAY, WORK, 2), StretchRead((0, 1), (4_981, 5_019), (0, 0)))
        written = [write(RIDGE, [0, 1], offset, 0, WORK, 24).reference[-1] for offset in (4_980, 4_981, 5_019, 5_020)]
        self.assertEqual(written, [127, 128, 128, 129])

    def test_two_points_still_tie(self):
        self.assertEqual(read(RIDGE, TWO_POINTS, WORK, 1_024), Refused(18, 0))

    def test_a_map_in_decimetres_is_read_without_a_complaint(self):
        # Its lines are ten times too short: 1,000 and 2,000 give D 0, and so the bytes from before have no reading, and D is 0 in what is written.
        map_bytes = map_to_bytes(self.before)
        self.assertEqual(read_map(map_bytes), self.before)
        for reference in (THREE_POINTS, THREE_POINTS_HALF_WAY, TWO_POINTS):
            self.assertEqual(read(map_bytes, reference, WORK, 1_024), Refused(17, 0))
        written = bytes.fromhex("0B 000000 000000 1B 68 00 03E8 0000 1B 68 00 03E8 0000 1B 18")
        self.assertEqual(write(map_bytes, [0, 1], 0, 0, WORK, 23), all_tested(written, 2))


class AnyMapTenfold(unittest.TestCase):
    """What holds of the ridge holds of any map whose lengths, and any stretch whose offsets, are taken tenfold."""

    def sample_in_decimetres(self, rng):
        sample = with_bans(rng, rng.choice(SMALL_SAMPLES)(rng), rng.random() < 0.75)
        lengths = [max(1, line.length // 10) for line in sample.depot_map.lines]
        return replace(sample, depot_map=with_lengths(sample.depot_map, lengths))

    def test_writer_answers_what_it_answered(self):
        rng = random.Random("tenfold stretches")
        accepted = refused = 0
        for _ in range(600):
            sample = self.sample_in_decimetres(rng)
            pos, neg = rng.choice([(0, 0), edge_offsets(rng, sample.depot_map, sample.stretch)])
            with in_decimetres():
                before = write(map_to_bytes(sample.depot_map), sample.stretch, pos, neg, WORK, 459)
            self.assertEqual(write(map_to_bytes(tenfold(sample.depot_map)), sample.stretch, 10 * pos, 10 * neg, WORK, 459), before)
            accepted += isinstance(before, StretchWritten)
            refused += isinstance(before, Refused)
        self.assertGreater(min(accepted, refused), 100, (accepted, refused))

    def test_reader_answers_what_it_answered_and_spans_hold_those_from_before(self):
        # Only a 19 can become something else: an offset in centimetres may give a byte that none in decimetres gave.
        rng = random.Random("tenfold readings")
        same, wider, no_longer_19 = 0, 0, 0
        for _ in range(1_500):
            sample = self.sample_in_decimetres(rng)
            with in_decimetres():
                given = composed_from(rng, sample)
                if given is None:
                    continue
                flagged = given.reference[:-1] + bytes([rng.randrange(256)]) if len(given.reference) % 7 == 3 else given.reference
                before = read(given.map_bytes, flagged, WORK, 1_024)
            now = read(map_to_bytes(tenfold(sample.depot_map)), flagged, WORK, 1_024)
            if isinstance(before, StretchRead):
                self.assertEqual(now.lines, before.lines)
                for span, span_before in ((now.positive_span, before.positive_span), (now.negative_span, before.negative_span)):
                    self.assertEqual(span_before == (0, 0), span == (0, 0))
                    self.assertTrue(span[0] <= 10 * span_before[0] <= 10 * span_before[1] <= span[1])
                    wider += span[0] < 10 * span_before[0] and 10 * span_before[1] < span[1]
            elif now != before:
                self.assertEqual(before, Refused(19))
                no_longer_19 += 1
            else:
                same += 1
        self.assertGreater(min(same, wider, no_longer_19), 20, (same, wider, no_longer_19))


if __name__ == "__main__":
    unittest.main()
