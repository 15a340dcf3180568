"""Fields against the worked values of the scope paper ("At the edges") and of paper 02, and against their plain meaning. Sectors are in test_steps.py."""

import random
import unittest
from fractions import Fraction
from math import floor

from depot_map import Node
from fields import (LONGEST_LEG, brought_round, coordinate_code, differences, differences_fit, distance_byte, offset_byte, offset_span,
                    offset_span_by_trying)
from lengths import LONGEST_WITH_HALVES


class CoordinateCodes(unittest.TestCase):
    def test_codes_worked_out_in_the_scope_paper(self):
        worked = {0: 0, 1: 0, -1: 0, 2: 1, 3: 1, 100_000: 46_603, 17_999_998: 8_388_607}
        for coordinate, code in worked.items():
            self.assertEqual(coordinate_code(coordinate), code)

    def test_range_ends_fill_24_bits(self):
        # 18,000,000 x 16,777,216 / 36,000,000 is half of 16,777,216; the added half is cut off again.
        self.assertEqual(coordinate_code(-18_000_000), -8_388_608)
        self.assertEqual(coordinate_code(9_000_000), 4_194_304)
        self.assertEqual(coordinate_code(-9_000_000), -4_194_304)

    def test_negative_coordinates_are_cut_towards_zero(self):
        # -2 x 0.466 - 0.5 is -1.43; a floor would give -2. Likewise -1 gives 0 and a floor would give -1.
        self.assertEqual(coordinate_code(-2), -1)
        self.assertEqual(coordinate_code(-100_000), -46_603)
        self.assertEqual(coordinate_code(-17_999_998), -8_388_607)

    def test_code_is_a_nearest_whole_number_and_symmetric(self):
        rng = random.Random("codes")
        for coordinate in [rng.randrange(-18_000_000, 17_999_999) for _ in range(3_000)]:
            exact = Fraction(coordinate) * 2 ** 24 / 36_000_000
            self.assertLessEqual(abs(coordinate_code(coordinate) - exact), Fraction(1, 2))
            self.assertEqual(coordinate_code(-coordinate), -coordinate_code(coordinate))


class SmallFields(unittest.TestCase):
    def test_distance_byte_worked_out_in_the_scope_paper(self):
        # With tenfold lengths, as paper 02 says. The edge itself is between the first two.
        self.assertEqual([distance_byte(length) for length in (5_850, 5_860, 1_500_000)], [0, 1, 255])
        self.assertEqual(distance_byte(5_859), 0)

    def test_distance_byte_is_an_interval_of_5860(self):
        # Around each edge, and elsewhere.
        edges = [5_860 * byte + step for byte in range(1, 256) for step in (-1, 0, 1)]
        for length in (*edges, *range(1, 1_500_001, 67)):
            byte = distance_byte(length)
            self.assertTrue(5_860 * byte <= length < 5_860 * (byte + 1))
            self.assertLessEqual(byte, 255)

    def test_differences_are_of_coordinates_and_fit_16_bits_at_their_ends(self):
        origin = Node(1, -1)
        self.assertEqual(differences(origin, Node(4, -5)), (3, -4))
        for reach, fits in ((32_767, True), (32_768, False), (-32_768, True), (-32_769, False)):
            self.assertEqual(differences_fit(origin, Node(1 + reach, -1)), fits)
            self.assertEqual(differences_fit(origin, Node(1, -1 + reach)), fits)

    def test_difference_of_longitudes_worked_out_in_paper_02(self):
        # More across the meridian is in test_meridian.py.
        self.assertEqual(differences(Node(17_999_998, 0), Node(-18_000_000, 0)), (2, 0))

    def test_a_longitude_is_brought_round_once_at_most(self):
        for longitude in (-18_000_000, -1, 0, 17_999_999):
            self.assertEqual(brought_round(longitude), longitude)
            self.assertEqual(brought_round(longitude - 36_000_000), longitude)
            self.assertEqual(brought_round(longitude + 36_000_000), longitude)


# Legs at which bytes begin to be given by an offset, by several, or by exact halves, and their neighbours.
EDGE_LEGS = (*range(1, 41), 99, 100, 169, 170, 171, 172, *range(255, 258), *range(511, 515), 1000, *range(1023, 1026))
# On the first, offsets can lie half-way between two 256ths.
LONG_LEGS = (LONGEST_WITH_HALVES, LONGEST_LEG - 1, LONGEST_LEG)


def nearest_of_all(offset, leg_length):
    """Of 0 to 256 the number of 256ths that is nearest to the offset, by exact fractions; of two that are, the greater one."""
    share = Fraction(offset, leg_length)
    return min(range(257), key=lambda number: (abs(Fraction(number, 256) - share), -number))


def byte_by_fractions(offset, leg_length):
    """The nearest whole number to 256 x offset / leg, an exact half upwards, 255 at most."""
    return min(255, floor(Fraction(256 * offset, leg_length) + Fraction(1, 2)))


def offsets_by_byte(leg_length):
    """For each byte that is given on a leg, the offsets that give it."""
    found = {}
    for offset in range(1, leg_length):
        found.setdefault(offset_byte(offset, leg_length), []).append(offset)
    return found


class OffsetBytes(unittest.TestCase):
    """Paper 02, "Offsets to the nearest", sentence by sentence. Spans are below."""

    def test_nearest_256th_an_exact_half_upwards(self):
        rng = random.Random("nearest 256th")
        pairs = [(offset, length) for length in (*range(2, 30), 170, 171, 512) for offset in range(1, length)]
        pairs += [(rng.randrange(1, length), length) for length in [rng.randrange(2, LONGEST_LEG + 1) for _ in range(300)]]
        # Half-way between two 256ths is an odd number of 512ths, and so whole on multiples of 512 only.
        pairs += [(odd * length // 512, length) for length in (1_024, 1_536, LONGEST_WITH_HALVES) for odd in range(1, 511, 34)]
        for offset, length in pairs:
            self.assertEqual(offset_byte(offset, length), min(255, nearest_of_all(offset, length)), (offset, length))

    def test_every_offset_of_many_legs_by_fractions(self):
        rng = random.Random("bytes by fractions")
        for length in (*range(2, 300), *EDGE_LEGS, *(rng.randrange(1_000, 20_000) for _ in range(5))):
            for offset in range(1, length):
                self.assertEqual(offset_byte(offset, length), byte_by_fractions(offset, length), (offset, length))

    def test_offsets_of_long_legs_by_fractions(self):
        # Those next to where the byte becomes another, at odd numbers of 512ths, and some between.
        for length in LONG_LEGS:
            edges = {odd * length // 512 + step for odd in range(1, 512, 2) for step in (-1, 0, 1, 2)}
            for offset in edges.union(range(1, length, 101), [length - 1]):
                self.assertEqual(offset_byte(offset, length), byte_by_fractions(offset, length), (offset, length))

    def test_255_where_that_gives_256(self):
        # 256 x 511 / 512 is 255.5, which is nearest to 256, and 256 x 510 / 511 is 255.499. 256 x 1,499,999 / 1,500,000 is 255.9998.
        self.assertEqual([nearest_of_all(length - 1, length) for length in (511, 512, 1_500_000)], [255, 256, 256])
        self.assertEqual([offset_byte(length - 1, length) for length in (511, 512, 1_500_000)], [255, 255, 255])
        # 255.5 x 1,499,648 / 256 is 1,496,719: from there on it is 256.
        self.assertEqual([nearest_of_all(offset, 1_499_648) for offset in (1_496_718, 1_496_719, 1_499_647)], [255, 256, 256])
        self.assertEqual([offset_byte(offset, 1_499_648) for offset in (1_496_718, 1_496_719, 1_499_647)], [255, 255, 255])

    def test_offset_1_on_a_leg_of_512_is_exactly_a_half_and_gives_1(self):
        # 256 x 1 / 511 is 0.501, 256 x 1 / 512 is 0.5 and 256 x 1 / 513 is 0.499.
        self.assertEqual([offset_byte(1, length) for length in (511, 512, 513)], [1, 1, 0])

    def test_worked_by_hand(self):
        # 256 x 500 / 1000 is 128, 256 x 999 / 1000 is 255.7, 256 x 1 / 1000 is 0.256 and 256 x 2 / 1000 is 0.512. 256 x 120 / 1000 is 30.72.
        self.assertEqual([offset_byte(offset, 1000) for offset in (500, 999, 1, 2, 120)], [128, 255, 0, 1, 31])
        # 256 x 3 / 512 is 1.5 and 256 x 5 / 512 is 2.5: upwards to an even number and to an odd one.
        self.assertEqual([offset_byte(offset, 512) for offset in (2, 3, 4, 5)], [1, 2, 2, 3])


class OffsetSpans(unittest.TestCase):
    def test_spans_worked_out_in_paper_02(self):
        for span in (offset_span, offset_span_by_trying):
            self.assertEqual(span(0x80, 1000), (499, 501))
            # Offset 1 of 100 is 2.56.
            self.assertIsNone(span(1, 100))

    def test_offset_0_is_in_no_span(self):
        # 0.5 x 1000 / 256 is 1.95, and 0.5 x 1024 / 256 is 2, which gives byte 1. 0.5 x 1,500,000 / 256 is 2,929.7.
        self.assertEqual([offset_span(0, length) for length in (1000, 1024, 1_500_000)], [(1, 1), (1, 1), (1, 2_929)])
        self.assertIsNone(offset_span(0, 1))

    def test_legs_on_which_bytes_0_and_255_are_first_given(self):
        # 256 x 1 / 512 is a half, which gives 1. 256 x 169 / 170 is 254.49 and 256 x 170 / 171 is 254.503.
        for length in range(1, 700):
            self.assertEqual(offset_span(0, length) is None, length <= 512, length)
            self.assertEqual(offset_span(255, length) is None, length <= 170, length)

    def test_byte_255_goes_on_to_the_end_of_the_leg(self):
        # 254.5 x 256 / 256 is 254.5, 254.5 x 512 / 256 is 509, 254.5 x 1000 / 256 is 994.1 and 254.5 x 1,500,000 / 256 is 1,491,210.9.
        spans = [offset_span(255, length) for length in (256, 512, 1000, 1_500_000)]
        self.assertEqual(spans, [(255, 255), (509, 511), (995, 999), (1_491_211, 1_499_999)])
        # 253.5 x 512 / 256 is 507, and byte 254 ends before 509.
        self.assertEqual(offset_span(254, 512), (507, 508))

    def test_quick_span_equals_trying_every_offset(self):
        rng = random.Random("spans")
        for length in (*EDGE_LEGS, *(rng.randrange(41, 1_500) for _ in range(4))):
            for byte in range(256):
                self.assertEqual(offset_span(byte, length), offset_span_by_trying(byte, length), (byte, length))
        for byte in (0, 254, 255, rng.randrange(1, 254)):
            self.assertEqual(offset_span(byte, LONGEST_LEG), offset_span_by_trying(byte, LONGEST_LEG), byte)

    def test_every_offset_is_in_the_span_of_its_byte_alone(self):
        rng = random.Random("spans of offsets")
        for length in (*EDGE_LEGS, *LONG_LEGS, rng.randrange(1_500, LONGEST_LEG)):
            spans = [span for span in (offset_span(byte, length) for byte in range(256)) if span is not None]
            # One after another, without a gap, from 1 to the last offset.
            self.assertEqual([least for least, _ in spans] + [length], [1] + [greatest + 1 for _, greatest in spans], length)

    def test_ends_of_a_span_and_offsets_with_equal_bytes_differ_by_less_than_three_512ths_of_the_leg(self):
        rng = random.Random("three 512ths")
        for length in (*range(2, 700), *EDGE_LEGS, *LONG_LEGS, rng.randrange(1_500, LONGEST_LEG)):
            for byte, offsets in offsets_by_byte(length).items():
                self.assertLess(Fraction(max(offsets) - min(offsets)), Fraction(3, 512) * length, (byte, length))
                self.assertEqual(offset_span(byte, length), (min(offsets), max(offsets)))

    def test_a_256th_of_the_leg_would_be_too_little(self):
        # Byte 255 on 1000 means 995 to 999, 4 apart, and a 256th is 3.9. Bytes below it stay within a 256th.
        too_far = {byte for byte, offsets in offsets_by_byte(1000).items() if 256 * (offsets[-1] - offsets[0]) > 1000}
        self.assertEqual(too_far, {255})

    def test_byte_255_comes_within_a_centimetre_of_three_512ths(self):
        # 254.5 x 1,499,648 / 256 is 1,490,861: byte 255 means 1,490,861 to 1,499,647, 8,786 apart. Three 512ths are 8,787.
        self.assertEqual(offset_span(255, 1_499_648), (1_490_861, 1_499_647))


if __name__ == "__main__":
    unittest.main()
