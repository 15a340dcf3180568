"""What the writer accepts, the reader gives back: the lines left, and spans that hold the offsets left."""

import random
import unittest

from depot_map import DepotMap, Line, Node, map_to_bytes
from drawn_steps import EASTWARD, WESTWARD
from fields import LONGEST_LEG, offset_span_by_trying
from legs import list_length, readings_by_enumeration
from outcome import StretchRead, StretchWritten
from reader import legs_of, point_nodes, read
from reference import take_apart
from sample_maps import SMALL_SAMPLES, dense_sample, full_sample, random_walk
from test_legs import random_tiny_map
from test_scope_paper import WORK, all_tested, row_map
from write_recipes import WriteInput, edge_offsets, write_outcome
from writer import choose_points, skip_lines, write


def with_edge_offsets(rng, depot_map, lines):
    return depot_map, lines, *edge_offsets(rng, depot_map, lines)


class RoundTrips(unittest.TestCase):
    def round_trip(self, depot_map, lines, pos, neg):
        """True if the writer accepts; then what is read must be what is left."""
        given = WriteInput(map_to_bytes(depot_map), lines, pos, neg)
        written = write_outcome(given)
        if not isinstance(written, StretchWritten):
            return False
        remaining, pos_left, neg_left = skip_lines(depot_map, lines, pos, neg)
        outcome = read(given.map_bytes, written.reference, WORK, len(remaining))
        self.assertIsInstance(outcome, StretchRead)
        self.assertEqual(outcome.lines, remaining)
        legs = choose_points(depot_map, remaining)
        for offset, span, leg in ((pos_left, outcome.positive_span, legs[0]),
                                  (neg_left, outcome.negative_span, legs[-1])):
            if offset == 0:
                self.assertEqual(span, (0, 0))
            else:
                self.assertTrue(1 <= span[0] <= offset <= span[1] < list_length(depot_map, leg))
        return True

    def accepted(self, stretches):
        """How many of the stretches, each with its map and its offsets, the writer accepts."""
        return sum(self.round_trip(*stretch) for stretch in stretches)

    def test_samples_with_edge_offsets(self):
        rng = random.Random("round trips")
        samples = (make_sample(rng) for make_sample in SMALL_SAMPLES * 40)
        accepted = self.accepted(with_edge_offsets(rng, sample.depot_map, sample.stretch) for sample in samples)
        self.assertGreater(accepted, 150)

    def test_tiny_maps(self):
        rng = random.Random("tiny round trips")
        maps = (random_tiny_map(rng, 5, 9) for _ in range(1_500))
        accepted = self.accepted(with_edge_offsets(rng, depot_map, random_walk(rng, depot_map, rng.randrange(1, 9)))
                                 for depot_map in maps)
        self.assertGreater(accepted, 500)

    def test_full_size_maps(self):
        rng = random.Random("full round trips")
        samples = (make_sample(rng) for make_sample in [full_sample] * 8 + [dense_sample] * 2)
        self.assertGreater(self.accepted((sample.depot_map, sample.stretch, 1, 1) for sample in samples), 4)

    def test_there_is_exactly_one_reading_of_what_is_written(self):
        # The number of readings of a reference is the product of its legs' numbers.
        rng = random.Random("one reading")
        checked = 0
        for _ in range(600):
            depot_map = random_tiny_map(rng, 4, 7)
            lines = random_walk(rng, depot_map, rng.randrange(1, 6))
            written = write(map_to_bytes(depot_map), lines, 0, 0, WORK, 459)
            if isinstance(written, StretchWritten):
                reference = take_apart(written.reference)
                legs = legs_of(reference, point_nodes(depot_map, reference))
                lists = [readings_by_enumeration(depot_map, leg) for leg in legs]
                self.assertEqual([len(readings) for readings in lists], [1] * len(legs))
                self.assertEqual(sum((readings[0] for readings in lists), ()), lines)
                checked += 1
        self.assertGreater(checked, 200)


class OffsetsOfOneSpan(unittest.TestCase):
    """Paper 02, "Offsets to the nearest": two stretches with equal bytes, and the span that reading them gives."""

    def test_offsets_give_the_same_bytes_if_and_only_if_one_span_holds_both(self):
        # Two lines of 700 and 300 in one leg of 1000; offsets below the end lines' lengths skip no line.
        map_bytes = map_to_bytes(row_map((0, 1, 700), (1, 2, 300)))
        by_bytes = {}
        for pos in range(1, 700):
            reference = write(map_bytes, [0, 1], pos, 0, WORK, 459).reference
            by_bytes.setdefault(reference, []).append(pos)
        for reference, offsets in by_bytes.items():
            span = read(map_bytes, reference, WORK, 2).positive_span
            self.assertEqual(offsets, [pos for pos in range(span[0], span[1] + 1) if pos < 700])
            self.assertEqual(span, offset_span_by_trying(reference[-1], 1000))

    def test_stretches_with_equal_bytes_and_a_spans_ends_differ_by_less_than_three_512ths_of_the_leg(self):
        # Each leg is too far from the other for a leg of both, and each offset is measured against its own leg.
        for first, last in ((512, 171), (1000, 513), (1024, 512)):
            lines = tuple(Line(number, number + 1, length, 3, 3, EASTWARD, WESTWARD) for number, length in enumerate((first, last)))
            map_bytes = map_to_bytes(DepotMap((Node(0, 0), Node(20_000, 0), Node(40_000, 0)), lines))
            for length, stretches in ((first, [(offset, 0) for offset in range(1, first)]), (last, [(0, offset) for offset in range(1, last)])):
                by_bytes = {}
                for pos, neg in stretches:
                    by_bytes.setdefault(write(map_bytes, [0, 1], pos, neg, WORK, 24).reference, []).append(pos + neg)
                for reference, offsets in by_bytes.items():
                    self.assertLess(512 * (offsets[-1] - offsets[0]), 3 * length)
                    outcome = read(map_bytes, reference, WORK, 2)
                    span = outcome.positive_span if stretches[0][0] else outcome.negative_span
                    self.assertEqual(span, (offsets[0], offsets[-1]))

    def test_a_256th_of_the_leg_would_be_too_little(self):
        # 995 and 999 of 1000 give FF both, 254.7 being nearest to 255 and 255.7 to 256. They are 4 apart, and a 256th of 1000 is 3.9.
        map_bytes = map_to_bytes(row_map((0, 1, 1000)))
        for positive, negative in ((1, 0), (0, 1)):
            written = [write(map_bytes, [0], positive * offset, negative * offset, WORK, 17).reference for offset in (994, 995, 999)]
            self.assertEqual([reference[-1] for reference in written], [0xFE, 0xFF, 0xFF])
            outcome = read(map_bytes, written[1], WORK, 1)
            self.assertEqual(outcome.positive_span if positive else outcome.negative_span, (995, 999))

    def test_flag_is_set_where_the_byte_is_0(self):
        # 256 x 1 / 1000 is 0.256. R has both flags, one or none, and sector 24.
        map_bytes = map_to_bytes(row_map((0, 1, 1000)))
        good = bytes.fromhex("0B 000000 000000 1B 68 00 03E8 0000 1B")
        for pos, neg, end in ((1, 0, "58 00"), (0, 1, "38 00"), (1, 1, "78 00 00"), (0, 0, "18")):
            written = write(map_bytes, [0], pos, neg, WORK, 18)
            self.assertEqual(written, all_tested(good + bytes.fromhex(end), 1))
            self.assertEqual(read(map_bytes, written.reference, WORK, 1), StretchRead((0,), (pos, pos), (neg, neg)))

    def test_sums_of_offsets_next_to_the_total(self):
        for length in (2, 3, 170, 171, 256, 257, 511, 512, 513, 1000, LONGEST_LEG):
            map_bytes = map_to_bytes(row_map((0, 1, length)))
            for pos in {0, 1, length // 2, length - 1}:
                neg = length - 1 - pos
                written = write(map_bytes, [0], pos, neg, WORK, 18)
                outcome = read(map_bytes, written.reference, WORK, 1)
                for offset, span in ((pos, outcome.positive_span), (neg, outcome.negative_span)):
                    self.assertTrue(span[0] <= offset <= span[1])


if __name__ == "__main__":
    unittest.main()
