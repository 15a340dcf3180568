"""Paper 02, "Best found so far": the writer with every number of tests, worked cases, and what holds for all numbers of tests."""

import itertools
import random
import unittest

from best_found import PENTAGON_FOUR_POINTS, PENTAGON_NODES, PENTAGON_THREE_POINTS, WORKED_CASES, line, pentagon
from best_found_recipes import any_row, ring_places
from depot_map import DepotMap, Node, map_to_bytes, read_map
from fields import LONGEST_LEG, differences_fit
from legs import LegSearch, list_length
from outcome import Refused, StretchWritten, outcome_text
from point_along_line import write_point
from reader import read
from reference import put_together, take_apart
from sample_maps import SMALL_SAMPLES, chain_of_ties, chain_sample, long_leg_sample, parallel_sample, random_walk, short_first_leg_sample, tie_sample
from test_legs import random_tiny_map
from test_scope_paper import RIDGE, RIDGE_LINES, RIDGE_NODES, THREE_POINTS, WORK, row_map
from test_writer import best_choice_of_all, leg_is_usable_by_enumeration
from writer import ALL_TESTS, fewest_legs, leg_is_usable, legs_in_order, reference_of_legs, skip_lines, write

LARGEST = 4_294_967_295
RIDGE_MAP = DepotMap(RIDGE_NODES, RIDGE_LINES)


def leg_total(line_count):
    return line_count * (line_count + 1) // 2


def answer(depot_map, lines, tests, pos=0, neg=0, byte_room=459):
    return write(map_to_bytes(depot_map), lines, pos, neg, WORK, byte_room, tests)


def every_answer(depot_map, lines):
    """The answers to 0 tests, 1 test, and so on, up to two more than there are legs."""
    return [answer(depot_map, lines, tests) for tests in range(leg_total(len(lines)) + 3)]


def point_count(outcome):
    return len(take_apart(outcome.reference).points)


class OrderOfTests(unittest.TestCase):
    def test_by_start_then_by_end(self):
        self.assertEqual(legs_in_order(1), [(0, 1)])
        self.assertEqual(legs_in_order(4), [(0, 1), (0, 2), (0, 3), (0, 4), (1, 2), (1, 3), (1, 4), (2, 3), (2, 4), (3, 4)])

    def test_legs_of_the_longest_stretch(self):
        self.assertEqual((ALL_TESTS, len(legs_in_order(64)), legs_in_order(64)[63:65], legs_in_order(64)[-1]), (2_080, 2_080, [(0, 64), (1, 2)], (63, 64)))


class EveryNumberOfTestsOnTheRidge(unittest.TestCase):
    def test_tie(self):
        # Leg 0-1 is good, 0-2 is the tie, and 1-2 is good and tested last. Until then it counts as good.
        found = StretchWritten(THREE_POINTS, 3, 0)
        self.assertEqual([write(RIDGE, [0, 1], 0, 0, WORK, 459, tests) for tests in (0, 1, 2, 3, 4, LARGEST)], [Refused(26)] * 3 + [found] * 3)

    def test_one_line(self):
        # Line 0 alone: 10,000 long, from (0, 0) to (1000, 0).
        found = StretchWritten(bytes.fromhex("0B 000000 000000 1B 68 01 03E8 0000 1B 18"), 1, 0)
        self.assertEqual([write(RIDGE, [0], 0, 0, WORK, 16, tests) for tests in (0, 1, 2, LARGEST)], [Refused(26)] + [found] * 3)

    def test_over_the_ridge_other_points_are_found_first(self):
        # Legs 0-1, 0-2, 1-2, 1-3 and 2-3 are good, and 0-3 is the tie. 1-3 is the fifth, and with it 0-1, 1-3 is found. 0-2, 2-3 has as few points and a longer
        # first leg, and is found with the sixth.
        # Line 2 leaves to the north, sector 0: Q is 60. D of 10,000 is 1; D of 15,000 is 2 and of 5,000 it is 0.
        first = bytes.fromhex("0B 000000 000000 1B 68 01 03E8 0000 1B 60 01 03E8 0000 1B 18")
        then = bytes.fromhex("0B 000000 000000 1B 68 02 03E8 03E8 1B 6C 00 03E8 FC18 1B 18")
        expected = [Refused(26)] * 5 + [StretchWritten(first, 5, 0), StretchWritten(then, 6, 0), StretchWritten(then, 6, 0)]
        self.assertEqual([write(RIDGE, [0, 2, 3], 0, 0, WORK, 23, tests) for tests in range(8)], expected)

    def test_with_an_offset(self):
        # Line 0 is skipped: line 1 is left, which has one leg.
        found = StretchWritten(bytes.fromhex("0B 0001D2 000000 1B 68 01 03E8 0000 1B 58 80"), 1, 0)
        self.assertEqual([write(RIDGE, [0, 1], 15_000, 0, WORK, 17, tests) for tests in (0, 1, 2)], [Refused(26), found, found])


class WorkedCases(unittest.TestCase):
    def test_answers(self):
        for name, case in WORKED_CASES.items():
            self.assertEqual(len(case.answers), leg_total(len(case.stretch)) + 1)
            for tests in (*range(len(case.answers) + 2), 256, 65_536, 2 ** 31, LARGEST):
                with self.subTest(name, tests=tests):
                    expected = case.answers[min(tests, len(case.answers) - 1)]
                    self.assertEqual(write(case.map_bytes(), case.stretch, 0, 0, WORK, case.byte_room, tests), expected)

    def test_good_legs(self):
        for name, case in WORKED_CASES.items():
            good = tuple((start, end) for start, end in legs_in_order(len(case.stretch))
                         if leg_is_usable_by_enumeration(case.depot_map, case.stretch[start:end], end == len(case.stretch)))
            self.assertEqual(good, case.good_legs, name)

    def test_only_differences_decide_on_the_pentagon(self):
        nodes = pentagon().depot_map.nodes
        near = {(start, end) for start, end in legs_in_order(4) if differences_fit(nodes[start], nodes[end])}
        self.assertEqual(near, set(pentagon().good_legs))
        self.assertEqual([line.start_node for line in pentagon().depot_map.lines], [0, 1, 2, 3])

    def test_bytes_of_the_pentagon(self):
        depot_map = pentagon().depot_map
        for legs, reference in (([(0,), (1,), (2, 3)], PENTAGON_FOUR_POINTS), ([(0, 1, 2), (3,)], PENTAGON_THREE_POINTS)):
            self.assertEqual(put_together(reference_of_legs(depot_map, legs, 0, 0)), reference)
            self.assertEqual(read(map_to_bytes(depot_map), reference, WORK, 4).lines, (0, 1, 2, 3))

    def test_fewer_lines_never_have_an_excess(self):
        # Every set of good legs of up to three lines, and every number of tests.
        for count in (1, 2, 3):
            in_order = legs_in_order(count)
            for good in itertools.chain.from_iterable(itertools.combinations(in_order, size) for size in range(len(in_order) + 1)):
                for tests in range(len(in_order) + 1):
                    tested = {leg for leg in good if leg in in_order[:tests]}
                    found, open_still = fewest_legs(count, tested), fewest_legs(count, tested | set(in_order[tests:]))
                    self.assertTrue(found is None or len(found) == len(open_still))

    def test_texts(self):
        self.assertEqual(outcome_text(answer(pentagon().depot_map, (0, 1, 2, 3), 8)), "refused 26")
        self.assertEqual(outcome_text(answer(pentagon().depot_map, (0, 1, 2, 3), 9)), "bytes 30 tests 9 excess 1\n" + PENTAGON_FOUR_POINTS.hex().upper())

    def test_short_buffers(self):
        # 16 bytes and 7 for each point more: 30 for four points, 23 for three.
        for tests, length in ((9, 30), (10, 23)):
            for byte_room in (0, 22, 23, 29, 30, 31):
                outcome = answer(pentagon().depot_map, (0, 1, 2, 3), tests, byte_room=byte_room)
                self.assertEqual(outcome == Refused(11), byte_room < length)

    def test_greatest_excess(self):
        # A ring of 65 nodes: 63 legs are found one test before the last, and two then.
        *places, end, before_end = ring_places(65)
        nodes = tuple(Node(*place) for place in (*places, before_end, end))
        depot_map = DepotMap(nodes, tuple(line(number, number + 1) for number in range(64)))
        outcomes = [answer(depot_map, range(64), tests) for tests in (2_078, 2_079, 2_080)]
        self.assertEqual(outcomes[0], Refused(26))
        self.assertEqual([(point_count(outcome), outcome.tests, outcome.excess) for outcome in outcomes[1:]], [(64, 2_079, 61), (3, 2_080, 0)])


class SkippedLines(unittest.TestCase):
    """Tests are of legs of what remains."""

    def test_lines_before_and_behind(self):
        # The pentagon with a line to its start and one from its end, both skipped whole.
        nodes = PENTAGON_NODES + (Node(0, -10_000), Node(20_000, 60_000))
        depot_map = DepotMap(nodes, (*pentagon().depot_map.lines, line(5, 0, 700), line(4, 6, 800)))
        for tests, expected in enumerate(pentagon().answers):
            self.assertEqual(answer(depot_map, (4, 0, 1, 2, 3, 5), tests, pos=700, neg=800), expected)
        # One centimetre less, and the line remains and takes tests.
        self.assertEqual(answer(depot_map, (4, 0, 1, 2, 3, 5), 10, pos=699, neg=800), Refused(26))
        self.assertEqual(answer(depot_map, (4, 0, 1, 2, 3, 5), LARGEST, pos=699, neg=800).tests, 15)
        self.assertEqual(answer(depot_map, (4, 0, 1, 2, 3, 5), LARGEST, pos=699, neg=799).tests, 21)

    def test_offsets_take_no_tests(self):
        for tests, without in enumerate(pentagon().answers):
            outcome = answer(pentagon().depot_map, (0, 1, 2, 3), tests, pos=9_999, neg=9_999)
            if isinstance(without, Refused):
                self.assertEqual(outcome, without)
            else:
                self.assertEqual((len(outcome.reference), outcome.tests, outcome.excess), (len(without.reference) + 2, without.tests, without.excess))


class OrderOfRefusals(unittest.TestCase):
    def check(self, refusal, lines, tests, map_bytes=pentagon().map_bytes(), pos=0, neg=0, work_length=WORK, byte_room=459):
        self.assertEqual(write(map_bytes, lines, pos, neg, work_length, byte_room, tests), Refused(refusal))

    def test_all_above_26(self):
        stretch = (0, 1, 2, 3)
        for tests in (0, 9, LARGEST):
            self.check(1, stretch, tests, work_length=14_335)
            self.check(2, stretch, tests, map_bytes=b"")
            self.check(7, (), tests)
            self.check(7, (4,), tests)
            self.check(8, (0, 2), tests)
            self.check(9, stretch, tests, pos=20_000, neg=20_000)
            self.check(21, (0, 1), tests, map_bytes=map_to_bytes(row_map((0, 1, 10), (1, 2, 10), bans=((0, 1),))))

    def test_26_above_11(self):
        for tests in range(9):
            self.check(26, (0, 1, 2, 3), tests, byte_room=0)
        self.check(11, (0, 1, 2, 3), 9, byte_room=0)

    def test_10_above_11(self):
        twins = WORKED_CASES["twins"].map_bytes()
        self.check(26, (0,), 0, twins, byte_room=0)
        self.check(10, (0,), 1, twins, byte_room=0)

    def test_no_tests_give_26_for_every_stretch_that_comes_so_far(self):
        rng = random.Random("no tests")
        for make_sample in SMALL_SAMPLES * 10:
            sample = make_sample(rng)
            self.assertEqual(answer(sample.depot_map, sample.stretch, 0), Refused(26))

    def test_points_never_get_26(self):
        self.assertEqual(write_point(WORKED_CASES["twins"].map_bytes(), 0, 0, 0, 0, WORK, 17), Refused(10))


def best_over(lines, good):
    """Goes through every choice of points over legs that count as good: fewest points, then the first leg with most lines, and so on."""
    for cut_count in range(len(lines)):
        found = []
        for cuts in itertools.combinations(range(1, len(lines)), cut_count):
            legs = list(zip((0,) + cuts, cuts + (len(lines),)))
            if good.issuperset(legs):
                found.append(legs)
        if found:
            return max(found, key=lambda legs: [end - start for start, end in legs])
    return None


class AgainstAllChoices(unittest.TestCase):
    """What the paper says, worked out by going through all choices of points, with the readings of each leg enumerated."""

    def check_every_number(self, depot_map, lines):
        count = len(lines)
        in_order = [(start, end) for start in range(count) for end in range(count + 1) if start < end]
        good = {(start, end) for start, end in in_order if leg_is_usable_by_enumeration(depot_map, lines[start:end], end == count)}
        outcomes = every_answer(depot_map, lines)
        for tests, outcome in enumerate(outcomes):
            made = min(tests, len(in_order))
            tested_good = {leg for number, leg in enumerate(in_order) if number < made and leg in good}
            untested = {leg for number, leg in enumerate(in_order) if number >= made}
            found, at_best = best_over(lines, tested_good), best_over(lines, tested_good | untested)
            if found is None:
                self.assertEqual(outcome, Refused(10 if at_best is None else 26), (depot_map, lines, tests))
            else:
                legs = [lines[start:end] for start, end in found]
                reference = put_together(reference_of_legs(depot_map, legs, 0, 0))
                self.assertEqual(outcome, StretchWritten(reference, made, len(found) - len(at_best)), (depot_map, lines, tests))
        return outcomes

    def test_tiny_maps_and_maps_full_of_ties(self):
        rng = random.Random("best found")
        seen = {}
        for turn in range(400):
            if turn % 4 == 0:
                sample = rng.choice([parallel_sample, tie_sample, short_first_leg_sample])(rng)
                depot_map, lines = sample.depot_map, sample.stretch
            elif turn % 4 == 1:
                depot_map, legs = chain_of_ties(rng.randrange(1, 4), {number for number in range(3) if rng.random() < 0.7})
                lines = tuple(itertools.chain.from_iterable(legs))
            else:
                depot_map = random_tiny_map(rng, 5, 8)
                lines = random_walk(rng, depot_map, rng.randrange(1, 7), heed_bans=True)
            for outcome in self.check_every_number(depot_map, lines):
                kind = outcome.number if isinstance(outcome, Refused) else "accepted"
                seen[kind] = seen.get(kind, 0) + 1
        self.assertEqual(set(seen), {10, 26, "accepted"})
        self.assertGreater(min(seen.values()), 300, seen)

    def test_rows_with_an_excess(self):
        rng = random.Random("excesses")
        excesses = []
        for _ in range(150):
            given = any_row(rng)
            sample = given.lines[:rng.randrange(4, 8)]
            excesses += [outcome.excess for outcome in self.check_every_number(read_map(given.map_bytes), sample) if isinstance(outcome, StretchWritten)]
        self.assertGreater(sum(excess > 0 for excess in excesses), 10)

    def test_choice_over_every_set_of_legs(self):
        for count in (1, 2, 3, 4):
            in_order = legs_in_order(count)
            for size in range(len(in_order) + 1):
                for good in itertools.combinations(in_order, size):
                    self.assertEqual(fewest_legs(count, set(good)), best_over(range(count), set(good)))

    def test_choice_over_sets_of_legs_of_more_lines(self):
        rng = random.Random("sets of legs")
        for _ in range(400):
            count = rng.randrange(5, 9)
            good = {leg for leg in legs_in_order(count) if rng.random() < rng.choice([0.3, 0.5])}
            self.assertEqual(fewest_legs(count, good), best_over(range(count), good))


class MoreTests(unittest.TestCase):
    """What the paper promises of more tests, with an ample buffer."""

    def check_all_numbers(self, depot_map, lines):
        outcomes = every_answer(depot_map, lines)
        count = leg_total(len(lines))
        ordinary = best_choice_of_all(depot_map, lines)
        self.assertEqual(outcomes[0], Refused(26))
        self.assertEqual(outcomes[count], outcomes[count + 2])
        if ordinary is None:
            self.assertEqual(outcomes[count], Refused(10))
            self.assertLessEqual(set(outcomes), {Refused(26), Refused(10)})
        else:
            reference = put_together(reference_of_legs(depot_map, ordinary, 0, 0))
            self.assertEqual(outcomes[count], StretchWritten(reference, count, 0))
            self.assertNotIn(Refused(10), outcomes)
        for tests, (fewer, more) in enumerate(zip(outcomes, outcomes[1:])):
            if isinstance(fewer, StretchWritten):
                self.assertIsInstance(more, StretchWritten)
                self.assertLessEqual(point_count(more), point_count(fewer))
                self.assertLessEqual(more.excess, fewer.excess)
                self.assertEqual(fewer.tests, min(tests, count))
                # The true fewest lies between.
                self.assertTrue(point_count(fewer) - fewer.excess <= len(ordinary) + 1 <= point_count(fewer))
            elif fewer == Refused(10):
                self.assertEqual(more, Refused(10))
        return outcomes

    def test_ridge(self):
        for lines in ((0,), (0, 1), (0, 2), (2, 3), (0, 2, 3)):
            self.check_all_numbers(RIDGE_MAP, lines)

    def test_maps_full_of_ties(self):
        rng = random.Random("ties")
        turns = 0
        for turn in range(120):
            if turn % 2:
                sample = rng.choice([parallel_sample, tie_sample, short_first_leg_sample])(rng)
                depot_map, lines = sample.depot_map, sample.stretch
            else:
                depot_map = random_tiny_map(rng, 4, 9)
                lines = random_walk(rng, depot_map, 6, heed_bans=True)
            outcomes = self.check_all_numbers(depot_map, lines)
            turns += sum(isinstance(fewer, Refused) and isinstance(more, StretchWritten) for fewer, more in zip(outcomes, outcomes[1:]))
        self.assertGreater(turns, 40)

    def test_rows_with_an_excess(self):
        rng = random.Random("points too many")
        falling = fewer_points = 0
        for _ in range(300):
            given = any_row(rng)
            outcomes = [outcome for outcome in self.check_all_numbers(read_map(given.map_bytes), given.lines) if isinstance(outcome, StretchWritten)]
            falling += any(fewer.excess > more.excess for fewer, more in zip(outcomes, outcomes[1:]))
            fewer_points += any(point_count(fewer) > point_count(more) for fewer, more in zip(outcomes, outcomes[1:]))
        self.assertGreater(falling, 10)
        self.assertGreater(fewer_points, 5)

    def test_26_turns_into_10(self):
        for name in ("twins", "twins_first", "far_line_last", "long_leg_last"):
            case = WORKED_CASES[name]
            outcomes = self.check_all_numbers(case.depot_map, case.stretch)
            self.assertEqual(set(outcomes), {Refused(26), Refused(10)}, name)

    def test_what_is_found_is_read_back(self):
        rng = random.Random("found and read")
        checked = 0
        for _ in range(60):
            given = any_row(rng)
            for tests in range(leg_total(len(given.lines))):
                written = write(given.map_bytes, given.lines, 0, 0, WORK, 459, tests)
                if isinstance(written, StretchWritten):
                    self.assertEqual(read(given.map_bytes, written.reference, WORK, 64).lines, given.lines)
                    checked += 1
        self.assertGreater(checked, 100)


class UntestedLegs(unittest.TestCase):
    """An untested leg counts as good, whatever it is."""

    def test_too_long(self):
        # Two lines of 1,000,000: leg 0-2 is too long, and the second test says so. Before it counts as good, and so does 1-2.
        depot_map = row_map((0, 1, 1_000_000), (1, 2, 1_000_000))
        self.assertGreater(list_length(depot_map, (0, 1)), LONGEST_LEG)
        self.assertEqual([outcome == Refused(26) for outcome in every_answer(depot_map, (0, 1))], [True, True, True, False, False, False])

    def test_too_long_leg_keeps_26_from_being_10(self):
        case = WORKED_CASES["long_leg_last"]
        self.assertFalse(leg_is_usable(LegSearch(case.depot_map), (1, 2), True))
        self.assertEqual((answer(case.depot_map, case.stretch, 4), answer(case.depot_map, case.stretch, 5)), (Refused(26), Refused(10)))

    def test_far_leg_makes_an_excess(self):
        case = WORKED_CASES["open_pentagon"]
        self.assertFalse(differences_fit(case.depot_map.nodes[3], case.depot_map.nodes[4]))
        outcomes = [answer(case.depot_map, case.stretch, tests) for tests in (9, 10)]
        self.assertEqual([outcome.excess for outcome in outcomes], [1, 0])
        self.assertEqual(outcomes[0].reference, outcomes[1].reference)

    def test_no_untested_leg_is_too_long_once_something_is_found(self):
        # What is found ends with a tested leg, and every untested leg is a part of it: so it is 26 alone that an untested leg of such length can bring.
        rng = random.Random("parts of a leg")
        checked = 0
        for _ in range(100):
            sample = rng.choice([long_leg_sample, chain_sample])(rng)
            lines, in_order = sample.stretch[:8], legs_in_order(len(sample.stretch[:8]))
            for tests, outcome in enumerate(every_answer(sample.depot_map, lines)):
                if isinstance(outcome, StretchWritten):
                    self.assertFalse(any(list_length(sample.depot_map, lines[start:end]) > LONGEST_LEG for start, end in in_order[tests:]))
                    checked += tests < len(in_order)
        self.assertGreater(checked, 100)

    def test_skipping_is_not_testing(self):
        # All lines but one are skipped: one leg is left, and one test is all.
        depot_map = row_map((0, 1, 1000), (1, 2, 500), (2, 3, 700))
        remaining, *_ = skip_lines(depot_map, (0, 1, 2), 1_000, 700)
        self.assertEqual(remaining, (1,))
        outcomes = [answer(depot_map, (0, 1, 2), tests, pos=1_000, neg=700) for tests in (0, 1)]
        self.assertEqual(outcomes[0], Refused(26))
        self.assertEqual((outcomes[1].tests, outcomes[1].excess), (1, 0))


if __name__ == "__main__":
    unittest.main()
