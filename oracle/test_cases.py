"""The case generator: the same for the same seed, and every aim and every edge occurs."""

import unittest
from collections import Counter
from dataclasses import replace
from fractions import Fraction
from itertools import product
from math import floor

import cases
from check_host import read_calls, write_calls
from crossings import reading_moves, stretch_moves
from damages import LINE_FIELDS, STEP_FIELDS, STEP_PAIRS
from depot_map import map_to_bytes, read_map
from legs import LegSearch, Readings, has_banned_pair, list_length, passes_a_node_twice
from numbers_of_tests import WIDE_NUMBERS, any_tests, first_decided, leg_count, lines_left
from outcome import Refused, RefusedCall, StretchRead, StretchWritten
from read_recipes import read_outcome
from reader import check_joints, leg_lists, legs_of, point_nodes
from reference import take_apart
from roundings import EVERY_ROUNDING, roundings
from sample_maps import FIRST_BEHIND, LAST_BEFORE, lies_across
from write_recipes import write_outcome
from writer import ALL_TESTS, skip_lines

# Enough for each recipe to go through its edges at least once.
MAP_CASES, LEG_CASES, READ_CASES, WRITE_CASES = 540, 600, 1_092, 945
MERIDIAN_MAP_CASES, MERIDIAN_READ_CASES, MERIDIAN_WRITE_CASES = 60, 120, 128
BEST_FOUND_CASES = 240
# The edges of D and of the longest leg, paper 02, "Centimetres": once, twice and 255 times 5,860, and 1,500,000.
EDGES_OF_LEGS = {5_859, 5_860, 5_861, 11_719, 11_720, 11_721, 1_494_299, 1_494_300, 1_494_301, 1_499_999, 1_500_000, 1_500_001}
KINDS = (cases.map_cases, cases.leg_cases, cases.read_cases, cases.write_cases, cases.leg_cases_across, cases.read_cases_across, cases.write_cases_across,
         cases.meridian_map_cases, cases.meridian_read_cases, cases.meridian_write_cases, cases.best_found_cases, cases.message_cases,
         cases.two_portions_cases, cases.large_message_cases, cases.start_cases, cases.received_cases, cases.long_received_cases, cases.of_message_cases,
         cases.as_by_itself_cases)


def refusal_in_label(label):
    """The refusal that a label promises, or None."""
    name = label.split(":")[0]
    return int(name.split()[1].rstrip(",")) if name.startswith("refusal ") else None


def labelled(made, recipe):
    """The cases of a recipe, each with its detail."""
    return [(case.label.split(": ", 1)[1], case) for case in made if case.label.startswith(recipe + ": ")]


def without_bans(given):
    """The same call on the same map without its bans."""
    return replace(given, map_bytes=map_to_bytes(replace(read_map(given.map_bytes), bans=())))


def all_tests(given):
    """The same writing with tests for all legs."""
    return replace(given, tests=ALL_TESTS)


def readings_of_two_ways(own, other, is_last):
    """How many readings a leg has with the D of its own way, where another way has its first line and its marks, and another last line. Worked out by hand."""
    short_enough = [length for length in (own, other) if length <= 1_500_000]
    # On the last leg the two do not compete.
    least = short_enough if is_last else [length for length in short_enough if length == min(short_enough)]
    return sum(length // 5_860 == own // 5_860 for length in least)


def told_apart(own, other):
    """Whether the own way is the only reading of a last leg with its D."""
    return own <= 1_500_000 and readings_of_two_ways(own, other, is_last=True) == 1


class Determinism(unittest.TestCase):
    def test_same_seed_same_cases(self):
        for make in KINDS:
            self.assertEqual(make(5, 40), make(5, 40))
            self.assertNotEqual(make(5, 40), make(6, 40))

    def test_cases_do_not_depend_on_how_many_are_asked_for(self):
        for make in KINDS:
            self.assertEqual(make(7, 12), make(7, 30)[:12])


class CaseTests(unittest.TestCase):
    def check_labels(self, made, recipes):
        self.assertEqual({case.label.split(":")[0] for case in made}, set(recipes))

    def check_promises(self, made):
        """A label that promises a refusal gets it."""
        for case in made:
            promised = refusal_in_label(case.label)
            if promised is not None:
                self.assertIsInstance(case.expected, Refused, case.label)
                self.assertEqual(case.expected.number, promised, case.label)

    def check_differences(self, made, fitting):
        """One or two lines take one leg where the difference of their ends fits. One past 16 bits, one line is refused and two are cut."""
        seen = {}
        for detail, case in made:
            outcome = case.expected.number if isinstance(case.expected, Refused) else len(case.expected.reference)
            seen.setdefault(int(detail.split()[1]), set()).add((len(case.given.lines), outcome))
        for difference in (-32_769, 32_768):
            self.assertEqual(seen.pop(difference), {(1, 10), (2, 23)}, difference)
        self.assertEqual(seen, {difference: {(1, 16), (2, 16)} for difference in fitting})


class Coverage(CaseTests):
    @classmethod
    def setUpClass(cls):
        cls.map_cases = cases.map_cases(1, MAP_CASES)
        cls.leg_cases = cases.leg_cases(1, LEG_CASES)
        cls.read_cases = cases.read_cases(1, READ_CASES)
        cls.write_cases = cases.write_cases(1, WRITE_CASES)

    def check_refusals(self, made, numbers):
        given = {case.expected.number for case in made if isinstance(case.expected, Refused)}
        self.assertEqual(given, set(numbers))

    def test_every_refusal_occurs(self):
        self.check_refusals(self.map_cases, [*range(2, 7), 23, 24])
        self.check_refusals(self.write_cases, [*range(1, 12), 21, 23, 24])
        self.check_refusals(self.read_cases, [*range(1, 7), *range(12, 21), 22, 23, 24])

    def test_every_number_of_readings_occurs(self):
        self.assertEqual({case.expected.how_many for case in self.leg_cases}, {"none", "one", "several"})

    def test_every_label_occurs(self):
        self.check_labels(self.map_cases, cases.MAP_RECIPES)
        self.check_labels(self.leg_cases, cases.LEG_RECIPES)
        self.check_labels(self.write_cases, cases.WRITE_RECIPES)
        self.check_labels(self.read_cases, cases.READ_RECIPES)

    def test_a_label_that_promises_a_refusal_gets_it(self):
        self.check_promises(self.map_cases + self.read_cases + self.write_cases)

    def test_some_are_accepted(self):
        self.assertGreater(sum(isinstance(case.expected, StretchRead) for case in self.read_cases), 150)
        self.assertGreater(sum(isinstance(case.expected, StretchWritten) for case in self.write_cases), 120)

    def test_line_fields_are_wrong_in_the_first_and_in_the_last_line(self):
        labels = {case.label for case in self.map_cases}
        for place in ("first", "last"):
            for name in LINE_FIELDS:
                aim = f"refusal 5: {name} of the {place} line"
                self.assertTrue(any(label.startswith(aim) for label in labels), aim)
            self.assertIn(f"refusal 5: equal ends of the {place} line", labels)

    def test_steps_are_wrong_in_the_first_and_in_the_last_line(self):
        labels = {case.label for case in self.map_cases}
        for place in ("first", "last"):
            self.assertLessEqual({f"refusal 24: {name} of the {place} line {value}" for name in STEP_FIELDS for value in (501, 5_000, 4_294_967_295)}, labels)
            self.assertLessEqual({f"refusal 24: both steps {pair} of the {place} line zero" for pair in STEP_PAIRS}, labels)

    def test_calls_with_wrong_steps(self):
        # Both zero, and each step out of range.
        for made in (self.read_cases, self.write_cases):
            details = {detail for detail, _ in labelled(made, "refusal 24")}
            self.assertLessEqual({f"both steps {pair} of the first line zero" for pair in STEP_PAIRS}, details)
            self.assertLessEqual({f"{name} of the first line 501" for name in STEP_FIELDS}, details)

    def test_maps_end_inside_each_step(self):
        labels = {case.label for case in self.map_cases}
        self.assertLessEqual({f"refusal 2: ends {where} the last {name}" for where in ("before", "inside") for name in STEP_FIELDS}, labels)

    def test_lines_on_the_sides_of_an_edge(self):
        # Of one sector they cannot be told apart. Of neighbouring ones they can, by steps out or back.
        for made, answers in ((self.leg_cases, ("several", "one")), (self.read_cases, (18, None)), (self.write_cases, (10, None))):
            found = labelled(made, "sides of an edge")
            for detail, case in found:
                answer = getattr(case.expected, "how_many", getattr(case.expected, "number", None))
                self.assertEqual(answer, answers[detail != "two lines of one sector"], case.label)
            self.assertEqual({detail for detail, _ in found}, {"two lines of one sector", "two lines of neighbouring sectors"})

    def test_refusals_with_a_place_occur_at_the_first_and_at_the_last(self):
        # A reference of n points has the points 0 to n - 1 and the legs 0 to n - 2.
        for number, last_from_end in ((16, 1), (17, 2), (18, 2)):
            refused = [case for case in self.read_cases
                       if isinstance(case.expected, Refused) and case.expected.number == number]
            self.assertIn(0, [case.expected.place for case in refused])
            from_end = [len(take_apart(case.given.reference).points) - case.expected.place
                        for case in refused if case.expected.place > 0]
            self.assertIn(last_from_end, from_end)
            self.assertGreater(len(set(from_end)), 1)

    def test_refusals_with_a_place_occur_at_the_ends_of_the_longest_reference(self):
        given = {(case.expected.number, case.expected.place) for case in self.read_cases
                 if isinstance(case.expected, Refused) and len(case.given.reference) == 459}
        self.assertLessEqual({(16, 0), (16, 64), (17, 0), (17, 63), (18, 0), (18, 63)}, given)

    def test_readings_of_more_lines_than_a_map_has(self):
        long_reads = [case for case in self.read_cases if case.label.startswith(("many lines", "most lines"))]
        counts = {len(case.expected.lines) for case in long_reads if isinstance(case.expected, StretchRead)}
        self.assertGreater(min(counts), 1_024)
        self.assertEqual(sorted(counts)[-2:], [63 * 512 + 513, 63 * 1_023 + 1_024])
        self.assertIn(Refused(20), {case.expected for case in long_reads if case.given.line_room > 1_024})

    def test_legs_from_a_node_to_itself_are_read(self):
        loops = [case for case in self.read_cases if case.label.startswith("closed loop")]
        self.assertTrue(all(isinstance(case.expected, StretchRead) for case in loops))

    def test_spans_at_both_ends_of_a_leg(self):
        spans = {span for case in self.read_cases if isinstance(case.expected, StretchRead)
                 for span in (case.expected.positive_span, case.expected.negative_span)}
        # 0.5 x 1,500,000 / 256 is 2,929.7 and 254.5 x 1,500,000 / 256 is 1,491,210.9. 254.5 x 171 / 256 is 169.998, 254.5 x 256 / 256 is 254.5 and
        # 254.5 x 512 / 256 is 509.
        self.assertLessEqual({(1, 2_929), (1_491_211, 1_499_999), (1, 1), (170, 170), (255, 255), (509, 511)}, spans)

    def test_bytes_that_no_offset_gives(self):
        # Each with its leg's length. 256 x 1 / 512 is a half, which gives 1, and 256 x 169 / 170 is 254.49.
        found = set()
        for case in self.read_cases_of("refusal 19, no offset"):
            reference = take_apart(case.given.reference)
            is_positive = reference.negative_byte is None
            byte = reference.positive_byte if is_positive else reference.negative_byte
            found.add((byte, read_map(case.given.map_bytes).lines[0 if is_positive else 1].length))
        self.assertLessEqual({(0, 170), (255, 170), (0, 171), (0, 256), (0, 257), (0, 511), (0, 512)}, found)

    def test_offsets_at_a_half(self):
        # The two offsets are each on a leg of one line. What is written is worked out by fractions.
        kinds = {"positive": set(), "negative": set()}
        for detail, case in self.write_details("offsets at a half"):
            reference, lines = take_apart(case.expected.reference), read_map(case.given.map_bytes).lines
            for side, offset, byte, line in (("positive", case.given.pos, reference.positive_byte, lines[0]),
                                             ("negative", case.given.neg, reference.negative_byte, lines[1])):
                self.assertEqual(byte, min(255, floor(Fraction(256 * offset, line.length) + Fraction(1, 2))), detail)
                kinds[side] |= roundings(offset, line.length)
        self.assertEqual(kinds, {"positive": EVERY_ROUNDING, "negative": EVERY_ROUNDING})

    def test_of_two_faults_the_upper_row_is_given(self):
        seen = set()
        for case in self.read_cases:
            name, detail = case.label.split(": ", 1)
            if name == "two faults":
                first, second = detail.split(" and ")
                self.assertEqual(case.expected.number, min(int(first), int(second)), case.label)
                seen.add(detail)
        self.assertGreater(len(seen), 8)

    def test_edges_of_buffers_and_work_areas(self):
        for made in (self.read_cases, self.write_cases):
            self.assertLessEqual({14_335, 14_336}, {case.given.work_length for case in made})
        self.assertIn(0, {case.given.line_room for case in self.read_cases})
        spare_lines = {case.given.line_room - len(case.expected.lines) for case in self.read_cases
                       if isinstance(case.expected, StretchRead)}
        self.assertIn(0, spare_lines)
        spare_bytes = {case.given.byte_room - len(case.expected.reference) for case in self.write_cases
                       if isinstance(case.expected, StretchWritten)}
        self.assertIn(0, spare_bytes)

    def test_edges_of_reference_lengths(self):
        read_lengths = {len(case.given.reference) for case in self.read_cases
                        if isinstance(case.expected, StretchRead)}
        written_lengths = {len(case.expected.reference) for case in self.write_cases
                           if isinstance(case.expected, StretchWritten)}
        for lengths in (read_lengths, written_lengths):
            self.assertLessEqual({16, 17, 18, 459}, lengths)

    def test_edges_of_differences(self):
        differences = set()
        for case in self.write_cases:
            if isinstance(case.expected, StretchWritten):
                for point in take_apart(case.expected.reference).points[1:]:
                    differences |= {point.longitude, point.latitude}
        self.assertLessEqual({-32_768, 32_767, 0}, differences)

    def write_details(self, recipe):
        return labelled(self.write_cases, recipe)

    def test_differences_one_past_are_refused_or_cut(self):
        self.check_differences(self.write_details("differences at the ends of 16 bits"), (-32_768, -32_767, 32_766, 32_767))

    def test_two_equal_ways_need_a_point_between(self):
        made = self.write_details("point in mid-leg")
        for detail, case in made:
            # At least a point in each hop, besides the two at the ends.
            self.assertGreaterEqual(len(take_apart(case.expected.reference).points), 2 + int(detail.split()[0]))
        self.assertEqual({detail.split()[0] for detail, _ in made}, {"1", "2", "3", "4"})

    def test_past_the_longest_leg_a_point_more_is_needed(self):
        points = {}
        for detail, case in self.write_details("legs at the longest"):
            total = int(detail.split()[2])
            if sum(line.length for line in read_map(case.given.map_bytes).lines) == total:
                points.setdefault(total, set()).add(len(take_apart(case.expected.reference).points))
        self.assertEqual(points, {1_499_999: {2}, 1_500_000: {2}, 1_500_001: {3}})

    def test_fewest_points_before_the_longest_first_leg(self):
        made = self.write_details("fewest points")
        for detail, case in made:
            self.assertEqual(len(take_apart(case.expected.reference).points), 3 + int(detail.split()[0]))
        self.assertEqual({detail.split()[0] for detail, _ in made}, {"0", "1", "2"})

    def test_all_but_one_line_skipped(self):
        made = self.write_details("all but one line skipped")
        for _, case in made:
            self.assertEqual(len(take_apart(case.expected.reference).points), 2)
        self.assertEqual({len(case.given.lines) for _, case in made}, {2, 3, 63, 64})

    def test_bans_of_maps(self):
        maps = [case.expected for case in self.map_cases if not isinstance(case.expected, Refused)]
        self.assertLessEqual({0, 1, 2, 512}, {len(depot_map.bans) for depot_map in maps})
        self.assertTrue(any(0 < len(set(depot_map.bans)) < len(depot_map.bans) < 10 for depot_map in maps))
        self.assertTrue(any(list(depot_map.bans) != sorted(depot_map.bans) for depot_map in maps))

    def test_legs_that_bans_decide(self):
        by_a_ban = {"none": 0, "one": 0, "several": 0}
        for case in self.leg_cases:
            free = LegSearch(replace(case.depot_map, bans=())).readings(case.leg)
            by_a_ban[case.expected.how_many] += case.expected != free
        self.assertGreater(min(by_a_ban.values()), 5, by_a_ban)

    def test_legs_that_pass_a_node_twice(self):
        found = [case for case in self.leg_cases if passes_a_node_twice(case.depot_map, case.expected.lines or ())]
        self.assertEqual({case.leg.last_marks is None for case in found}, {True, False})

    def read_cases_of(self, recipe):
        return [case for case in self.read_cases if case.label.startswith(recipe + ": ")]

    def test_22_stands_above_19_and_20(self):
        free = {read_outcome(without_bans(case.given)) for case in self.read_cases_of("refusal 22")}
        self.assertLessEqual({Refused(19), Refused(20)}, free)
        self.assertTrue(any(isinstance(outcome, StretchRead) for outcome in free))

    def test_22_occurs_at_the_ends_of_the_longest_reference(self):
        made = self.read_cases_of("refusal 22")
        self.assertTrue(any(len(read_map(case.given.map_bytes).lines) > len(take_apart(case.given.reference).points) for case in made))
        joints = {case.label.split(": ")[1] for case in made}
        self.assertLessEqual({"joints [0] of 2 legs", "joints [0] of 64 legs", "joints [62] of 64 legs"}, joints)

    def test_17_and_18_occur_behind_a_banned_joint(self):
        for number in (17, 18):
            made = self.read_cases_of(f"refusal {number}, behind a banned joint")
            for case in made:
                depot_map, reference = read_map(case.given.map_bytes), take_apart(case.given.reference)
                legs = legs_of(reference, point_nodes(depot_map, reference))[:case.expected.place]
                with self.assertRaises(RefusedCall) as caught:
                    check_joints(depot_map, leg_lists(depot_map, legs))
                self.assertEqual(caught.exception.refused, Refused(22))
            self.assertGreater(len(made), 10)

    def test_readings_that_bans_decide(self):
        for recipe, number, free_number in (("refusal 17, by a ban", 17, None), ("refusal 18, by a ban", 18, None), ("tie that a ban decides", None, 18)):
            for case in self.read_cases_of(recipe):
                free = read_outcome(replace(without_bans(case.given), line_room=1_024))
                self.assertEqual((getattr(case.expected, "number", None), getattr(free, "number", None)), (number, free_number), case.label)

    def test_ties_that_a_ban_at_a_joint_does_not_decide(self):
        made = self.read_cases_of("refusal 18, before a banned joint")
        self.assertEqual({case.expected.place for case in made}, {0, 1})
        self.assertTrue(all(read_map(case.given.map_bytes).bans for case in made))

    def test_readings_that_pass_a_node_twice(self):
        made = self.read_cases_of("around the block")
        accepted = [case for case in made if isinstance(case.expected, StretchRead)]
        for case in accepted:
            self.assertTrue(passes_a_node_twice(read_map(case.given.map_bytes), case.expected.lines[:4]))
        self.assertIn(64 * 4, {len(case.expected.lines) for case in accepted})
        self.assertLessEqual({17, 18}, {case.expected.number for case in made if isinstance(case.expected, Refused)})

    def test_21_in_skipped_lines(self):
        places = set()
        for detail, case in self.write_details("refusal 21, in skipped lines"):
            depot_map, given = read_map(case.given.map_bytes), case.given
            remaining, _, _ = skip_lines(depot_map, given.lines, given.pos, given.neg)
            self.assertFalse(has_banned_pair(depot_map, remaining))
            self.assertIsInstance(write_outcome(all_tests(without_bans(given))), StretchWritten)
            places.add((detail.split()[0], given.pos > 0))
        self.assertEqual(places, {("1", False), ("1", True), ("2", False), ("2", True)})

    def test_21_stands_between_8_and_9(self):
        free = {write_outcome(all_tests(without_bans(case.given))) for _, case in self.write_details("refusal 21")}
        self.assertIn(Refused(9), free)
        self.assertIn(Refused(11), free)
        for _, case in self.write_details("refusal 8, and a banned pair"):
            banned = read_map(case.given.map_bytes).bans
            self.assertTrue(len(case.given.lines) == 2 or set(banned) & set(zip(case.given.lines, case.given.lines[1:])))

    def test_points_that_bans_save(self):
        for detail, case in self.write_details("tie that a ban decides"):
            ties_left = int(detail.split()[0])
            self.assertEqual(len(take_apart(case.expected.reference).points), 2 + ties_left, detail)
            self.assertGreater(len(take_apart(write_outcome(without_bans(case.given)).reference).points), 2)
        for _, case in self.write_details("around the block"):
            self.assertEqual(len(take_apart(case.expected.reference).points), 2)
            self.assertTrue(passes_a_node_twice(read_map(case.given.map_bytes), case.given.lines))

    def test_10_by_a_ban(self):
        for _, case in self.write_details("refusal 10, by a ban"):
            self.assertIsInstance(write_outcome(replace(without_bans(case.given), byte_room=459)), StretchWritten)

    def two_ways(self, made):
        """The cases of two ways, each with the lengths of its own and of the other way. Own ways at every edge occur."""
        found = [(*map(int, detail.split(" and ")), case) for detail, case in labelled(made, "to the centimetre")]
        self.assertEqual({own for own, *_ in found}, EDGES_OF_LEGS)
        return found

    def test_legs_to_the_centimetre(self):
        seen, edges = set(), set()
        for own, other, case in self.two_ways(self.leg_cases):
            is_last = case.leg.last_marks is not None
            count = readings_of_two_ways(own, other, is_last)
            self.assertEqual(case.expected.how_many, ("none", "one", "several")[count], case.label)
            seen.add((other - own, is_last, count))
            edges.add((own, other - own))
        self.assertEqual(edges, set(product(EDGES_OF_LEGS, (-1, 0, 1))))
        # As another leg than the last: the longer way is read only where the shorter one is not.
        self.assertLessEqual({(-1, False, 0), (-1, False, 1), (0, False, 2), (1, False, 1), (-1, True, 1), (-1, True, 2)}, seen)

    def test_readings_to_the_centimetre(self):
        for own, other, case in self.two_ways(self.read_cases):
            legs = len(take_apart(case.given.reference).points) - 1
            count = readings_of_two_ways(own, other, is_last=legs == 1)
            refusal = case.expected.number if isinstance(case.expected, Refused) else None
            self.assertEqual(refusal, (17, None, 18)[count], case.label)

    def test_stretches_to_the_centimetre(self):
        # As one leg where it is the only reading. Else line 1 has to be told from the two lines beside it, behind a point at the fork.
        seen = set()
        for own, other, case in self.two_ways(self.write_cases):
            first, direct, *beside = (line.length for line in read_map(case.given.map_bytes).lines)
            self.assertEqual((first + direct, first + sum(beside)), (own, other))
            if case.given.pos < first:
                one_leg, two_legs = told_apart(own, other), told_apart(direct, sum(beside))
                points = len(take_apart(case.expected.reference).points) if isinstance(case.expected, StretchWritten) else case.expected
                self.assertEqual(points, 2 if one_leg else 3 if two_legs else Refused(10), case.label)
                seen.add(points)
        self.assertLessEqual({2, Refused(10)}, seen)

    def test_edges_of_leg_lengths(self):
        lengths = {list_length(case.depot_map, case.expected.lines) for case in self.leg_cases
                   if case.expected.how_many == "one"}
        self.assertLessEqual({1_499_999, 1_500_000, 5_859, 5_860, 5_861}, lengths)
        self.assertLessEqual(max(lengths), 1_500_000)

    def test_loops(self):
        to_itself = [case for case in self.leg_cases if case.leg.start_node == case.leg.end_node]
        self.assertIn("one", {case.expected.how_many for case in to_itself})
        twice = [case for case in self.write_cases if len(set(case.given.lines)) < len(case.given.lines)
                 and isinstance(case.expected, StretchWritten)]
        self.assertGreater(len(twice), 5)

    def test_sizes_of_maps(self):
        sizes = {(len(case.depot_map.nodes), len(case.depot_map.lines)) for case in self.leg_cases}
        self.assertLessEqual({(2, 1), (512, 1_024), (2, 1_024)}, sizes)

    def test_offsets_at_line_ends_and_at_their_greatest(self):
        offsets = {offset for case in self.write_cases for offset in (case.given.pos, case.given.neg)}
        self.assertIn(4_294_967_295, offsets)
        self.assertIn(0, offsets)

    def test_readings_are_one_of_three(self):
        for case in self.leg_cases:
            self.assertIsInstance(case.expected, Readings)
            self.assertEqual(case.expected.how_many == "one", case.expected.lines is not None)


class Across(CaseTests):
    """Cases on maps shifted to lie across the meridian."""

    def test_calls_have_the_outcomes_they_have_elsewhere(self):
        # Of what is written only the first point's longitude code is another.
        for plain, across, count in ((cases.read_cases, cases.read_cases_across, 96), (cases.write_cases, cases.write_cases_across, 96),
                                     (cases.leg_cases, cases.leg_cases_across, 64)):
            for case, shifted_case in zip(plain(1, count), across(1, count)):
                self.assertTrue(shifted_case.label.startswith(case.label.split(":")[0] + ", across the meridian: "))
                expected, shifted_expected = case.expected, shifted_case.expected
                if isinstance(expected, StretchWritten):
                    expected, shifted_expected = (outcome.reference[4:] for outcome in (expected, shifted_expected))
                self.assertEqual(shifted_expected, expected, case.label)

    def test_every_label_occurs_and_every_promise_is_kept(self):
        for make, recipes in ((cases.read_cases_across, cases.READ_RECIPES_ACROSS), (cases.write_cases_across, cases.WRITE_RECIPES_ACROSS)):
            made = make(1, len(recipes))
            self.check_labels(made, recipes)
            self.check_promises(made)

    def test_maps_that_are_good_lie_across(self):
        count = 0
        for case in cases.read_cases_across(1, 96) + cases.write_cases_across(1, 96):
            depot_map = cases.map_outcome(case.given.map_bytes)
            if not isinstance(depot_map, Refused):
                self.assertTrue(lies_across(depot_map) or len({node.longitude for node in depot_map.nodes}) == 1, case.label)
                count += 1
        self.assertGreater(count, 140)

    def test_calls_from_c_have_such_maps(self):
        for make_calls in (read_calls, write_calls):
            maps = [cases.map_outcome(bytes.fromhex(row.split()[1].strip("-"))) for row, _ in make_calls(1, 100)]
            self.assertEqual(len(maps), 100)
            self.assertGreater(sum(not isinstance(depot_map, Refused) and lies_across(depot_map) for depot_map in maps), 10)


class Meridian(CaseTests):
    """Cases at the edges of longitudes brought round."""

    @classmethod
    def setUpClass(cls):
        cls.map_cases = cases.meridian_map_cases(1, MERIDIAN_MAP_CASES)
        cls.read_cases = cases.meridian_read_cases(1, MERIDIAN_READ_CASES)
        cls.write_cases = cases.meridian_write_cases(1, MERIDIAN_WRITE_CASES)

    def test_every_label_occurs_and_every_promise_is_kept(self):
        for made, recipes in ((self.map_cases, cases.MERIDIAN_MAP_RECIPES), (self.read_cases, cases.MERIDIAN_READ_RECIPES),
                              (self.write_cases, cases.MERIDIAN_WRITE_RECIPES)):
            self.check_labels(made, recipes)
            self.check_promises(made)

    def test_good_maps_have_nodes_at_both_ends_of_the_longitudes(self):
        maps = [case.expected for case in self.map_cases if not isinstance(case.expected, Refused)]
        longitudes = [{node.longitude for node in depot_map.nodes} for depot_map in maps]
        self.assertTrue(any({LAST_BEFORE, FIRST_BEHIND} <= found for found in longitudes))

    def test_codes_of_nodes_at_the_meridian(self):
        # The two nearest on each side have the same code, and no two across it.
        refused = {detail for detail, case in labelled(self.map_cases, "two nodes at the meridian") if case.expected == Refused(6)}
        self.assertEqual(refused, {"(17999997, 17999998)", "(-18000000, -17999999)"})

    def moves(self, recipe):
        """The moves over the meridian of the readings of a recipe."""
        made = [case for _, case in labelled(self.read_cases, recipe)]
        found = [move for case in made for move in reading_moves(read_map(case.given.map_bytes), case.given.reference)]
        return [move for move in found if move.crosses()]

    def test_points_across_at_the_ends_of_16_bits(self):
        moves = self.moves("point across the meridian")
        self.assertTrue(all(move.found for move in moves))
        self.assertLessEqual({2, 3, 32_766, 32_767, -2, -3, -32_767, -32_768}, {move.difference for move in moves})
        for east in (True, False):
            places = {(move.start.longitude, move.end.longitude) for move in moves if (move.difference > 0) == east}
            near, far = (LAST_BEFORE, FIRST_BEHIND) if east else (FIRST_BEHIND, LAST_BEFORE)
            self.assertIn((near, far), places)
            self.assertTrue(any(start == near and end != far for start, end in places))
            self.assertTrue(any(start != near and end == far for start, end in places))

    def test_sums_of_17_999_999(self):
        for detail, case in labelled(self.read_cases, "refusal 16, a sum of 17,999,999"):
            *_, last = reading_moves(read_map(case.given.map_bytes), case.given.reference)
            self.assertEqual((last.end.longitude, last.found), (17_999_999, False), detail)
        details = {detail for detail, _ in labelled(self.read_cases, "refusal 16, a sum of 17,999,999")}
        self.assertLessEqual({f"difference {number}" for number in (1, 32_767, -1, -32_768)}, details)

    def test_no_node_across(self):
        moves = self.moves("refusal 16, next to a node across the meridian")
        self.assertFalse(any(move.found for move in moves))
        self.assertEqual({move.difference > 0 for move in moves}, {True, False})

    def test_latitudes_beyond_both_poles(self):
        latitudes = set()
        for _, case in labelled(self.read_cases, "refusal 16, over a pole"):
            *_, last = reading_moves(read_map(case.given.map_bytes), case.given.reference)
            self.assertGreater(abs(last.end.latitude), 9_000_000)
            latitudes.add(last.end.latitude)
        self.assertLessEqual({9_000_001, -9_000_001}, latitudes)

    def test_legs_that_cross_64_times(self):
        for made in (self.read_cases, self.write_cases):
            self.assertIn(64, {int(detail.split()[0]) for detail, _ in labelled(made, "back and forth across the meridian")})

    def test_differences_one_past_are_refused_or_cut(self):
        made = labelled(self.write_cases, "differences at the ends of 16 bits, across the meridian")
        self.check_differences(made, (-32_768, -32_767, -2, 2, 32_766, 32_767))

    def test_far_lines_that_are_skipped(self):
        crossings = set()
        for _, case in labelled(self.write_cases, "far line skipped, across the meridian"):
            depot_map, given = read_map(case.given.map_bytes), case.given
            remaining, _, _ = skip_lines(depot_map, given.lines, given.pos, given.neg)
            self.assertEqual((len(remaining), len(take_apart(case.expected.reference).points)), (1, 2))
            self.assertEqual(write_outcome(all_tests(replace(given, pos=0, neg=0))), Refused(10))
            crossings |= {(move.crosses(), move.difference) for move in stretch_moves(depot_map, remaining)}
        self.assertEqual(crossings, {(False, 400), (False, -400), (True, 400), (True, -400)})

    def test_half_a_circle(self):
        plain = {move.end.longitude - move.start.longitude for _, case in labelled(self.write_cases, "refusal 10, half a circle")
                 for move in stretch_moves(read_map(case.given.map_bytes), case.given.lines)}
        self.assertLessEqual({17_999_999, 18_000_000, 18_000_001, -17_999_999, -18_000_000, -18_000_001}, plain)


def legs_of_case(case):
    """How many legs a case's stretch has after its offsets."""
    return leg_count(len(lines_left(case.given)[1]))


class NumbersOfTests(CaseTests):
    """Numbers of tests, and the cases whose answers depend on them."""

    @classmethod
    def setUpClass(cls):
        cls.best_found = cases.best_found_cases(1, BEST_FOUND_CASES)
        cls.ordinary = [case for case in cases.write_cases(1, 340, left_out="full size") if lines_left(case.given) is not None]
        cls.others = list(cases.with_other_tests("other tests", 1, cls.ordinary))

    def found(self, recipe):
        """The cases of a recipe, each with its outcome and the one that it has with tests for all legs and an ample buffer."""
        made = [case for _, case in labelled(self.best_found, recipe)]
        self.assertGreater(len(made), 10, recipe)
        return [(case.given, case.expected, write_outcome(replace(all_tests(case.given), byte_room=459))) for case in made]

    def test_every_label_occurs_and_every_promise_is_kept(self):
        self.check_labels(self.best_found, cases.BEST_FOUND_RECIPES)
        self.check_promises(self.best_found)

    def test_ordinary_cases_have_tests_for_all_legs(self):
        spare = [case.given.tests - legs_of_case(case) for case in self.ordinary]
        self.assertEqual(min(spare), 0)
        self.assertGreater(spare.count(0), len(spare) // 4)
        self.assertIn(4_294_967_295, {case.given.tests for case in self.ordinary})
        for case in self.ordinary:
            self.assertEqual(case.expected, write_outcome(all_tests(case.given)), case.label)
            self.assertNotEqual(case.expected, Refused(26))
            self.assertEqual(getattr(case.expected, "excess", 0), 0)

    def test_cases_refused_before_have_any_number(self):
        refused = [case.given.tests for case in cases.write_cases(1, 340) if lines_left(case.given) is None]
        self.assertLessEqual({0, 1, 4_294_967_295}, set(refused))

    def test_the_same_calls_with_other_numbers(self):
        self.assertEqual(len(self.others), len(self.ordinary))
        kinds = Counter()
        for case, other in zip(self.ordinary, self.others):
            self.assertEqual(other.given, replace(case.given, tests=other.given.tests))
            first = first_decided(*lines_left(case.given))
            kinds["26"] += other.expected == Refused(26)
            kinds["first without 26"] += other.given.tests == first
            kinds["last with 26"] += other.given.tests == first - 1
            kinds["no tests"] += other.given.tests == 0
            kinds["accepted before all"] += isinstance(other.expected, StretchWritten) and other.given.tests < legs_of_case(case)
            self.assertEqual(other.expected == Refused(26), other.given.tests < first, other.label)
        self.assertEqual(len(kinds), 5)
        self.assertGreater(min(kinds.values()), 10, kinds)

    def test_numbers_up_to_the_widest(self):
        rng = cases.random_source("any tests", 1, 0)
        for lines in (1, 2, 5, 64):
            numbers = {any_tests(rng, lines) for _ in range(2_000)}
            count = leg_count(lines)
            self.assertLessEqual({0, 1, lines - 1, lines, lines + 1, 2 * lines - 1, count - 1, count, count + 1, *WIDE_NUMBERS}, numbers)

    def test_a_point_too_many(self):
        for given, outcome, ordinary in self.found("a point too many"):
            self.assertGreater(len(outcome.reference), len(ordinary.reference))
            self.assertEqual((outcome.tests, ordinary.excess), (given.tests, 0))
            self.assertGreaterEqual(7 * outcome.excess, len(outcome.reference) - len(ordinary.reference))

    def test_excess_above_the_true_one(self):
        for _, outcome, ordinary in self.found("an excess above the true one"):
            self.assertGreater(7 * outcome.excess, len(outcome.reference) - len(ordinary.reference))

    def test_excess_of_several_points(self):
        # At most: 63 legs, where the leg of all lines is tested, and bad, and two would do.
        seen = {(len(given.lines), legs_of_case(case) - given.tests, getattr(outcome, "excess", "refused"))
                for (given, outcome, _), (_, case) in zip(self.found("an excess of several points"), labelled(self.best_found, "an excess of several points"))}
        self.assertEqual(seen, {(lines, untested, excess) for lines in (4, 5, 9, 64) for untested, excess in ((0, 0), (1, lines - 3), (2, "refused"))})

    def test_other_points_as_many(self):
        for _, outcome, ordinary in self.found("other points, as many"):
            self.assertEqual(len(outcome.reference), len(ordinary.reference))
            self.assertNotEqual(outcome.reference, ordinary.reference)

    def test_excess_with_skipped_lines(self):
        for given, outcome, _ in self.found("an excess with skipped lines"):
            self.assertGreater(outcome.excess, 0)
            self.assertLess(len(lines_left(given)[1]), len(given.lines))

    def test_ends_of_rows(self):
        ends = {}
        for given, outcome, _ in self.found("ends of rows of legs"):
            count = len(given.lines)
            rows = {row: sum(range(count, count - row, -1)) for row in range(1, count + 1)}
            ends.setdefault(isinstance(outcome, StretchWritten), set()).update(given.tests - end for end in rows.values() if abs(given.tests - end) <= 1)
        self.assertEqual(ends, {True: {-1, 0, 1}, False: {-1, 0, 1}})

    def test_26_stands_above_11(self):
        for recipe in ("refusal 26", "refusal 26, no tests", "refusal 26, where all tests give 10"):
            self.assertEqual({given.byte_room for given, *_ in self.found(recipe)}, {0, 459})

    def test_26_where_all_tests_give_10(self):
        for recipe in ("refusal 26, where all tests give 10", "refusal 26, an untested leg too long"):
            self.assertEqual({ordinary for *_, ordinary in self.found(recipe)}, {Refused(10)})

    def test_10_before_all_tests(self):
        for given, _, ordinary in self.found("refusal 10, before all tests"):
            self.assertLess(given.tests, leg_count(len(given.lines)))
            self.assertEqual(ordinary, Refused(10))

    def test_11_where_all_tests_would_do(self):
        for given, _, ordinary in self.found("refusal 11, with these tests"):
            self.assertLessEqual(len(ordinary.reference), given.byte_room)
            self.assertIsInstance(write_outcome(all_tests(given)), StretchWritten)

    def test_bytes_exactly_enough(self):
        for given, outcome, ordinary in self.found("byte buffer exactly long enough for these tests"):
            self.assertEqual(len(outcome.reference), given.byte_room)
            self.assertGreater(given.byte_room, len(ordinary.reference))
            self.assertEqual(write_outcome(replace(given, byte_room=given.byte_room - 1)), Refused(11))

    def test_calls_from_c(self):
        # The number of tests stands behind the offsets.
        rows = [(row.split(), answer.split()) for row, answer in write_calls(1, 300)]
        self.assertEqual({len(words) for words, _ in rows}, {7})
        self.assertLessEqual({"0", "1", "2080", "4294967295"}, {words[5] for words, _ in rows})
        self.assertIn(["refused", "26"], [answer for _, answer in rows])
        accepted = [answer for _, answer in rows if answer[0] == "bytes"]
        self.assertEqual({(answer[2], answer[4], len(answer)) for answer in accepted}, {("tests", "excess", 7)})
        self.assertGreater(sum(answer[5] != "0" for answer in accepted), 5)


if __name__ == "__main__":
    unittest.main()
