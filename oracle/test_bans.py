"""Paper 02, "Banned turns", sentence by sentence: the map's bans, legs, refusals 21, 22 and 23, and the ridge with a turn banned."""

import unittest
from dataclasses import replace

from depot_map import DepotMap, Line, Node, map_to_bytes, read_map
from drawn_steps import EASTWARD, WESTWARD
from legs import Leg, LegSearch, Marks, readings_by_enumeration
from outcome import Refused, StretchRead, StretchWritten, outcome_text
from reader import read
from sample_maps import ridge_map
from test_depot_map import ONE_LINE, TWO_NODES, refusal_of, refusal_of_hex
from test_legs import EAST, WEST_ARRIVAL, as_readings
from test_scope_paper import RIDGE, THREE_POINTS, TWO_POINTS, WORK, all_tested, row_map
from writer import choose_points, write

LARGEST = 4_294_967_295
NO_OFFSETS = (0, 0), (0, 0)
# Out by line 0, which may not go on into line 1: around the block by lines 2 and 3, through node 1 once more.
BLOCK = ((0, 1, 100), (1, 2, 100), (1, 3, 100), (3, 1, 100))


def ridge(*bans):
    return map_to_bytes(ridge_map(*bans))


class RidgeWithATurnBanned(unittest.TestCase):
    def test_way_over_the_ridge_banned(self):
        # From line 0 only line 1 is left, so that two points will do for it. D of 20,000 is 3.
        map_bytes = ridge((0, 2))
        self.assertEqual(TWO_POINTS, bytes.fromhex("0B 000000 000000 1B 68 03 07D0 0000 1B 18"))
        self.assertEqual(write(map_bytes, [0, 1], 0, 0, WORK, 16), all_tested(TWO_POINTS, 2))
        self.assertEqual(read(map_bytes, TWO_POINTS, WORK, 2), StretchRead((0, 1), *NO_OFFSETS))
        self.assertEqual(read(RIDGE, TWO_POINTS, WORK, 2), Refused(18, 0))
        self.assertEqual(write(map_bytes, [0, 2, 3], 0, 0, WORK, 459), Refused(21))

    def test_offset_is_measured_against_the_longer_leg(self):
        # 256 x 5,000 / 20,000 is 64, 40 in hexadecimal. 63.5 x 20,000 / 256 is 4,960.9 and 64.5 x 20,000 / 256 is 5,039.1.
        written = bytes.fromhex("0B 000000 000000 1B 68 03 07D0 0000 1B 58 40")
        self.assertEqual(write(ridge((0, 2)), [0, 1], 5_000, 0, WORK, 17), all_tested(written, 2))
        outcome = read(ridge((0, 2)), written, WORK, 2)
        self.assertEqual(outcome, StretchRead((0, 1), (4_961, 5_039), (0, 0)))
        self.assertEqual(outcome_text(outcome), "lines 2 pos 4961 5039 neg 0 0\n0\n1")

    def test_straight_way_banned(self):
        # The same bytes stand for the way over the ridge: line 3 has the class, the form and the sector of line 1.
        map_bytes = ridge((0, 1))
        self.assertEqual(write(map_bytes, [0, 2, 3], 0, 0, WORK, 16), all_tested(TWO_POINTS, 3))
        self.assertEqual(read(map_bytes, TWO_POINTS, WORK, 3), StretchRead((0, 2, 3), *NO_OFFSETS))
        self.assertEqual(write(map_bytes, [0, 1], 0, 0, WORK, 459), Refused(21))

    def test_either_half_of_the_way_over_the_ridge_banned(self):
        self.assertEqual(write(ridge((2, 3)), [0, 1], 0, 0, WORK, 16), all_tested(TWO_POINTS, 2))
        self.assertEqual(write(ridge((2, 3)), [0, 2], 0, 0, WORK, 16),
                         all_tested(bytes.fromhex("0B 000000 000000 1B 68 02 03E8 03E8 1B 10"), 2))

    def test_both_ways_banned(self):
        self.assertEqual(read(ridge((0, 1), (0, 2)), TWO_POINTS, WORK, 3), Refused(17, 0))

    def test_no_turn_banned(self):
        self.assertEqual(ridge(), RIDGE)
        self.assertEqual(RIDGE[-1:], b"\x00")
        self.assertEqual(write(RIDGE, [0, 1], 0, 0, WORK, 23), all_tested(THREE_POINTS, 2))

    def test_pair_listed_twice(self):
        for bans in (((0, 2), (0, 2)), ((0, 2),) * 512):
            self.assertEqual(read_map(ridge(*bans)).bans, bans)
            self.assertEqual(write(ridge(*bans), [0, 1], 0, 0, WORK, 16), all_tested(TWO_POINTS, 2))
            self.assertEqual(read(ridge(*bans), TWO_POINTS, WORK, 2), StretchRead((0, 1), *NO_OFFSETS))


class BansOfAMap(unittest.TestCase):
    MAP = TWO_NODES + "02 00 01 E807 03 03 C203 FA01 32 FA01 01 00 E807 03 03 32 FA01 C203 FA01"

    def test_bytes_by_hand(self):
        lines = (Line(0, 1, 1000, 3, 3, EASTWARD, WESTWARD), Line(1, 0, 1000, 3, 3, WESTWARD, EASTWARD))
        depot_map = DepotMap((Node(0, 0), Node(1000, 0)), lines, ((1, 0), (0, 1)))
        self.assertEqual(read_map(bytes.fromhex(self.MAP + "02 01 00 00 01")), depot_map)
        self.assertEqual(map_to_bytes(depot_map), bytes.fromhex(self.MAP + "02 01 00 00 01"))

    def test_every_map_has_the_count(self):
        self.assertEqual(refusal_of_hex(self.MAP), 2)
        self.assertIsNone(refusal_of_hex(self.MAP + "00"))

    def test_ends_early(self):
        for text in ("80", "01", "01 01", "01 01 80", "02 01 00", "02 01 00 00"):
            self.assertEqual(refusal_of_hex(self.MAP + text), 2, text)

    def test_bytes_left_over(self):
        for text in ("00 00", "01 01 00 00", "01 01 00 80"):
            self.assertEqual(refusal_of_hex(self.MAP + text), 2, text)

    def test_wrong_forms(self):
        # 4,294,967,296 is 80 80 80 80 10.
        for text in ("8000", "8080808010", "01 8100 00", "01 01 8000", "01 8080808010 00", "01 01 8080808010"):
            self.assertEqual(refusal_of_hex(self.MAP + text), 2, text)

    def test_count_at_its_edges(self):
        # 512 is 80 04 and 513 is 81 04.
        self.assertIsNone(refusal_of_hex(self.MAP + "8004" + 512 * "01 00"))
        self.assertEqual(refusal_of_hex(self.MAP + "8104" + 513 * "01 00"), 3)
        self.assertEqual(refusal_of_hex(self.MAP + "8104"), 3)
        self.assertEqual(refusal_of_hex(self.MAP + "FFFFFFFF0F"), 3)

    def test_first_faulty_number_decides(self):
        wrong_step = TWO_NODES + "01 00 01 E807 03 03 C203 FA01 32 F503"
        rows = [(wrong_step + "8104", 24), (self.MAP + "8104 8000", 3), (self.MAP + "8000 8104", 2), (self.MAP + "8104 00", 3)]
        for text, refusal in rows:
            self.assertEqual(refusal_of_hex(text), refusal, text)

    def test_pair_names_no_line(self):
        for ban in ((4, 0), (0, 4), (4, 4), (LARGEST, 0), (0, LARGEST), (LARGEST, LARGEST), (1_024, 1), (0, 65_537), (2 ** 31, 1)):
            self.assertEqual(refusal_of(ridge(ban)), 23, ban)

    def test_second_line_does_not_start_where_the_first_ends(self):
        joining = {(0, 1), (0, 2), (2, 3)}
        for first in range(4):
            for second in range(4):
                self.assertEqual(refusal_of(ridge((first, second))), None if (first, second) in joining else 23)

    def test_line_and_itself(self):
        for line in range(4):
            self.assertEqual(refusal_of(ridge((line, line))), 23)

    def test_any_of_the_pairs(self):
        for place in range(3):
            bans = [(0, 2)] * 3
            bans[place] = (2, 0)
            self.assertEqual(refusal_of(ridge(*bans)), 23, place)

    def test_a_pair_is_looked_at_when_the_map_is_read_whole(self):
        # A wrong pair and, after it: a wrong form, an early end, a byte left over. Two nodes with one pair of codes stand above it too.
        for text in ("02 00 00 8000 00", "02 00 00 00", "01 00 00 00", "01 FFFFFFFF0F 00 80"):
            self.assertEqual(refusal_of_hex(self.MAP + text), 2, text)
        same_nodes = "02 80D1CA08 C0A8A504 81D1CA08 C0A8A504" + ONE_LINE
        self.assertEqual(refusal_of_hex(same_nodes + "01 00 00"), 6)
        self.assertEqual(refusal_of_hex(same_nodes + "00"), 6)
        self.assertEqual(refusal_of_hex(TWO_NODES + ONE_LINE + "01 00 00"), 23)

    def test_23_stands_above_what_the_calls_ask(self):
        for ban in ((1, 0), (0, 4)):
            self.assertEqual(write(ridge(ban), [], 0, 0, WORK, 0), Refused(23))
            self.assertEqual(read(ridge(ban), b"", WORK, 0), Refused(23))
            self.assertEqual(outcome_text(read(ridge(ban), TWO_POINTS, WORK, 2)), "refused 23")
            self.assertEqual(read(ridge(ban), TWO_POINTS, WORK - 1, 2), Refused(1))


class Legs(unittest.TestCase):
    def check(self, depot_map, leg, *readings):
        """The expected readings, by counting and by enumeration."""
        self.assertEqual(sorted(readings_by_enumeration(depot_map, leg)), sorted(readings))
        self.assertEqual(LegSearch(depot_map).readings(leg), as_readings(readings))

    def test_least_length_is_among_lists_without_a_banned_pair(self):
        # 200 is shorter than 150 + 51, and banned.
        lines = ((0, 1, 10), (1, 3, 200), (1, 2, 150), (2, 3, 51))
        leg = Leg(0, 3, EAST, 3, 0)
        self.check(row_map(*lines), leg, (0, 1))
        self.check(row_map(*lines, bans=[(0, 1)]), leg, (0, 2, 3))
        self.check(row_map(*lines, bans=[(0, 1), (2, 3)]), leg)

    def test_ban_that_makes_a_tie(self):
        # The shortest way, over line 1, is banned. The two others are equally long.
        lines = ((0, 1, 10), (1, 2, 100), (1, 2, 150), (1, 2, 150), (2, 3, 10))
        leg = Leg(0, 3, EAST, 3, 0)
        self.check(row_map(*lines), leg, (0, 1, 4))
        self.check(row_map(*lines, bans=[(0, 1)]), leg, (0, 2, 4), (0, 3, 4))
        self.check(row_map(*lines, bans=[(0, 1), (2, 4)]), leg, (0, 3, 4))

    def test_only_the_pair_is_banned(self):
        # Lines 0 and 1 both lead into line 2; after line 1 it is allowed.
        depot_map = row_map((0, 1, 1_000), (0, 1, 7_000), (1, 2, 1_000), bans=[(0, 2)])
        self.check(depot_map, Leg(0, 2, EAST, 3, 0))
        self.check(depot_map, Leg(0, 2, EAST, 3, 1), (1, 2))
        self.check(depot_map, Leg(0, 1, EAST, 3, 0), (0,))

    def test_least_list_may_pass_a_node_twice(self):
        # Line 1 is banned straight after line 0 and not later.
        leg = Leg(0, 2, EAST, 3, 0)
        self.check(row_map(*BLOCK, bans=[(0, 1)]), leg, (0, 2, 3, 1))
        self.check(row_map(*BLOCK, bans=[(0, 1)]), replace(leg, last_marks=WEST_ARRIVAL), (0, 2, 3, 1))
        self.check(row_map(*BLOCK, bans=[(0, 1), (3, 1)]), leg)

    def test_stretch_around_the_block(self):
        # One leg of 400; nodes 0 and 2 are 2000 apart.
        map_bytes = map_to_bytes(row_map(*BLOCK, bans=[(0, 1)]))
        written = bytes.fromhex("0B 000000 000000 1B 68 00 07D0 0000 1B 18")
        self.assertEqual(write(map_bytes, [0, 2, 3, 1], 0, 0, WORK, 16), all_tested(written, 4))
        self.assertEqual(read(map_bytes, written, WORK, 4), StretchRead((0, 2, 3, 1), *NO_OFFSETS))
        # Without the ban these bytes are lines 0 and 1, and going around takes more points.
        free = map_to_bytes(row_map(*BLOCK))
        self.assertEqual(read(free, written, WORK, 4), StretchRead((0, 1), *NO_OFFSETS))
        self.assertEqual(choose_points(row_map(*BLOCK), (0, 2, 3, 1)), [(0, 2), (3, 1)])

    def test_ban_that_is_nobodys_least_way(self):
        # Line 2 is never in mid-leg, being longer than line 1; what may come after it changes nothing.
        lines = ((0, 1, 100), (1, 2, 100), (1, 2, 500), (2, 3, 50))
        free, banned = (map_to_bytes(row_map(*lines, bans=bans)) for bans in ((), [(2, 3)]))
        written = all_tested(bytes.fromhex("0B 000000 000000 1B 68 00 0BB8 0000 1B 18"), 3)
        for map_bytes in (free, banned):
            self.assertEqual(write(map_bytes, [0, 1, 3], 0, 0, WORK, 16), written)
            self.assertEqual(read(map_bytes, written.reference, WORK, 3), StretchRead((0, 1, 3), *NO_OFFSETS))

    def test_every_line_in_one_leg(self):
        # Twice around three nodes: lines 0 to 2, then 3 to 5, since from the first round there is no way to lines 4 and 5.
        lines = [(hop % 3, (hop + 1) % 3, 10) for hop in range(6)]
        depot_map = row_map(*lines, bans=[(0, 4), (1, 5)])
        second_round = tuple(replace(line, fow=4) for line in depot_map.lines[3:])
        depot_map = replace(depot_map, lines=depot_map.lines[:3] + second_round)
        self.check(depot_map, Leg(0, 0, EAST, 3, 0, Marks(3, 4, 24)), (0, 1, 2, 3, 4, 5))


class TwoLegsMeet(unittest.TestCase):
    ROW = ((0, 1, 100), (1, 2, 10_000), (2, 3, 10_000), (2, 3, 10_000))
    # Legs of 100, 10,000 and 10,000. The last has a tie.
    THREE_LEGS = bytes.fromhex("0B 000000 000000 1B 68 00 03E8 0000 1B 68 01 03E8 0000 1B 68 01 03E8 0000 1B 18")
    # Legs of 100 and 10,000.
    TWO_LEGS = bytes.fromhex("0B 000000 000000 1B 68 00 03E8 0000 1B 68 01 03E8 0000 1B 18")

    def check(self, reference, *refusal, bans=((0, 1),), lines=ROW, line_room=9):
        self.assertEqual(read(map_to_bytes(row_map(*lines, bans=bans)), reference, WORK, line_room), Refused(*refusal))

    def test_22(self):
        self.check(self.TWO_LEGS, 22)
        self.assertEqual(read(ridge((0, 1)), THREE_POINTS, WORK, 2), Refused(22))

    def test_last_line_of_a_leg_and_first_line_of_the_next(self):
        # Two legs of two lines each. A banned pair inside a leg leaves it without a reading.
        lines = ((0, 1, 100), (1, 2, 100), (2, 3, 100), (3, 4, 100))
        reference = bytes.fromhex("0B 000000 000000 1B 68 00 07D0 0000 1B 68 00 07D0 0000 1B 18")
        self.check(reference, 22, bans=[(1, 2)], lines=lines)
        self.check(reference, 17, 0, bans=[(0, 1)], lines=lines)
        self.check(reference, 17, 1, bans=[(2, 3)], lines=lines)

    def test_22_has_no_place(self):
        self.assertEqual(outcome_text(read(ridge((0, 1)), THREE_POINTS, WORK, 2)), "refused 22")

    def test_other_pairs_do_not_count(self):
        map_bytes = map_to_bytes(row_map(*self.ROW, bans=[(1, 2), (1, 3)]))
        self.assertEqual(read(map_bytes, self.TWO_LEGS, WORK, 2), StretchRead((0, 1), *NO_OFFSETS))

    def test_any_of_the_joints(self):
        # Here without the line that makes the tie.
        for bans in ([(0, 1)], [(1, 2)], [(0, 1), (1, 2)]):
            self.check(self.THREE_LEGS, 22, bans=bans, lines=self.ROW[:3])

    def test_22_before_19_and_20(self):
        # On a leg of 100 no offset gives byte 1: 256 x 1 / 100 is 2.56.
        no_offset = self.TWO_LEGS[:-1] + b"\x58\x01"
        self.check(no_offset, 19, bans=())
        self.check(no_offset, 22)
        self.check(self.TWO_LEGS, 20, bans=(), line_room=1)
        self.check(self.TWO_LEGS, 22, line_room=1)

    def test_a_later_legs_17_or_18_goes_before(self):
        self.check(self.THREE_LEGS, 18, 2)
        d_of_the_last_leg = 23
        self.check(self.THREE_LEGS[:d_of_the_last_leg] + b"\x00" + self.THREE_LEGS[d_of_the_last_leg + 1:], 17, 2)

    def test_a_leg_is_read_as_if_it_stood_alone(self):
        # Lines 1 and 2 are equal. The ban at the joint takes neither of them out of leg 1.
        self.check(self.TWO_LEGS, 18, 1, lines=((0, 1, 100), (1, 2, 10_000), (1, 2, 10_000)))
        # Of two first legs that end at node 1 both stay, though only the second may go on into line 2.
        self.check(self.TWO_LEGS, 18, 0, lines=((0, 1, 100), (0, 1, 101), (1, 2, 10_000)), bans=((0, 2),))


class StretchWithABannedPair(unittest.TestCase):
    ROW = ((0, 1, 1000), (1, 2, 500), (2, 3, 700))

    def check(self, lines, refusal, *offsets, bans=((0, 1),), map_lines=ROW, byte_room=459):
        map_bytes = map_to_bytes(row_map(*map_lines, bans=bans))
        self.assertEqual(write(map_bytes, lines, *(offsets or (0, 0)), WORK, byte_room), Refused(refusal))

    def test_21(self):
        self.check([0, 1], 21)
        self.check([0, 1, 2], 21)
        self.check([0, 1, 2], 21, bans=((1, 2),))
        self.assertEqual(outcome_text(write(ridge((0, 1)), [0, 1], 0, 0, WORK, 459)), "refused 21")

    def test_other_pairs_do_not_count(self):
        map_bytes = map_to_bytes(row_map(*self.ROW, bans=[(0, 1)]))
        self.assertIsInstance(write(map_bytes, [1, 2], 0, 0, WORK, 459), StretchWritten)

    def test_lines_that_an_offset_skips_count(self):
        # Both lines of the pair are skipped, at the start and at the end; then the first or the second of them alone.
        self.check([0, 1, 2], 21, 1_500, 0)
        self.check([0, 1, 2], 21, 0, 1_200, bans=((1, 2),))
        self.check([0, 1, 2], 21, 1_000, 0)
        self.check([0, 1, 2], 21, 0, 700, bans=((1, 2),))

    def test_8_before_21_before_9(self):
        self.check([0, 1, 1], 8)
        self.check([1, 0, 1], 8)
        self.check([0, 1, 3], 7)
        self.check([0, 1], 21, 1_000, 500)
        self.check([0, 1], 21, LARGEST, LARGEST)
        self.check([0, 1], 9, 1_000, 500, bans=((1, 2),))

    def test_21_before_10_and_11(self):
        twins = ((0, 1, 1000), (0, 1, 1000), (1, 2, 500))
        self.check([0, 2], 10, map_lines=twins, bans=())
        self.check([0, 2], 21, map_lines=twins, bans=((0, 2),))
        self.check([0, 1], 21, byte_room=0)


class WorkArea(unittest.TestCase):
    def test_14_336_numbers(self):
        for work_length, refused in ((0, True), (12_288, True), (14_335, True), (14_336, False), (20_000, False)):
            self.assertEqual(read(RIDGE, THREE_POINTS, work_length, 2) == Refused(1), refused)
            self.assertEqual(write(RIDGE, [0, 1], 0, 0, work_length, 459) == Refused(1), refused)


if __name__ == "__main__":
    unittest.main()
