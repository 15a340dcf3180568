"""Map bytes, worked by hand, and refusals 2 to 6. Bans and refusal 23 are in test_bans.py, refusal 24 is in test_steps.py."""

import random
import unittest
from dataclasses import replace

from damages import map_damages, not_shortest
from depot_map import (MOST_BANS, DepotMap, Line, Node, Steps, map_numbers, map_to_bytes, numbers_to_bytes, read_map, read_number,
                       write_number)
from drawn_steps import EASTWARD, WESTWARD
from outcome import RefusedCall
from sample_maps import SMALL_SAMPLES, full_sample, joining_pairs, ridge_map

# 18,000,000 is 80 D1 CA 08, 18,001,000 is E8 D8 CA 08 and 9,000,000 is C0 A8 A5 04.
# 1000 is E8 07. Steps of 200, -200 and 0 are 450, 50 and 250: C2 03, 32 and FA 01.
TWO_NODES = "02 80D1CA08 C0A8A504 E8D8CA08 C0A8A504"
ONE_LINE = "01 00 01 E807 03 03 C203 FA01 32 FA01"
NO_BANS = "00"


def refusal_of(map_bytes):
    try:
        read_map(map_bytes)
    except RefusedCall as refusal:
        return refusal.refused.number
    return None


def refusal_of_hex(text):
    return refusal_of(bytes.fromhex(text))


class Numbers(unittest.TestCase):
    def test_numbers_worked_out_in_the_scope_paper(self):
        self.assertEqual(write_number(300), bytes.fromhex("AC 02"))
        self.assertEqual(read_number(bytes.fromhex("AC 02"), 0), (300, 2))
        with self.assertRaises(RefusedCall) as caught:
            read_number(bytes.fromhex("80 00"), 0)
        self.assertEqual(caught.exception.refused.number, 2)

    def test_edges_of_the_groups(self):
        worked = {0: "00", 127: "7F", 128: "80 01", 16_383: "FF 7F", 16_384: "80 80 01",
                  4_294_967_295: "FF FF FF FF 0F"}
        for number, text in worked.items():
            self.assertEqual(write_number(number), bytes.fromhex(text))
            self.assertEqual(read_number(bytes.fromhex(text), 0), (number, len(bytes.fromhex(text))))

    def test_wrong_forms(self):
        for text in ("", "80", "FF FF", "80 80 80 80 10", "FF FF FF FF 1F", "FF FF FF FF FF 01", "81 00",
                     "80 80 80 80 80 00"):
            with self.assertRaises(RefusedCall):
                read_number(bytes.fromhex(text), 0)


class GoodMaps(unittest.TestCase):
    def test_smallest_map_by_hand(self):
        expected = DepotMap((Node(0, 0), Node(1000, 0)), (Line(0, 1, 1000, 3, 3, EASTWARD, WESTWARD),))
        self.assertEqual(read_map(bytes.fromhex(TWO_NODES + ONE_LINE + NO_BANS)), expected)
        self.assertEqual(map_to_bytes(expected), bytes.fromhex(TWO_NODES + ONE_LINE + NO_BANS))

    def test_what_is_written_is_read_back(self):
        rng = random.Random("maps")
        maps = [make_sample(rng).depot_map for make_sample in SMALL_SAMPLES + [full_sample]] + [ridge_map()]
        for depot_map in maps:
            self.assertEqual(read_map(map_to_bytes(depot_map)), depot_map)

    def test_greatest_values_are_accepted(self):
        nodes = (Node(-18_000_000, -9_000_000), Node(17_999_998, 9_000_000))
        lines = (Line(0, 1, 1, 0, 0, Steps(-250, -250), Steps(0, -250)), Line(1, 0, 1_500_000, 7, 7, Steps(250, 250), Steps(250, 0)))
        self.assertEqual(read_map(map_to_bytes(DepotMap(nodes, lines))), DepotMap(nodes, lines))


class RefusedMaps(unittest.TestCase):
    def test_refusal_2_by_hand(self):
        self.assertEqual(refusal_of_hex(""), 2)
        self.assertEqual(refusal_of_hex("80 00"), 2)
        self.assertEqual(refusal_of_hex(TWO_NODES), 2)
        self.assertEqual(refusal_of_hex(TWO_NODES + "01 00 01 E807 03 03 C203 FA01 32 FA"), 2)
        self.assertEqual(refusal_of_hex(TWO_NODES + ONE_LINE + NO_BANS + "00"), 2)

    def test_refusal_3_by_hand(self):
        for count in ("00", "01", "8104"):
            self.assertEqual(refusal_of_hex(count), 3)
        self.assertEqual(refusal_of_hex(TWO_NODES + "00"), 3)
        self.assertEqual(refusal_of_hex(TWO_NODES + "8108"), 3)

    def test_refusal_4_by_hand(self):
        # 35,999,999 is FF A2 95 11 and one above the greatest longitude; 18,000,001 is 81 D1 CA 08.
        self.assertEqual(refusal_of_hex("02 FFA19511"), 4)
        self.assertEqual(refusal_of_hex("02 FEA19511 81D1CA08"), 4)
        self.assertEqual(refusal_of_hex("02 FEA19511 80D1CA08"), 2)

    def test_refusal_5_by_hand(self):
        # 1,500,001 is E1 C6 5B.
        for line in ("02", "00 02", "00 00", "01 01", "00 01 00", "00 01 E1C65B", "00 01 01 08",
                     "00 01 01 07 08"):
            self.assertEqual(refusal_of_hex(TWO_NODES + "01" + line), 5, line)

    def test_refusal_6_by_hand(self):
        nodes = (Node(0, 0), Node(1, 0))
        self.assertEqual(refusal_of(map_to_bytes(DepotMap(nodes, (Line(0, 1, 1, 0, 0, EASTWARD, WESTWARD),)))), 6)

    def test_nodes_with_one_equal_code_are_not_refused(self):
        nodes = (Node(0, 0), Node(0, 3), Node(3, 0))
        self.assertIsNone(refusal_of(map_to_bytes(DepotMap(nodes, (Line(0, 1, 1, 0, 0, EASTWARD, WESTWARD),)))))

    def test_first_faulty_number_decides(self):
        # Each row: a fault, then a fault of another kind after it.
        rows = [("02 8000 FFA19511", 2), ("02 FFA19511 8000", 4), (TWO_NODES + "00" + "8000", 3),
                (TWO_NODES + "01 0000 8000", 5), (TWO_NODES + "01 00 8000 00", 2),
                (TWO_NODES + "01 00 01 8000 08", 2), (TWO_NODES + "01 00 01 00 8000", 5)]
        for text, refusal in rows:
            self.assertEqual(refusal_of_hex(text), refusal, text)

    def test_equal_ends_are_a_fault_of_the_end_nodes_number(self):
        numbers = map_numbers(ridge_map())
        end, length = 11, 12
        numbers[end] = 0
        self.assertEqual(refusal_of(numbers_to_bytes(numbers)), 5)
        numbers[length] = not_shortest(1000)
        self.assertEqual(refusal_of(numbers_to_bytes(numbers)), 5)
        numbers[end] = 1
        self.assertEqual(refusal_of(numbers_to_bytes(numbers)), 2)

    def test_left_over_bytes_come_last_but_before_refusal_6(self):
        wrong_line = TWO_NODES + "01 00 01 E807 03 08 C203 FA01 32 FA01"
        self.assertEqual(refusal_of_hex(wrong_line + NO_BANS + "00"), 5)
        same_nodes = "02 80D1CA08 C0A8A504 80D1CA08 C0A8A504" + ONE_LINE + NO_BANS
        self.assertEqual(refusal_of_hex(same_nodes + "00"), 2)
        self.assertEqual(refusal_of_hex(same_nodes), 6)

    def test_every_known_damage_gives_its_refusal(self):
        rng = random.Random("damages")
        for make_sample in SMALL_SAMPLES:
            free = make_sample(rng).depot_map
            for depot_map in (free, replace(free, bans=tuple(joining_pairs(free.lines)[:MOST_BANS]))):
                for damage in map_damages(depot_map):
                    self.assertEqual(refusal_of(damage.apply(depot_map)), damage.refusal, damage.label)


if __name__ == "__main__":
    unittest.main()
