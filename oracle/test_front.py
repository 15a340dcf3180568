"""A message's front and refusal 30: the sentences of paper 02, "The wrong map", with figures worked out by hand."""

import random
import unittest
from itertools import product

from depot_map import map_to_bytes
from front import Front, front_bytes, front_of, map_sum, read_front
from message import LONGEST_MESSAGE, Message, Part, Standing, bytes_of_part, listed, part_of
from message_calls import reading_outcome
from message_recipes import MAP_REFUSALS, refused_map
from of_message_recipes import every_changed_map, every_wrong_front, is_map, wrong_fronts
from outcome import PointRead, Refused, StretchRead, outcome_of
from point_along_line import read_point, read_point_of_message
from reader import read, read_of_message
from received_recipes import longer_form
from sample_maps import full_sample, ridge_map
from summed_maps import SUM_EDGES, agreeing_maps, map_of_bytes, map_with_sum, maps_by_front, maps_with_sum, small_maps
from test_message import front_by_powers
from test_points import HYDRANT
from test_scope_paper import RIDGE, THREE_POINTS, TWO_POINTS, WORK

LARGEST, MODULUS = 4_294_967_295, 4_294_967_291
UNTOUCHED = 0xEE
LINES = 1_024
READERS = ((read_of_message, read, THREE_POINTS), (read_point_of_message, read_point, HYDRANT))


class Sums(unittest.TestCase):
    def test_by_hand(self):
        # (1 x 257 + 2) x 257 + 3 is 259 x 257 + 3, 66,566.
        for data, total in ((b"", 0), (b"\x00", 0), (b"\x05", 5), (b"\x00\x00\x07", 7), (b"\x01\x00", 257), (b"\x01\x02\x03", 66_566), (b"\xFF", 255),
                            (b"\xFF\xFF", 65_790)):
            self.assertEqual(map_sum(data), total, data)

    def test_past_the_modulus(self):
        # 257 to the fourth is 4,362,470,401, which is the modulus and 67,503,110 more. Twice that are 135,006,220.
        self.assertEqual(map_sum(b"\x01\x00\x00\x00\x00"), 67_503_110)
        self.assertEqual(map_sum(b"\x02\x00\x00\x00\x00"), 135_006_220)
        # 255 x 257 x 257 x 257 is 255 x 16,974,593, 4,328,521,215: 33,553,924 past the modulus. And 253 x 16,974,593 is 4,294,572,029, 395,262 below it.
        self.assertEqual(map_sum(b"\xFF\x00\x00\x00"), 33_553_924)
        self.assertEqual(map_sum(b"\xFD\x00\x00\x00"), 4_294_572_029)

    def test_next_to_the_modulus(self):
        # 395,262 are 5 x 66,049 and 65,017, which are 252 x 257 and 253: with FD 05 FC FD the sum is the modulus, with one less in the last byte one below.
        self.assertEqual([map_sum(bytes([0xFD, 0x05, 0xFC, last])) for last in (0xFC, 0xFD, 0xFE)], [MODULUS - 1, 0, 1])
        # What comes behind starts from there: (modulus - 1) x 257 is 257 below a multiple of it.
        self.assertEqual(map_sum(b"\xFD\x05\xFC\xFC\x00"), MODULUS - 257)
        self.assertEqual(map_sum(b"\xFD\x05\xFC\xFC\xFF"), MODULUS - 2)
        self.assertEqual(map_sum(b"\xFD\x05\xFC\xFD\x09"), 9)

    def test_order_counts(self):
        self.assertNotEqual(map_sum(b"\x01\x02"), map_sum(b"\x02\x01"))

    def test_against_powers(self):
        for map_bytes in (*small_maps(), *maps_by_front().values(), RIDGE):
            self.assertEqual(front_of(map_bytes), front_by_powers(map_bytes))

    def test_maps_of_one_length_that_differ_in_one_byte(self):
        # In every byte, for every other byte, maps or not: the difference times a power of 257 is no multiple of a prime.
        for map_bytes in (RIDGE, map_with_sum(65, 0)):
            own = map_sum(map_bytes)
            for place, byte in product(range(len(map_bytes)), range(256)):
                if byte != map_bytes[place]:
                    self.assertNotEqual(map_sum(map_bytes[:place] + bytes([byte]) + map_bytes[place + 1:]), own)


class SummedMaps(unittest.TestCase):
    def test_counts_and_sums(self):
        for total in SUM_EDGES:
            map_bytes = map_with_sum(65, total)
            self.assertEqual((len(map_bytes), map_sum(map_bytes), is_map(map_bytes)), (65, total, True))
        for count in (127, 128, 16_383, 16_384):
            self.assertEqual((len(map_of_bytes(count)), is_map(map_of_bytes(count))), (count, True))

    def test_agreeing(self):
        first, second = agreeing_maps()
        self.assertNotEqual(first, second)
        self.assertEqual(front_of(first), front_of(second))
        self.assertTrue(is_map(first) and is_map(second))

    def test_several_of_one_sum(self):
        found = {map_bytes for map_bytes, _ in zip(maps_with_sum(65, 7), range(5))}
        self.assertEqual({(len(map_bytes), map_sum(map_bytes)) for map_bytes in found}, {(65, 7)})
        self.assertEqual(len(found), 5)


class Fronts(unittest.TestCase):
    def test_by_hand(self):
        # 65 is 41, 127 is 7F, 128 is 0 + 1 x 128, 80 01; 16,384 is 128 x 128. 2 to the 28th is the last group's 1.
        for count, total, text in ((65, 127, "41 7F"), (65, 128, "41 80 01"), (127, 0, "7F 00"), (128, 1, "80 01 01"), (16_383, 0, "FF 7F 00"),
                                   (16_384, 2 ** 28, "80 80 01 80 80 80 80 01"), (0, MODULUS - 1, "00 FA FF FF FF 0F")):
            self.assertEqual(front_bytes(count, total), bytes.fromhex(text))
            self.assertEqual(read_front(bytes.fromhex(text)), Front(count, total, len(bytes.fromhex(text))))

    def test_of_maps(self):
        # Counts of one, one, two, two, three bytes; the first byte, or the first two or three, are the count.
        for count, text in ((127, "7F"), (128, "80 01"), (16_383, "FF 7F"), (16_384, "80 80 01")):
            expected = bytes.fromhex(text)
            self.assertEqual(front_of(map_of_bytes(count))[:len(expected)], expected)
            self.assertEqual(read_front(front_of(map_of_bytes(count)))[:2], (count, map_sum(map_of_bytes(count))))

    def test_of_the_largest_maps(self):
        # 512 nodes of 8 bytes, 1,024 lines of 17 and 512 bans of 4, with counts of 2, are 23,558 bytes: three bytes of count, and at most five of sum.
        front = front_of(map_to_bytes(full_sample(random.Random(1)).depot_map))
        self.assertLessEqual(len(front), 8)
        self.assertEqual(sorted(maps_by_front()), [2, 3, 4, 5, 6, 7, 8])
        for length, map_bytes in maps_by_front().items():
            self.assertEqual((len(front_of(map_bytes)), is_map(map_bytes)), (length, True))

    def test_only_the_front_is_looked_at(self):
        for behind in (b"", b"\x00", b"\xFF" * 20_000, b"\x80\x80\x80\x80\x80\x80"):
            self.assertEqual(read_front(bytes.fromhex("41 7F") + behind), Front(65, 127, 2))

    def test_sums_that_no_map_has_can_be_read(self):
        for total in range(MODULUS - 1, LARGEST + 1):
            self.assertEqual(read_front(front_bytes(65, total)), Front(65, total, 6))
        self.assertEqual(read_front(front_bytes(LARGEST, LARGEST)), Front(LARGEST, LARGEST, 10))

    def test_fronts_that_cannot_be_read(self):
        number, longest = b"\x41", bytes.fromhex("FF FF FF FF 0F")
        faulty = [bytes.fromhex(text) for text in ("80 00", "C1 00", "C1 80 00", "80 81 00", "FF FF FF FF 10", "80 80 80 80 10", "FF FF FF FF FF",
                                                   "81 80 80 80 80 01", "81 80 80 80 80 00", "80 80 80 80 80 80 80 80 80 02")]
        for fault in faulty:
            self.assertIsNone(read_front(fault + number + b"\x01\xAA"), fault)
            self.assertIsNone(read_front(number + fault + b"\x01\xAA"), fault)
            self.assertIsNone(read_front(longest + fault + b"\x01\xAA"), fault)

    def test_cut_at_every_byte(self):
        for front in (*map(front_of, maps_by_front().values()), front_bytes(LARGEST, LARGEST), front_bytes(0, 0), front_bytes(300, 0)):
            for length in range(len(front)):
                self.assertIsNone(read_front(front[:length]))
                self.assertEqual(listed(front[:length]), ((), 0))
            self.assertIsNotNone(read_front(front))

    def test_longer_forms(self):
        for number in (0, 1, 65, 127, 128, 16_384, LARGEST):
            shortest = len(front_bytes(number, 0)) - 1
            for count in range(shortest + 1, 12):
                self.assertIsNone(read_front(longer_form(number, count) + b"\x07"))
                self.assertIsNone(read_front(b"\x07" + longer_form(number, count)))


def started(room, map_bytes=RIDGE):
    message = Message(bytearray([UNTOUCHED] * room))
    return message, outcome_of(message.start, map_bytes, WORK)


class Starts(unittest.TestCase):
    def check_refused(self, refusal, message, *arguments):
        before = bytes(message.buffer), message.standing()
        self.assertEqual(outcome_of(message.start, *arguments), Refused(refusal))
        self.assertEqual((bytes(message.buffer), message.standing()), before)

    def test_front_stands_first(self):
        for map_bytes in maps_by_front().values():
            front = front_by_powers(map_bytes)
            for more in (0, 1, 7):
                message, standing = started(len(front) + more, map_bytes)
                self.assertEqual(standing, Standing(len(front), False, 0))
                self.assertEqual(bytes(message.buffer), front + bytes([UNTOUCHED] * more))

    def test_every_buffer_that_is_too_short(self):
        for length, map_bytes in maps_by_front().items():
            for room in range(length):
                message = Message(bytearray([UNTOUCHED] * room))
                self.check_refused(28, message, map_bytes, WORK)

    def test_order(self):
        # 1, the map's own, 28.
        for refusal in MAP_REFUSALS:
            for turn, room in product(range(3), (0, 1, 5, 100)):
                message = Message(bytearray([UNTOUCHED] * room))
                map_bytes = refused_map(refusal, turn)
                self.check_refused(refusal, message, map_bytes, WORK)
                self.check_refused(1, message, map_bytes, WORK - 1)
                self.check_refused(1, message, map_bytes, 0)
        self.check_refused(1, Message(bytearray(5)), RIDGE, WORK - 1)
        self.check_refused(1, Message(bytearray(6)), RIDGE, WORK - 1)
        self.check_refused(28, Message(bytearray(5)), RIDGE, WORK)
        self.check_refused(28, Message(bytearray(5)), RIDGE, WORK + 5)
        self.check_refused(2, Message(bytearray(5)), b"", WORK)

    def states(self):
        """Messages that were started for a map with a front of two bytes: nothing done, one open, with bytes, one finished, and one open behind it."""
        for calls in ((), ("open",), ("open", "add"), ("open", "add", "close"), ("open", "add", "close", "open"), ("open", "add", "close", "open", "add")):
            message, _ = started(7, map_with_sum(65, 127))
            for call in calls:
                getattr(message, call)(*[b"\xAB"] if call == "add" else [])
            yield message

    def test_starting_again(self):
        # Never 27. What stands behind the front is as before, and nothing is finished.
        for map_bytes in (map_with_sum(65, 127), map_with_sum(65, 128), RIDGE):
            for message in self.states():
                before = bytes(message.buffer)
                front = front_by_powers(map_bytes)
                self.assertEqual(message.start(map_bytes, WORK), Standing(len(front), False, 0))
                self.assertEqual(bytes(message.buffer), front + before[len(front):])
                self.assertEqual(message.part(0), Part(len(front), 0))
                self.assertEqual(outcome_of(message.close), Refused(27))
                self.assertEqual(message.open(), Standing(len(front), True, 0))

    def test_refused_start_changes_nothing(self):
        # A front of eight bytes in a buffer of seven.
        for wrong, work, refusal in ((maps_by_front()[8], WORK, 28), (b"", WORK, 2), (RIDGE, WORK - 1, 1), (refused_map(6, 0), WORK, 6)):
            for message in self.states():
                self.check_refused(refusal, message, wrong, work)
                # The message goes on.
                finished = message.byte_count
                if message.opened is None:
                    message.open()
                if not message.opened:
                    message.add(b"\x01")
                self.assertEqual(message.close(), Standing(finished + 2, False, 0))
                self.assertEqual(message.part(0).start, 3)

    def test_front_counts_towards_the_limit(self):
        # Six bytes, and 1 + 127 behind them; with 2 + 128 it is 136.
        for room, most in ((6, 0), (7, 0), (8, 1), (134, 127), (135, 127), (136, 128), (6 + 461, 459)):
            message, _ = started(room)
            message.open()
            self.assertEqual(outcome_of(message.add, bytes(most + 1)), Refused(28))
            self.assertEqual(message.add(bytes(most)), Standing(6, True, most))

    def test_front_counts_towards_16_384(self):
        # 6 and 35 x 461 are 16,141, and 243 are left: 2 + 241.
        message, _ = started(20_000)
        for _ in range(35):
            message.open()
            message.add(bytes(459))
            message.close()
        message.open()
        self.assertEqual(outcome_of(message.add, bytes(242)), Refused(28))
        message.add(bytes(241))
        self.assertEqual(message.close(), Standing(LONGEST_MESSAGE, False, 0))


class OutOfAMessage(unittest.TestCase):
    def check(self, refusal, map_bytes, message, work=WORK, room=LINES, references=(None, b"", TWO_POINTS, b"\x0B" * 17)):
        """Both readers, with good references and with wrong ones, get the refusal."""
        for reader, _, good in READERS:
            for reference in references:
                self.assertEqual(reader(map_bytes, message, good if reference is None else reference, work, room), Refused(refusal))

    def test_written_and_read_back(self):
        message, _ = started(100)
        for reference in (THREE_POINTS, HYDRANT, TWO_POINTS):
            message.open()
            message.add(reference)
            message.close()
        sent = bytes(message.buffer[:message.byte_count])
        first, second, third = (bytes_of_part(sent, part_of(sent, number)) for number in range(3))
        # The ridge's outcomes of the scope paper and of the hydrant.
        self.assertEqual(read_of_message(RIDGE, sent, first, WORK, LINES), StretchRead((0, 1), (0, 0), (0, 0)))
        self.assertEqual(read_point_of_message(RIDGE, sent, second, WORK, LINES), PointRead((2,), (1_182, 1_201), 0, 1))
        self.assertEqual(read_of_message(RIDGE, sent, third, WORK, LINES), Refused(18, 0))
        self.assertEqual(read_of_message(RIDGE, sent, second, WORK, LINES), Refused(13))

    def test_as_by_itself(self):
        for reader, plain, _ in READERS:
            for reference in (THREE_POINTS, TWO_POINTS, HYDRANT, b"", THREE_POINTS[:-1], bytes(16), HYDRANT[:-1] + b"\x00"):
                for room in (0, 1, 2, LINES):
                    for behind in (b"", b"\x00", b"\xFF" * 9, bytes(17_000)):
                        self.assertEqual(reader(RIDGE, front_of(RIDGE) + behind, reference, WORK, room), plain(RIDGE, reference, WORK, room))

    def test_every_reason(self):
        count, total = 86, map_sum(RIDGE)
        self.assertEqual(len(RIDGE), count)
        for front in (front_bytes(85, total), front_bytes(87, total), front_bytes(0, total), front_bytes(count, total - 1), front_bytes(count, total + 1),
                      front_bytes(count, 0), front_bytes(count, LARGEST), front_bytes(total, count), front_bytes(count, MODULUS),
                      longer_form(count, 2) + front_bytes(0, total)[1:], front_bytes(count, 0)[:-1] + longer_form(total, 6), b"", b"\x56", b"\x80"):
            self.check(30, RIDGE, front)
            self.check(30, RIDGE, front, room=0)
        self.check(30, RIDGE, front_of(RIDGE)[:-1])

    def test_every_wrong_front(self):
        # Also on maps whose sum is 0 to 4, to which the modulus can be added, and of 128 bytes.
        for map_bytes in (RIDGE, *(map_with_sum(65, total) for total in SUM_EDGES), map_with_sum(128, 2 ** 28), map_of_bytes(127)):
            fronts = list(wrong_fronts(map_bytes))
            self.assertGreater(len(fronts), 60)
            self.assertEqual({reason for reason, _ in fronts}, {"count", "sum", "both", "longer form", "over 32 bits", "early end"})
            self.assertNotIn(front_of(map_bytes), [front for _, front in fronts])
            for _, front in fronts:
                self.check(30, map_bytes, front, references=(None,))

    def test_modulus_added_to_a_sum(self):
        for total in (0, 1, 2, 3, 4):
            map_bytes = map_with_sum(65, total)
            self.check(30, map_bytes, front_bytes(65, total + MODULUS))

    def test_order(self):
        # 1, the map's own, 30; and then 12 to 20, of which the checks have several.
        for refusal in MAP_REFUSALS:
            map_bytes = refused_map(refusal, 0)
            for message in (b"", front_of(map_bytes), front_of(RIDGE), front_bytes(0, LARGEST)):
                self.check(refusal, map_bytes, message)
                self.check(1, map_bytes, message, work=WORK - 1)
        for message in (b"", front_of(RIDGE), front_bytes(86, 0)):
            self.check(1, RIDGE, message, work=WORK - 1)
            self.check(1, RIDGE, message, work=0)
        self.check(30, RIDGE, b"", work=WORK + 1)

    def test_by_itself_never_30(self):
        self.assertEqual(read(RIDGE, THREE_POINTS, WORK, LINES), StretchRead((0, 1), (0, 0), (0, 0)))
        # What is given is a reference, whatever it looks like.
        self.assertEqual(read(RIDGE, b"", WORK, LINES), Refused(12))
        self.assertEqual(read(RIDGE, front_of(RIDGE) + THREE_POINTS, WORK, LINES), Refused(12))

    def test_maps_that_differ_in_one_byte(self):
        outcomes = {}
        for given in every_changed_map(random.Random(1)):
            outcome = reading_outcome(given)
            self.assertEqual(outcome == Refused(30), is_map(given.map_bytes))
            outcomes[outcome] = outcomes.get(outcome, 0) + 1
        self.assertGreater(outcomes[Refused(30)], 100)

    def test_stored_wrong_fronts(self):
        self.assertEqual({reading_outcome(given) for given in every_wrong_front(random.Random(1))}, {Refused(30)})

    def test_agreeing_maps(self):
        # "Two different maps may still agree in both": the message for the one is read on the other, by what stands there.
        first, second = agreeing_maps()
        self.assertEqual(read_of_message(second, front_of(first), b"", WORK, LINES), Refused(12))

    def test_same_sum_and_another_count(self):
        for total in (0, 7, MODULUS - 1):
            first, second = map_with_sum(65, total), map_with_sum(80, total)
            self.check(30, first, front_of(second))
            self.check(30, second, front_of(first))

    def test_banned_turn_is_another_map(self):
        banned = map_to_bytes(ridge_map((0, 2)))
        self.check(30, banned, front_of(RIDGE))
        self.check(30, RIDGE, front_of(banned))


class ListsBehindAFront(unittest.TestCase):
    def test_the_map_does_not_matter(self):
        for front in (front_bytes(0, 0), front_bytes(86, LARGEST), front_bytes(LARGEST, MODULUS), front_of(RIDGE)):
            message = front + b"\x02\xAA\xBB\x01\xCC"
            start = len(front)
            self.assertEqual([part_of(message, number) for number in range(3)], [Part(start + 1, 2), Part(start + 4, 1), Part(start + 5, 0)])

    def test_unreadable_front_makes_it_empty(self):
        for text in ("80 00 01", "01 80 00", "FF FF FF FF 10 01", "01 FF FF FF FF 10", "80", "01 80", "01", ""):
            for behind in (b"", b"\x01\xAA" * 3) if len(text) > 5 else (b"",):
                for number in (0, 1, LARGEST):
                    self.assertEqual(part_of(bytes.fromhex(text) + behind, number), Part(0, 0), text)

    def test_message_of_version_9(self):
        # Its first two numbers are taken for the front: 2, and AA BB 01. Then CC 00 is no length.
        self.assertEqual(listed(b"\x02\xAA\xBB\x01\xCC\x00"), ((), 4))
        # 3 and 1 are a front, 2 is a length.
        self.assertEqual(listed(b"\x03\x01\x02\x05\x01\x09"), ((Part(3, 2),), 5))

    def test_front_that_goes_past_16_384_cannot_be(self):
        # A front has 10 bytes at most.
        self.assertEqual(listed(front_bytes(LARGEST, LARGEST) + b"\x01\xAA" * 9_000)[1], 16_384)


if __name__ == "__main__":
    unittest.main()
