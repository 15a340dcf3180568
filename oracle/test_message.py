"""Messages: the sentences of paper 02, "Many stretches in one message", with figures worked out by hand, and against two plainer ways to say the same.

What stands at the front of a message is in test_front.py. Here it has two bytes, for a map of 65 bytes whose sum is 127, unless it is said otherwise.
"""

import random
import re
import unittest

from cases import map_outcome
from message import LONGEST_MESSAGE, Message, Part, Standing, bytes_of_part, listed, part_of
from message_calls import (ADD, ASK, CLOSE, OPEN, START, Answered, Call, Change, History, ReadingOfMessage, Received, answered_in, buffers_after,
                           change_between, first_buffer, history_outcome, outcome_row, reading_outcome, received_outcome)
from message_recipes import MESSAGE_RECIPES, lengths_filling
from outcome import Refused, outcome_of
from received_recipes import RECEIVED_RECIPES, longer_form
from summed_maps import map_with_sum
from test_points import HYDRANT
from test_scope_paper import RIDGE, THREE_POINTS, TWO_POINTS, WORK

LARGEST = 4_294_967_295
UNTOUCHED = 0xEE
MAP, FRONT = map_with_sum(65, 127), b"\x41\x7F"
# 35 references of 459 bytes take 461 each, 16,135 together; of 16,384 bytes 249 are left, and 247 behind the front.
FILLING = (459,) * 35
FILLED = 16_135


def standing(byte_count, is_open, added):
    """With so many bytes behind the front."""
    return Standing(len(FRONT) + byte_count, is_open, added)


def part(start, byte_count):
    """A part that starts there behind the front."""
    return Part(len(FRONT) + start, byte_count)


def portion(length, byte=0xA5):
    return bytes([byte]) * length


def message_in(room, *lengths):
    """A message with finished references of these lengths, in a buffer that was untouched and has so much room behind the front."""
    message = Message(bytearray([UNTOUCHED] * (len(FRONT) + room)))
    message.start(MAP, WORK)
    for length in lengths:
        message.open()
        message.add(portion(length))
        message.close()
    return message


class MessageTests(unittest.TestCase):
    def check_refused(self, refusal, message, call, *arguments):
        """Refused, and "a refusal change[s] nothing"."""
        before = bytes(message.buffer), message.standing()
        self.assertEqual(outcome_of(call, *arguments), Refused(refusal))
        self.assertEqual((bytes(message.buffer), message.standing()), before)

    def check_bytes(self, message, text):
        """The first bytes of the buffer behind the front, and that all behind them are untouched."""
        expected = FRONT + bytes.fromhex(text)
        self.assertEqual(message.buffer, expected + bytes([UNTOUCHED] * (len(message.buffer) - len(expected))))


class WorkedOut(MessageTests):
    def test_two_references_call_by_call(self):
        message = message_in(10)
        self.assertEqual(message.open(), standing(0, True, 0))
        self.check_bytes(message, "")
        self.assertEqual(message.add(b"\x0B"), standing(0, True, 1))
        self.check_bytes(message, "01 0B")
        self.assertEqual(message.add(b"\x0C\x0D"), standing(0, True, 3))
        self.check_bytes(message, "03 0B 0C 0D")
        self.assertEqual(message.part(0), part(0, 0))
        self.assertEqual(message.close(), standing(4, False, 0))
        message.open()
        self.check_bytes(message, "03 0B 0C 0D")
        message.add(b"\x2B")
        self.check_bytes(message, "03 0B 0C 0D 01 2B")
        # The open one is not there yet.
        self.assertEqual([message.part(number) for number in (0, 1)], [part(1, 3), part(4, 0)])
        self.assertEqual(message.close(), standing(6, False, 0))
        self.assertEqual([message.part(number) for number in (0, 1, 2, LARGEST)], [part(1, 3), part(5, 1), part(6, 0), part(6, 0)])

    def test_references_of_the_ridge(self):
        # 23, 17 and 16 bytes: behind 17, 11 and 10, at 1, 25 and 43, 59 together.
        message = message_in(100)
        for reference in (THREE_POINTS, HYDRANT, TWO_POINTS):
            message.open()
            message.add(reference)
            message.close()
        self.assertEqual(message.byte_count, 2 + 59)
        sent = bytes(message.buffer[:2 + 59])
        self.assertEqual(sent, FRONT + b"\x17" + THREE_POINTS + b"\x11" + HYDRANT + b"\x10" + TWO_POINTS)
        self.assertEqual([part_of(sent, number) for number in range(4)], [part(1, 23), part(25, 17), part(43, 16), part(59, 0)])
        self.assertEqual(bytes_of_part(sent, part_of(sent, 1)), HYDRANT)

    def test_lengths_of_one_byte_and_of_two(self):
        # 128 is 1 x 128, 129 is 1 + 1 x 128, 255 is 127 + 1 x 128, 256 is 2 x 128, 459 is 75 + 3 x 128; 75 with its top bit is CB.
        for length, number in ((1, "01"), (127, "7F"), (128, "80 01"), (129, "81 01"), (255, "FF 01"), (256, "80 02"), (459, "CB 03")):
            message = message_in(470, length)
            self.check_bytes(message, number + portion(length).hex())
            self.assertEqual(message.byte_count, 2 + len(bytes.fromhex(number)) + length)

    def test_bytes_move_by_one_at_128(self):
        message = message_in(140)
        message.open()
        message.add(portion(127, 0x11))
        self.check_bytes(message, "7F" + "11" * 127)
        message.add(b"\x22")
        self.check_bytes(message, "80 01" + "11" * 127 + "22")
        message.add(b"\x33")
        self.check_bytes(message, "81 01" + "11" * 127 + "22 33")
        self.assertEqual(message.close(), standing(131, False, 0))

    def test_portions_make_the_bytes_that_one_would(self):
        for portions in ((1, 127), (100, 28), (127, 1), (0, 128), (64, 0, 64), (1,) * 128, (127, 332), (128, 331), (1, 458), (459, 0)):
            whole = message_in(470, sum(portions))
            message = message_in(470)
            message.open()
            for length in portions:
                message.add(portion(length))
            message.close()
            self.assertEqual((message.buffer, message.standing()), (whole.buffer, whole.standing()), portions)

    def test_longest_reference(self):
        message = message_in(1_000)
        message.open()
        self.check_refused(28, message, message.add, portion(460))
        self.assertEqual(message.add(portion(459)), standing(0, True, 459))
        self.check_refused(28, message, message.add, portion(1))
        self.assertEqual(message.add(b""), standing(0, True, 459))
        self.assertEqual(message.close(), standing(461, False, 0))


class EndOfTheBuffer(MessageTests):
    def test_length_is_counted(self):
        # 1 + 127 bytes or 2 + 128. With 129 bytes there is no room for 128.
        for room, most in ((0, 0), (1, 0), (2, 1), (3, 2), (127, 126), (128, 127), (129, 127), (130, 128), (131, 129)):
            # Behind nothing, behind 2 bytes, and behind 3 + 461.
            for before, finished in ((0, ()), (2, (1,)), (464, (2, 459))):
                message = message_in(before + room, *finished)
                message.open()
                self.check_refused(28, message, message.add, portion(most + 1))
                self.assertEqual(message.add(portion(most)), standing(before, True, most))
                self.check_refused(28, message, message.add, portion(1))

    def test_smaller_portion_after_a_refusal(self):
        message = message_in(5)
        message.open()
        message.add(b"\x01\x02")
        self.check_refused(28, message, message.add, b"\x03\x04\x05")
        self.assertEqual(message.add(b"\x03\x04"), standing(0, True, 4))
        self.check_bytes(message, "04 01 02 03 04")
        self.assertEqual(message.close().byte_count, 2 + 5)

    def test_empty_additions_where_nothing_else_fits(self):
        for room, finished in ((0, ()), (1, ()), (2, (1,)), (130, (128,)), (LONGEST_MESSAGE - 2, (*FILLING, 245)), (20_000, (*FILLING, 245))):
            message = message_in(room, *finished)
            message.open()
            before, buffer = message.standing(), bytes(message.buffer)
            self.assertEqual(message.add(b""), before)
            self.check_refused(28, message, message.add, b"\x01")
            self.assertEqual(message.add(b""), before)
            self.assertEqual(bytes(message.buffer), buffer)
            self.check_refused(27, message, message.close)

    def test_empty_addition_to_one_that_fills_the_buffer(self):
        message = message_in(4)
        message.open()
        message.add(b"\x01\x02\x03")
        self.assertEqual(message.add(b""), standing(0, True, 3))
        self.assertEqual(message.close(), standing(4, False, 0))

    def test_16_384_bytes(self):
        # 247 are left: 2 + 245. In a buffer of one less 2 + 244.
        for room, most, end in ((16_384, 245, 16_384), (16_385, 245, 16_384), (16_390, 245, 16_384), (40_000, 245, 16_384), (16_383, 244, 16_383)):
            message = message_in(room - 2, *FILLING)
            self.assertEqual(message.byte_count, 2 + FILLED)
            message.open()
            self.check_refused(28, message, message.add, portion(most + 1))
            message.add(portion(most))
            self.check_refused(28, message, message.add, portion(1))
            self.assertEqual(message.close(), Standing(end, False, 0))
            self.assertEqual(message.part(35), part(FILLED + 2, most))
            self.assertEqual(message.part(36), Part(end, 0))
            self.assertEqual(bytes(message.buffer[end:]), bytes([UNTOUCHED] * (room - end)))

    def test_16_383_bytes(self):
        # 2 + 244 are 246. One byte is left, and a reference of one byte would take the message to 16,385.
        for room in (16_384, 16_390):
            message = message_in(room - 2, *FILLING, 244)
            self.assertEqual(message.byte_count, 16_383)
            message.open()
            self.check_refused(28, message, message.add, portion(1))
            self.assertEqual(message.part(35), part(FILLED + 2, 244))


class Order(MessageTests):
    def test_none_is_open(self):
        # 27 comes first: no portion is too long for it, and an empty one is no exception.
        for message in (message_in(0), message_in(50), message_in(50, 3), message_in(4, 3)):
            for length in (0, 1, 46, 459, 460, 20_000):
                self.check_refused(27, message, message.add, portion(length))
            self.check_refused(27, message, message.close)

    def test_one_is_open(self):
        for added in (0, 1, 48):
            message = message_in(50)
            message.open()
            message.add(portion(added))
            self.check_refused(27, message, message.open)

    def test_closing_with_nothing_added(self):
        message = message_in(50)
        message.open()
        self.check_refused(27, message, message.close)
        message.add(b"")
        self.check_refused(27, message, message.close)
        self.check_refused(28, message, message.add, portion(50))
        self.check_refused(27, message, message.close)
        # It is still open.
        self.assertEqual(message.add(b"\x07"), standing(0, True, 1))
        self.assertEqual(message.close(), standing(2, False, 0))


class ReceivedMessages(unittest.TestCase):
    GOOD = FRONT + bytes.fromhex("02 AA BB 01 CC")

    def check_stops(self, text, behind=b"\x01\xDD" * 300):
        """The list stops where the text stands, behind two good references and before others. What was listed stays."""
        message = self.GOOD + bytes.fromhex(text) + behind
        self.assertEqual([part_of(message, number) for number in (0, 1, 2, 3, LARGEST)], [part(1, 2), part(4, 1)] + [part(5, 0)] * 3, text)
        self.assertEqual(part_of(FRONT + message[2 + 5:], 0), part(0, 0), text)

    def check_is_listed(self, text, start, length):
        message = self.GOOD + bytes.fromhex(text) + portion(length) + b"\x01\xDD"
        end = 5 + start + length
        self.assertEqual([part_of(message, number) for number in (2, 3, 4)], [part(5 + start, length), part(end + 1, 1), part(end + 2, 0)])

    def test_good_lengths(self):
        for text, start, length in (("01", 1, 1), ("7F", 1, 127), ("80 01", 2, 128), ("FF 01", 2, 255), ("CB 03", 2, 459)):
            self.check_is_listed(text, start, length)

    def test_0(self):
        self.check_stops("00")

    def test_over_459(self):
        # 76 + 3 x 128 is 460, 127 + 3 x 128 is 511, 75 + 4 x 128 is 587; then 16,384, 65,537 and the largest number of 32 bits.
        for text in ("CC 03", "FF 03", "CB 04", "80 80 01", "81 80 04", "FF FF FF FF 0F"):
            self.check_stops(text)

    def test_not_in_its_shortest_form(self):
        for text in ("80 00", "81 00", "81 80 00", "81 80 80 80 00", "FF 00", "80 81 00", "CB 83 00", "CB 83 80 80 00", "81 80 80 80 80 00"):
            self.check_stops(text)

    def test_over_32_bits(self):
        # 2 to the 32nd is 16 x 2 to the 28th: with 1, 5 and 459 added. Then 2 to the 35th, and 2 to the 64th, with 1 added.
        for text in ("80 80 80 80 10", "81 80 80 80 10", "85 80 80 80 10", "CB 83 80 80 10", "FF FF FF FF 7F", "81 80 80 80 80 01",
                     "81 80 80 80 80 80 80 80 80 02"):
            self.check_stops(text)

    def test_early_end(self):
        # In a number, behind it, and in a reference: a byte, two, and one of 459.
        for text in ("", "80", "81", "FF", "80 80", "FF FF FF FF", "81 80 80 80 80", "01", "80 01", "02 AA", "7F" + "AA" * 126, "80 01" + "AA" * 127,
                     "CB 03" + "AA" * 458):
            self.check_stops(text, behind=b"")

    def test_nothing_received(self):
        for number in (0, 1, LARGEST):
            self.assertEqual(part_of(b"", number), Part(0, 0))
            self.assertEqual(part_of(FRONT, number), part(0, 0))

    def test_numbers_are_of_32_bits(self):
        for number in (2, 3, 256, 257, 2 ** 16, 2 ** 16 + 1, 2 ** 31, 2 ** 31 + 1, LARGEST):
            self.assertEqual(part_of(self.GOOD, number), part(5, 0))

    def test_bytes_behind_the_message(self):
        # Zeros stop the list. Other bytes may not.
        self.assertEqual(part_of(self.GOOD + bytes(9), 2), part(5, 0))
        self.assertEqual(part_of(self.GOOD + portion(3, 0x01), 2), part(6, 1))


class LongerThanAMessage(unittest.TestCase):
    def message(self, text, *lengths):
        """35 references of 459 bytes, others, and bytes at the end."""
        message = message_in(FILLED + 20_000, *FILLING, *lengths)
        return bytes(message.buffer[:message.byte_count]) + bytes.fromhex(text)

    def check(self, message, count, stop):
        """So many are listed, and the list stops there. Both ends are those of the whole message."""
        parts, found = listed(message)
        self.assertEqual((len(parts), found), (count, stop))
        self.assertEqual(part_of(message, count), Part(stop, 0))
        self.assertEqual(part_of(message, count - 1), parts[-1])

    def test_reference_ends_at_16_384(self):
        # 2, 16,135 and 2 + 245. What is behind is not looked at, good or not.
        for behind in ("", "01 DD", "00", "01", "81"):
            self.check(self.message(behind, 245), 36, 16_384)

    def test_reference_goes_past_16_384(self):
        # By one byte, whole in the message, and by many.
        self.check(self.message("F6 01" + "AA" * 246 + "01 DD"), 35, 2 + FILLED)
        self.check(self.message("CB 03" + "AA" * 459), 35, 2 + FILLED)

    def test_length_stands_before_16_384_and_its_bytes_behind(self):
        # 2, 16,135 and 2 + 244 are 16,383: one byte of length. And with 2 + 243 one less: two bytes of length.
        self.check(self.message("01 AA", 244), 36, 16_383)
        self.check(self.message("80 01" + "AA" * 128, 243), 36, 16_382)

    def test_length_goes_past_16_384(self):
        self.check(self.message("80 01" + "AA" * 128, 244), 36, 16_383)

    def test_as_many_as_there_can_be(self):
        for count in (8_190, 8_191, 8_192):
            self.check(FRONT + b"\x01\xAA" * count, min(count, 8_191), min(2 + 2 * count, 16_384))


# A number of one byte, of two to four of which the last is not 0, and of five of which the last is 1 to 15: 32 bits are four times seven and four more.
NUMBER = rb"([\x00-\x7F]|[\x80-\xFF]{1,3}[\x01-\x7F]|[\x80-\xFF]{4}[\x01-\x0F])"


def listed_by_trying(message):
    """The parts: at each place the one length whose bytes, as they would be written, stand there with as many bytes behind them."""
    used, parts = message[:16_384], []
    front = re.match(NUMBER * 2, used, re.DOTALL)
    if front is None:
        return (), 0
    place = front.end()
    while True:
        for length in range(1, 460):
            number = bytes([length]) if length < 128 else bytes([128 + length % 128, length // 128])
            if used.startswith(number, place) and place + len(number) + length <= len(used):
                parts.append(Part(place + len(number), length))
                place += len(number) + length
                break
        else:
            return tuple(parts), place


def in_a_message(references):
    """Each behind its length."""
    return b"".join(bytes([len(one)] if len(one) < 128 else [128 + len(one) % 128, len(one) // 128]) + bytes(one) for one in references)


def seven_bit_number(number):
    """Each group of bits but the last with its top bit."""
    groups = [number >> 7 * which & 127 for which in range(max(1, -(-number.bit_length() // 7)))]
    return bytes([128 + group for group in groups[:-1]] + groups[-1:])


def front_by_powers(map_bytes):
    """Each byte times its power of 257, and one remainder of all."""
    total = sum(byte * pow(257, power, 4_294_967_291) for power, byte in enumerate(reversed(map_bytes)))
    return seven_bit_number(len(map_bytes)) + seven_bit_number(total % 4_294_967_291)


class Model:
    """A message as its front, the references that were closed and the one that is open, each a list of bytes. The buffer is made anew from them after each
    call."""

    def __init__(self, room):
        self.room, self.front, self.closed, self.opened = room, b"", [], None
        # What stood in the buffer at the last start.
        self.before = first_buffer(room)

    def finished(self):
        return self.front + in_a_message(self.closed)

    def buffer(self):
        """Behind what is written stands what stood there at the start."""
        content = self.finished() + in_a_message([self.opened] if self.opened else [])
        return content + self.before[len(content):]

    def standing(self):
        return Standing(len(self.finished()), self.opened is not None, len(self.opened or []))

    def start_refusal(self, call):
        """The refusal that a start gets, or None: in the order 1, the map's own, 28."""
        read = map_outcome(call.map_bytes)
        too_long = len(front_by_powers(call.map_bytes)) > self.room
        given = (1 if call.work_length < 14_336 else None, read.number if isinstance(read, Refused) else None, 28 if too_long else None)
        return next((number for number in given if number is not None), None)

    def refusal(self, call):
        """The refusal that a call gets, or None."""
        if call.kind == START:
            return self.start_refusal(call)
        fits_state = {OPEN: self.opened is None, ADD: self.opened is not None, CLOSE: bool(self.opened), ASK: True}
        if not fits_state[call.kind]:
            return 27
        if call.kind == ADD and call.portion:
            longer = self.opened + list(call.portion)
            if len(self.finished() + in_a_message([longer])) > min(self.room, 16_384) or len(longer) > 459:
                return 28
        return None

    def make(self, call):
        """Makes a call that is not refused. What is asked for: the bytes, none where there is no such reference."""
        if call.kind == START:
            self.before = self.buffer()
            self.front, self.closed, self.opened = front_by_powers(call.map_bytes), [], None
        elif call.kind == OPEN:
            self.opened = []
        elif call.kind == ADD:
            self.opened = self.opened + list(call.portion)
        elif call.kind == CLOSE:
            self.closed, self.opened = self.closed + [self.opened], None
        else:
            return bytes(self.closed[call.number]) if call.number < len(self.closed) else b""
        return None


class Histories(unittest.TestCase):
    def check_call(self, model, call, answered, buffer):
        refusal = model.refusal(call)
        if refusal is not None:
            self.assertEqual(answered, Answered(Refused(refusal)))
        elif call.kind == ASK:
            self.assertEqual(bytes_of_part(buffer, answered.answer), model.make(call))
            self.assertIsNone(answered.change)
        else:
            model.make(call)
            self.assertEqual(answered.answer, model.standing())
        self.assertEqual(buffer, model.buffer())

    def check_history(self, history):
        model, outcome = Model(history.room), history_outcome(history)
        for call, answered, buffer in zip(history.calls, outcome, buffers_after(history.room, outcome)):
            # "with any other state a call still ends": nothing is promised before a start.
            self.assertTrue(call.kind == START or model.front)
            self.check_call(model, call, answered, buffer)
        # The finished bytes, received, give what was closed, all of it and nothing else.
        sent = buffer[:model.standing().byte_count]
        parts, stop = listed(sent)
        self.assertEqual(([list(bytes_of_part(sent, part)) for part in parts], stop), (model.closed, len(sent)))

    def test_against_lists_of_references(self):
        for name, recipe in MESSAGE_RECIPES.items():
            for turn in range(2 if name == "large" else 3 if name == "on a large map" else 66):
                with self.subTest(name, turn=turn):
                    self.check_history(recipe(random.Random(f"{name} {turn}"), turn)[1])


class Lists(unittest.TestCase):
    def test_against_trying_every_length(self):
        for name, recipe in RECEIVED_RECIPES.items():
            for turn in range(120 if name != "long" else 10):
                _, received = recipe(random.Random(f"{name} {turn}"), turn)
                self.assertEqual(listed(received.message), listed_by_trying(received.message), name)

    def test_longer_forms(self):
        self.assertEqual([longer_form(*given).hex() for given in ((0, 2), (5, 2), (5, 4), (128, 3), (459, 5))],
                         ["8000", "8500", "85808000", "808100", "cb83808000"])

    def test_lengths_filling(self):
        for total in (0, 2, 3, 127, 128, 129, 130, 131, 461, 462, 463, 464, 1_000):
            lengths = lengths_filling(random.Random(total), total)
            self.assertEqual(sum(length + 1 + (length >= 128) for length in lengths), total)
            self.assertTrue(all(1 <= length <= 459 for length in lengths))


class Rows(unittest.TestCase):
    """The rows of tests/answer.c, as its first comment describes them."""

    def test_history(self):
        history = History(8, (Call(START, map_bytes=MAP), Call(CLOSE), Call(OPEN), Call(ADD), Call(ADD, b"\x0B\x0C"), Call(ASK, number=7), Call(CLOSE),
                              Call(ASK, number=0), Call(OPEN), Call(ADD, b"\x01\x02\x03"), Call(ADD, b"\xFF"), Call(START, map_bytes=b"\x01", work_length=9),
                              Call(START, map_bytes=b""), Call(START, map_bytes=RIDGE), Call(ASK, number=0), Call(START, map_bytes=MAP)))
        calls = "close open add:- add:0b0c ask:7 close ask:0 open add:010203 add:ff"
        self.assertEqual(history.row(), f"message 8 start:14336:{MAP.hex()} {calls} start:9:01 start:14336:- start:14336:{RIDGE.hex()} ask:0 "
                         f"start:14336:{MAP.hex()}")
        self.assertEqual(history.row_for_c(), f"message 8 start:{MAP.hex()} {calls} start:01 start:- start:{RIDGE.hex()} ask:0 start:{MAP.hex()}")
        # Byte i of the buffer is i at first. The ridge's front has a byte for its count, 86, and five for its sum.
        front = front_by_powers(RIDGE).hex().upper()
        self.assertEqual(outcome_row(history_outcome(history)), "done:2:0:0@0=417F refused:27 done:2:1:0 done:2:1:0 done:2:1:2@3=0B0C part:2:0 done:5:0:0 "
                         f"part:3:2 done:5:1:0 refused:28 done:5:1:1@5=01FF refused:1 refused:2 done:6:0:0@0={front} part:6:0 done:2:0:0@0=417F")

    def test_received(self):
        for message, number, row, answer in ((b"", 0, "received - 0", "part:0:0"), (FRONT + b"\x01\xAA", 0, "received 417f01aa 0", "part:3:1"),
                                             (FRONT + b"\x01\xAA", LARGEST, "received 417f01aa 4294967295", "part:4:0")):
            received = Received(message, number)
            self.assertEqual((received.row(), outcome_row(received_outcome(received))), (row, answer))

    def test_readings(self):
        given = ReadingOfMessage(b"\x02", b"", b"\x0B", False, 14_340, 7)
        self.assertEqual((given.row(), given.subject()), ("read_of_message 02 - 0b 14340 7", "read_of_message 02 - 0b"))
        self.assertEqual(ReadingOfMessage(b"", FRONT, HYDRANT, True, 5, 0).row(), f"read_point_of_message - 417f {HYDRANT.hex()} 5 0")
        # The map has ended before its first node.
        self.assertEqual(reading_outcome(given), Refused(2))

    def test_answers_are_taken_from_rows(self):
        for word, answered in (("refused:28", Answered(Refused(28))), ("part:3:0", Answered(Part(3, 0))), ("done:3:0:0", Answered(Standing(3, False, 0))),
                               ("done:3:1:12@4=0CFF", Answered(Standing(3, True, 12), Change(4, b"\x0C\xFF"))), ("buffer", Answered("buffer")),
                               ("fields", Answered("fields")), ("done:3:0:1", Answered("done:3:0:1")), ("done:3:2:1", Answered("done:3:2:1"))):
            self.assertEqual(answered_in(word), answered)
            self.assertEqual(answered_in(word).word() if not isinstance(answered.answer, str) else word, word)

    def test_buffer_at_the_start(self):
        self.assertEqual([first_buffer(600)[place] for place in (0, 1, 250, 251, 502, 599)], [0, 1, 250, 0, 0, 97])

    def test_changes(self):
        for before, after, change in ((b"abc", b"abc", None), (b"abc", b"xbc", Change(0, b"x")), (b"abc", b"abx", Change(2, b"x")),
                                      (b"abcde", b"axcxe", Change(1, b"xcx")), (b"\x00\x01", b"\x80\x01", Change(0, b"\x80")), (b"", b"", None)):
            self.assertEqual(change_between(before, after), change)


if __name__ == "__main__":
    unittest.main()
