"""Cases of messages: what the generator makes, and what occurs among the stored ones (crates/test_messages)."""

import unittest
from collections import Counter
from itertools import product
from typing import NamedTuple

import cases
from cases import map_outcome
from check_host import message_calls, of_message_calls, received_calls
from check_plain import messages_in, parts_of
from front import front_of, map_sum
from message import listed
from message_calls import ADD, ASK, CLOSE, OPEN, START, Call, History, ReadingOfMessage, Received
from outcome import Refused
from point_along_line import read_point
from reader import read
from summed_maps import SUM_EDGES, agreeing_maps
from test_cases import CaseTests
from test_scope_paper import RIDGE
from test_stored_cases import MAP_REFUSALS, case_bytes, rows

LARGEST, MODULUS = 4_294_967_295, 4_294_967_291
LONGEST_MESSAGE, LONGEST_REFERENCE = 16_384, 459
WORK = 14_336
PORTIONS = (0, 1, 127, 128, 129, 459, 460)
# How a message stands before a call.
NOT_STARTED, NONE_OPEN, NOTHING_ADDED, SOME_ADDED = "not started", "none open", "nothing added", "some added"
KINDS = ((cases.message_cases, cases.MESSAGE_RECIPES), (cases.received_cases, cases.RECEIVED_RECIPES), (cases.of_message_cases, cases.OF_MESSAGE_RECIPES))


class Generator(CaseTests):
    def test_every_label_occurs(self):
        for make, recipes in KINDS:
            self.check_labels(make(1, 2 * len(recipes)), recipes)

    def test_promises_of_readings(self):
        made = cases.of_message_cases(1, 20 * len(cases.OF_MESSAGE_RECIPES))
        self.check_promises(made)
        self.assertEqual({case.given.is_point for case in made}, {False, True})
        for case in made + cases.as_by_itself_cases(1, 200):
            if case.label.startswith(("as by itself", "small map", "agreeing maps")):
                self.assertEqual(case.expected, by_itself(case.given), case.label)

    def test_readings_from_c(self):
        calls = list(of_message_calls(1, 500))
        self.assertEqual(len(calls), 500)
        self.assertEqual({row.split()[0] for row, _ in calls}, {"read_of_message", "read_point_of_message"})
        answers = Counter(answer.split()[1] if answer.startswith("refused") else "read" for _, answer in calls)
        # No work area is lent, and so 1 is given to none.
        self.assertLessEqual({"read", "30", "12", "16", "17", "18", "20", *map(str, MAP_REFUSALS)}, set(answers))
        self.assertNotIn("1", answers)
        self.assertGreater(min(answers["read"], answers["30"]), 50)

    def test_histories_from_c(self):
        calls = message_calls(1, 150)
        self.assertEqual(len(calls), 150)
        rooms = {int(row.split()[1]) for row, _ in calls}
        self.assertLessEqual({*range(9), 16_383, 16_384, 16_390}, rooms)
        # Every history begins with starts; and some are in the middle, refused or not.
        self.assertEqual({row.split()[2].split(":")[0] for row, _ in calls}, {"start"})
        later = Counter()
        for row, answer in calls:
            words, answered = row.split()[2:], answer.split()
            first = next((index for index, item in enumerate(answered) if item.startswith("done")), len(words))
            self.assertTrue(all(word.startswith("start") for word in words[:first]))
            later.update(item.split(":")[0] for word, item in list(zip(words, answered))[first + 1:] if word.startswith("start"))
        self.assertGreater(min(later["done"], later["refused"]), 15, later)
        items = Counter(item.split("@")[0].split(":")[0] for _, answer in calls for item in answer.split())
        self.assertEqual(set(items), {"done", "refused", "part"})
        self.assertGreater(min(items.values()), 300, items)
        self.assertEqual([len(row.split()) - 2 for row, _ in calls], [len(answer.split()) for _, answer in calls])

    def test_received_messages_from_c(self):
        calls = received_calls(1, 110)
        self.assertEqual(len(calls), 110)
        # Two digits a byte.
        lengths = [len(row.split()[1]) // 2 for row, _ in calls]
        self.assertGreater(sum(length > LONGEST_MESSAGE for length in lengths), 5)
        self.assertGreater(sum(answer.endswith(":0") for _, answer in calls), 30)
        self.assertGreater(sum(not answer.endswith(":0") for _, answer in calls), 20)


def by_itself(given):
    """What the reader by itself answers to a reading out of a message."""
    return (read_point if given.is_point else read)(given.map_bytes, given.reference, given.work_length, given.line_room)


def size(length):
    """How many bytes a reference of this length takes in a message."""
    return length + (1 if length < 128 else 2)


class StoredCall(NamedTuple):
    """A call of a stored history: the length of its buffer, the call, its row, and how the message stands before it by the rows before. Before the first start
    that is not refused its front has 0 bytes."""
    room: int
    call: Call
    row: str
    front: int
    finished: int
    byte_count: int
    added: int
    is_open: bool

    def state(self):
        if self.front == 0:
            return NOT_STARTED
        return (SOME_ADDED if self.added else NOTHING_ADDED) if self.is_open else NONE_OPEN

    def behind(self):
        """The length of the buffer behind the front."""
        return self.room - self.front

    def refusal(self):
        return int(self.row.split()[1]) if self.row.startswith("refused") else None

    def limit(self):
        return min(self.room, LONGEST_MESSAGE)

    def length(self):
        """What the open reference has after an addition that is accepted."""
        return self.added + len(self.call.portion)

    def end(self):
        """Where the message would end after that."""
        return self.byte_count + size(self.length())

    def reasons(self):
        """Why an addition is refused with 28."""
        found = (("buffer", self.end() > self.room), ("16,384", self.end() > LONGEST_MESSAGE), ("459", self.length() > LONGEST_REFERENCE))
        return tuple(name for name, holds in found if holds)

    def asked(self):
        """Which reference is asked for."""
        number = self.call.number
        return "finished" if number < self.finished else "next" if number == self.finished else "largest" if number == LARGEST else "absent"

    def outcome(self):
        if self.call.kind == ASK:
            return f"{self.asked()}, {'none' if self.row == 'bytes 0 sum 0' else 'given'}"
        return self.refusal() or "done"

    def what(self):
        """The call, and of an addition whether it is empty."""
        return "add nothing" if self.call.kind == ADD and not self.call.portion else self.call.kind


def calls_of(history, history_rows):
    """The calls of a history, each with how the message stands by the rows before it."""
    front, finished, standing = 0, 0, (0, 0, False)
    for call, row in zip(history.calls, history_rows):
        yield StoredCall(history.room, call, row, front, finished, *standing)
        first, *numbers = row.split()
        if first == "open":
            standing = (int(numbers[0]), int(numbers[1]), True)
        elif first == "closed":
            finished, standing = finished + 1, (int(numbers[0]), 0, False)
            if call.kind == START:
                front, finished = standing[0], 0


def stored_messages():
    """The histories, each with its rows, and the received messages and the readings, each with its row."""
    left = iter(rows("test_messages"))
    for message in messages_in(parts_of(case_bytes("test_messages"))):
        yield message, [next(left) for _ in (message.calls if isinstance(message, History) else [message])]


class StoredHistories(unittest.TestCase):
    @classmethod
    def setUpClass(cls):
        cls.histories = [list(calls_of(message, found)) for message, found in stored_messages() if isinstance(message, History)]
        cls.calls = [call for history in cls.histories for call in history]
        cls.additions = [call for call in cls.calls if call.call.kind == ADD]
        cls.accepted = [call for call in cls.additions if call.refusal() is None]
        cls.too_long = [call for call in cls.additions if call.refusal() == 28]

    def test_every_call_in_every_state(self):
        # Where none is open, opening alone is done. With nothing added, closing is not; adding is done or too long.
        expected = {(NONE_OPEN, OPEN): {"done"}, (NONE_OPEN, ADD): {27}, (NONE_OPEN, "add nothing"): {27}, (NONE_OPEN, CLOSE): {27},
                    (NOTHING_ADDED, OPEN): {27}, (NOTHING_ADDED, ADD): {"done", 28}, (NOTHING_ADDED, "add nothing"): {"done"}, (NOTHING_ADDED, CLOSE): {27},
                    (SOME_ADDED, OPEN): {27}, (SOME_ADDED, ADD): {"done", 28}, (SOME_ADDED, "add nothing"): {"done"}, (SOME_ADDED, CLOSE): {"done"}}
        asks = {"finished, given", "next, none", "absent, none", "largest, none"}
        expected |= {(state, ASK): asks for state in (NONE_OPEN, NOTHING_ADDED, SOME_ADDED)}
        # Every start in every state: never 27.
        starts = {"done", 1, *MAP_REFUSALS, 28}
        expected |= {(state, START): starts for state in (NOT_STARTED, NONE_OPEN, NOTHING_ADDED, SOME_ADDED)}
        counts = Counter((call.state(), call.what(), call.outcome()) for call in self.calls)
        self.assertEqual(set(counts), {(*key, outcome) for key, outcomes in expected.items() for outcome in outcomes})
        self.assertGreater(min(count for (_, what, _), count in counts.items() if what != START), 12, counts)
        self.assertGreater(min(count for (_, what, _), count in counts.items() if what == START), 1, counts)

    def test_27_above_28(self):
        self.assertLessEqual({("buffer",), ("459",), ("buffer", "459")}, {call.reasons() for call in self.additions if call.refusal() == 27})

    def test_28_for_each_of_its_reasons(self):
        counts = Counter(call.reasons() for call in self.too_long)
        for reasons in (("buffer",), ("459",), ("buffer", "459")):
            self.assertGreater(counts[reasons], 20, reasons)
        # In a buffer of 16,384 bytes both ends are one, and in a longer one 16,384 comes first.
        for reasons, count in ((("16,384",), 4), (("buffer", "16,384"), 4), (("16,384", "459"), 1)):
            self.assertGreaterEqual(counts[reasons], count, reasons)

    def test_additions_that_just_fit_and_that_just_do_not(self):
        self.assertGreater(sum(call.end() == call.limit() for call in self.accepted if call.call.portion), 100)
        self.assertGreater(sum(call.end() == call.limit() + 1 for call in self.too_long), 100)
        self.assertGreater(sum(call.length() == LONGEST_REFERENCE for call in self.accepted), 20)
        self.assertGreater(sum(call.reasons() == ("459",) and call.length() == LONGEST_REFERENCE + 1 for call in self.too_long), 5)

    def test_room_for_the_second_byte_of_a_length(self):
        # How many bytes are left behind the finished ones, and the length that the open one would have.
        def found(calls):
            return {(call.limit() - call.byte_count, call.length()) for call in calls}
        self.assertLessEqual({(128, 127), (129, 127), (130, 127), (130, 128), (131, 128), (131, 129)}, found(self.accepted))
        self.assertLessEqual({(127, 127), (128, 128), (129, 128), (130, 129)}, found(self.too_long))

    def test_empty_additions_where_nothing_else_fits(self):
        empty = [call for call in self.accepted if not call.call.portion]
        full = [call for call in empty if call.byte_count + size(call.added + 1) > call.limit()]
        self.assertEqual({call.state() for call in full}, {NOTHING_ADDED, SOME_ADDED})
        self.assertLessEqual({16_383, 16_384, 16_390}, {call.room for call in full})
        self.assertLessEqual({0, 1, 2, 130}, {call.behind() for call in full})
        filled = {call.byte_count - call.front for call in full if call.state() == NOTHING_ADDED and call.byte_count == call.limit()}
        self.assertLessEqual({0, 2, 128, 130}, filled)
        self.assertTrue(any(call.byte_count == LONGEST_MESSAGE and call.state() == NOTHING_ADDED for call in full))

    def test_portions(self):
        self.assertLessEqual({*PORTIONS, LONGEST_MESSAGE}, {len(call.call.portion) for call in self.additions})
        # One after another in a new reference, in a buffer that is just long enough for both, or one byte shorter.
        pairs = [(first, second) for first, second in product(PORTIONS, repeat=2) if second and first + second <= LONGEST_REFERENCE]
        for calls, spare in ((self.accepted, 0), (self.too_long, -1)):
            found = {(call.added, len(call.call.portion)) for call in calls if call.finished == 0 and call.room - call.end() == spare}
            self.assertLessEqual(set(pairs), found)
        # Together too long for a reference, in a buffer that is long enough.
        refused = {(call.added, len(call.call.portion)) for call in self.too_long if call.finished == 0 and call.reasons() == ("459",)}
        self.assertLessEqual({(first, second) for first, second in product(PORTIONS[:-1], PORTIONS[1:]) if first + second > LONGEST_REFERENCE}, refused)

    def test_lengths_across_128(self):
        crossings = {(call.added, call.length(), call.finished > 0) for call in self.accepted if 0 < call.added < 128 <= call.length()}
        self.assertLessEqual({(127, 128, False), (127, 128, True), (1, 128, False), (127, 254, False), (127, 255, False)}, crossings)
        self.assertGreater(len(crossings), 25)
        self.assertLessEqual({127, 128, 129, 459}, {call.length() for call in self.accepted if call.call.portion and call.added == 0})
        self.assertLessEqual({127, 128, 129, 458, 459}, {call.added for call in self.calls if call.call.kind == CLOSE and call.refusal() is None})

    def test_byte_by_byte(self):
        # Additions of one byte, each with how many bytes there were and with the next one: across 128, and up to 459 and too far.
        found = set()
        for history in self.histories:
            single = [(call.added, call.refusal()) for call in history if call.is_open and len(call.call.portion) == 1]
            found.update(zip(single, single[1:]))
        self.assertLessEqual({((added, None), (added + 1, None)) for added in (125, 126, 127, 128, 456, 457)}, found)
        self.assertLessEqual({((458, None), (459, 28)), ((459, 28), (459, 28))}, found)

    def test_further_bytes_after_a_refusal(self):
        after = [later for history in self.histories for earlier, later in zip(history, history[1:])
                 if earlier.call.kind == ADD and earlier.refusal() == 28 and later.call.kind == ADD and later.call.portion and later.refusal() is None]
        self.assertEqual({call.state() for call in after}, {NOTHING_ADDED, SOME_ADDED})
        self.assertGreater(len(after), 20)

    def test_lengths_of_buffers(self):
        self.assertLessEqual({*range(45), 127, 128, 129, 130, 459, 460, 461, 16_383, 16_384, 16_385, 16_390}, {call.room for call in self.calls})
        started = [call for call in self.calls if call.front]
        self.assertLessEqual({*range(20), *range(124, 138), *range(460, 464), *range(921, 924)}, {call.behind() for call in started})
        # In each but the shortest something is written.
        self.assertLessEqual({*range(4, 45)}, {call.room for call in self.accepted if call.call.portion})
        self.assertLessEqual({*range(2, 20)}, {call.behind() for call in self.accepted if call.call.portion})

    def test_ends_of_full_messages(self):
        ends = {(call.room, call.byte_count + size(call.added)) for call in self.calls if call.call.kind == CLOSE and call.refusal() is None}
        self.assertLessEqual({(16_384, 16_383), (16_384, 16_384), (16_385, 16_384), (16_390, 16_383), (16_390, 16_384), (16_383, 16_382), (16_383, 16_383)},
                             ends)
        refused = {(call.room, call.end()) for call in self.too_long}
        self.assertLessEqual({(16_384, 16_385), (16_385, 16_385), (16_390, 16_385), (16_383, 16_384)}, refused)

    def test_calls_on_full_messages(self):
        full = {(call.what(), call.outcome()) for call in self.calls if call.byte_count == LONGEST_MESSAGE}
        self.assertLessEqual({(OPEN, "done"), ("add nothing", "done"), (ADD, 28), (CLOSE, 27), (ASK, "finished, given"), (ASK, "next, none")}, full)

    def test_numbers_that_are_asked_for(self):
        # Numbers of which the last 8, 16 or 31 bits are a finished reference's.
        asks = [call for call in self.calls if call.call.kind == ASK]
        for bits in (8, 16, 31):
            self.assertGreater(sum(2 ** bits <= call.call.number < 2 ** bits + call.finished for call in asks), 20, bits)
        # The first, the last and one between, while one is open and while none is.
        for is_open in (True, False):
            given = [call for call in asks if call.is_open == is_open and call.asked() == "finished" and call.finished > 2]
            places = Counter((call.call.number > 0) + (call.call.number == call.finished - 1) for call in given)
            self.assertGreater(min(places[place] for place in range(3)), 20, places)

    def test_long_histories(self):
        self.assertGreater(max(map(len, self.histories)), 120)
        self.assertGreater(max(call.finished for call in self.calls), 35)
        self.assertGreater(sum(len(history) > 30 for history in self.histories), 30)


class StoredStarts(unittest.TestCase):
    @classmethod
    def setUpClass(cls):
        histories = [list(calls_of(message, found)) for message, found in stored_messages() if isinstance(message, History)]
        cls.following = [pair for history in histories for pair in zip(history, history[1:]) if pair[0].call.kind == START]
        cls.first_calls = histories[0]
        cls.starts = [call for history in histories for call in history if call.call.kind == START]
        cls.accepted = [call for call in cls.starts if call.refusal() is None]

    @staticmethod
    def front_length(call):
        return len(front_of(call.call.map_bytes))

    def test_every_front_in_every_short_buffer(self):
        found = {(self.front_length(call), call.room): call.refusal() for call in self.starts if call.refusal() in (None, 28)}
        for length in range(2, 8):
            for room in range(11):
                self.assertEqual(found[length, room], 28 if room < length else None, (length, room))
        self.assertEqual((found[8, 7], found[8, 8]), (28, None))

    def test_the_program_has_no_map_at_first(self):
        self.assertEqual([(call.call.map_bytes, call.refusal()) for call in self.first_calls], [(b"", 2), (b"", 1), (b"", 2)])
        # Its bytes and its rows: a new buffer, then starts, and no map between them.
        kinds = [part[0] for part, _ in zip(parts_of(case_bytes("test_messages")), range(4))]
        self.assertEqual(kinds, [0, 6, 6, 6])

    def test_order_of_refusals(self):
        # What is wrong with a start beside what it is refused for.
        found = Counter()
        for call in self.starts:
            refused_map = isinstance(map_outcome(call.call.map_bytes), Refused)
            found[call.refusal(), call.call.work_length < WORK, refused_map, self.front_length(call) > call.room] += 1
        for wrong in ((True, False, False), (True, True, False), (True, False, True), (True, True, True)):
            self.assertGreater(found[1, *wrong], 0, wrong)
        for refusal in MAP_REFUSALS:
            self.assertGreater(found[refusal, False, True, False], 1, refusal)
        self.assertGreater(sum(found[refusal, False, True, True] for refusal in MAP_REFUSALS), 4)
        self.assertGreater(found[28, False, False, True], 40)
        self.assertGreater(found[None, False, False, False], 300)
        self.assertEqual(sum(found.values()), len(self.starts))

    def test_work_areas(self):
        lengths = {(call.call.work_length, call.row.split(" work ")[1]) for call in self.starts}
        self.assertLessEqual({(0, "kept"), (12_288, "kept"), (14_335, "kept"), (14_336, "cleared"), (14_337, "cleared"), (14_340, "cleared")}, lengths)
        self.assertEqual({state for length, state in lengths if length < WORK}, {"kept"})

    def test_sums_and_counts(self):
        sums = {map_sum(call.call.map_bytes) for call in self.accepted}
        self.assertLessEqual({*SUM_EDGES}, sums)
        self.assertLessEqual({65, 86, 127, 128, 16_384}, {len(call.call.map_bytes) for call in self.accepted})

    def test_again(self):
        # In each state on a map with a shorter front, with one as long, and with a longer one.
        def longer(call):
            return (self.front_length(call) > call.front) - (self.front_length(call) < call.front)
        found = {(call.state(), call.finished > 0, longer(call)) for call in self.accepted if call.front}
        for state in (NONE_OPEN, NOTHING_ADDED, SOME_ADDED):
            self.assertLessEqual({(state, finished, sign) for finished in (False, True) for sign in (-1, 0, 1)}, found, state)

    def test_what_comes_behind_a_refused_start(self):
        # The message goes on in each state, whatever the start was refused for.
        found = {(before.state(), before.finished > 0, before.refusal()) for before, after in self.following
                 if before.front and before.refusal() and after.call.kind != START}
        refusals = {1, *MAP_REFUSALS, 28}
        for state in (NONE_OPEN, NOTHING_ADDED, SOME_ADDED):
            self.assertLessEqual({(state, finished, refusal) for finished in (False, True) for refusal in refusals}, found, state)


# Why a list stops. Of a message that is read whole nothing is left; of one that is cut at 16,384 bytes something is.
WHOLE, CUT, REFERENCE_PAST, LENGTH_PAST = "whole", "ends at 16,384", "reference past 16,384", "length past 16,384"
ZERO, OVER_459, NOT_SHORTEST, OVER_32_BITS, NO_END, EARLY_END = "0", "over 459", "not shortest", "over 32 bits", "no end", "early end"
FRONT, COUNT, SUM = "front", "count", "sum"


def number_at(data):
    """The number at the start of some bytes, and how many bytes it has; None and 0 where it has no end."""
    count = next((place + 1 for place, byte in enumerate(data) if byte < 128), 0)
    return (sum(byte % 128 << 7 * place for place, byte in enumerate(data[:count])) if count else None), count


def fault_of_number(data):
    """Why the number at the start of some bytes cannot be read, or None."""
    number, count = number_at(data)
    if number is None:
        return NO_END
    return NOT_SHORTEST if count > 1 and data[count - 1] == 0 else OVER_32_BITS if number > LARGEST else None


def fault_of_front(message):
    """Which of its two numbers cannot be read, and why, or None."""
    fault = fault_of_number(message)
    if fault is not None:
        return COUNT, fault
    fault = fault_of_number(message[number_at(message)[1]:])
    return None if fault is None else (SUM, fault)


def sum_in(message):
    """The sum in a front that can be read."""
    return number_at(message[number_at(message)[1]:])[0]


def reason_to_stop(message):
    """Why the list of a message stops where it does."""
    if fault_of_front(message) is not None:
        return FRONT
    stop = listed(message)[1]
    left, behind = message[stop:LONGEST_MESSAGE], message[stop:]
    if not left:
        return CUT if behind else WHOLE
    number, count = number_at(left)
    if number is None:
        return LENGTH_PAST if number_at(behind)[0] is not None else NO_END
    if count > 1 and left[count - 1] == 0:
        return NOT_SHORTEST
    if not 1 <= number <= LONGEST_REFERENCE:
        return ZERO if number == 0 else OVER_459 if number <= LARGEST else OVER_32_BITS
    return REFERENCE_PAST if len(behind) >= count + number else EARLY_END


class StoredReceived(unittest.TestCase):
    @classmethod
    def setUpClass(cls):
        cls.asked = [(message, found[0]) for message, found in stored_messages() if isinstance(message, Received)]
        cls.messages = {received.message for received, _ in cls.asked}
        cls.stopping = {}
        for message in cls.messages:
            cls.stopping.setdefault(reason_to_stop(message), []).append(message)

    def test_reasons_to_stop(self):
        counts = {reason: len(found) for reason, found in self.stopping.items()}
        for reason in (WHOLE, ZERO, OVER_459, NOT_SHORTEST, OVER_32_BITS, NO_END, EARLY_END, FRONT):
            self.assertGreater(counts[reason], 20, reason)
        for reason, count in ((CUT, 3), (REFERENCE_PAST, 4), (LENGTH_PAST, 1)):
            self.assertGreaterEqual(counts[reason], count, reason)
        self.assertEqual(len(counts), 11)

    def test_faults_of_fronts(self):
        # In both numbers; where it is no early end, with references behind it. It is asked for the first and for others.
        found = {}
        for received, row in self.asked:
            fault = fault_of_front(received.message)
            if fault is not None:
                found.setdefault(fault, Counter())[min(received.number, 2)] += 1
                self.assertEqual(row, "from 0 bytes 0 sum 0")
        self.assertEqual(set(found), {(number, fault) for number in (COUNT, SUM) for fault in (NO_END, NOT_SHORTEST, OVER_32_BITS)})
        for fault, counts in found.items():
            self.assertGreater(min(counts[0], counts[1] + counts[2]), 1, fault)

    def test_numbers_of_faulty_fronts(self):
        found = {}
        for message in self.stopping[FRONT]:
            number, fault = fault_of_front(message)
            found.setdefault((number, fault), []).append(number_at(message if number == COUNT else message[number_at(message)[1]:]))
        for number in (COUNT, SUM):
            # 2 to the 32nd has 33 bits. Forms that are too long have two bytes at least.
            self.assertLessEqual({33, 34, 35, 36, 65}, {value.bit_length() for value, _ in found[number, OVER_32_BITS]})
            self.assertLessEqual({2, 3, 4, 5, 6}, {count for _, count in found[number, NOT_SHORTEST]})

    def test_fronts_that_can_be_read(self):
        listing = [message for message in self.messages if fault_of_front(message) is None and listed(message)[0]]
        # Sums at the modulus and past it, as the largest and the smallest; counts of every length of a number.
        self.assertLessEqual({0, 1, 127, 128, *range(MODULUS - 1, LARGEST + 1)}, {sum_in(message) for message in listing})
        self.assertLessEqual({1, 2, 3, 4, 5}, {number_at(message)[1] for message in listing})
        self.assertLessEqual({1, 2, 3, 4, 5}, {number_at(message[number_at(message)[1]:])[1] for message in listing})
        self.assertLessEqual({0, LARGEST}, {number_at(message)[0] for message in listing})
        # A front alone.
        self.assertTrue(any(fault_of_front(message) is None and listed(message) == ((), len(message)) for message in self.messages))

    def test_what_is_asked_for(self):
        # At each stop the one that is not there, the one behind it, and one before it.
        found = {}
        for received, row in self.asked:
            behind_last = received.number - len(listed(received.message)[0])
            found.setdefault(reason_to_stop(received.message), Counter())[min(max(behind_last, -1), 1)] += 1
            self.assertEqual(row.endswith("bytes 0 sum 0"), behind_last >= 0)
        for reason in (WHOLE, ZERO, OVER_459, NOT_SHORTEST, OVER_32_BITS, NO_END, EARLY_END):
            self.assertGreater(min(found[reason][place] for place in (-1, 0, 1)), 4, reason)
        for reason, place in ((CUT, -1), (CUT, 0), (REFERENCE_PAST, 0), (LENGTH_PAST, 0)):
            self.assertGreater(found[reason][place], 0, reason)
        self.assertIn(LARGEST, {received.number for received, _ in self.asked})

    def test_first_and_later_references_are_faulty(self):
        for reason in (ZERO, OVER_459, NOT_SHORTEST, OVER_32_BITS, NO_END, EARLY_END):
            counts = {min(len(listed(message)[0]), 3) for message in self.stopping[reason]}
            self.assertEqual(counts, {0, 1, 2, 3}, reason)

    def cut_everywhere(self):
        """Messages of which every beginning is stored, and that are no beginning of another."""
        whole = [message for message in self.stopping[WHOLE] if len(message) > 5 and all(message[:place] in self.messages for place in range(len(message)))]
        return [message for message in whole if not any(other != message and other.startswith(message) for other in whole)]

    def is_changed_everywhere(self, message):
        """Whether for each of its bytes a message is stored that differs in that byte alone."""
        changed = set()
        for other in self.messages:
            if len(other) == len(message):
                places = [place for place, (byte, new) in enumerate(zip(message, other)) if byte != new]
                changed.update(places if len(places) == 1 else [])
        return changed == set(range(len(message)))

    def test_cut_at_every_byte_and_changed_in_each(self):
        messages = [message for message in self.cut_everywhere() if self.is_changed_everywhere(message)]
        lengths = [[part.byte_count for part in listed(message)[0]] for message in messages]
        self.assertGreaterEqual(len(lengths), 3)
        self.assertTrue(any(max(found) >= 128 and len(found) >= 3 for found in lengths))

    def test_forms_that_are_too_long(self):
        found = {number_at(message[listed(message)[1]:]) for message in self.stopping[NOT_SHORTEST]}
        for length in (0, 1, 5, 127):
            self.assertLessEqual({(length, count) for count in range(2, 6)}, found)
        for length in (128, 129, 459):
            self.assertLessEqual({(length, count) for count in range(3, 6)}, found)

    def test_numbers_too_large(self):
        over_459 = {number_at(message[listed(message)[1]:])[0] for message in self.stopping[OVER_459]}
        self.assertLessEqual({460, 461, 511, 512, 2 ** 16 + 5, 2 ** 31 + 5, LARGEST}, over_459)
        over_32_bits = {number_at(message[listed(message)[1]:])[0] for message in self.stopping[OVER_32_BITS]}
        self.assertLessEqual({2 ** power + length for power in (32, 33, 34, 35, 64) for length in (1, 5, 128, 459)} | {LARGEST + 1}, over_32_bits)

    def test_as_many_bytes_as_a_length_over_459_asks_for(self):
        there = set()
        for message in self.stopping[OVER_459]:
            left = message[listed(message)[1]:]
            number, count = number_at(left)
            there |= {number} if len(left) >= count + number else set()
        self.assertLessEqual({460, 461, 511, 512}, there)

    def test_at_16_384_bytes(self):
        # Where the reference stands that goes past: its length one byte before the end, two, and its last byte one behind.
        starts = {LONGEST_MESSAGE - listed(message)[1] for message in self.stopping[REFERENCE_PAST]}
        self.assertLessEqual({1, 2, 3, 131}, starts)
        lengths = {len(message) for message in self.messages}
        self.assertIn(LONGEST_MESSAGE, lengths & {len(message) for message in self.stopping[WHOLE]})
        # As many references of one byte as there is room for behind a front of two bytes.
        self.assertIn(8_191, {len(listed(message)[0]) for message in self.messages})
        self.assertIn(0, lengths)

    def test_good_references(self):
        lengths = {part.byte_count for message in self.messages for part in listed(message)[0]}
        self.assertLessEqual({1, 2, 127, 128, 129, 130, 459}, lengths)


class StoredReading(NamedTuple):
    """A stored reading out of a message, and its row."""
    given: ReadingOfMessage
    row: str

    def refusal(self):
        return int(self.row.split()[1]) if self.row.startswith("refused") else None

    def wrong(self):
        """What is wrong with the front, by the numbers in it: one that cannot be read, one that differs, or None."""
        message, map_bytes = self.given.message, self.given.map_bytes
        fault = fault_of_front(message)
        if fault is not None:
            return fault
        differs = (number_at(message)[0] != len(map_bytes), sum_in(message) != map_sum(map_bytes))
        return {(True, False): COUNT, (False, True): SUM, (True, True): "both"}.get(differs)


class StoredReadings(unittest.TestCase):
    @classmethod
    def setUpClass(cls):
        cls.readings = [StoredReading(message, found[0]) for message, found in stored_messages() if isinstance(message, ReadingOfMessage)]
        cls.other_map = [reading for reading in cls.readings if reading.refusal() == 30]
        cls.good = [reading for reading in cls.readings if reading.wrong() is None]

    def of_kind(self, readings, is_point):
        return [reading for reading in readings if reading.given.is_point == is_point]

    def test_answers(self):
        for is_point in (False, True):
            found = Counter(reading.refusal() for reading in self.of_kind(self.readings, is_point))
            self.assertEqual(set(found), {None, 1, *MAP_REFUSALS, *range(12, 21), 30} | (set() if is_point else {22}))
            self.assertGreater(min(found[None], found[30]), 50)

    def test_30_for_every_reason(self):
        reasons = {COUNT, SUM, "both", *((number, fault) for number in (COUNT, SUM) for fault in (NO_END, NOT_SHORTEST, OVER_32_BITS))}
        for is_point in (False, True):
            counts = Counter(reading.wrong() for reading in self.of_kind(self.other_map, is_point))
            self.assertEqual(set(counts), reasons)
            self.assertGreater(min(counts.values()), 2, counts)
        # An empty message, and each early end of a front.
        ends = {len(reading.given.message) for reading in self.other_map
                if reading.given.map_bytes == RIDGE and front_of(RIDGE).startswith(reading.given.message)}
        self.assertEqual(ends, {0, 1, 2, 3, 4, 5})

    def test_30_only_for_these(self):
        for reading in self.readings:
            self.assertEqual(reading.refusal() == 30, reading.wrong() is not None and reading.given.work_length >= WORK
                             and not isinstance(map_outcome(reading.given.map_bytes), Refused))

    def test_sums_with_the_modulus_added(self):
        added = {sum_in(reading.given.message) - MODULUS for reading in self.other_map
                 if reading.wrong() == SUM and sum_in(reading.given.message) - MODULUS == map_sum(reading.given.map_bytes)}
        self.assertLessEqual({0, 1, 4}, added)

    def test_sums_that_differ_in_each_bit_or_by_one(self):
        found = [(sum_in(reading.given.message), map_sum(reading.given.map_bytes)) for reading in self.other_map if reading.wrong() == SUM]
        self.assertLessEqual({1 << bit for bit in range(32)}, {first ^ second for first, second in found})
        self.assertLessEqual({-1, 1}, {first - second for first, second in found})

    def test_30_above_12_to_20(self):
        # What the reader by itself answers where 30 is given: something is read, or it is refused for each reason that there is.
        for is_point in (False, True):
            found = set()
            for reading in self.of_kind(self.other_map, is_point):
                outcome = by_itself(reading.given)
                found.add(outcome.number if isinstance(outcome, Refused) else None)
            self.assertLessEqual({None, *range(12, 21)} | (set() if is_point else {22}), found)

    def test_1_and_the_maps_own_above_30(self):
        # With a front that is right for the bytes of the map, and with a wrong one.
        for is_point in (False, True):
            found = {(reading.refusal(), reading.wrong() is None) for reading in self.of_kind(self.readings, is_point)}
            self.assertLessEqual({(refusal, right) for refusal in (1, *MAP_REFUSALS) for right in (False, True)}, found)

    def test_references_in_the_message_and_not_in_it(self):
        def lies_in(given):
            return any(given.message[part.start:part.start + part.byte_count] == given.reference for part in listed(given.message)[0])
        for is_point in (False, True):
            counts = Counter(lies_in(reading.given) for reading in self.of_kind(self.good, is_point) if reading.refusal() is None)
            self.assertGreater(min(counts[True], counts[False]), 10, counts)
        # Behind others, and the front alone.
        read_ones = [reading.given for reading in self.good if reading.refusal() is None]
        self.assertTrue(any(len(listed(given.message)[0]) > 2 and lies_in(given) for given in read_ones))
        self.assertTrue(any(given.message == front_of(given.map_bytes) for given in read_ones))

    def test_long_messages(self):
        long = {reading.refusal() for reading in self.readings if len(reading.given.message) > LONGEST_MESSAGE}
        self.assertEqual(long, {None, 30})

    def test_maps_that_differ_in_one_byte(self):
        # In each byte of the ridge's map: those that are still maps are refused with 30, the others with their own.
        found = {}
        for reading in self.readings:
            map_bytes = reading.given.map_bytes
            if reading.given.message == front_of(RIDGE) and len(map_bytes) == len(RIDGE) and map_bytes != RIDGE:
                places = [place for place, (byte, other) in enumerate(zip(RIDGE, map_bytes)) if byte != other]
                if len(places) == 1:
                    found.setdefault(places[0], set()).add(reading.refusal())
        self.assertEqual(set(found), set(range(len(RIDGE))))
        self.assertEqual({refusal for refusals in found.values() for refusal in refusals}, {2, 3, 4, 5, 24, 30})
        self.assertGreater(sum(30 in refusals for refusals in found.values()), 60)
        # And the other way round.
        other_way = {reading.given.message for reading in self.other_map if reading.given.map_bytes == RIDGE and reading.wrong() == SUM}
        self.assertGreater(len(other_way), 100)

    def test_maps_that_agree(self):
        first, second = agreeing_maps()
        found = Counter(reading.refusal() for reading in self.readings if reading.given.map_bytes in (first, second))
        self.assertGreater(found[None], 4)
        self.assertGreater(found[17], 4)
        self.assertEqual(found[30], 0)

    def test_sums_and_counts_of_maps_that_are_read(self):
        read_on = {reading.given.map_bytes for reading in self.good if reading.refusal() is None}
        self.assertLessEqual({*SUM_EDGES}, {map_sum(map_bytes) for map_bytes in read_on})
        # Whatever is left of a count of bytes by 64, for sums that are made of several bytes at a time.
        self.assertLessEqual({*range(65, 129), 16_384}, {len(map_bytes) for map_bytes in read_on})

    def test_one_sum_and_another_count(self):
        self.assertTrue(any(reading.wrong() == COUNT and len(reading.given.message) > 2 and number_at(reading.given.message)[0] in (65, 80)
                            for reading in self.other_map))

    def test_buffers(self):
        for is_point in (False, True):
            found = {(reading.refusal(), reading.given.line_room) for reading in self.of_kind(self.readings, is_point)}
            self.assertLessEqual({(30, 0), (20, 0)}, found)
            works = {(reading.given.work_length, reading.row.split(" work ")[1].split()[0]) for reading in self.of_kind(self.readings, is_point)}
            self.assertLessEqual({(0, "kept"), (14_335, "kept"), (14_336, "cleared"), (14_337, "cleared"), (14_340, "cleared")}, works)


if __name__ == "__main__":
    unittest.main()
