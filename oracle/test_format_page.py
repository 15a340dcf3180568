"""Every example of docs/FORMAT.md is what this implementation answers, and the files of the examples are those of the page."""

import unittest
from pathlib import Path

from best_found import PENTAGON_FOUR_POINTS, PENTAGON_THREE_POINTS, pentagon
from depot_map import map_to_bytes, read_map
from drawn_steps import all_steps
from fields import sector
from format_page import MessageCalls, Page, ReceivedMessage, Seen, format_page
from front import front_of
from message import Part, Standing, behind_its_length
from message_calls import Call, first_buffer
from outcome import PointRead, PointWritten, Refused, StretchRead, StretchWritten
from sample_maps import ridge_map
from test_points import HYDRANT
from test_scope_paper import RIDGE, THREE_POINTS, THREE_POINTS_HALF_WAY, TWO_POINTS
from test_stored_cases import EVERY_WRONG_STEP, wrong_step

ROOT = Path(__file__).parent.parent
PAGE = format_page()


def refused_calls():
    """Of the page's calls of messages those that are refused: what they are, the refusal, and whether one is open there."""
    for example in PAGE.messages:
        if isinstance(example, MessageCalls):
            is_open = False
            for call, answer in zip(example.history.calls, example.said.answers):
                if isinstance(answer, Refused):
                    yield call.kind, answer.number, is_open
                elif call.kind in ("start", "open", "close"):
                    is_open = call.kind == "open"


class FormatPage(unittest.TestCase):
    def test_calls(self):
        for call in PAGE.calls:
            with self.subTest(call.text):
                self.assertEqual(call.outcome(), call.answer)

    def test_messages(self):
        for example in PAGE.messages:
            with self.subTest(example.text):
                self.assertEqual(example.seen(example.own_rows()), example.said)

    def test_every_refusal_has_an_example(self):
        refused = {call.answer.number for call in PAGE.calls if isinstance(call.answer, Refused)}
        # 29 is given to nothing.
        self.assertEqual(refused | {refusal for _, refusal, _ in refused_calls()}, {*range(1, 29), 30})

    def test_every_refusal_of_a_message_has_an_example(self):
        # Each call that is refused, and whether one was open. A start is refused with all that a map is, with one open too, and where there is no room.
        expected = {("open", 27, True), ("add", 27, False), ("close", 27, False), ("close", 27, True), ("add", 28, True)}
        starts = {*(("start", refusal, False) for refusal in (2, 3, 4, 5, 24, 6, 23, 28)), ("start", 2, True), ("start", 28, True)}
        self.assertEqual(set(refused_calls()), expected | starts)

    def test_every_message_is_started(self):
        for example in PAGE.messages:
            if isinstance(example, MessageCalls):
                self.assertEqual(example.history.calls[0].kind, "start", example.text)
                # The calls after a refused start would not be those of a message.
                self.assertTrue(len(example.history.calls) == 1 or example.said.answers[0] is None, example.text)

    def test_30(self):
        # Out of a message both readers refuse with 30, and read; another number is given before it and after it, with a message that is not of the map and
        # with one that is. By itself a reference is never refused with 30.
        for kind, read, others in (("read", StretchRead, {1, 2, 23, 12, 16, 18, 20}), ("read point", PointRead, {23})):
            answers = [call.answer for call in PAGE.calls if call.kind == kind and call.message is not None]
            refused = {answer.number for answer in answers if isinstance(answer, Refused)}
            self.assertEqual(refused, others | {30})
            self.assertTrue(any(isinstance(answer, read) for answer in answers))
        self.assertNotIn(Refused(30), [call.answer for call in PAGE.calls if call.message is None])

    def test_a_wrong_way_without_30(self):
        # A reference that another map reads as another way by itself, and refuses out of its message; the maps differ in one byte.
        changed = PAGE.names["ridge_ban"][:-1] + b"\x01"
        calls = [call for call in PAGE.calls if call.map_bytes == changed and call.given == TWO_POINTS]
        self.assertEqual({call.message is None: call.answer for call in calls}, {True: StretchRead((0, 2, 3), (0, 0), (0, 0)), False: Refused(30)})

    def test_maps_of_one_front(self):
        one, other = PAGE.names["one"], PAGE.names["other"]
        self.assertNotEqual(one, other)
        self.assertEqual((front_of(one), front_of(other)), (b"\x10\x00", b"\x10\x00"))

    def test_every_fault_of_a_front_has_an_example(self):
        # What the list stops at 0 for: an end in the count or the sum, a longer form of each, each over 32 bits. And fronts of no map, which can be read.
        received = {example.message: example.said[-1].start for example in PAGE.messages if isinstance(example, ReceivedMessage)}
        for message in ("", "56", "56DCA9A195", "D600DCA9A1950301AA", "56DCA9A195830001AA", "8080808010DCA9A1950301AA", "56808080801001AA"):
            self.assertEqual(received[bytes.fromhex(message)], 0, message)
        for message in ("000001AA", "56FBFFFFFF0F01AA", "FFFFFFFF0FFFFFFFFF0F01AA"):
            self.assertEqual(received[bytes.fromhex(message)], len(message) // 2, message)

    def test_every_stop_of_a_list_has_an_example(self):
        # What stands where the list stops behind a front: nothing, a length of 0, one not in its shortest form, over 459, over 32 bits, without an end; and too
        # few bytes.
        received = [example for example in PAGE.messages if isinstance(example, ReceivedMessage) and example.said[-1].start > 0]
        stops = [example.message[example.said[-1].start:][:5] for example in received]
        for start in ("00", "8000", "8100", "CC03", "FFFFFFFF0F", "8180808010", "80", "01", "03CCDD"):
            self.assertTrue(any(stop.startswith(bytes.fromhex(start)) for stop in stops), start)
        self.assertIn(b"", stops)

    def test_every_refusal_of_points_has_an_example(self):
        for kind, expected in (("read point", {*range(12, 21)}), ("write point", {7, 9, 25, 10, 11})):
            refused = {call.answer.number for call in PAGE.calls if call.kind == kind and isinstance(call.answer, Refused)}
            self.assertEqual(refused & {*range(7, 23), 25}, expected)
            self.assertTrue(any(call.kind == kind and not isinstance(call.answer, Refused) for call in PAGE.calls))

    def test_numbers_of_tests(self):
        # The pentagon with too few tests, with a point too many, with all tests; and 11 with tests with which the reference is too long for a buffer.
        self.assertEqual(PAGE.names["pentagon"], pentagon().map_bytes())
        answers = {(call.numbers[2], call.answer) for call in PAGE.calls if call.map_bytes == pentagon().map_bytes()}
        self.assertLessEqual({(0, Refused(26)), (8, Refused(26)), (9, StretchWritten(PENTAGON_FOUR_POINTS, 9, 1)), (9, Refused(11)),
                              (10, StretchWritten(PENTAGON_THREE_POINTS, 10, 0))}, answers)

    def test_26_turns_into_10(self):
        refused = {}
        for call in PAGE.calls:
            if call.kind == "write" and isinstance(call.answer, Refused):
                refused.setdefault((call.map_bytes, call.given), set()).add(call.answer.number)
        self.assertTrue(any({10, 26} <= numbers for numbers in refused.values()))

    def test_message_of_the_ridge(self):
        references = behind_its_length(THREE_POINTS) + behind_its_length(HYDRANT)
        self.assertEqual((PAGE.names["front"], PAGE.names["version_9"]), (front_of(RIDGE), references))
        self.assertEqual(PAGE.names["morning"], front_of(RIDGE) + references)

    def test_point_on_the_ridge(self):
        self.assertEqual(PAGE.names["hydrant"], HYDRANT)

    def test_formulas(self):
        for formula in PAGE.formulas:
            with self.subTest(formula.text):
                self.assertEqual(formula.said, formula.computed)
        kinds = {formula.text.split()[0] for formula in PAGE.formulas}
        self.assertEqual(kinds, {"number", "code", "difference", "longitudes", "step", "sector", "D", "offset", "span", "sum"})

    def test_sum_is_worked_out(self):
        # (1 × 257 + 2) × 257 + 3, whatever the page says, of bytes and of a name.
        for row in ("sum [01 02 03] -> 1", "sum [01] few -> 1"):
            formula, = Page(f"    few = 02 03\n    {row}\n").formulas
            self.assertEqual((formula.said, formula.computed), ("1", "66566"))

    def test_sector_as_the_page_finds_it(self):
        # The page squares twice, this implementation compares with the edges: they agree on every pair of steps.
        program, = PAGE.programs
        given = {}
        exec(program, given)
        for steps in all_steps():
            self.assertEqual(given["sector"](*steps), sector(steps), steps)

    def test_24_has_an_example_of_each_kind(self):
        # Every step out of range, and both zero out and back.
        wrong = {wrong_step(call.map_bytes) for call in PAGE.calls if call.answer == Refused(24)}
        self.assertEqual(wrong, EVERY_WRONG_STEP)

    def test_bytes_of_the_ridge(self):
        names = PAGE.names
        self.assertEqual((names["ridge"], names["ref"], names["three"], names["two"]), (RIDGE, THREE_POINTS_HALF_WAY, THREE_POINTS, TWO_POINTS))

    def test_bytes_of_the_ridge_with_a_turn_banned(self):
        self.assertEqual(PAGE.names["ridge_ban"], map_to_bytes(ridge_map((0, 2))))

    def test_bytes_of_the_islands(self):
        longitudes = [node.longitude for node in read_map(PAGE.names["islands"]).nodes]
        self.assertEqual(longitudes, [17_999_000, 17_999_998, -18_000_000, -17_999_000])
        for name, file_name in (("islands", "map.bin"), ("over", "ref.bin")):
            self.assertEqual(PAGE.names[name], (ROOT / "examples" / "islands" / file_name).read_bytes())

    def test_small_map(self):
        tiny = read_map(PAGE.names["tiny"])
        self.assertEqual((len(tiny.nodes), len(tiny.lines), tiny.lines[0].length), (2, 1, 71_500))

    def test_commands_are_found(self):
        self.assertEqual(PAGE.commands[0].text, "mkdir -p target/by_hand")
        self.assertTrue(any(command.printed.startswith("reference 0B") for command in PAGE.commands))
        # Three references are three rows, and their message takes two.
        morning, = (command for command in PAGE.commands if command.text == "./morning map.bin map.bin 0 1 0,1")
        self.assertEqual([row.split()[0] for row in morning.printed.splitlines()], ["front", "message", "78", "reference", "reference", "reference"])
        other_map, = (command for command in PAGE.commands if command.text == "./morning map.bin old.bin 1")
        self.assertIn("refused 30", other_map.printed)


class FormOfTests(unittest.TestCase):
    """How a page writes the number of tests, and what is answered of it."""

    def calls(self, *rows):
        names = f"    pentagon = {pentagon().map_bytes().hex().upper()}\n    long = {PENTAGON_FOUR_POINTS.hex().upper()}\n"
        return Page(names + "".join(f"    {row}\n" for row in rows)).calls

    def test_number_behind_the_offsets(self):
        call, = self.calls("write pentagon lines 0 1 2 3 pos 5 tests 9 room 31 -> writes long tests 9 excess 1")
        self.assertEqual((call.numbers, call.room, call.answer), ((5, 0, 9), 31, StretchWritten(PENTAGON_FOUR_POINTS, 9, 1)))
        self.assertEqual(call.row().split()[3:], ["5", "0", "9", "31"])

    def test_all_tests_where_none_are_given(self):
        call, = self.calls("write pentagon lines 0 1 2 3 -> writes long")
        self.assertEqual((call.numbers, call.answer), ((0, 0, 2_080), StretchWritten(PENTAGON_FOUR_POINTS, 10, 0)))
        self.assertEqual(call.outcome(), StretchWritten(PENTAGON_THREE_POINTS, 10, 0))

    def test_legs_of_what_remains(self):
        call, = self.calls("write pentagon lines 0 1 2 3 pos 10000 neg 10000 tests 3 -> writes long")
        self.assertEqual(call.answer, StretchWritten(PENTAGON_FOUR_POINTS, 3, 0))

    def test_tests_and_excess_are_not_left_out_before_all_tests(self):
        with self.assertRaises(ValueError):
            self.calls("write pentagon lines 0 1 2 3 tests 9 -> writes long")

    def test_points_have_no_tests(self):
        call, = self.calls("write point pentagon line 0 -> writes long")
        self.assertEqual(call.answer, PointWritten(PENTAGON_FOUR_POINTS))
        for row in ("write point pentagon line 0 tests 1 -> writes long", "write point pentagon line 0 -> writes long tests 1 excess 0"):
            with self.assertRaises(ValueError):
                self.calls(row)


class FormOfMessages(unittest.TestCase):
    """How a page writes messages, and what is seen of answers to them."""

    def example(self, row):
        names = f"    two = AA BB\n    ridge = {RIDGE.hex().upper()}\n    front = {front_of(RIDGE).hex().upper()}\n"
        example, = Page(f"{names}    {row}\n").messages
        return example

    def not_as_said(self, row, *rows):
        example = self.example(row)
        self.assertNotEqual(example.seen(list(rows)), example.said)

    def test_calls(self):
        row = "message room 15: start ridge, open, open refused 27, add two, close, 2 times {add [] refused 27}, open, add (2 of CC), ask 0 -> gives two from 7"
        example = self.example(row)
        calls = (Call("start", map_bytes=RIDGE), Call("open"), Call("open"), Call("add", b"\xAA\xBB"), Call("close"), Call("add"), Call("add"), Call("open"),
                 Call("add", b"\xCC\xCC"), Call("ask"))
        self.assertEqual((example.history.room, example.history.calls), (15, calls))
        answers = (None, None, Refused(27), None, None, Refused(27), Refused(27), None, None, Part(7, 2))
        self.assertEqual(example.said, Seen(answers, None, b"\xAA\xBB"))
        self.assertEqual(example.rows(), [f"message 15 start:{RIDGE.hex()} open open add:aabb close add:- add:- open add:cccc ask:0"])
        self.assertEqual(example.seen(example.own_rows()), example.said)

    def test_all_of_the_buffer(self):
        example = self.example("message: start ridge, open, add two, close, open, add [CC] -> holds front 02 two open 01 CC")
        held = front_of(RIDGE) + b"\x02\xAA\xBB\x01\xCC"
        self.assertEqual(example.said, Seen(6 * (None,), Standing(9, True, 1), held + first_buffer(16_384)[11:]))
        opened = self.example("message room 6: start ridge, open -> holds front open nothing")
        self.assertEqual(opened.said, Seen(2 * (None,), Standing(6, True, 0), front_of(RIDGE)))
        self.assertEqual(self.example("message room 9: start ridge, open, add two, close -> holds front 02 two").said.standing, Standing(9, False, 0))

    def test_what_is_left_from_before_a_start(self):
        example = self.example("message room 12: start ridge, open, add two, start ridge -> holds front then 02 two")
        self.assertEqual(example.said, Seen(4 * (None,), Standing(6, False, 0), front_of(RIDGE) + b"\x02\xAA\xBB" + first_buffer(12)[9:]))
        self.assertEqual(example.seen(example.own_rows()), example.said)
        opened = self.example("message room 13: start ridge, open, add two, start ridge, open, add [CC] -> holds front open 01 CC then BB")
        self.assertEqual(opened.said, Seen(6 * (None,), Standing(6, True, 1), front_of(RIDGE) + b"\x01\xCC\xBB" + first_buffer(13)[9:]))
        self.assertEqual(opened.seen(opened.own_rows()), opened.said)

    def test_other_answers_are_seen(self):
        row = "message room 9: start ridge, open, add two -> holds front open 02 AA BB"
        example = self.example(row)
        # The buffer is 00 01 02 .. at first, and no byte of the front is as it was.
        started = f"done:6:0:0@0={front_of(RIDGE).hex().upper()}"
        self.assertEqual(example.seen([f"{started} done:6:1:0 done:6:1:2@6=02AABB"]), example.said)
        for answer in ("done:6:1:0 done:6:1:2", "done:6:1:0 done:6:1:2@6=02AABBCC", "done:6:1:0 done:6:1:3@6=02AABB", "done:6:1:0 done:9:0:0@6=02AABB",
                       "done:6:1:0 refused:28@6=02AABB", "done:6:1:0 refused:28", "done:6:1:0 buffer", "done:6:1:2@6=02AABB", "refused:27 done:6:1:2@6=02AABB"):
            self.not_as_said(row, f"{started} {answer}")
        for other in ("done:6:0:0", "refused:28", f"refused:28@0={front_of(RIDGE).hex().upper()}", "done:6:0:0@0=56DCA9A19504", "fields"):
            self.not_as_said(row, f"{other} done:6:1:0 done:6:1:2@6=02AABB")
        for answer in ("done:6:1:0 refused:27@6=02", "done:6:1:0 refused:28", "done:6:1:0 done:6:1:2", "fields refused:27", "done:6:1:0 fields"):
            self.not_as_said("message: start ridge, open, open -> refused 27", f"{started} {answer}")

    def test_a_start_is_refused(self):
        example = self.example("message room 5: start ridge -> refused 28")
        self.assertEqual(example.said, Seen((Refused(28),), None, None))
        self.assertEqual(example.seen(["refused:28"]), example.said)
        for answer in ("refused:2", "refused:28@0=56", "done:6:0:0", "fields", "buffer"):
            self.not_as_said("message room 5: start ridge -> refused 28", answer)
        under_way = self.example("message room 9: start ridge, open, add two, start (ridge cut to 85 bytes) refused 2, close -> holds front 02 two")
        self.assertEqual(under_way.history.calls[3], Call("start", map_bytes=RIDGE[:85]))
        self.assertEqual(under_way.said.answers, (None, None, None, Refused(2), None))
        self.assertEqual(under_way.seen(under_way.own_rows()), under_way.said)

    def test_received(self):
        example = self.example("received front 02 two [01 CC] 00 -> lists two [CC] stops 11")
        self.assertEqual((example.message, example.numbers), (front_of(RIDGE) + bytes.fromhex("02AABB01CC00"), (0, 1, 2, 4_294_967_295)))
        self.assertEqual(example.said, (Part(7, 2), Part(10, 1), Part(11, 0), Part(11, 0)))
        self.assertEqual(example.rows()[1], "received 56dca9a1950302aabb01cc00 1")
        self.assertEqual(example.seen(["part:7:2", "part:10:1", "part:11:0", "part:11:0"]), example.said)
        self.not_as_said("received front 02 two [01 CC] 00 -> lists two [CC] stops 11", "part:7:2", "part:10:1", "part:11:0", "part:12:0")
        self.assertEqual(self.example("received front (2 of 01 (1 of CC)) ask 1 -> gives CC from 9").said, (Part(9, 1),))

    def test_what_cannot_be(self):
        for row in ("message: start ridge, open, add -> refused 28", "message: start ridge, open two -> refused 27", "message: start -> refused 2",
                    "message: start ridge, ask -> gives two from 0", "message: start ridge, shut -> refused 27",
                    "message: start ridge, open, close refused 27 -> refused 27", "message: start ridge, open, add two -> holds front open 03 AA BB",
                    "received front 02 two -> lists [AA BC] stops 9", "received front 02 two ask 0 -> gives two from 6",
                    "received front 02 two -> lists two stops 8", "received (2 of 01 (1 of CC) -> lists [CC] stops 2"):
            with self.assertRaises(ValueError, msg=row):
                self.example(row)


class FormOfReading(unittest.TestCase):
    """How a page writes that a reference is read out of a message."""

    def call(self, row):
        names = f"    ridge = {RIDGE.hex().upper()}\n    three = {THREE_POINTS.hex().upper()}\n    sent = 56 DC A9\n"
        call, = Page(f"{names}    {row}\n").calls
        return call

    def test_message_behind_the_reference(self):
        call = self.call("read ridge three out of (sent and 01) room 3 -> refused 30")
        self.assertEqual((call.map_bytes, call.given, call.message, call.room, call.answer),
                         (RIDGE, THREE_POINTS, bytes.fromhex("56DCA901"), 3, Refused(30)))
        self.assertEqual(call.row(), f"read_of_message {RIDGE.hex()} 56dca901 {THREE_POINTS.hex()} 12")
        self.assertEqual(call.outcome(), Refused(30))
        point = self.call("read point ridge three out of sent -> refused 30")
        self.assertEqual(point.row(), f"read_point_of_message {RIDGE.hex()} 56dca9 {THREE_POINTS.hex()} 4096")
        self.assertEqual(point.outcome(), Refused(30))

    def test_an_empty_message_is_not_none(self):
        empty, none = self.call("read ridge three out of [] -> refused 30"), self.call("read ridge three -> reads 0 1 pos 0 0 neg 0 0")
        self.assertEqual((empty.message, none.message), (b"", None))
        self.assertEqual(empty.row(), f"read_of_message {RIDGE.hex()} - {THREE_POINTS.hex()} 4096")
        self.assertEqual(none.row(), f"read {RIDGE.hex()} {THREE_POINTS.hex()} 4096")
        self.assertEqual((empty.outcome(), none.outcome()), (empty.answer, none.answer))

    def test_writers_have_no_message(self):
        for row in ("write ridge lines 0 out of sent -> writes three", "write point ridge line 0 out of sent -> writes three",
                    "read ridge three out sent -> refused 30"):
            with self.assertRaises(ValueError, msg=row):
                self.call(row)


if __name__ == "__main__":
    unittest.main()
