"""The examples of docs/FORMAT.md: what the page says of bytes, of formulas, of calls and of commands. The page itself says how they are written."""

import re
from pathlib import Path
from typing import NamedTuple, Optional

from answers import hexadecimal
from depot_map import LARGEST_NUMBER, STEP_SHIFT, Node, read_map, read_number, write_number
from fields import coordinate_code, differences, differences_fit, distance_byte, offset_byte, offset_span, sector
from front import map_sum
from host_calls import MOST_LINES, line_bytes, lines_of
from message import LONGEST_MESSAGE, Part, Standing, behind_its_length, bytes_of_part
from message_calls import ADD, ASK, CLOSE, OPEN, START, History, Received, answered_in, buffers_after, first_buffer
from message_calls import Call as MessageCall
from message_calls import history_outcome, outcome_row, received_outcome
from outcome import PointRead, PointWritten, Refused, StretchRead, StretchWritten
from point_along_line import read_point, read_point_of_message, write_point
from reader import LEAST_WORK_LENGTH, read, read_of_message
from reference import LONGEST_POINT_ALONG_LINE, LONGEST_REFERENCE
from writer import ALL_TESTS, legs_in_order, skip_lines, write

PAGE = Path(__file__).parent.parent / "docs" / "FORMAT.md"


class Kind(NamedTuple):
    """A kind of call: whether it reads, the numbers that it is given, and the room for its answer where the page gives none."""
    reads: bool
    numbers: tuple
    room: int


KINDS = {"read": Kind(True, (), MOST_LINES), "write": Kind(False, ("pos", "neg", "tests"), LONGEST_REFERENCE),
         "read point": Kind(True, (), MOST_LINES), "write point": Kind(False, ("line", "offset", "orientation", "side"), LONGEST_POINT_ALONG_LINE)}


# What a number is where the page gives none; others are 0.
NOT_GIVEN = {"tests": ALL_TESTS}


class Call(NamedTuple):
    """A call of a reader or of a writer, as the page writes it, and the answer that the page gives. A point to be written is numbers alone. A reference that is
    read by itself has no message, None, which is not an empty one."""
    text: str
    kind: str
    map_bytes: bytes
    given: Optional[bytes]
    message: Optional[bytes]
    numbers: tuple
    room: int
    work: Optional[int]
    answer: object

    def outcome(self):
        """What this implementation answers."""
        work = LEAST_WORK_LENGTH if self.work is None else self.work
        if self.message is not None:
            reader = {"read": read_of_message, "read point": read_point_of_message}[self.kind]
            return reader(self.map_bytes, self.message, self.given, work, self.room)
        if self.kind == "read":
            return read(self.map_bytes, self.given, work, self.room)
        if self.kind == "read point":
            return read_point(self.map_bytes, self.given, work, self.room)
        if self.kind == "write":
            pos, neg, tests = self.numbers
            return write(self.map_bytes, lines_of(self.given), pos, neg, work, self.room, tests)
        return write_point(self.map_bytes, *self.numbers, work, self.room)

    def row(self):
        """The same call for tests/answer.c."""
        kind = self.kind.replace(" ", "_") + ("" if self.message is None else "_of_message")
        given = [hexadecimal(data) for data in (self.map_bytes, self.message, self.given) if data is not None]
        room = 4 * self.room if KINDS[self.kind].reads else self.room
        return " ".join(map(str, [kind, *given, *self.numbers, room]))


class Seen(NamedTuple):
    """What the page says of calls of a message, or what a program shows of them: for each call its refusal, the part that it is given, or None where it is
    neither; after the last call how the message stands; and all of the buffer then, or the bytes of the part."""
    answers: tuple
    standing: Optional[Standing]
    data: Optional[bytes]


class MessageCalls(NamedTuple):
    """Calls of a message that is written."""
    text: str
    history: History
    said: Seen

    def rows(self):
        """The same calls for tests/answer.c."""
        return [self.history.row_for_c()]

    def own_rows(self):
        """What this implementation answers."""
        return [outcome_row(history_outcome(self.history))]

    def seen(self, rows):
        answered = [answered_in(word) for word in rows[0].split()]
        *_, buffer = buffers_after(self.history.room, answered)
        last = answered[-1].answer
        answers = tuple(map(answer_seen, answered))
        if isinstance(last, Standing):
            return Seen(answers, last, buffer)
        return Seen(answers, None, bytes_of_part(buffer, last) if isinstance(last, Part) else None)


def answer_seen(item):
    """A refusal or a part where the buffer is as before, None for another call that is made, and else all of the item, which no page says."""
    if isinstance(item.answer, Standing):
        return None
    return item.answer if item.change is None else item


class ReceivedMessage(NamedTuple):
    """A received message, the numbers that are asked for, and the part that is given for each."""
    text: str
    message: bytes
    numbers: tuple
    said: tuple

    def received(self):
        return [Received(self.message, number) for number in self.numbers]

    def rows(self):
        return [received.row() for received in self.received()]

    def own_rows(self):
        return [outcome_row(received_outcome(received)) for received in self.received()]

    def seen(self, rows):
        return tuple(answer_seen(answered_in(row)) for row in rows)


class Formula(NamedTuple):
    """A worked number, such as `sector (5, 5) -> 4`: what the page says and what it is."""
    text: str
    said: str
    computed: str


class Command(NamedTuple):
    """A command of the last section, and what it prints."""
    text: str
    printed: str


def signed_bytes(number, width):
    return number.to_bytes(width, "big", signed=True).hex().upper()


def longitude_difference(start, end):
    return signed_bytes(differences(start, end)[0], 2) if differences_fit(start, end) else "none"


def span_text(byte, leg_length):
    span = offset_span(byte, leg_length)
    return "none" if span is None else f"{span[0]} {span[1]}"


FORMULAS = (
    (r"number (\d+)", lambda number: write_number(int(number)).hex(" ").upper()),
    (r"code (-?\d+)", lambda coordinate: signed_bytes(coordinate_code(int(coordinate)), 3)),
    (r"difference (-?\d+)", lambda difference: signed_bytes(int(difference), 2)),
    (r"longitudes (-?\d+) to (-?\d+)", lambda start, end: longitude_difference(Node(int(start), 0), Node(int(end), 0))),
    (r"step (-?\d+)", lambda step: write_number(int(step) + STEP_SHIFT).hex(" ").upper()),
    (r"sector \((-?\d+), (-?\d+)\)", lambda east, north: str(sector((int(east), int(north))))),
    (r"D (\d+)", lambda length: str(distance_byte(int(length)))),
    (r"offset (\d+) of (\d+)", lambda offset, length: f"{offset_byte(int(offset), int(length)):02X}"),
    (r"span ([0-9A-F]{2}) of (\d+)", lambda byte, length: span_text(int(byte, 16), int(length))),
)


PYTHON_BLOCK = re.compile(r"^```python\n(.*?)^```\n", re.DOTALL | re.MULTILINE)


class Page:
    """The page taken apart. Names hold from the line that gives them on, and before it. Blocks of Python stand by themselves."""

    def __init__(self, text):
        self.names, self.calls, self.messages, self.formulas, self.commands = {}, [], [], [], []
        self.programs = PYTHON_BLOCK.findall(text)
        text = PYTHON_BLOCK.sub("", text)
        rows = [line[4:] for line in text.splitlines() if line.startswith("    ")]
        rows = [row if row.startswith("$ ") else row.split("#")[0].rstrip() for row in rows]
        self._take_names(rows)
        for row in rows:
            self._take(row)

    def _take_names(self, rows):
        name = None
        for row in rows:
            given = re.fullmatch(r"(\w+) =(.*)", row)
            if given:
                name = given[1]
                if name in self.names:
                    raise ValueError(f"{name} is given twice")
                self.names[name] = bytes.fromhex(given[2])
            elif name is not None and re.fullmatch(r"    [0-9A-F ]+", row):
                self.names[name] += bytes.fromhex(row)
            else:
                name = None

    def _take(self, row):
        if row.startswith("$ "):
            self.commands.append(Command(row[2:], ""))
        elif " -> " in row:
            left, right = row.split(" -> ")
            if left.split()[0] in ("read", "write"):
                self.calls.append(self._call(row, left, right))
            elif left.startswith("message"):
                self.messages.append(self._message(row, left, right))
            elif left.startswith("received "):
                self.messages.append(self._received(row, left, right))
            elif left.startswith("sum "):
                self.formulas.append(Formula(row, right, str(map_sum(self._sequence(left.removeprefix("sum "))))))
            else:
                self.formulas.append(_formula(row, left, right))
        elif self.commands and row:
            command, printed = self.commands[-1]
            self.commands[-1] = Command(command, printed + row + "\n")

    def _call(self, row, left, right):
        name, rest = re.fullmatch(r"((?:read|write)(?: point)?) (.*)", left).groups()
        kind = KINDS[name]
        map_bytes, rest = self._bytes(rest)
        given = message = None
        if kind.reads:
            given, rest = self._bytes(rest)
            if rest.startswith("out of "):
                message, rest = self._bytes(rest.removeprefix("out of "))
        elif name == "write":
            given, rest = _stretch(rest)
        settings = {word: int(number) for word, number in re.findall(r"(\w+) (\d+)", rest)}
        if re.sub(r"\w+ \d+", "", rest).strip() or not settings.keys() <= {"room", "work", *kind.numbers}:
            raise ValueError(f"cannot be read: {row}")
        numbers = tuple(settings.get(word, NOT_GIVEN.get(word, 0)) for word in kind.numbers)
        call = Call(row, name, map_bytes, given, message, numbers, settings.get("room", kind.room), settings.get("work"), None)
        return call._replace(answer=self._written(call, right) if right.startswith("writes ") else self._answer(right))

    def _message(self, row, left, right):
        """Each call is made unless its refusal stands behind it. What the last one answers stands at the end of the row."""
        room, text = re.fullmatch(r"message(?: room (\d+))?: (.*)", left).groups()
        text = re.sub(r"(\d+) times \{(.*?)\}", lambda times: ", ".join([times[2]] * int(times[1])), text)
        calls, answers = zip(*map(self._message_call, text.split(", ")))
        if answers[-1] is not None:
            raise ValueError(f"cannot be read: {row}")
        history = History(LONGEST_MESSAGE if room is None else int(room), calls)
        return MessageCalls(row, history, self._message_answer(history, answers[:-1], right))

    def _message_call(self, text):
        """A call of a message, and its refusal or None."""
        text, refusal = re.fullmatch(r"(.*?)(?: refused (\d+))?", text).groups()
        kind, _, given = text.partition(" ")
        if kind not in (START, OPEN, ADD, CLOSE, ASK) or bool(given) != (kind in (START, ADD, ASK)):
            raise ValueError(f"cannot be read: {text}")
        if kind == START:
            call = MessageCall(START, map_bytes=self._sequence(given))
        else:
            call = MessageCall(kind, self._sequence(given) if kind == ADD else b"", int(given) if kind == ASK else 0)
        return call, None if refusal is None else Refused(int(refusal))

    def _message_answer(self, history, answers, text):
        """What is said of a history: the answers before the last one, and what the text says of that."""
        if history.calls[-1].kind == ASK:
            part, data = self._given(text)
            return Seen((*answers, part), None, data)
        if text.startswith("refused "):
            return Seen((*answers, self._answer(text)), None, None)
        finished, opened, left = re.fullmatch(r"holds (.*?)(?: open (.*?))?(?: then (.*))?", text).groups()
        finished, opened = self._sequence(finished), None if opened is None else self._sequence(opened)
        written = finished + (opened or b"") + self._sequence(left or "nothing")
        return Seen((*answers, None), standing(finished, opened), written + first_buffer(history.room)[len(written):])

    def _received(self, row, left, right):
        """What is given for one number; or a whole list, where it stops, and that nothing is given for the number behind it and for the largest."""
        message, number = re.fullmatch(r"received (.*?)(?: ask (\d+))?", left).groups()
        message = self._sequence(message)
        if number is not None:
            part, data = self._given(right)
            said, contents = [part], [data]
        else:
            listed, stop = re.fullmatch(r"lists (.*) stops (\d+)", right).groups()
            contents = self._each(listed)
            said = parts_in_a_row(contents, int(stop)) + 2 * [Part(int(stop), 0)]
        if any(bytes_of_part(message, part) != data for part, data in zip(said, contents)):
            raise ValueError(f"not in the message: {row}")
        numbers = (*range(len(said) - 1), LARGEST_NUMBER) if number is None else (int(number),)
        return ReceivedMessage(row, message, numbers, tuple(said))

    def _given(self, text):
        """A part of a message, and its bytes."""
        data, start = re.fullmatch(r"gives (.*) from (\d+)", text).groups()
        data = self._sequence(data)
        return Part(int(start), len(data)), data

    def _each(self, text):
        """Several bytes with spaces between them. Those that stand as they are need no brackets here."""
        each, rest = [], "" if text == "nothing" else text
        while rest:
            plain = re.match(r"[0-9A-F]+(?: |$)", rest)
            data, rest = (bytes.fromhex(plain[0]), rest[plain.end():]) if plain else self._bytes(rest)
            each.append(data)
        return each

    def _sequence(self, text):
        return b"".join(self._each(text))

    def _bytes(self, text):
        """The bytes at the start of a text, and the text after them."""
        if text.startswith("["):
            inside, rest = text[1:].split("]", 1)
            return bytes.fromhex(inside), rest.strip()
        repeated = re.match(r"\((\d+) of ", text)
        if repeated:
            end = closing_place(text)
            return int(repeated[1]) * self._sequence(text[repeated.end():end]), text[end + 1:].strip()
        if text.startswith("("):
            changed, rest = self._bytes(text[1:])
            change, rest = rest.split(")", 1)
            return _changed(changed, change), rest.strip()
        name, _, rest = text.partition(" ")
        return self.names[name], rest

    def _answer(self, text):
        refused = re.fullmatch(r"refused (\d+)(?: (\d+))?", text)
        if refused:
            return Refused(int(refused[1]), None if refused[2] is None else int(refused[2]))
        reads = re.fullmatch(r"reads ([\d ]+) pos (\d+) (\d+) neg (\d+) (\d+)", text)
        if reads:
            spans = [int(number) for number in reads.groups()[1:]]
            return StretchRead(tuple(map(int, reads[1].split())), tuple(spans[:2]), tuple(spans[2:]))
        point = re.fullmatch(r"reads ([\d ]+) offset (\d+) (\d+) orientation (\d) side (\d)", text)
        if point:
            least, greatest, orientation, side = (int(number) for number in point.groups()[1:])
            return PointRead(tuple(map(int, point[1].split())), (least, greatest), orientation, side)
        raise ValueError(f"cannot be read: {text}")

    def _written(self, call, text):
        """What is written. Of a stretch, tests and excess may be left out where all legs are tested: one test for each leg then, and an excess of 0."""
        written, tests, excess = re.fullmatch(r"writes (.*?)(?: tests (\d+) excess (\d+))?", text).groups()
        reference = self.names[written] if written in self.names else bytes.fromhex(written)
        if call.kind == "write point":
            if tests is not None:
                raise ValueError(f"a point has no tests: {call.text}")
            return PointWritten(reference)
        if tests is None:
            return StretchWritten(reference, tests_for_all(call), 0)
        return StretchWritten(reference, int(tests), int(excess))


def standing(finished, opened):
    """How a message stands with these finished bytes, and with those of an open reference, its length counted; None where none is open."""
    if opened is None:
        return Standing(len(finished), False, 0)
    added, start = read_number(opened, 0) if opened else (0, 0)
    if start + added != len(opened):
        raise ValueError(f"not behind its length: {opened.hex()}")
    return Standing(len(finished), True, added)


def parts_in_a_row(contents, stop):
    """Where references stand, one after another, each behind its length, the last right before the stop."""
    parts, start = [], stop - sum(len(behind_its_length(data)) for data in contents)
    for data in contents:
        start += len(behind_its_length(data))
        parts.append(Part(start - len(data), len(data)))
    return parts


def closing_place(text):
    """Where the parenthesis is closed that opens at the start of a text."""
    depth = 0
    for place, character in enumerate(text):
        depth += {"(": 1, ")": -1}.get(character, 0)
        if depth == 0:
            return place
    raise ValueError(f"not closed: {text}")


def tests_for_all(call):
    """How many legs there are of the lines that remain of a stretch."""
    pos, neg, tests = call.numbers
    remaining, *_ = skip_lines(read_map(call.map_bytes), lines_of(call.given), pos, neg)
    count = len(legs_in_order(len(remaining)))
    if tests < count:
        raise ValueError(f"tests and excess are missing: {call.text}")
    return count


def _stretch(text):
    """The bytes of a stretch at the start of a text, and the text after them."""
    part = re.match(r"(lines|bytes)((?: [0-9A-F]+)*)(?= |$)", text)
    numbers, rest = part[2], text[part.end():]
    return line_bytes(map(int, numbers.split())) if part[1] == "lines" else bytes.fromhex(numbers), rest


def _changed(data, change):
    one_byte = re.fullmatch(r"with byte (\d+) = ([0-9A-F]{2})", change)
    if one_byte:
        position = int(one_byte[1])
        if data[position] == int(one_byte[2], 16):
            raise ValueError(f"no change: {change}")
        return data[:position] + bytes.fromhex(one_byte[2]) + data[position + 1:]
    cut = re.fullmatch(r"cut to (\d+) bytes", change)
    if cut:
        return data[:int(cut[1])]
    return data + bytes.fromhex(change.removeprefix("and "))


def _formula(row, left, right):
    for pattern, compute in FORMULAS:
        parts = re.fullmatch(pattern, left)
        if parts:
            return Formula(row, right, compute(*parts.groups()))
    raise ValueError(f"cannot be read: {row}")


def format_page():
    return Page(PAGE.read_text())
