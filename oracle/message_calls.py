"""Calls of messages as the test programs are given them: histories of calls on one buffer, received messages that are asked for a reference, and readings out
of a message.

Also the rows of tests/answer.c and of bench's answer program for histories and received messages. A history's row is `message ROOM CALL CALL ...`, and its
answer has an item for each call, with the bytes of the buffer that the call changed.
"""

import re
from dataclasses import dataclass
from typing import NamedTuple, Optional

from answers import hexadecimal
from message import Message, Part, Standing, part_of
from outcome import Refused, outcome_of
from point_along_line import read_point_of_message
from reader import LEAST_WORK_LENGTH, read_of_message

# Before the first call byte i of a buffer is i mod 251.
FILLING = bytes(range(251))
START, OPEN, ADD, CLOSE, ASK = "start", "open", "add", "close", "ask"
ITEM = re.compile(r"(refused:(?P<refusal>\d+)|part:(?P<start>\d+):(?P<count>\d+)|done:(?P<finished>\d+):(0:0|1:(?P<added>\d+)))"
                  r"(@(?P<changed>\d+)=(?P<data>([0-9A-F]{2})+))?")


class Call(NamedTuple):
    """One of the five. A start has a map and the length of a work area, an addition has a portion, and asking has a number."""
    kind: str
    portion: bytes = b""
    number: int = 0
    map_bytes: bytes = b""
    work_length: int = LEAST_WORK_LENGTH

    def made_on(self, message):
        """The answer: a standing, a part or a refusal."""
        if self.kind == ASK:
            return message.part(self.number)
        arguments = {START: (self.map_bytes, self.work_length), ADD: (self.portion,)}.get(self.kind, ())
        return outcome_of(getattr(message, self.kind), *arguments)

    def word(self):
        """The call in a row."""
        if self.kind == START:
            return f"{START}:{self.work_length}:{hexadecimal(self.map_bytes)}"
        return {ADD: f"{ADD}:{hexadecimal(self.portion)}", ASK: f"{ASK}:{self.number}"}.get(self.kind, self.kind)

    def word_for_c(self):
        """The same for a C host, which lends no work area."""
        return f"{START}:{hexadecimal(self.map_bytes)}" if self.kind == START else self.word()


@dataclass(frozen=True)
class History:
    """Calls one after another, and the length of their buffer. Up to the first that is not refused all of them are starts."""
    room: int
    calls: tuple

    def row(self):
        return " ".join(["message", str(self.room), *(call.word() for call in self.calls)])

    def row_for_c(self):
        return " ".join(["message", str(self.room), *(call.word_for_c() for call in self.calls)])


@dataclass(frozen=True)
class Received:
    """A received message that is asked for a reference."""
    message: bytes
    number: int

    def row(self):
        return f"received {hexadecimal(self.message)} {self.number}"


@dataclass(frozen=True)
class ReadingOfMessage:
    """A reference that is read out of a message, as one to a stretch or as a point along a line."""
    map_bytes: bytes
    message: bytes
    reference: bytes
    is_point: bool = False
    work_length: int = LEAST_WORK_LENGTH
    line_room: int = 1_024

    def subject(self):
        """The first words of its row."""
        return " ".join(["read_point_of_message" if self.is_point else "read_of_message", *map(hexadecimal, (self.map_bytes, self.message, self.reference))])

    def row(self):
        return f"{self.subject()} {self.work_length} {self.line_room}"


class Change(NamedTuple):
    """The bytes of a buffer after a call, from the first that the call changed to the last."""
    start: int
    data: bytes


class Answered(NamedTuple):
    """What a call answers, and what it changes in the buffer."""
    answer: object
    change: Optional[Change] = None

    def word(self):
        """The answer in a row."""
        changed = f"@{self.change.start}={self.change.data.hex().upper()}" if self.change else ""
        return f"{answer_word(self.answer)}{changed}"


def answer_word(answer):
    if isinstance(answer, Refused):
        return f"refused:{answer.number}"
    if isinstance(answer, Part):
        return f"part:{answer.start}:{answer.byte_count}"
    return f"done:{answer.byte_count}:{int(answer.is_open)}:{answer.added}"


def answered_in(word):
    """The same out of a row. An item of another form stays as it is: it is never expected. Where none is open, added must be 0."""
    found = ITEM.fullmatch(word)
    if found is None:
        return Answered(word)
    if found["refusal"]:
        answer = Refused(int(found["refusal"]))
    elif found["count"]:
        answer = Part(int(found["start"]), int(found["count"]))
    else:
        answer = Standing(int(found["finished"]), found["added"] is not None, int(found["added"] or 0))
    return Answered(answer, Change(int(found["changed"]), bytes.fromhex(found["data"])) if found["data"] else None)


def first_buffer(room):
    return (FILLING * (room // len(FILLING) + 1))[:room]


def change_between(before, after):
    """What changed in a buffer, or None. As two large numbers they differ in bits from that of the first byte that changed to that of the last."""
    different = int.from_bytes(before, "little") ^ int.from_bytes(after, "little")
    if different == 0:
        return None
    last = (different.bit_length() - 1) // 8
    first = ((different & -different).bit_length() - 1) // 8
    return Change(first, after[first:last + 1])


def history_outcome(history):
    """What each call answers and changes."""
    message = Message(bytearray(first_buffer(history.room)))
    answered, before = [], bytes(message.buffer)
    for call in history.calls:
        answer = call.made_on(message)
        after = bytes(message.buffer)
        answered.append(Answered(answer, change_between(before, after)))
        before = after
    return tuple(answered)


def buffers_after(room, answered):
    """The whole buffer after each call, by what each changed."""
    buffer = bytearray(first_buffer(room))
    for _, change in answered:
        if change is not None:
            buffer[change.start:change.start + len(change.data)] = change.data
        yield bytes(buffer)


def received_outcome(received):
    return Answered(part_of(received.message, received.number))


def reading_outcome(given):
    """What a reader answers, of points or of stretches."""
    reader = read_point_of_message if given.is_point else read_of_message
    return reader(given.map_bytes, given.message, given.reference, given.work_length, given.line_room)


def outcome_row(outcome):
    """The expected row: of a history an item for each call."""
    return outcome.word() if isinstance(outcome, Answered) else " ".join(answered.word() for answered in outcome)
