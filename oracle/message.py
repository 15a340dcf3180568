"""Messages of many references: paper 02, "Many stretches in one message" and "The wrong map".

Numbers are the map's: groups of seven bits, lowest first, in their shortest form.
"""

from dataclasses import dataclass
from functools import lru_cache

from depot_map import read_map, read_number, write_number
from front import front_of, read_front
from outcome import RefusedCall
from reader import check_work_length
from reference import LONGEST_REFERENCE

# "of which at most the first 16,384 bytes are used"
LONGEST_MESSAGE = 16_384


@dataclass(frozen=True)
class Standing:
    """How a message stands after a call that is not refused: its finished bytes, the front's among them, whether a reference is open, and how many bytes that
    one has so far."""
    byte_count: int
    is_open: bool
    added: int


@dataclass(frozen=True)
class Part:
    """A part of a message: where it starts and how many bytes it has. An empty one starts where the list stops, and at 0 where the front cannot be read."""
    start: int
    byte_count: int


def behind_its_length(reference):
    """The bytes of a reference as they stand in a message."""
    return write_number(len(reference)) + reference


class Message:
    """A message that is written in a lent buffer, a bytearray. Nothing is promised before it is started. Refusals are raised as RefusedCall."""

    def __init__(self, buffer):
        self.buffer = buffer
        self.byte_count = 0
        # The open reference's bytes so far, or None.
        self.opened = None

    def room(self):
        """How many bytes of the buffer may be used."""
        return min(len(self.buffer), LONGEST_MESSAGE)

    def standing(self):
        return Standing(self.byte_count, self.opened is not None, len(self.opened or b""))

    def start(self, map_bytes, work_length):
        """A message for this map, whatever was open or finished. "starting a message in a buffer too short for them gives 28, after the map's own"."""
        check_work_length(work_length)
        read_map(map_bytes)
        front = front_of(map_bytes)
        if len(front) > len(self.buffer):
            raise RefusedCall(28)
        self.buffer[:len(front)] = front
        self.byte_count, self.opened = len(front), None
        return self.standing()

    def open(self):
        """Error "27 (first) opening when one is open". "Opening writes nothing"."""
        if self.opened is not None:
            raise RefusedCall(27)
        self.opened = b""
        return self.standing()

    def add(self, portion):
        """Error "27 (first) .. adding .. when none is". An empty addition to an open one changes nothing, and so it never takes the message too far."""
        if self.opened is None:
            raise RefusedCall(27)
        if portion:
            self._write(self.opened + portion)
        return self.standing()

    def _write(self, reference):
        """Error "28 (after 27) an addition would take the message, lengths counted, past the buffer or 16,384 bytes, or a reference past 459".

        Else "the open one's length so far and its bytes stand right behind the last finished one".
        """
        written = behind_its_length(reference)
        end = self.byte_count + len(written)
        if end > self.room() or len(reference) > LONGEST_REFERENCE:
            raise RefusedCall(28)
        self.buffer[self.byte_count:end] = written
        self.opened = reference

    def close(self):
        """Error "27 (first) .. closing when none is, closing with nothing added". "Closing answers the message's byte count", which the standing has."""
        if not self.opened:
            raise RefusedCall(27)
        self.byte_count += len(behind_its_length(self.opened))
        self.opened = None
        return self.standing()

    def part(self, number):
        """What number n is now: "any finished one may be read, and the open one is not there yet"."""
        return part_of(bytes(self.buffer[:self.byte_count]), number)


@lru_cache(maxsize=16)
def listed(message):
    """The parts of all references in a received message, and where the list stops. "A received front that cannot be read makes the list empty", and behind
    it "a faulty length, 0, one over 459 or an early end stops the list"."""
    used = message[:LONGEST_MESSAGE]
    front = read_front(used)
    if front is None:
        return (), 0
    parts, stop = [], front.byte_count
    while True:
        try:
            length, start = read_number(used, stop)
        except RefusedCall:
            break
        if not 1 <= length <= LONGEST_REFERENCE or start + length > len(used):
            break
        parts.append(Part(start, length))
        stop = start + length
    return tuple(parts), stop


def part_of(message, number):
    """Number n, counted from 0: "that part of the message itself, without its length number, or an empty part if there is no finished n"."""
    parts, stop = listed(message)
    return parts[number] if number < len(parts) else Part(stop, 0)


def bytes_of_part(message, part):
    return message[part.start:part.start + part.byte_count]
