"""The depot map: its bytes and refusals 2 to 6, 23 and 24.

Scope paper, "The depot map", "Refused, by place"; paper 02, "Banned turns", "Bearings from the drawing", "Centimetres".
"""

from dataclasses import dataclass
from functools import lru_cache
from typing import NamedTuple

from fields import GREATEST_STEP, LONGEST_LEG, code_pair
from outcome import RefusedCall

LARGEST_NUMBER = 4_294_967_295
LONGITUDE_SHIFT = 18_000_000
LATITUDE_SHIFT = 9_000_000
STEP_SHIFT = 250
GREATEST_LONGITUDE = 17_999_998
GREATEST_LATITUDE = 9_000_000
FEWEST_NODES, MOST_NODES = 2, 512
FEWEST_LINES, MOST_LINES = 1, 1_024
MOST_BANS = 512
# A line may be as long as a leg.
LONGEST_LINE = LONGEST_LEG


@dataclass(frozen=True)
class Node:
    """Coordinates in hundred-thousandths of a degree."""
    longitude: int
    latitude: int


class Steps(NamedTuple):
    """Two steps from a node to a point of a line's drawing, in whole decimetres. Not both are 0."""
    east: int
    north: int


@dataclass(frozen=True)
class Line:
    """A line runs one way only, from its start node to its end node. The length is in centimetres.

    The steps out are those from the start node along the line, the steps back those from the end node back along it.
    """
    start_node: int
    end_node: int
    length: int
    frc: int
    fow: int
    steps_out: Steps
    steps_back: Steps


@dataclass(frozen=True)
class DepotMap:
    """A ban is a pair of line numbers: the second is not allowed straight after the first. Bans stand as they are listed, repeated ones too."""
    nodes: tuple
    lines: tuple
    bans: tuple = ()


@lru_cache(maxsize=None)
def write_number(number):
    """The shortest form: groups of seven bits, lowest first, top bit set when another byte follows."""
    written = bytearray()
    while number >= 128:
        written.append(number % 128 + 128)
        number //= 128
    written.append(number)
    return bytes(written)


def read_number(data, position):
    """The number at a position and the position after it. Any fault in its form is refusal 2."""
    number, scale, first_position = 0, 1, position
    while True:
        # With a sixth byte a number is too large, not in its shortest form or without an end.
        if position >= len(data) or position == first_position + 5:
            raise RefusedCall(2)
        byte = data[position]
        number += byte % 128 * scale
        scale *= 128
        position += 1
        if byte < 128:
            break
    shortest = byte != 0 or position == first_position + 1
    if not shortest or number > LARGEST_NUMBER:
        raise RefusedCall(2)
    return number, position


def map_numbers(depot_map):
    """The numbers of a map in byte order. Values are not checked, so that wrong maps can be written too."""
    numbers = [len(depot_map.nodes)]
    for node in depot_map.nodes:
        numbers += [node.longitude + LONGITUDE_SHIFT, node.latitude + LATITUDE_SHIFT]
    numbers.append(len(depot_map.lines))
    for line in depot_map.lines:
        numbers += [line.start_node, line.end_node, line.length, line.frc, line.fow]
        numbers += [step + STEP_SHIFT for step in (*line.steps_out, *line.steps_back)]
    numbers.append(len(depot_map.bans))
    for ban in depot_map.bans:
        numbers += ban
    return numbers


def numbers_to_bytes(numbers):
    """Bytes of a list of numbers. An entry may be bytes already, for a number in a wrong form."""
    return b"".join(entry if isinstance(entry, bytes) else write_number(entry) for entry in numbers)


def map_to_bytes(depot_map):
    return numbers_to_bytes(map_numbers(depot_map))


class _NumbersInOrder:
    """Takes numbers from map bytes one after another; each is judged before the next is looked at.

    So the first faulty number decides. A number with a wrong form is refusal 2 whatever its value would be,
    since 2 stands above 3 to 5 in the table, and above 24.
    """

    def __init__(self, data):
        self.data = data
        self.position = 0

    def take(self, least, greatest, refusal):
        number, self.position = read_number(self.data, self.position)
        if not least <= number <= greatest:
            raise RefusedCall(refusal)
        return number


def _take_node(numbers):
    longitude = numbers.take(0, GREATEST_LONGITUDE + LONGITUDE_SHIFT, 4) - LONGITUDE_SHIFT
    latitude = numbers.take(0, GREATEST_LATITUDE + LATITUDE_SHIFT, 4) - LATITUDE_SHIFT
    return Node(longitude, latitude)


def _take_steps(numbers):
    """An east step out of range is refused before the north step is looked at. Both 0 is a fault of the north step."""
    east = numbers.take(0, GREATEST_STEP + STEP_SHIFT, 24) - STEP_SHIFT
    north = numbers.take(0, GREATEST_STEP + STEP_SHIFT, 24) - STEP_SHIFT
    if east == 0 and north == 0:
        raise RefusedCall(24)
    return Steps(east, north)


def _take_line(numbers, node_count):
    start_node = numbers.take(0, node_count - 1, 5)
    end_node = numbers.take(0, node_count - 1, 5)
    if end_node == start_node:
        raise RefusedCall(5)
    length = numbers.take(1, LONGEST_LINE, 5)
    frc = numbers.take(0, 7, 5)
    fow = numbers.take(0, 7, 5)
    steps_out = _take_steps(numbers)
    steps_back = _take_steps(numbers)
    return Line(start_node, end_node, length, frc, fow, steps_out, steps_back)


def _take_ban(numbers):
    """Any number of 32 bits will do here: what a pair names is asked when the map is read whole."""
    first = numbers.take(0, LARGEST_NUMBER, 2)
    return first, numbers.take(0, LARGEST_NUMBER, 2)


def joins(lines, first, second):
    """Whether both are line numbers and the second line starts where the first ends."""
    return max(first, second) < len(lines) and lines[first].end_node == lines[second].start_node


@lru_cache(maxsize=64)
def read_map(data):
    """The map, or RefusedCall with 2 to 6, 23 or 24. Maps read last are kept, since many calls are on the same map."""
    numbers = _NumbersInOrder(data)
    node_count = numbers.take(FEWEST_NODES, MOST_NODES, 3)
    nodes = tuple(_take_node(numbers) for _ in range(node_count))
    line_count = numbers.take(FEWEST_LINES, MOST_LINES, 3)
    lines = tuple(_take_line(numbers, node_count) for _ in range(line_count))
    ban_count = numbers.take(0, MOST_BANS, 3)
    bans = tuple(_take_ban(numbers) for _ in range(ban_count))
    if numbers.position != len(data):
        raise RefusedCall(2)
    if len({code_pair(node) for node in nodes}) < node_count:
        raise RefusedCall(6)
    if not all(joins(lines, *ban) for ban in bans):
        raise RefusedCall(23)
    return DepotMap(nodes, lines, bans)
