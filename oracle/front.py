"""A message's front: the byte count of the map that it is written for, and a sum over that map's bytes (paper 02, "The wrong map"; refusal 30)."""

from functools import lru_cache
from typing import NamedTuple, Optional

from depot_map import read_number, write_number
from outcome import RefusedCall

# "for each byte multiply by 257, add the byte, keep the remainder by 4,294,967,291"
SUM_FACTOR, SUM_MODULUS = 257, 4_294_967_291


class Front(NamedTuple):
    """What a received message says of its map, and how many bytes the two numbers have."""
    map_count: int
    map_sum: int
    byte_count: int


@lru_cache(maxsize=64)
def map_sum(map_bytes):
    total = 0
    for byte in map_bytes:
        total = (total * SUM_FACTOR + byte) % SUM_MODULUS
    return total


def front_bytes(map_count, total):
    """The two numbers as they stand in a message, whatever they are."""
    return write_number(map_count) + write_number(total)


def front_of(map_bytes):
    """The bytes that a message for this map starts with."""
    return front_bytes(len(map_bytes), map_sum(map_bytes))


def read_front(message) -> Optional[Front]:
    """The front of a received message, or None where it cannot be read. A sum that no map has can be read."""
    try:
        count, middle = read_number(message, 0)
        total, end = read_number(message, middle)
    except RefusedCall:
        return None
    return Front(count, total, end)


def check_front(map_bytes, message):
    """Error "30 (after 23) count or sum differs or cannot be read". The readers "look only at its front"."""
    front = read_front(message)
    if front is None or (front.map_count, front.map_sum) != (len(map_bytes), map_sum(map_bytes)):
        raise RefusedCall(30)
