"""Maps with a byte count and a sum of their bytes that are chosen, for the edges of a message's front (paper 02, "The wrong map")."""

from functools import lru_cache
from itertools import islice, product

from depot_map import Steps, map_to_bytes
from drawn_steps import EASTWARD, WESTWARD
from front import SUM_FACTOR, SUM_MODULUS, front_of, map_sum
from sample_maps import MapBuilder, ridge_map

# Steps whose two numbers have two, three and four bytes together.
STEPS_OF_BYTES = {2: Steps(-200, -200), 3: WESTWARD, 4: EASTWARD}
# A line has 9 to 15 bytes: two nodes below 128, a length of one to three bytes, FRC, FOW and two pairs of steps.
SHORTEST_LINE, LONGEST_LINE_BYTES = 9, 15
LENGTHS_OF_BYTES = {1: 100, 2: 10_000, 3: 100_003}
# Two lengths of three bytes can be chosen freely but for their last bytes: those of a length up to 1,500,000.
FREE_BYTES, LAST_BYTES = range(128, 256), range(1, 91)
FEW_LAST_BYTES = range(1, 5)
# Below this count of bytes two nodes will do.
MOST_BYTES_WITH_TWO_NODES = 10_000
# Sums of each count of bytes, at their ends, and those next to the modulus. To 0 to 4 the modulus can be added in 32 bits.
SUM_EDGES = (0, 1, 4, 127, 128, 2 ** 14 - 1, 2 ** 14, 2 ** 21 - 1, 2 ** 21, 2 ** 28 - 1, 2 ** 28, 2 ** 31 - 1, 2 ** 31, SUM_MODULUS - 2, SUM_MODULUS - 1)
FEW_BYTES = 65


def add_line_of_bytes(builder, byte_count):
    """A line from node 1 to node 0 with so many bytes."""
    more = byte_count - SHORTEST_LINE
    length = min(more, 2)
    out = min(more - length, 2)
    builder.line(1, 0, LENGTHS_OF_BYTES[1 + length], fow=2, steps_out=STEPS_OF_BYTES[2 + out], steps_back=STEPS_OF_BYTES[2 + more - length - out])


def map_of_bytes(byte_count, first=100_003, second=200_003):
    """A map of so many bytes. Its first two lines, from node 0 to node 1, have these lengths, and they are told apart by their FOW."""
    builder = MapBuilder()
    builder.row_of_nodes(2 if byte_count < MOST_BYTES_WITH_TWO_NODES else 512)
    builder.line(0, 1, first)
    builder.line(0, 1, second, fow=4)
    # The count of lines has a byte more from 128 on.
    rest = byte_count - len(map_to_bytes(builder.build()))
    count = -(-rest // LONGEST_LINE_BYTES)
    if count > 125:
        rest -= 1
        count = -(-rest // LONGEST_LINE_BYTES)
    for left in range(count, 0, -1):
        size = rest // left
        add_line_of_bytes(builder, size)
        rest -= size
    map_bytes = map_to_bytes(builder.build())
    if len(map_bytes) != byte_count:
        raise RuntimeError(f"no map of {byte_count} bytes")
    return map_bytes


def summands(map_bytes, place, last_bytes):
    """Each choice of the three bytes at a place, with what it adds to the sum."""
    weights = [pow(SUM_FACTOR, len(map_bytes) - 1 - place - which, SUM_MODULUS) for which in range(3)]
    for last, middle, low in product(last_bytes, FREE_BYTES, FREE_BYTES):
        yield (low * weights[0] + middle * weights[1] + last * weights[2]) % SUM_MODULUS, bytes([low, middle, last])


@lru_cache(maxsize=4)
def first_summands(map_bytes, place):
    return dict(summands(map_bytes, place, FEW_LAST_BYTES))


def maps_with_sum(byte_count, total):
    """Maps of so many bytes with this sum, one after another. They differ in the lengths of their first two lines alone."""
    zeroed = map_of_bytes(byte_count)
    # Where the two lengths stand: other lengths differ in their last bytes.
    places = []
    for other in (map_of_bytes(byte_count, first=300_003), map_of_bytes(byte_count, second=300_003)):
        end = max(place for place, (byte, new) in enumerate(zip(zeroed, other)) if byte != new) + 1
        places.append(end - 3)
        zeroed = zeroed[:end - 3] + bytes(3) + zeroed[end:]
    first, second = places
    wanted = (total - map_sum(zeroed)) % SUM_MODULUS
    found = first_summands(zeroed, first)
    for added, chosen in summands(zeroed, second, LAST_BYTES):
        other = found.get((wanted - added) % SUM_MODULUS)
        if other is not None:
            yield zeroed[:first] + other + zeroed[first + 3:second] + chosen + zeroed[second + 3:]


@lru_cache(maxsize=64)
def map_with_sum(byte_count, total):
    return next(maps_with_sum(byte_count, total))


@lru_cache(maxsize=1)
def agreeing_maps():
    """Two maps that differ, with the same count of bytes and the same sum."""
    return tuple(islice(maps_with_sum(FEW_BYTES, map_sum(map_of_bytes(FEW_BYTES))), 2))


@lru_cache(maxsize=1)
def maps_by_front():
    """A map for each count of bytes that a front has, 2 to 8. Only the last one is large."""
    by_sum = [map_with_sum(FEW_BYTES, total) for total in (127, 128, 2 ** 14, 2 ** 21, 2 ** 28)]
    found = [*by_sum, map_with_sum(128, 2 ** 28), map_with_sum(16_384, 2 ** 28)]
    return {len(front_of(map_bytes)): map_bytes for map_bytes in found}


@lru_cache(maxsize=1)
def small_maps():
    """Small maps with fronts of 2 to 7 bytes: the ridge, those above, and those with sums at the edges."""
    return (map_to_bytes(ridge_map()), *(map_bytes for count, map_bytes in maps_by_front().items() if count < 8),
            *(map_with_sum(FEW_BYTES, total) for total in SUM_EDGES), map_of_bytes(127), map_of_bytes(128))
