"""Lengths from which maps are made, in centimetres (paper 02, "Centimetres"). Those that are no multiple of ten are common, and so are those at the edges."""

from fields import DISTANCE_STEP, GREATEST_BYTE, LONGEST_LEG

HALF_LEG = LONGEST_LEG // 2
# The greatest leg on which offsets can lie half-way between two 256ths.
LONGEST_WITH_HALVES = LONGEST_LEG // 512 * 512
# So much longer, a leg has another D.
ANOTHER_DISTANCE = DISTANCE_STEP + 1_143


def next_to(length):
    return length - 1, length, length + 1


# Around the first, the second and the last length at which D becomes one more.
DISTANCE_EDGES = tuple(length for byte in (1, 2, GREATEST_BYTE) for length in next_to(byte * DISTANCE_STEP))


def any_digit(rng, length):
    """A length that ends in 0 with any digit in its place."""
    return length + rng.randrange(10)
