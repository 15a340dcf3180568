"""The fields of a reference, as the scope paper's paragraph "The bytes" words them.

Longitude differences are paper 02's, "Depots on the 180th meridian". So are sectors, "Bearings from the drawing", and offset bytes, "Offsets to the nearest".
Lengths and offsets are in centimetres, by its "Centimetres"; steps stay in decimetres.
"""

from bisect import bisect_right
from fractions import Fraction
from functools import lru_cache
from math import ceil, floor, isqrt, trunc

LONGEST_LEG = 1_500_000
# D counts these, 58.6 m each.
DISTANCE_STEP = 5_860
# 360 degrees, in hundred-thousandths.
WHOLE_CIRCLE = 36_000_000
# A step leads 250 decimetres at most, east or west, north or south.
GREATEST_STEP = 250
QUARTER_SECTORS = 8
# Bounds of a square root are one part of these apart.
ROOT_PARTS = 10 ** 12
GREATEST_BYTE = 255


@lru_cache(maxsize=None)
def coordinate_code(coordinate):
    """The 24-bit code of a coordinate given in hundred-thousandths of a degree."""
    code = Fraction(coordinate * 16_777_216, 36_000_000)
    if coordinate > 0:
        code += Fraction(1, 2)
    if coordinate < 0:
        code -= Fraction(1, 2)
    return trunc(code)


def code_pair(node):
    """The two codes that stand for a node in a first point."""
    return coordinate_code(node.longitude), coordinate_code(node.latitude)


def root_bounds(square):
    """A fraction that is at most the square root, and one that is above it."""
    parts = isqrt(floor(square * ROOT_PARTS ** 2))
    return Fraction(parts, ROOT_PARTS), Fraction(parts + 1, ROOT_PARTS)


def tangent_of_half(cotangent):
    """Bounds of the tangent of half an angle, out of bounds of the cotangent c of the angle: the root of 1 + c x c, less c. It falls as c grows."""
    low, high = cotangent
    return root_bounds(1 + high * high)[0] - high, root_bounds(1 + low * low)[1] - low


@lru_cache(maxsize=1)
def edge_tangents():
    """Bounds of the tangents of 11.25, 22.5, .. 78.75 degrees. That of 45 degrees is 1, and the others are no fractions.

    The angles are halves of 22.5, 45, .. 157.5 degrees. Of these, the first three have the cotangents root 2 + 1, 1 and root 2 - 1, and the last three have the
    same with a minus.
    """
    low, high = root_bounds(2)
    cotangents = [(low + 1, high + 1), (1, 1), (low - 1, high - 1)]
    mirrored = [(-high, -low) for low, high in reversed(cotangents)]
    return [tangent_of_half(bounds) for bounds in cotangents] + [(1, 1)] + [tangent_of_half(bounds) for bounds in mirrored]


def first_easts_of(north):
    """For each edge inside the first quarter the least whole east that is at it or beyond it, at a whole north from 1 to 250.

    East is at the edge or beyond it where it is not below north x tangent, and so not below that product rounded up. Between the bounds of the product lies the
    product itself: where both are rounded up to one number, so is the product, and that number is the one sought. That it is so for each of the 250 norths is
    asked here, and so the bounds tell every step from every edge.
    """
    bounds = [(ceil(north * low), ceil(north * high)) for low, high in edge_tangents()]
    if any(low != high for low, high in bounds):
        raise ArithmeticError(f"the edges are not known well enough for north {north}")
    return [low for low, _ in bounds]


FIRST_EASTS = {north: first_easts_of(north) for north in range(1, GREATEST_STEP + 1)}


def sector(steps):
    """The sector, 0 to 31, of the direction of two steps, east and north, that are not both 0: its whole 11.25 degrees, clockwise from north.

    The direction is turned back by quarters until it lies from north to just before east. There the edges that it has reached are counted.
    """
    east, north = steps
    for quarters in range(4):
        if north > 0 and east >= 0:
            return QUARTER_SECTORS * quarters + bisect_right(FIRST_EASTS[north], east)
        east, north = -north, east
    raise ValueError("no direction")


def distance_byte(leg_length):
    """Byte D, the distance to the next point, of a leg length in centimetres."""
    return leg_length // DISTANCE_STEP


def offset_byte(offset, leg_length):
    """The byte of an offset that is not 0 and is below the leg length: the nearest 256th, "an exact half upwards", and "255 where that gives 256".

    The offset is some whole 256ths of the leg and a rest. With a rest of half a 256th or more, the next 256th is the nearest. The tests hold it to fractions.
    """
    whole, rest = divmod(256 * offset, leg_length)
    nearest = whole + 1 if 2 * rest >= leg_length else whole
    return min(nearest, GREATEST_BYTE)


def offset_span_by_trying(byte, leg_length):
    """The least and greatest whole offset, from 1 to below the leg length, that give the byte, or None."""
    fitting = [offset for offset in range(1, leg_length) if offset_byte(offset, leg_length) == byte]
    return (fitting[0], fitting[-1]) if fitting else None


def offset_span(byte, leg_length):
    """The same as offset_span_by_trying, quick enough for long legs. The tests compare the two.

    A byte is nearest from half a 256th below it, that half counted, to half a 256th above it, that half not counted. In 512ths of the leg these are the odd
    numbers 2 x byte - 1 and 2 x byte + 1, so that (2 x byte - 1) x leg_length <= 512 x offset < (2 x byte + 1) x leg_length. At byte 0 the offset 1 is the
    first. Byte 255 also has what is nearest to 256, and so goes on to the last offset below the leg length. The others end before 509 512ths at most.
    """
    least = max(1, ceil(Fraction((2 * byte - 1) * leg_length, 512)))
    greatest = leg_length - 1 if byte == GREATEST_BYTE else ceil(Fraction((2 * byte + 1) * leg_length, 512)) - 1
    return (least, greatest) if least <= greatest else None


def brought_round(longitude):
    """A difference or a sum of longitudes "brought into -18,000,000 to 17,999,999 by adding or taking 36,000,000", once at most."""
    if longitude < -18_000_000:
        return longitude + WHOLE_CIRCLE
    if longitude > 17_999_999:
        return longitude - WHOLE_CIRCLE
    return longitude


def differences(from_node, to_node):
    """Longitude and latitude of a point less the previous point's, in hundred-thousandths of a degree.

    The longitude goes the shorter way around the earth. The latitude stays plain, since no way leads over a pole.
    """
    return brought_round(to_node.longitude - from_node.longitude), to_node.latitude - from_node.latitude


def differences_fit(from_node, to_node):
    """Whether both differences, the longitude's brought round, can be written in 16 bits, signed."""
    return all(-32_768 <= difference <= 32_767 for difference in differences(from_node, to_node))
