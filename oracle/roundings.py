"""How the byte of an offset comes to be the nearest 256th, for the tests of cases (paper 02, "Offsets to the nearest")."""

from fractions import Fraction
from math import floor

from fields import offset_byte

EVERY_ROUNDING = {"an exact half upwards", "255 for 256", "byte 0", "not as rounded down", "as rounded down"}


def roundings(offset, leg_length):
    """Which of these an offset's byte comes by."""
    share, byte = Fraction(256 * offset, leg_length), offset_byte(offset, leg_length)
    found = {"as rounded down" if byte == floor(share) else "not as rounded down"}
    if byte - share == Fraction(1, 2):
        found.add("an exact half upwards")
    if byte == 255 and share >= 255 + Fraction(1, 2):
        found.add("255 for 256")
    if byte == 0:
        found.add("byte 0")
    return found
