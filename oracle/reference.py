"""The bytes of a reference: taken apart and put together (scope paper, "The bytes"; refusals 12 to 15).

A reference is to a stretch or, by paper 02, "Signs and hydrants", to a point along a line. The latter has two points and status 2B; bits 7 and 6 of P are
the orientation at the first point and the side of road at the last one.
"""

from dataclasses import dataclass
from typing import Optional

from outcome import RefusedCall

STRETCH_STATUS, POINT_STATUS = 0x0B, 0x2B
SHORTEST_REFERENCE, LONGEST_REFERENCE = 16, 459
LONGEST_POINT_ALONG_LINE = 17
FIRST_POINT_LENGTH, MIDDLE_POINT_LENGTH, LAST_POINT_LENGTH = 9, 7, 6
TOP_BIT, POSITIVE_FLAG, NEGATIVE_FLAG = 0x80, 0x40, 0x20


@dataclass(frozen=True)
class Point:
    """A location reference point as its bytes say it.

    The first point holds the two codes, each later one the differences to the previous point.
    The lowest FRC and the distance byte are None on the last point only. The top bits are bits 7 and 6 of P.
    """
    longitude: int
    latitude: int
    frc: int
    fow: int
    sector: int
    lowest_frc: Optional[int] = None
    distance_byte: Optional[int] = None
    top_bits: int = 0


@dataclass(frozen=True)
class Reference:
    """Offset bytes are None where their flag is not set."""
    points: tuple
    positive_byte: Optional[int] = None
    negative_byte: Optional[int] = None


def middle_point_count(reference_length):
    return (reference_length - SHORTEST_REFERENCE) // MIDDLE_POINT_LENGTH


def last_point_position(reference_length):
    """Where the last point's bytes start, in a reference of an allowed length."""
    return 1 + FIRST_POINT_LENGTH + MIDDLE_POINT_LENGTH * middle_point_count(reference_length)


def p_byte_positions(reference_length):
    """Where the P byte of each point is, first point to last."""
    first = 1 + 6
    middle = [1 + FIRST_POINT_LENGTH + MIDDLE_POINT_LENGTH * number + 4
              for number in range(middle_point_count(reference_length))]
    return [first] + middle + [last_point_position(reference_length) + 4]


def put_together(reference, status=STRETCH_STATUS):
    """The bytes of a reference."""
    written = bytearray([status])
    for number, point in enumerate(reference.points):
        width = 3 if number == 0 else 2
        written += point.longitude.to_bytes(width, "big", signed=True)
        written += point.latitude.to_bytes(width, "big", signed=True)
        written.append(point.top_bits * 64 + point.frc * 8 + point.fow)
        if number < len(reference.points) - 1:
            written += bytes([point.lowest_frc * 32 + point.sector, point.distance_byte])
        else:
            flags = POSITIVE_FLAG if reference.positive_byte is not None else 0
            flags += NEGATIVE_FLAG if reference.negative_byte is not None else 0
            written.append(flags + point.sector)
    written += bytes(byte for byte in (reference.positive_byte, reference.negative_byte) if byte is not None)
    return bytes(written)


def _check_form(data):
    """Refusals 12 to 15, in this order."""
    spare = (len(data) - SHORTEST_REFERENCE) % MIDDLE_POINT_LENGTH
    if not SHORTEST_REFERENCE <= len(data) <= LONGEST_REFERENCE or spare > 2:
        raise RefusedCall(12)
    if data[0] != STRETCH_STATUS:
        raise RefusedCall(13)
    r_byte = data[last_point_position(len(data)) + 5]
    if any(data[position] & 0xC0 for position in p_byte_positions(len(data))) or r_byte & TOP_BIT:
        raise RefusedCall(14)
    flag_count = bool(r_byte & POSITIVE_FLAG) + bool(r_byte & NEGATIVE_FLAG)
    if spare != flag_count:
        raise RefusedCall(15)


def _check_point_form(data):
    """The same of a point along a line. Its two P bytes have no bits that must be zero."""
    if not SHORTEST_REFERENCE <= len(data) <= LONGEST_POINT_ALONG_LINE:
        raise RefusedCall(12)
    if data[0] != POINT_STATUS:
        raise RefusedCall(13)
    r_byte = data[last_point_position(len(data)) + 5]
    if r_byte & (TOP_BIT | NEGATIVE_FLAG):
        raise RefusedCall(14)
    if len(data) - SHORTEST_REFERENCE != bool(r_byte & POSITIVE_FLAG):
        raise RefusedCall(15)


def _take_point(data, position, coordinate_width, is_last):
    def signed(start):
        return int.from_bytes(data[start:start + coordinate_width], "big", signed=True)

    p_position = position + 2 * coordinate_width
    p_byte, q_or_r_byte = data[p_position], data[p_position + 1]
    return Point(
        longitude=signed(position),
        latitude=signed(position + coordinate_width),
        frc=p_byte // 8 % 8,
        fow=p_byte % 8,
        sector=q_or_r_byte % 32,
        lowest_frc=None if is_last else q_or_r_byte // 32,
        distance_byte=None if is_last else data[p_position + 2],
        top_bits=p_byte // 64)


def _take_all(data):
    points = [_take_point(data, 1, 3, False)]
    position = 1 + FIRST_POINT_LENGTH
    for _ in range(middle_point_count(len(data))):
        points.append(_take_point(data, position, 2, False))
        position += MIDDLE_POINT_LENGTH
    points.append(_take_point(data, position, 2, True))
    r_byte = data[position + 5]
    offset_bytes = list(data[position + LAST_POINT_LENGTH:])
    positive_byte = offset_bytes.pop(0) if r_byte & POSITIVE_FLAG else None
    negative_byte = offset_bytes.pop(0) if r_byte & NEGATIVE_FLAG else None
    return Reference(tuple(points), positive_byte, negative_byte)


def take_apart(data):
    """The reference to a stretch in the bytes, or RefusedCall with 12 to 15."""
    _check_form(data)
    return _take_all(data)


def take_point_along_line(data):
    """The same of a point along a line."""
    _check_point_form(data)
    return _take_all(data)
