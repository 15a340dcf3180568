"""Inputs for read cases of points along a line (recipes.py says what a recipe is)."""

from dataclasses import replace
from functools import lru_cache

from damages import point_along_line_damages, replaced
from depot_map import map_to_bytes
from fields import LONGEST_LEG
from legs import list_length
from meridian_recipes import all_across, code_of_the_other_side, no_node_across, over_a_pole, point_across, reading_across, sum_that_no_node_has
from outcome import PointRead
from point_along_line import bytes_of_point, read_point
from point_write_recipes import accepted_point, any_marks, point_write_outcome
from read_recipes import (AMPLE_LINES, OFFSET_EDGES, ReadInput, around, around_the_block, around_twice, changed_byte, changed_leg_field, changed_offset_byte,
                          closed_loop, composed_legs, damaged_map, damaged_reference, full_size, leg_with_ways_around, legs_can_be_written,
                          lines_exactly_enough, lines_too_few, row_of_lines, sides_of_an_edge, tie_that_a_ban_decides, to_the_centimetre, two_faults,
                          written_input)
from recipes import any_sample, until_found, work_area_exactly_enough, work_area_too_short
from reference import LONGEST_POINT_ALONG_LINE, NEGATIVE_FLAG, POINT_STATUS, POSITIVE_FLAG, SHORTEST_REFERENCE, p_byte_positions
from sample_maps import CENTIMETRE_SAMPLES, MapBuilder, chain_of_ties, random_walk, ridge_map

# P, Q and D of the first point, P and R of the last.
FIELD_POSITIONS = (7, 8, 9, 14, 15)
R_POSITION = FIELD_POSITIONS[-1]


@lru_cache(maxsize=16)
def point_read_outcome(given):
    """The last outcomes are kept, as those of write_outcome are."""
    return read_point(given.map_bytes, given.reference, given.work_length, given.line_room)


def written_point(rng, turn):
    label, given = accepted_point(rng, turn)
    return label, ReadInput(given.map_bytes, point_write_outcome(given).reference)


def point_along(rng, depot_map, lines, offset=0, **settings):
    """A reading of a point along a list of lines."""
    return ReadInput(map_to_bytes(depot_map), bytes_of_point(depot_map, lines, offset, **any_marks(rng)), **settings)


def composed_point_from(rng, sample):
    """A point along a walk of one line or several, or None."""
    most_lines = rng.choice([1, 2, 4, 12, 64])
    lines = sample.stretch[:most_lines] if rng.random() < 0.5 else random_walk(rng, sample.depot_map, most_lines)
    if not legs_can_be_written(sample.depot_map, [lines]):
        return None
    return point_along(rng, sample.depot_map, lines, rng.choice([0, rng.randrange(list_length(sample.depot_map, lines))]))


def composed_point(rng, turn):
    def attempt():
        sample = any_sample(rng, turn)
        given = composed_point_from(rng, sample)
        return None if given is None else (sample.label, given)
    return until_found(attempt)


def point_that_is_read(rng, turn):
    """Along several lines every other time."""
    def attempt():
        label, given = composed_point(rng, rng.randrange(1_000))
        outcome = point_read_outcome(given)
        return (label, given) if isinstance(outcome, PointRead) and len(outcome.lines) > turn % 2 else None
    return until_found(attempt)


def as_point(rng, given):
    """A reference to a stretch of one leg and without a negative offset, as a point along a line with any orientation and side. None of any other."""
    reference = given.reference
    if not SHORTEST_REFERENCE <= len(reference) <= LONGEST_POINT_ALONG_LINE or reference[R_POSITION] & NEGATIVE_FLAG:
        return None
    for position in p_byte_positions(len(reference)):
        reference = replaced(reference, position, bytes([reference[position] | rng.randrange(4) * 64]))
    return replace(given, reference=replaced(reference, 0, bytes([POINT_STATUS])))


def of_one_leg(recipe):
    """What a recipe for stretches makes, as a point along a line."""
    def point(rng, turn):
        def attempt():
            label, given = recipe(rng, turn)
            changed = as_point(rng, given)
            return None if changed is None else (label, changed)
        return until_found(attempt)
    return point


def each_fourth_of_one_leg(recipe):
    """The same of a recipe that has one leg every fourth time."""
    return of_one_leg(lambda rng, turn: recipe(rng, 4 * turn))


def each_orientation_and_side(rng, turn):
    label, given = point_that_is_read(rng, turn // 16)
    orientation, side = divmod(turn % 16, 4)
    reference = given.reference
    for position, top_bits in zip(p_byte_positions(len(reference)), (orientation, side)):
        reference = replaced(reference, position, bytes([reference[position] % 64 + top_bits * 64]))
    return label, replace(given, reference=reference)


def each_bit_of_a_field(rng, turn):
    """Each bit of P, Q, D, P and R turned over."""
    label, given = point_that_is_read(rng, turn // 40)
    which, bit = divmod(turn % 40, 8)
    position = FIELD_POSITIONS[which]
    return label, replace(given, reference=replaced(given.reference, position, bytes([given.reference[position] ^ 1 << bit])))


def each_length_and_flag(rng, turn):
    """Both lengths, with the positive flag and without, with the other two bits of R and without."""
    label, given = point_that_is_read(rng, turn // 16)
    top_bits = turn % 8 * 32
    reference = (given.reference + b"\x00")[:LONGEST_POINT_ALONG_LINE - turn // 8 % 2]
    return label, replace(given, reference=replaced(reference, R_POSITION, bytes([reference[R_POSITION] % 32 + top_bits])))


def offset_byte_at_edges(rng, turn):
    """Flagged bytes at both ends, on legs of one line and of three on which some of them are given by no offset: byte 0 up to 512, byte 255 up to 170.

    Each of five bytes on each of 16 lengths has its turn.
    """
    lengths = (1, 2, 100, *OFFSET_EDGES, 10_003, LONGEST_LEG - 1, LONGEST_LEG)
    byte, length = (0, 1, 128, 254, 255)[turn % 5], lengths[turn % len(lengths)]
    parts = [length] if length < 3 or rng.random() < 0.5 else [1, length - 2, 1]
    depot_map = row_of_lines(parts)
    given = point_along(rng, depot_map, tuple(range(len(parts))))
    r_byte = given.reference[R_POSITION] | POSITIVE_FLAG
    return f"byte {byte} on {length}", replace(given, reference=given.reference[:R_POSITION] + bytes([r_byte, byte]))


def offset_without_span(rng, turn):
    """A flagged byte that no whole offset gives. The line buffer is too short as well every other time.

    On 200, offset 5 gives 6.4 and offset 6 gives 7.68, so that 7 is left out. On 255, offset 127 gives 127.498 and offset 128 gives 128.502.
    """
    length, byte = ((1, 0), (1, 255), (2, 127), (2, 129), (100, 1), (100, 255), (169, 255), (170, 0), (170, 255), (171, 0), (200, 7), (255, 0), (255, 128),
                    (256, 0), (257, 0), (511, 0), (512, 0))[turn % 17]
    depot_map = row_of_lines([length])
    given = point_along(rng, depot_map, (0,), line_room=turn % 2)
    r_byte = given.reference[R_POSITION] | POSITIVE_FLAG
    return f"byte {byte} on {length}", replace(given, reference=given.reference[:R_POSITION] + bytes([r_byte, byte]))


def many_lines(rng, turn):
    """A leg once around a ring and one line more, for a buffer that holds it exactly, is one too short, or is longer."""
    depot_map, (lines,) = around((2, 40, 100, 300)[turn % 4], 1)
    room = len(lines) + (0, -1, 76)[turn // 4 % 3]
    return f"{len(lines)} lines, room for {room}", point_along(rng, depot_map, lines, rng.choice([0, 1, list_length(depot_map, lines) - 1]), line_room=room)


def most_lines(rng, turn):
    """A leg of all 1,024 lines of a map."""
    map_bytes, reference = around_twice(512, 1)
    room = (AMPLE_LINES, AMPLE_LINES - 1, AMPLE_LINES + 1)[turn % 3]
    return f"room for {room}", as_point(rng, ReadInput(map_bytes, reference, line_room=room))


def tied_leg(rng, turn):
    """The ridge, a tie of two ways, and two lines that join the same nodes. The line buffer is too short as well every other time."""
    room = AMPLE_LINES * (turn // 3 % 2)
    if turn % 3 == 0:
        return "ridge", point_along(rng, ridge_map(), (0, 1), rng.choice([0, 5_000]), line_room=room)
    if turn % 3 == 1:
        depot_map, (lines,) = chain_of_ties(1, (0,))
        return "two ways", point_along(rng, depot_map, lines, rng.choice([0, list_length(depot_map, lines) - 1]), line_room=room)
    builder = MapBuilder()
    builder.row_of_nodes(2)
    for length in (3_001, 4_003):
        builder.line(0, 1, length)
    return "parallel lines", point_along(rng, builder.build(), (0,), rng.choice([0, 1]), line_room=room)


def other_distance(rng, turn):
    """D of no way. There may be an offset's byte 0, which no offset gives on 200: 19 stands below."""
    depot_map = row_of_lines([101, 99])
    given = point_along(rng, depot_map, (0, 1), turn % 2)
    reference = replaced(given.reference, FIELD_POSITIONS[2], bytes([(1, 2, 255)[turn % 3]]))
    return "D", replace(given, reference=reference[:16] + bytes(len(reference) - 16))


POINT_READ_RECIPES = {
    "written": written_point,
    "composed": composed_point,
    "composed as a stretch": of_one_leg(composed_legs),
    "changed byte": changed_byte(written_point, composed_point),
    "D or lowest class changed": of_one_leg(changed_leg_field),
    "offset byte changed": of_one_leg(changed_offset_byte),
    "each orientation and side": each_orientation_and_side,
    "each bit": each_bit_of_a_field,
    "each length and flag": each_length_and_flag,
    "offset byte at its edges": offset_byte_at_edges,
    "line buffer exactly long enough": lines_exactly_enough(point_that_is_read, point_read_outcome),
    "work area long enough": work_area_exactly_enough(point_that_is_read),
    "closed loop": of_one_leg(closed_loop),
    "many lines": many_lines,
    "most lines": most_lines,
    "tie that a ban decides": each_fourth_of_one_leg(tie_that_a_ban_decides),
    "around the block": each_fourth_of_one_leg(around_the_block),
    "full size": of_one_leg(full_size),
    "sides of an edge": of_one_leg(sides_of_an_edge),
    "to the centimetre": of_one_leg(lambda rng, turn: to_the_centimetre(rng, CENTIMETRE_SAMPLES + turn % CENTIMETRE_SAMPLES)),
    "reference to a stretch": written_input,
    "two faults": two_faults(written_point, point_along_line_damages),
    "refusal 1": work_area_too_short(written_point, {"map_bytes": b""}, {"reference": b""}, {"line_room": 0}),
    "refusal 2": damaged_map(2, written_point),
    "refusal 3": damaged_map(3, written_point),
    "refusal 4": damaged_map(4, written_point),
    "refusal 5": damaged_map(5, written_point),
    "refusal 6": damaged_map(6, written_point),
    "refusal 23": damaged_map(23, written_point),
    "refusal 24": damaged_map(24, written_point),
    "refusal 12": damaged_reference(12, point_that_is_read, point_along_line_damages),
    "refusal 13": damaged_reference(13, point_that_is_read, point_along_line_damages),
    "refusal 14": damaged_reference(14, point_that_is_read, point_along_line_damages),
    "refusal 15": damaged_reference(15, point_that_is_read, point_along_line_damages),
    "refusal 16": damaged_reference(16, point_that_is_read, point_along_line_damages),
    "refusal 17, by marks": damaged_reference(17, point_that_is_read, point_along_line_damages),
    "refusal 17, by D": other_distance,
    "refusal 17, by a ban": of_one_leg(leg_with_ways_around(0)),
    "refusal 18": tied_leg,
    "refusal 18, by a ban": of_one_leg(leg_with_ways_around(2)),
    "refusal 19": offset_without_span,
    "refusal 20": lines_too_few(point_that_is_read, point_read_outcome),
}

# Those with many edges on small maps.
POINT_READ_EDGES = {name: POINT_READ_RECIPES[name] for name in (
    "each orientation and side", "each bit", "each length and flag", "offset byte at its edges", "sides of an edge", "to the centimetre")}

MERIDIAN_POINT_READ_RECIPES = {
    "point across the meridian": of_one_leg(point_across),
    "refusal 16, a sum of 17,999,999": of_one_leg(sum_that_no_node_has),
    "refusal 16, next to a node across the meridian": of_one_leg(no_node_across),
    "refusal 16, over a pole": of_one_leg(over_a_pole),
    "refusal 16, code of the other side": of_one_leg(code_of_the_other_side),
}

POINT_READ_RECIPES_ACROSS = all_across(POINT_READ_RECIPES, reading_across)

# Points along a line for the reader of stretches.
POINTS_FOR_STRETCHES_RECIPES = {"refusal 13, point along a line": written_point}
