"""Inputs for write cases of points along a line (recipes.py says what a recipe is)."""

from dataclasses import dataclass, replace
from functools import lru_cache

from damages import map_damage
from depot_map import LARGEST_NUMBER, LONGEST_LINE, MOST_LINES, Line, map_to_bytes, read_map
from drawn_steps import EASTWARD, NORTHWARD, WESTWARD
from fields import DISTANCE_STEP
from lengths import DISTANCE_EDGES
from meridian_recipes import all_across, differences_at_ends_across, half_a_circle, stretch_back_and_forth, writing_across
from outcome import PointWritten
from point_along_line import GREATEST_ORIENTATION, GREATEST_SIDE, write_point
from reader import LEAST_WORK_LENGTH
from recipes import any_sample, until_found, work_area_exactly_enough, work_area_too_short
from reference import LONGEST_POINT_ALONG_LINE
from sample_maps import MapBuilder, edge_sample, full_size_sample
from write_recipes import differences_at_ends, line_of_a_node, next_to_a_half, no_usable_choice, no_usable_choice_by_a_ban

# Pairs of orientation and side of which one is too large, or both. Of some the last bits alone would do.
MARKS_TOO_LARGE = ((4, 0), (0, 4), (4, 3), (3, 4), (4, 4), (5, 1), (2, 7), (64, 0), (0, 64), (256, 0), (0, 256), (2 ** 16, 2), (1, 2 ** 16),
                   (2 ** 31, 0), (0, 2 ** 31), (LARGEST_NUMBER, 3), (3, LARGEST_NUMBER), (LARGEST_NUMBER, LARGEST_NUMBER))


@dataclass(frozen=True)
class PointInput:
    map_bytes: bytes
    line: int
    offset: int = 0
    orientation: int = 0
    side: int = 0
    work_length: int = LEAST_WORK_LENGTH
    byte_room: int = LONGEST_POINT_ALONG_LINE


@lru_cache(maxsize=16)
def point_write_outcome(given):
    """The last outcomes are kept, as those of write_outcome are."""
    return write_point(given.map_bytes, given.line, given.offset, given.orientation, given.side, given.work_length, given.byte_room)


def any_marks(rng):
    return {"orientation": rng.randrange(GREATEST_ORIENTATION + 1), "side": rng.randrange(GREATEST_SIDE + 1)}


def edge_offset(rng, length):
    """An offset at an end of a line, next to it or anywhere on it. It may be the length, which is too large."""
    return rng.choice([0, 1, length - 1, length, rng.randrange(length)])


def point_on(rng, depot_map):
    """A point on any line of a map."""
    line = rng.randrange(len(depot_map.lines))
    return PointInput(map_to_bytes(depot_map), line, edge_offset(rng, depot_map.lines[line].length), **any_marks(rng))


def any_point(rng, turn):
    sample = any_sample(rng, turn)
    return sample.label, point_on(rng, sample.depot_map)


def accepted_point(rng, turn):
    """A sample's name and a point that the writer accepts, with an offset where that is accepted too."""
    def attempt():
        label, point = any_point(rng, turn)
        for given in (point, replace(point, offset=0)):
            if isinstance(point_write_outcome(given), PointWritten):
                return label, given
        return None
    return until_found(attempt)


def line_of(given):
    return read_map(given.map_bytes).lines[given.line]


def each_orientation_and_side(rng, turn):
    label, given = accepted_point(rng, turn)
    orientation, side = divmod(turn % 16, 4)
    return label, replace(given, orientation=orientation, side=side)


def offset_at_line_end(rng, turn):
    """0, 1, one below the length, and the two sides of the middle."""
    label, given = until_found(lambda: longer_than(2, accepted_point(rng, rng.randrange(1_000))))
    length = line_of(given).length
    return label, replace(given, offset=(0, 1, length - 1, length // 2, length // 2 - 1)[turn % 5])


def offset_at_a_half(rng, turn):
    """Half-way between two 256ths of the line, or next to it."""
    length, offset = next_to_a_half(rng, turn)
    builder = MapBuilder()
    line = builder.line(*builder.row_of_nodes(2), length)
    return f"{offset} of {length}", PointInput(map_to_bytes(builder.build()), line, offset, **any_marks(rng))


def longer_than(length, labelled):
    return labelled if line_of(labelled[1]).length > length else None


def bytes_exactly_enough(rng, turn):
    """The byte buffer holds the reference, every other time with up to three bytes more."""
    label, given = accepted_point(rng, turn)
    return label, replace(given, byte_room=len(point_write_outcome(given).reference) + turn % 2 * rng.randrange(4))


def bytes_too_few(rng, turn):
    label, given = accepted_point(rng, turn)
    room = len(point_write_outcome(given).reference) - 1
    return label, replace(given, byte_room=(room, 15, 0)[turn % 3])


def full_size(rng, turn):
    sample = full_size_sample(rng)
    return sample.label, point_on(rng, sample.depot_map)


def many_points_on_a_map(rng, depot_map, count):
    return [point_on(rng, depot_map) for _ in range(count)]


# A line and what its twin, which joins the same nodes, has of its own. The first two are not told apart: D is 1 for both.
TWIN = Line(0, 1, 10_003, 3, 3, EASTWARD, WESTWARD)
SHORTER_TWIN = DISTANCE_STEP - 1
TWINS = ({}, {"length": 2 * DISTANCE_STEP - 1}, {"length": 2 * DISTANCE_STEP}, {"length": SHORTER_TWIN}, {"frc": 2}, {"frc": 4}, {"fow": 2},
         {"steps_out": NORTHWARD}, {"steps_back": NORTHWARD})


def map_of_twins(own, own_last):
    """A map of the two, of which one has fields of its own: the last or the first."""
    builder = MapBuilder()
    builder.row_of_nodes(2)
    builder.lines += [TWIN, replace(TWIN, **own)] if own_last else [replace(TWIN, **own), TWIN]
    return builder.build()


def parallel_lines(rng, turn):
    """Two lines that join the same nodes and are equal in all fields but one, or in all."""
    own = TWINS[turn % len(TWINS)]
    depot_map = map_of_twins(own, rng.random() < 0.5)
    return f"other {' '.join(own) or 'number'}", PointInput(map_to_bytes(depot_map), rng.randrange(2), rng.choice([0, 1, SHORTER_TWIN - 1]), **any_marks(rng))


def line_and_way_around(rng, turn):
    """A line and a way of two lines between the same nodes, as long as the line and with its marks at both ends: a tie, unless the turn between the two is
    banned, D tells them apart, or one of the two lines has a sector of its own there.
    """
    aside = ("tie", "turn banned", "other D", "other sector out", "other sector back")[turn % 5]
    builder = MapBuilder()
    start, middle, end = builder.row_of_nodes(3)
    length = rng.choice([DISTANCE_STEP, 10_003, 1_400_001])
    half = rng.randrange(1, length)
    line = builder.line(start, end, length)
    there = builder.line(start, middle, half, steps_out=NORTHWARD if aside == "other sector out" else EASTWARD)
    onward = builder.line(middle, end, length - half + (DISTANCE_STEP if aside == "other D" else 0),
                          steps_back=NORTHWARD if aside == "other sector back" else WESTWARD)
    if aside == "turn banned":
        builder.ban(there, onward)
    return aside, PointInput(map_to_bytes(builder.build()), line, rng.choice([0, length - 1]), **any_marks(rng))


def to_the_centimetre(rng, turn):
    """A line at an edge of D or of the longest leg, and a way of two lines that is shorter by one, as long, or longer by one: only D may tell them apart."""
    lengths = (*DISTANCE_EDGES, LONGEST_LINE - 1, LONGEST_LINE)
    length, more = lengths[turn % len(lengths)], (-1, 0, 1)[turn // len(lengths) % 3]
    builder = MapBuilder()
    start, middle, end = builder.row_of_nodes(3)
    half = rng.randrange(1, length + more)
    line = builder.line(start, end, length)
    builder.line(start, middle, half)
    builder.line(middle, end, length + more - half)
    return f"{length} and {length + more}", PointInput(map_to_bytes(builder.build()), line, rng.choice([0, 1, length - 1]), **any_marks(rng))


def side_of_an_edge(rng, turn):
    """One of two lines that only their steps can tell apart, where they are of different sectors. They are lines 0 and 1 of the sample."""
    sample = edge_sample(rng, turn)
    return sample.label, PointInput(map_to_bytes(sample.depot_map), rng.randrange(2), rng.choice([0, 1]), **any_marks(rng))


def of_a_line(recipe):
    """What a recipe for stretches makes: a point on the first line of the stretch, with the positive offset."""
    def point(rng, turn):
        label, given = recipe(rng, turn)
        return label, PointInput(given.map_bytes, given.lines[0], given.pos, **any_marks(rng), work_length=given.work_length,
                                 byte_room=min(given.byte_room, LONGEST_POINT_ALONG_LINE))
    return point


def too_far(rng, turn):
    """Nodes that are too far apart for 16 bits, also by numbers whose last 16 bits would do. The byte buffer may be too short as well."""
    difference = (32_768, -32_769, 65_535, -65_535, 65_536, 65_537, -65_537, 131_072, 1_000_000, -8_000_000)[turn % 10]
    builder = MapBuilder()
    builder.node(0, 0)
    builder.node(*((difference, 0) if turn // 10 % 2 else (0, difference)))
    line = builder.line(0, 1, rng.choice([1, 10_003, LONGEST_LINE]))
    return f"difference {difference}", PointInput(map_to_bytes(builder.build()), line, **any_marks(rng), byte_room=LONGEST_POINT_ALONG_LINE * rng.randrange(2))


def damaged_map(refusal):
    def recipe(rng, turn):
        sample = any_sample(rng, turn)
        damage = map_damage(sample.depot_map, refusal, turn)
        # The point is wrong as well every other time; the map's refusal stands above.
        line, orientation = ((LARGEST_NUMBER, 4), (sample.stretch[0], 0))[turn % 2]
        return damage.label, PointInput(damage.apply(sample.depot_map), line, orientation=orientation)
    return recipe


def no_such_line(rng, turn):
    """One more than the last, numbers whose last bits would do, and a node's number. Offset, marks and buffer may be wrong as well: all stand below."""
    label, given = accepted_point(rng, turn)
    count = len(read_map(given.map_bytes).lines)
    if turn % 7 == 6:
        node_map = line_of_a_node(rng)
        label, given = "node, and no line", PointInput(node_map.map_bytes, node_map.lines[-1])
    else:
        given = replace(given, line=(count, count + 1, count + MOST_LINES, given.line + 2 ** 16, given.line + 2 ** 31, LARGEST_NUMBER)[turn % 7])
    return label, replace(given, **(({}, {"offset": LARGEST_NUMBER}, {"orientation": 4}, {"side": 4}, {"byte_room": 0})[turn % 5]))


def offset_too_large(rng, turn):
    """The length, and more. Marks and buffer may be wrong as well: both stand below."""
    label, given = accepted_point(rng, turn)
    length = line_of(given).length
    offset = (length, length + 1, length + 2 ** 16, length + 2 ** 31, LARGEST_NUMBER)[turn % 5]
    return label, replace(given, offset=offset, **(({}, {"orientation": 4}, {"side": LARGEST_NUMBER}, {"byte_room": 0})[turn // 5 % 4]))


def marks_too_large(rng, turn):
    """Orientation or side over 3. Every other time the line cannot be told from its twin, the buffer is too short, or both: both stand below."""
    orientation, side = MARKS_TOO_LARGE[turn % len(MARKS_TOO_LARGE)]
    if turn // 2 % 2:
        _, given = accepted_point(rng, turn)
    else:
        given = PointInput(map_to_bytes(map_of_twins({}, True)), turn % 4)
    return f"{orientation} and {side}", replace(given, orientation=orientation, side=side, byte_room=LONGEST_POINT_ALONG_LINE * (turn % 2))


POINT_WRITE_RECIPES = {
    "point": any_point,
    "orientation and side": each_orientation_and_side,
    "offset at line ends": offset_at_line_end,
    "offset at a half": offset_at_a_half,
    "byte buffer long enough": bytes_exactly_enough,
    "work area long enough": work_area_exactly_enough(accepted_point),
    "full size": full_size,
    "parallel lines": parallel_lines,
    "line and way around": line_and_way_around,
    "differences at the ends of 16 bits": of_a_line(differences_at_ends),
    "sides of an edge": side_of_an_edge,
    "to the centimetre": to_the_centimetre,
    "refusal 1": work_area_too_short(accepted_point, {"map_bytes": b""}, {"line": LARGEST_NUMBER}, {"orientation": 4}, {"byte_room": 0}),
    "refusal 2": damaged_map(2),
    "refusal 3": damaged_map(3),
    "refusal 4": damaged_map(4),
    "refusal 5": damaged_map(5),
    "refusal 6": damaged_map(6),
    "refusal 23": damaged_map(23),
    "refusal 24": damaged_map(24),
    "refusal 7": no_such_line,
    "refusal 9": offset_too_large,
    "refusal 25": marks_too_large,
    "refusal 10": of_a_line(no_usable_choice),
    "refusal 10, too far": too_far,
    "refusal 10, by a ban": of_a_line(no_usable_choice_by_a_ban),
    "refusal 11": bytes_too_few,
}

# Those with many edges on small maps.
POINT_WRITE_EDGES = {name: POINT_WRITE_RECIPES[name] for name in (
    "orientation and side", "offset at a half", "parallel lines", "line and way around", "sides of an edge", "to the centimetre", "refusal 25",
    "refusal 10, too far")}

MERIDIAN_POINT_WRITE_RECIPES = {
    "differences at the ends of 16 bits, across the meridian": of_a_line(differences_at_ends_across),
    "back and forth across the meridian": of_a_line(stretch_back_and_forth),
    "refusal 10, half a circle": of_a_line(half_a_circle),
}

POINT_WRITE_RECIPES_ACROSS = all_across(POINT_WRITE_RECIPES, writing_across)
