"""Inputs on maps across the 180th meridian (paper 02, "Depots on the 180th meridian"; recipes.py says what a recipe is).

What the other recipes make is shifted there; and recipes of its own have the edges of longitudes brought round.
"""

from dataclasses import replace

from damages import replaced
from depot_map import GREATEST_LATITUDE, LONGEST_LINE, map_to_bytes, read_map
from drawn_steps import EASTWARD, WESTWARD
from fields import brought_round, code_pair, coordinate_code
from numbers_of_tests import all_with_all_tests
from outcome import RefusedCall
from read_recipes import AMPLE_LINES, READ_RECIPES, ReadInput, bytes_of_legs
from reference import p_byte_positions
from sample_maps import FIRST_BEHIND, LAST_BEFORE, NODE_STEP, MapBuilder, across_meridian
from write_recipes import AMPLE_BYTES, WRITE_RECIPES, WriteInput

# The end of the name of a recipe whose maps are shifted.
ACROSS = ", across the meridian"
# Nodes 2 apart are as near to each other as two on both sides of the meridian can be.
DIFFERENCES_ACROSS = (2, 3, 1_000, 32_766, 32_767, -2, -3, -1_000, -32_767, -32_768)
# How far off a node is that is only there for a line to go to.
ASIDE = 5_000
ROAD_LENGTH = 10_003


def map_across(map_bytes):
    """A map and the same shifted to lie across the meridian, or None if it is refused."""
    try:
        depot_map = read_map(map_bytes)
    except RefusedCall:
        return None
    return depot_map, across_meridian(depot_map)


def signed(number, width):
    return number.to_bytes(width, "big", signed=True)


def reference_across(depot_map, shifted_map, reference):
    """The reference on the shifted map: the first point has the longitude code of its node there, and the differences stay.

    A first point with no node gets code 0. That is on the other side of the earth, and no node's either.
    """
    if len(reference) < 7:
        return reference
    for node, shifted_node in zip(depot_map.nodes, shifted_map.nodes):
        if b"".join(signed(code, 3) for code in code_pair(node)) == reference[1:7]:
            return replaced(reference, 1, signed(coordinate_code(shifted_node.longitude), 3))
    return replaced(reference, 1, signed(0, 3))


def reading_across(recipe):
    """What another recipe makes, on its map shifted to lie across the meridian. A map that is refused stays as it is."""
    def recipe_across(rng, turn):
        label, given = recipe(rng, turn)
        maps = map_across(given.map_bytes)
        if maps is None:
            return label, given
        return label, replace(given, map_bytes=map_to_bytes(maps[1]), reference=reference_across(*maps, given.reference))
    return recipe_across


def writing_across(recipe):
    """The same for the writer. The stretch stays."""
    def recipe_across(rng, turn):
        label, given = recipe(rng, turn)
        maps = map_across(given.map_bytes)
        return label, given if maps is None else replace(given, map_bytes=map_to_bytes(maps[1]))
    return recipe_across


def all_across(recipes, across):
    return {name + ACROSS: across(recipe) for name, recipe in recipes.items()}


def two_longitudes(rng, difference, place):
    """Longitudes on both sides of the meridian, of which the second is the first plus the difference, brought round.

    At place 0 one is the last before it, at place 1 one is the first behind it, and at place 2 both are anywhere.
    """
    room = abs(difference) - 2
    before = LAST_BEFORE - (0, room, rng.randrange(room + 1))[place]
    behind = brought_round(before + abs(difference))
    return (before, behind) if difference > 0 else (behind, before)


def lines_there_and_back(builder, start, end, length=ROAD_LENGTH):
    """A line from a node to another and one back, with different marks."""
    there = builder.line(start, end, length)
    return there, builder.line(end, start, length, steps_out=WESTWARD, steps_back=EASTWARD)


def map_of_two_nodes(rng, difference, place):
    """Two nodes on both sides of the meridian. Line 0 runs over it by the difference, and line 1 back."""
    builder = MapBuilder()
    latitude = rng.choice([0, -1_650_000, GREATEST_LATITUDE])
    nodes = [builder.node(longitude, latitude) for longitude in two_longitudes(rng, difference, place)]
    lines_there_and_back(builder, *nodes)
    return builder.build()


def difference_position(reference, point):
    """Where a later point's longitude difference stands. Its latitude difference is two bytes on."""
    return p_byte_positions(len(reference))[point] - 4


def added_to_difference(reference, position, step):
    difference = int.from_bytes(reference[position:position + 2], "big", signed=True)
    return replaced(reference, position, signed(difference + step, 2))


def point_across(rng, turn):
    """Legs over the meridian, east and west, by the least and the greatest differences that there are."""
    difference = DIFFERENCES_ACROSS[turn % len(DIFFERENCES_ACROSS)]
    depot_map = map_of_two_nodes(rng, difference, turn // len(DIFFERENCES_ACROSS) % 3)
    # The way back from -32,768 does not fit.
    legs = [(0,)] if difference == -32_768 else rng.choice([[(0,)], [(0,), (1,)], [(0,), (1,), (0,)]])
    return f"difference {difference}", ReadInput(map_to_bytes(depot_map), bytes_of_legs(depot_map, legs, pos=rng.choice([0, 1, ROAD_LENGTH - 1])))


def node_unless_taken(builder, longitude, latitude):
    """A node, unless there is one with the same codes."""
    codes = coordinate_code(longitude), coordinate_code(latitude)
    if codes not in map(code_pair, builder.nodes):
        builder.node(longitude, latitude)


def sum_that_no_node_has(rng, turn):
    """A sum of 17,999,999, reached from the one side and from the other. The two longitudes next to it have nodes."""
    difference = (1, 2, 1_000, 32_767, -1, -2, -1_000, -32_768)[turn % 8]
    builder = MapBuilder()
    start = builder.node(brought_round(17_999_999 - difference), 0)
    lines_there_and_back(builder, start, builder.node(builder.nodes[start].longitude, ASIDE))
    node_unless_taken(builder, LAST_BEFORE, 0)
    node_unless_taken(builder, FIRST_BEHIND, 0)
    return f"difference {difference}", with_last_point(rng, builder, (difference, 0))


def with_last_point(rng, builder, differences):
    """A reading whose last point is that far from node 0, perhaps with a leg from node 1 to node 0 before. The line buffer may be too short."""
    depot_map = builder.build()
    reference = bytes_of_legs(depot_map, rng.choice([[(0,)], [(1,), (0,)]]))
    written = b"".join(signed(difference, 2) for difference in differences)
    reference = replaced(reference, difference_position(reference, -1), written)
    return ReadInput(map_to_bytes(depot_map), reference, line_room=rng.choice([0, AMPLE_LINES]))


def no_node_across(rng, turn):
    """A sum across the meridian, next to a node: one too far east, west, north or south."""
    difference = DIFFERENCES_ACROSS[turn % len(DIFFERENCES_ACROSS)]
    depot_map = map_of_two_nodes(rng, difference, turn // len(DIFFERENCES_ACROSS) % 3)
    reference = bytes_of_legs(depot_map, [(0,)])
    step, is_latitude = rng.choice([1, -1]), rng.random() < 0.5 or abs(difference) >= 32_767
    reference = added_to_difference(reference, difference_position(reference, 1) + 2 * is_latitude, step)
    return f"difference {difference}", ReadInput(map_to_bytes(depot_map), reference)


def over_a_pole(rng, turn):
    """A latitude beyond a pole. Nodes stand where a way over the pole would come down, where the sum would come back, and at the other pole."""
    north = 1 if turn % 2 == 0 else -1
    below, beyond = (0, 5, 1_000, 30_000)[turn // 2 % 4], (1, 3, 500, 2_767)[turn // 8 % 4]
    builder = MapBuilder()
    longitude = rng.choice([0, LAST_BEFORE, FIRST_BEHIND, 1_000_000])
    other_side = brought_round(longitude + 18_000_000)
    start = builder.node(longitude, north * (GREATEST_LATITUDE - below))
    end = builder.node(longitude, north * (GREATEST_LATITUDE - below - ASIDE))
    lines_there_and_back(builder, start, end)
    node_unless_taken(builder, other_side, north * (GREATEST_LATITUDE - beyond))
    node_unless_taken(builder, longitude, north * (GREATEST_LATITUDE - beyond))
    node_unless_taken(builder, longitude, -north * (GREATEST_LATITUDE - beyond))
    node_unless_taken(builder, longitude, north * GREATEST_LATITUDE)
    return f"{beyond} beyond", with_last_point(rng, builder, (0, north * (below + beyond)))


def row_back_and_forth(rng, builder, count):
    """Nodes in a row to the north, every other one on the other side of the meridian."""
    first = rng.randrange(2)
    nodes = []
    for number in range(count):
        off = rng.choice([0, 1, 16_000])
        nodes.append(builder.node((LAST_BEFORE - off, FIRST_BEHIND + off)[(first + number) % 2], NODE_STEP * number))
    return nodes


def legs_back_and_forth(rng, turn):
    """Up to 64 legs, each of which crosses the meridian."""
    leg_count = (1, 2, 5, 64)[turn % 4]
    builder = MapBuilder()
    nodes = row_back_and_forth(rng, builder, leg_count + 1)
    legs = [(builder.line(start, end, rng.choice([1, ROAD_LENGTH])),) for start, end in zip(nodes, nodes[1:])]
    depot_map = builder.build()
    return f"{leg_count} legs", ReadInput(map_to_bytes(depot_map), bytes_of_legs(depot_map, legs), line_room=leg_count)


def code_of_the_other_side(rng, turn):
    """A first point next to a node, on the other side of the meridian: only differences and sums are brought round."""
    side, code = ((LAST_BEFORE, -8_388_608), (FIRST_BEHIND, 8_388_607))[turn % 2]
    builder = MapBuilder()
    start = builder.node(side, 0)
    lines_there_and_back(builder, start, builder.node(side, ASIDE))
    depot_map = builder.build()
    reference = replaced(bytes_of_legs(depot_map, [(0,)]), 1, signed(code, 3))
    return f"code {code}", ReadInput(map_to_bytes(depot_map), reference, line_room=turn // 2 % 2)


MERIDIAN_READ_RECIPES = {
    "point across the meridian": point_across,
    "back and forth across the meridian": legs_back_and_forth,
    "refusal 16, a sum of 17,999,999": sum_that_no_node_has,
    "refusal 16, next to a node across the meridian": no_node_across,
    "refusal 16, over a pole": over_a_pole,
    "refusal 16, code of the other side": code_of_the_other_side,
}


def differences_at_ends_across(rng, turn):
    """One or two lines over the meridian whose ends differ by a number at an end of 16 bits, one past, or the least there is. Two may be cut."""
    difference = (-32_769, -32_768, -32_767, 32_766, 32_767, 32_768, 2, -2)[turn % 8]
    builder = MapBuilder()
    longitudes = two_longitudes(rng, difference, turn // 16 % 3)
    nodes = [builder.node(longitude, 0) for longitude in longitudes]
    if turn // 8 % 2:
        half_way = brought_round(longitudes[0] + difference // 2)
        nodes.insert(1, builder.node(min(half_way, LAST_BEFORE), ASIDE))
    lines = tuple(builder.line(start, end, rng.choice([1, ROAD_LENGTH])) for start, end in zip(nodes, nodes[1:]))
    return f"difference {difference}", WriteInput(map_to_bytes(builder.build()), lines)


def stretch_back_and_forth(rng, turn):
    """Up to 64 lines, each of which crosses the meridian. The long ones need a leg each."""
    count = (1, 2, 5, 64)[turn % 4]
    builder = MapBuilder()
    nodes = row_back_and_forth(rng, builder, count + 1)
    lengths = [[1], [ROAD_LENGTH], [LONGEST_LINE - 1, LONGEST_LINE]][turn // 4 % 3]
    lines = tuple(builder.line(start, end, rng.choice(lengths)) for start, end in zip(nodes, nodes[1:]))
    pos, neg = rng.choice([(0, 0), (lengths[0] - 1, 0), (0, lengths[0] - 1)])
    return f"{count} lines", WriteInput(map_to_bytes(builder.build()), lines, pos, neg)


def far_line_skipped(rng, turn):
    """A line over the meridian that is too far for 16 bits, and that an offset covers whole. What remains is on one side, or crosses it too."""
    far = (33_200, 40_000, 65_536, 1_000_000)[turn % 4] * (1, -1)[turn // 4 % 2]
    outer, middle = two_longitudes(rng, far, 1 if far > 0 else 0)
    longitudes, lengths = [outer, middle, brought_round(middle + (-400, 400)[turn // 8 % 2])], [ROAD_LENGTH, 3_001]
    pos, neg = ROAD_LENGTH, rng.choice([0, 1, 3_000])
    if rng.random() < 0.5:
        longitudes, lengths, pos, neg = longitudes[::-1], lengths[::-1], neg, pos
    builder = MapBuilder()
    nodes = [builder.node(longitude, 0) for longitude in longitudes]
    lines = tuple(builder.line(start, end, length) for start, end, length in zip(nodes, nodes[1:], lengths))
    return f"{far} apart", WriteInput(map_to_bytes(builder.build()), lines, pos, neg)


def half_a_circle(rng, turn):
    """Nodes too far apart: half around the earth or next to it, from pole to pole, or by a number whose last 16 bits would do."""
    plain = (17_999_998, 17_999_999, 18_000_000, 18_000_001, 36_000_000 - 65_535, 36_000_000 - 65_536, 36_000_000 - 65_537, 0)[turn % 8]
    west = rng.choice([FIRST_BEHIND, LAST_BEFORE - plain, rng.randrange(FIRST_BEHIND, LAST_BEFORE - plain + 1)])
    builder = MapBuilder()
    latitudes = (0, 0) if plain else (GREATEST_LATITUDE, -GREATEST_LATITUDE)
    nodes = [builder.node(longitude, latitude) for longitude, latitude in zip((west, west + plain), latitudes)]
    line = lines_there_and_back(builder, *nodes)[turn // 8 % 2]
    return f"{plain} apart", WriteInput(map_to_bytes(builder.build()), (line,), byte_room=AMPLE_BYTES * (turn // 16 % 2))


MERIDIAN_WRITE_RECIPES = all_with_all_tests({
    "differences at the ends of 16 bits, across the meridian": differences_at_ends_across,
    "back and forth across the meridian": stretch_back_and_forth,
    "far line skipped, across the meridian": far_line_skipped,
    "refusal 10, half a circle": half_a_circle,
})

READ_RECIPES_ACROSS = all_across(READ_RECIPES, reading_across)
WRITE_RECIPES_ACROSS = all_across(WRITE_RECIPES, writing_across)
