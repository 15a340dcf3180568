"""Inputs of writings whose answers depend on the number of tests (paper 02, "Best found so far"; recipes.py says what a recipe is)."""

from dataclasses import replace
from math import cos, pi, sin

from best_found import WORKED_CASES
from depot_map import GREATEST_LATITUDE, GREATEST_LONGITUDE, LONGEST_LINE, Node, map_to_bytes, read_map
from fields import DISTANCE_STEP, LONGEST_LEG
from lengths import ANOTHER_DISTANCE, HALF_LEG
from numbers_of_tests import any_tests, first_decided, leg_count, lines_left
from outcome import Refused, StretchWritten
from recipes import sample_with_free_stretch, until_found
from sample_maps import MapBuilder
from write_recipes import AMPLE_BYTES, WriteInput, write_outcome
from writer import ALL_TESTS, MOST_STRETCH_LINES

# Three of these fit 16 bits, and four do not.
UNIT = 10_000
LEAST_LINES_FOR_AN_EXCESS = 4


def scattered_row(rng, line_count, lead=()):
    """Nodes here and there, joined in a row by lines of equal marks: which legs are good is decided by differences, and now and then by the twin of a line.

    The lead are lengths of lines that come before.
    """
    places = [(0, 0)]
    while len(places) <= line_count + len(lead):
        reach = 3 if rng.random() < 0.85 else 4
        place = tuple(at + rng.randint(-reach, reach) for at in places[-1])
        if place not in places:
            places.append(place)
    builder = MapBuilder()
    shift = rng.choice([0, 0, -1_000_000, 1_000_000])
    nodes = [builder.node(shift + UNIT * east, shift + UNIT * north) for east, north in places]
    lengths = [*lead, *(rng.choice([1, DISTANCE_STEP, 10_003, 400_001]) for _ in range(line_count))]
    lines = tuple(builder.line(start, end, length) for start, end, length in zip(nodes, nodes[1:], lengths))
    for line in lines[len(lead):]:
        if rng.random() < 0.1:
            builder.line(builder.lines[line].start_node, builder.lines[line].end_node, lengths[line] + rng.choice([0, 1, ANOTHER_DISTANCE]))
    return WriteInput(map_to_bytes(builder.build()), lines, pos=sum(lead))


def any_row(rng, lead=()):
    return scattered_row(rng, rng.randrange(LEAST_LINES_FOR_AN_EXCESS, 11), lead)


def ordinary(given):
    """The outcome with tests for all legs, and an ample buffer."""
    return write_outcome(replace(given, tests=ALL_TESTS, byte_room=AMPLE_BYTES))


def found_before_all(rng, made, is_sought):
    """The input with fewer tests than legs, if it is accepted with them and the outcome is one that is sought; it is compared with the ordinary outcome."""
    depot_map, lines = lines_left(made)
    first, all_legs = first_decided(depot_map, lines), leg_count(len(lines))
    if first == all_legs:
        return None
    given = replace(made, tests=rng.randrange(first, all_legs))
    outcome = write_outcome(given)
    return given if isinstance(outcome, StretchWritten) and is_sought(outcome, ordinary(given)) else None


def rows_with(is_sought):
    """Rows of lines, and a number of tests with which the outcome is one that is sought."""
    def recipe(rng, turn):
        given = until_found(lambda: found_before_all(rng, any_row(rng), is_sought))
        return f"{given.tests} tests of {leg_count(len(given.lines))}", given
    return recipe


def point_too_many(outcome, all_tested):
    return len(outcome.reference) > len(all_tested.reference)


def excess_above_the_true_one(outcome, all_tested):
    return outcome.excess > (len(outcome.reference) - len(all_tested.reference)) // 7


def other_points_as_many(outcome, all_tested):
    return len(outcome.reference) == len(all_tested.reference) and outcome.reference != all_tested.reference


def ring_places(count):
    """Places on a circle, each about 32,000 from the next. Neighbours fit 16 bits, and from the second neighbour on, none do, with five places or more."""
    radius = 16_000 / sin(pi / count)
    return [tuple(10 * round(radius * turn(2 * pi * number / count) / 10) for turn in (cos, sin)) for number in range(count)]


def excess_of_several_points(rng, turn):
    """As the pentagon, with a ring of up to 65 nodes: from the start along the ring, over its last node but one to the last node, and back by one.

    Before the last test the way along the ring is found, with a leg for each line but the last two, and one for these. Then two legs do.
    """
    along = (2, 3, 7, MOST_STRETCH_LINES - 2)[turn % 4]
    *places, end, before_end = ring_places(along + 3)
    builder = MapBuilder()
    nodes = [builder.node(*place) for place in (*places, before_end, end)]
    lines = tuple(builder.line(start, end, 10_003) for start, end in zip(nodes, nodes[1:]))
    tests = leg_count(len(lines)) - (1, 0, 1, 2)[turn // 4 % 4]
    pos, neg = rng.choice([(0, 0), (10_002, 0), (0, 10_002), (5_001, 5_002)])
    return f"{tests} tests of {leg_count(len(lines))}", WriteInput(map_to_bytes(builder.build()), lines, pos, neg, tests=tests)


def excess_with_skipped_lines(rng, turn):
    """Lines come before that an offset covers whole. They have no legs to be tested."""
    lead = [rng.choice([1, 10_003, LONGEST_LINE]) for _ in range(1 + turn % 3)]
    given = until_found(lambda: found_before_all(rng, any_row(rng, lead), lambda outcome, _: outcome.excess > 0))
    return f"{len(lead)} lines skipped", given


def moved(rng, depot_map):
    """The map turned, mirrored and shifted, all differences kept."""
    turned, east, north = rng.random() < 0.5, rng.choice([1, -1]), rng.choice([1, -1])
    shift_east, shift_north = rng.choice([0, GREATEST_LONGITUDE - 10 * UNIT]), rng.choice([0, GREATEST_LATITUDE - 10 * UNIT])
    places = [(node.latitude, node.longitude) if turned else (node.longitude, node.latitude) for node in depot_map.nodes]
    return replace(depot_map, nodes=tuple(Node(shift_east + east * x, shift_north + north * y) for x, y in places))


def worked(rng, turn):
    """The worked cases, with every number of tests of theirs that can matter, and with buffers around the lengths of their references."""
    name = list(WORKED_CASES)[turn % len(WORKED_CASES)]
    case = WORKED_CASES[name]
    tests = max(0, len(case.answers) - 1 - turn // len(WORKED_CASES) % 4 + rng.choice([0, 0, 1]))
    byte_room = rng.choice([case.byte_room, case.byte_room, AMPLE_BYTES, 22, 23, 29, 30])
    return f"{name}, {tests} tests", WriteInput(map_to_bytes(moved(rng, case.depot_map)), case.stretch, byte_room=byte_room, tests=tests)


def row_ends(rng, turn):
    """Up to 64 lines that fit one leg, two or one each, and tests up to the end of a row of legs, one fewer or one more."""
    count = (5, 17, 63, MOST_STRETCH_LINES)[turn % 4]
    builder = MapBuilder()
    nodes = builder.row_of_nodes(count + 1)
    length = (1, LONGEST_LEG // (count // 2 + 1), HALF_LEG + 1)[turn // 4 % 3]
    lines = tuple(builder.line(start, end, length) for start, end in zip(nodes, nodes[1:]))
    rows = rng.choice([1, 2, count // 2, count - 1, count])
    tests = sum(range(count, count - rows, -1)) + rng.choice([-1, 0, 0, 1])
    return f"{rows} rows of {count}", WriteInput(map_to_bytes(builder.build()), lines, tests=tests)


def any_stretch(rng, turn):
    """A stretch that comes to have its legs tested."""
    if turn % 3 == 0:
        return "row", any_row(rng)
    sample = sample_with_free_stretch(rng, turn)
    return sample.label, WriteInput(map_to_bytes(sample.depot_map), sample.stretch)


def one_test_too_few(rng, turn):
    """One more, and a reference would be found or ruled out. The buffer may be too short: 26 stands above 11."""
    label, given = any_stretch(rng, turn)
    depot_map, lines = lines_left(given)
    return label, replace(given, tests=first_decided(depot_map, lines) - 1, byte_room=AMPLE_BYTES * (turn // 2 % 2))


def no_tests(rng, turn):
    label, given = any_stretch(rng, turn)
    return label, replace(given, tests=0, byte_room=AMPLE_BYTES * (turn // 2 % 2))


def not_yet_ruled_out(rng, turn):
    """With all tests it is 10, and with these it is not known yet."""
    def attempt():
        given = any_row(rng)
        return given if ordinary(given) == Refused(10) else None
    given = until_found(attempt)
    return "row", replace(given, tests=rng.randrange(first_decided(*lines_left(given))), byte_room=AMPLE_BYTES * (turn % 2))


def untested_leg_too_long(rng, turn):
    """The worked case with up to three good lines before: one test more, and the leg that is too long for a reference is ruled out."""
    lead = turn % 4
    builder = MapBuilder()
    nodes = builder.row_of_nodes(lead + 3)
    lengths = [rng.choice([10_003, 1_000_001]) for _ in range(lead)] + [rng.choice([HALF_LEG + 1, LONGEST_LINE]), HALF_LEG]
    lines = tuple(builder.line(start, end, length) for start, end, length in zip(nodes, nodes[1:], lengths))
    builder.line(nodes[lead], nodes[lead + 1], lengths[lead])
    given = WriteInput(map_to_bytes(builder.build()), lines)
    return f"{lead} lines before", replace(given, tests=first_decided(*lines_left(given)) - 1)


def ruled_out_early(rng, turn):
    """A first line with a twin, so that no leg from the start is good. One row of tests shows it."""
    builder = MapBuilder()
    count = (2, 3, 5, MOST_STRETCH_LINES)[turn % 4]
    nodes = builder.row_of_nodes(count + 1)
    lines = tuple(builder.line(start, end, rng.choice([1, DISTANCE_STEP])) for start, end in zip(nodes, nodes[1:]))
    builder.line(nodes[0], nodes[1], builder.lines[0].length)
    tests = (count, leg_count(count) - 1, rng.randrange(count, leg_count(count)))[turn // 4 % 3]
    return f"{tests} tests of {leg_count(count)}", WriteInput(map_to_bytes(builder.build()), lines, byte_room=AMPLE_BYTES * (turn % 2), tests=tests)


def longer_than_the_ordinary(rng, offsets):
    """A row with tests that leave it longer than it would be, with offsets or without, and the lengths of its two references."""
    def attempt():
        made = any_row(rng)
        lines = read_map(made.map_bytes).lines
        pos, neg = (rng.randrange(lines[line].length) * offsets for line in (made.lines[0], made.lines[-1]))
        return found_before_all(rng, replace(made, pos=pos, neg=neg), point_too_many)
    given = until_found(attempt)
    return given, len(write_outcome(given).reference), len(ordinary(given).reference)


def bytes_too_few_for_these_tests(rng, turn):
    """With all tests the buffer would do."""
    given, found, fewest = longer_than_the_ordinary(rng, turn % 2)
    return f"{given.tests} tests", replace(given, byte_room=rng.choice([fewest, found - 1]))


def bytes_exactly_enough_for_these_tests(rng, turn):
    given, found, _ = longer_than_the_ordinary(rng, turn % 2)
    return f"{given.tests} tests", replace(given, byte_room=found)


def any_number(rng, turn):
    """Rows of lines with any number of tests."""
    given = any_row(rng)
    return "row", replace(given, tests=any_tests(rng, len(given.lines)))


BEST_FOUND_RECIPES = {
    "worked cases": worked,
    "a point too many": rows_with(point_too_many),
    "an excess above the true one": rows_with(excess_above_the_true_one),
    "an excess of several points": excess_of_several_points,
    "other points, as many": rows_with(other_points_as_many),
    "an excess with skipped lines": excess_with_skipped_lines,
    "ends of rows of legs": row_ends,
    "any number of tests": any_number,
    "byte buffer exactly long enough for these tests": bytes_exactly_enough_for_these_tests,
    "refusal 26": one_test_too_few,
    "refusal 26, no tests": no_tests,
    "refusal 26, where all tests give 10": not_yet_ruled_out,
    "refusal 26, an untested leg too long": untested_leg_too_long,
    "refusal 10, before all tests": ruled_out_early,
    "refusal 11, with these tests": bytes_too_few_for_these_tests,
}
