"""Cases with their expected outcomes, from a fixed seed."""

import random
from dataclasses import dataclass, replace
from itertools import combinations

from best_found_recipes import BEST_FOUND_RECIPES
from damages import map_damage
from depot_map import DepotMap, map_to_bytes, read_map
from fields import LONGEST_LEG
from legs import Leg, LegSearch, Readings, describe_leg, list_length
from meridian_recipes import MERIDIAN_READ_RECIPES, MERIDIAN_WRITE_RECIPES, READ_RECIPES_ACROSS, WRITE_RECIPES_ACROSS, all_across
from message_calls import history_outcome, reading_outcome, received_outcome
from message_recipes import EACH_FRONT, LARGE, MESSAGE_RECIPES, START_REFUSED, STARTED_AGAIN, TWO_PORTIONS
from numbers_of_tests import lines_left, telling_tests
from of_message_recipes import AS_BY_ITSELF, OF_MESSAGE_RECIPES
from outcome import outcome_of
from point_read_recipes import (MERIDIAN_POINT_READ_RECIPES, POINT_READ_EDGES, POINT_READ_RECIPES, POINT_READ_RECIPES_ACROSS, POINTS_FOR_STRETCHES_RECIPES,
                                point_read_outcome)
from point_write_recipes import (MERIDIAN_POINT_WRITE_RECIPES, POINT_WRITE_EDGES, POINT_WRITE_RECIPES, POINT_WRITE_RECIPES_ACROSS,
                                 point_write_outcome)
from read_recipes import READ_RECIPES, read_outcome
from received_recipes import LONG, RECEIVED_RECIPES
from recipes import any_sample
from sample_maps import (CENTIMETRE_SAMPLES, FIRST_BEHIND, LAST_BEFORE, MapBuilder, Sample, across_meridian, centimetre_sample, chain_of_blocks,
                         chain_of_ties, edge_sample, full_size_sample, other_first_line_sample, other_way, pairs_of, random_walk, sample_across)
from write_recipes import WRITE_RECIPES, write_outcome


@dataclass(frozen=True)
class MapCase:
    """Expected: the map itself, or a refusal from 2 to 6, 23 or 24."""
    label: str
    map_bytes: bytes
    expected: object


@dataclass(frozen=True)
class LegCase:
    """Expected: none, one with its lines, or several readings."""
    label: str
    depot_map: DepotMap
    map_bytes: bytes
    leg: Leg
    expected: Readings


@dataclass(frozen=True)
class CallCase:
    """A call of a reader or of a writer, a history of calls of messages, a received message, or a reading out of one. Expected: its outcome."""
    label: str
    given: object
    expected: object


def map_outcome(map_bytes):
    return outcome_of(read_map, map_bytes)


def random_source(kind, seed, index):
    """Each case has its own source, so that it does not depend on how many cases are asked for."""
    return random.Random(f"{kind} {seed} {index}")


def good_map(rng, turn):
    sample = full_size_sample(rng, turn // 12) if turn % 12 == 11 else any_sample(rng, turn)
    return sample.label, map_to_bytes(sample.depot_map)


def damaged_map(refusal):
    def recipe(rng, turn):
        sample = full_size_sample(rng, turn // 50 + 2) if turn % 50 == 49 else any_sample(rng, turn)
        damage = map_damage(sample.depot_map, refusal, turn)
        return damage.label, damage.apply(sample.depot_map)
    return recipe


def changed_map(rng, turn):
    """A map with one byte changed, put in or left out; any outcome may follow."""
    sample = any_sample(rng, turn)
    map_bytes = map_to_bytes(sample.depot_map)
    position = rng.randrange(len(map_bytes))
    before, byte, after = map_bytes[:position], map_bytes[position], map_bytes[position + 1:]
    new_bytes = [bytes([byte ^ 1 << rng.randrange(8)]), bytes([rng.randrange(256)]), b"",
                 bytes([byte, rng.randrange(256)])][turn // 10 % 4]
    return sample.label, before + new_bytes + after


MAP_RECIPES = {
    "good map": good_map,
    "changed map": changed_map,
    "refusal 2": damaged_map(2),
    "refusal 3": damaged_map(3),
    "refusal 4": damaged_map(4),
    "refusal 5": damaged_map(5),
    "refusal 6": damaged_map(6),
    "refusal 23": damaged_map(23),
    "refusal 24": damaged_map(24),
}


def good_map_across(rng, turn):
    label, map_bytes = good_map(rng, turn)
    return label, map_to_bytes(across_meridian(read_map(map_bytes)))


def damaged_map_across(refusal):
    def recipe(rng, turn):
        depot_map = across_meridian(any_sample(rng, turn).depot_map)
        damage = map_damage(depot_map, refusal, turn)
        return damage.label, damage.apply(depot_map)
    return recipe


def nodes_at_meridian(rng, turn):
    """Every two of the three longitudes on each side that are nearest to the meridian. Across it no two have the same code."""
    longitudes = [LAST_BEFORE - 2, LAST_BEFORE - 1, LAST_BEFORE, FIRST_BEHIND, FIRST_BEHIND + 1, FIRST_BEHIND + 2]
    pairs = list(combinations(longitudes, 2))
    builder = MapBuilder()
    latitude = rng.choice([0, 9_000_000])
    nodes = [builder.node(longitude, latitude) for longitude in rng.sample(pairs[turn % len(pairs)], 2)]
    builder.line(*nodes, 10_003)
    return f"{pairs[turn % len(pairs)]}", map_to_bytes(builder.build())


MERIDIAN_MAP_RECIPES = {
    "good map, across the meridian": good_map_across,
    "two nodes at the meridian": nodes_at_meridian,
    "refusal 4, across the meridian": damaged_map_across(4),
    "refusal 6, across the meridian": damaged_map_across(6),
}


def stretch_leg(rng, sample):
    """A leg from part of a stretch or from a walk; up to one centimetre over the longest leg, and so perhaps too long."""
    walk = sample.stretch if rng.random() < 0.6 else random_walk(rng, sample.depot_map, rng.randrange(1, 7))
    start = rng.randrange(len(walk))
    lines = walk[start:start + rng.randrange(1, 6)]
    while len(lines) > 1 and list_length(sample.depot_map, lines) > LONGEST_LEG + 1:
        lines = lines[:-1]
    return describe_leg(sample.depot_map, lines, rng.random() < 0.5)


def leg_as_it_is(rng, turn):
    sample = any_sample(rng, turn)
    return sample, stretch_leg(rng, sample)


def leg_with_other_class(rng, turn):
    sample = any_sample(rng, turn)
    leg = stretch_leg(rng, sample)
    classes = [max(0, leg.lowest_frc - 1), min(7, leg.lowest_frc + 1), 7]
    return sample, replace(leg, lowest_frc=rng.choice(classes))


def leg_with_other_distance(rng, turn):
    sample = any_sample(rng, turn)
    leg = stretch_leg(rng, sample)
    distances = [max(0, leg.distance_byte - 1), min(255, leg.distance_byte + 1)]
    return sample, replace(leg, distance_byte=rng.choice(distances))


def leg_with_other_marks(rng, turn):
    sample = any_sample(rng, turn)
    leg = stretch_leg(rng, sample)
    marks = replace(leg.first_marks, **rng.choice([{"sector": rng.randrange(32)}, {"fow": rng.randrange(8)},
                                                   {"frc": rng.randrange(8)}]))
    if leg.last_marks is not None and turn // 10 % 2:
        return sample, replace(leg, last_marks=marks)
    return sample, replace(leg, first_marks=marks)


def leg_to_other_node(rng, turn):
    """Any two nodes, the same one twice too, with the marks of some lines there."""
    sample = any_sample(rng, turn)
    leg = stretch_leg(rng, sample)
    end_node = leg.start_node if turn // 10 % 2 else rng.randrange(len(sample.depot_map.nodes))
    return sample, replace(leg, end_node=end_node, distance_byte=rng.choice([leg.distance_byte, 0, 1, 255]))


def leg_on_full_map(rng, turn):
    sample = full_size_sample(rng, turn)
    return sample, stretch_leg(rng, sample)


def leg_with_other_way_banned(rng, turn):
    """A tie, or two ways of which one is shorter, with a turn of the one or of the other banned, or of both."""
    depot_map, legs = chain_of_ties(1, (0,) if turn % 2 else ())
    own, other = pairs_of(legs[0]), pairs_of(other_way(legs[0]))
    bans = [other[:1], other[1:], own, own + other[:1]][turn // 2 % 4]
    depot_map = replace(depot_map, bans=tuple(bans))
    return Sample("two ways", depot_map, legs[0]), describe_leg(depot_map, legs[0], turn // 8 % 2 == 1)


def leg_around_the_block(rng, turn):
    """A banned turn with no way around, one or two; every fifth time with another first line that goes around."""
    if turn % 5 == 4:
        sample = other_first_line_sample(rng)
        return sample, describe_leg(sample.depot_map, sample.stretch, rng.random() < 0.5)
    depot_map, legs = chain_of_blocks([turn % 5 % 3])
    return Sample("block", depot_map, legs[0]), describe_leg(depot_map, legs[0], rng.random() < 0.5)


def leg_to_the_centimetre(rng, turn):
    """Each sample as a last leg, and as another."""
    sample = centimetre_sample(rng, turn)
    return sample, describe_leg(sample.depot_map, sample.stretch, turn // CENTIMETRE_SAMPLES % 2 == 1)


def leg_at_an_edge(rng, turn):
    sample = edge_sample(rng, turn)
    return sample, describe_leg(sample.depot_map, sample.stretch, True)


LEG_RECIPES = {
    "leg": leg_as_it_is,
    "lowest class changed": leg_with_other_class,
    "D changed": leg_with_other_distance,
    "marks changed": leg_with_other_marks,
    "end changed": leg_to_other_node,
    "full size": leg_on_full_map,
    "turn banned": leg_with_other_way_banned,
    "around the block": leg_around_the_block,
    "sides of an edge": leg_at_an_edge,
    "to the centimetre": leg_to_the_centimetre,
}


def leg_across(recipe):
    """What another recipe makes, on its map shifted to lie across the meridian. The leg stays: it names nodes and not where they are."""
    def recipe_across(rng, turn):
        sample, leg = recipe(rng, turn)
        return sample_across(sample), leg
    return recipe_across


LEG_RECIPES_ACROSS = all_across(LEG_RECIPES, leg_across)


def make_cases(kind, recipes, seed, count, make_case, left_out=None):
    """Recipes in turn, but for the one left out. The turn tells a recipe how often it has been used, so that it can vary its edges."""
    names = list(recipes)
    cases = []
    for index in range(count):
        turn, which = divmod(index, len(names))
        name = names[which]
        if name != left_out:
            cases.append(make_case(name, *recipes[name](random_source(kind, seed, index), turn)))
    return cases


def map_cases_of(kind, recipes):
    def make_cases_of_kind(seed, count):
        def make_case(name, detail, map_bytes):
            return MapCase(f"{name}: {detail}", map_bytes, map_outcome(map_bytes))
        return make_cases(kind, recipes, seed, count, make_case)
    return make_cases_of_kind


def leg_cases_of(kind, recipes):
    def make_cases_of_kind(seed, count, left_out=None):
        def make_case(name, sample, leg):
            readings = LegSearch(sample.depot_map).readings(leg)
            label = f"{name}: {sample.label}"
            return LegCase(label, sample.depot_map, map_to_bytes(sample.depot_map), leg, readings)
        return make_cases(kind, recipes, seed, count, make_case, left_out)
    return make_cases_of_kind


def call_cases(kind, recipes, outcome):
    def make_cases_of_kind(seed, count, left_out=None):
        def make_case(name, detail, given):
            return CallCase(f"{name}: {detail}", given, outcome(given))
        return make_cases(kind, recipes, seed, count, make_case, left_out)
    return make_cases_of_kind


def with_other_tests(kind, seed, made):
    """Those writings whose legs come to be tested, each again with another number of tests. They have a kind for their random source."""
    for index, case in enumerate(made):
        left = lines_left(case.given)
        if left is not None:
            given = replace(case.given, tests=telling_tests(random_source(kind, seed, index), *left))
            yield CallCase(f"other tests, {case.label}", given, write_outcome(given))


map_cases = map_cases_of("map", MAP_RECIPES)
leg_cases = leg_cases_of("leg", LEG_RECIPES)
read_cases = call_cases("read", READ_RECIPES, read_outcome)
write_cases = call_cases("write", WRITE_RECIPES, write_outcome)
# The same, case by case, on maps shifted to lie across the meridian.
leg_cases_across = leg_cases_of("leg", LEG_RECIPES_ACROSS)
read_cases_across = call_cases("read", READ_RECIPES_ACROSS, read_outcome)
write_cases_across = call_cases("write", WRITE_RECIPES_ACROSS, write_outcome)
# The edges of longitudes brought round.
meridian_map_cases = map_cases_of("meridian map", MERIDIAN_MAP_RECIPES)
meridian_read_cases = call_cases("meridian read", MERIDIAN_READ_RECIPES, read_outcome)
meridian_write_cases = call_cases("meridian write", MERIDIAN_WRITE_RECIPES, write_outcome)
# Writings whose answers depend on the number of tests.
best_found_cases = call_cases("best found", BEST_FOUND_RECIPES, write_outcome)
# Points along a line: read, written, more of those with many edges, both at the meridian too, and given to the reader of stretches.
point_read_cases = call_cases("point read", POINT_READ_RECIPES, point_read_outcome)
point_write_cases = call_cases("point write", POINT_WRITE_RECIPES, point_write_outcome)
point_read_edge_cases = call_cases("point read edge", POINT_READ_EDGES, point_read_outcome)
point_write_edge_cases = call_cases("point write edge", POINT_WRITE_EDGES, point_write_outcome)
point_read_cases_across = call_cases("point read", POINT_READ_RECIPES_ACROSS, point_read_outcome)
point_write_cases_across = call_cases("point write", POINT_WRITE_RECIPES_ACROSS, point_write_outcome)
meridian_point_read_cases = call_cases("meridian point read", MERIDIAN_POINT_READ_RECIPES, point_read_outcome)
meridian_point_write_cases = call_cases("meridian point write", MERIDIAN_POINT_WRITE_RECIPES, point_write_outcome)
points_for_stretches_cases = call_cases("points for stretches", POINTS_FOR_STRETCHES_RECIPES, read_outcome)
# Messages: written, more of those with many edges and of those that take much room, received, and readings out of a message.
message_cases = call_cases("message", MESSAGE_RECIPES, history_outcome)
two_portions_cases = call_cases("two portions", {TWO_PORTIONS: MESSAGE_RECIPES[TWO_PORTIONS]}, history_outcome)
large_message_cases = call_cases("large message", {LARGE: MESSAGE_RECIPES[LARGE]}, history_outcome)
start_cases = call_cases("start", {name: MESSAGE_RECIPES[name] for name in (EACH_FRONT, STARTED_AGAIN, START_REFUSED)}, history_outcome)
received_cases = call_cases("received", RECEIVED_RECIPES, received_outcome)
long_received_cases = call_cases("long received", {LONG: RECEIVED_RECIPES[LONG]}, received_outcome)
of_message_cases = call_cases("of message", OF_MESSAGE_RECIPES, reading_outcome)
as_by_itself_cases = call_cases("as by itself", {AS_BY_ITSELF: OF_MESSAGE_RECIPES[AS_BY_ITSELF]}, reading_outcome)
