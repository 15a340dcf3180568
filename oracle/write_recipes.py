"""Inputs for write cases (recipes.py says what a recipe is)."""

from dataclasses import dataclass, replace
from functools import lru_cache

from damages import map_damage
from depot_map import LARGEST_NUMBER, LONGEST_LINE, joins, map_to_bytes, read_map
from fields import DISTANCE_STEP, LONGEST_LEG
from legs import list_length
from lengths import HALF_LEG, next_to
from numbers_of_tests import all_with_all_tests
from outcome import StretchWritten
from reader import LEAST_WORK_LENGTH
from recipes import any_sample, sample_with_free_stretch, until_found, work_area_exactly_enough, work_area_too_short
from sample_maps import (NODE_STEP, SMALL_SAMPLES, MapBuilder, centimetre_sample, chain_of_blocks, edge_sample, far_sample, full_size_sample, longest_lines,
                         other_first_line_sample, pairs_of, random_walk, ring_sample, row_of_64)
from writer import ALL_TESTS, MOST_STRETCH_LINES, write

AMPLE_BYTES = 459
RING_TURN = SMALL_SAMPLES.index(ring_sample)


@dataclass(frozen=True)
class WriteInput:
    map_bytes: bytes
    lines: tuple
    pos: int = 0
    neg: int = 0
    work_length: int = LEAST_WORK_LENGTH
    byte_room: int = AMPLE_BYTES
    tests: int = ALL_TESTS


@lru_cache(maxsize=16)
def write_outcome(given):
    """Recipes ask again for what they were told before, so that the last outcomes are kept."""
    return write(given.map_bytes, given.lines, given.pos, given.neg, given.work_length, given.byte_room, given.tests)


def edge_offsets(rng, depot_map, stretch):
    """Two offsets at or next to the ends of lines, of the total or of 32 bits; their sum may be too large."""
    total = list_length(depot_map, stretch)
    skipped_first = rng.randrange(min(4, len(stretch)))
    skipped_last = rng.randrange(min(4, len(stretch) - skipped_first))
    before = list_length(depot_map, stretch[:skipped_first])
    after = list_length(depot_map, stretch[len(stretch) - skipped_last:])
    pos = max(0, before + rng.choice([-1, 0, 1]))
    neg = max(0, after + rng.choice([-1, 0, 1]))
    if rng.random() < 0.7:
        return pos, neg
    rest = max(0, total - pos)
    return rng.choice([(pos, max(0, rest - 1)), (pos, rest), (0, total - 1), (total - 1, 0), (total, 0),
                       (LARGEST_NUMBER, 0), (LARGEST_NUMBER, 1), (1, LARGEST_NUMBER)])


def accepted_input(rng, turn):
    """A sample's name and an input that the writer accepts, with offsets where they are accepted too."""
    def attempt():
        sample = sample_with_free_stretch(rng, turn)
        map_bytes = map_to_bytes(sample.depot_map)
        for pos, neg in (edge_offsets(rng, sample.depot_map, sample.stretch), (0, 0)):
            given = WriteInput(map_bytes, sample.stretch, pos, neg)
            if isinstance(write_outcome(given), StretchWritten):
                return sample.label, given
        return None
    return until_found(attempt)


def plain_stretch(rng, turn):
    sample = any_sample(rng, turn)
    return sample.label, WriteInput(map_to_bytes(sample.depot_map), sample.stretch)


def offsets_at_edges(rng, turn):
    sample = any_sample(rng, turn)
    pos, neg = edge_offsets(rng, sample.depot_map, sample.stretch)
    return sample.label, WriteInput(map_to_bytes(sample.depot_map), sample.stretch, pos, neg)


def skipped_lines(rng, turn):
    """Offsets that cover the first or the last lines whole, and leave exactly one line where possible."""
    sample = any_sample(rng, RING_TURN if turn % 2 else turn)
    kept = rng.randrange(len(sample.stretch))
    before, after = sample.stretch[:kept], sample.stretch[kept + 1:]
    room = sample.depot_map.lines[sample.stretch[kept]].length - 1
    pos = list_length(sample.depot_map, before) + rng.choice([0, room // 2])
    neg = list_length(sample.depot_map, after) + rng.choice([0, room - room // 2])
    return sample.label, WriteInput(map_to_bytes(sample.depot_map), sample.stretch, pos, neg)


def next_to_a_half(rng, turn):
    """A leg length and an offset on it half-way between two 256ths, or one centimetre before or behind.

    Half-way is an odd number of 512ths of the leg, and so there is such an offset on multiples of 512 only. Before the first, one 512th, comes byte 0. From the
    last on, 511 512ths, 256 is the nearest.
    """
    part = (1, 2, 3, 1_467, LONGEST_LEG // 512)[turn % 5]
    odd = (1, 511, 2 * rng.randrange(256) + 1)[turn % 3]
    offset = odd * part + (0, -1, 1)[turn // 15 % 3]
    return 512 * part, min(max(1, offset), 512 * part - 1)


def offsets_at_a_half(rng, turn):
    """Both offsets next to a half, each on a leg of its own. The end of the last leg is too far from the start for one leg."""
    (first_length, pos), (last_length, neg) = next_to_a_half(rng, turn), next_to_a_half(rng, turn + 7)
    builder = MapBuilder()
    nodes = [builder.node(20_000 * number, 0) for number in range(3)]
    lines = tuple(builder.line(start, end, length) for start, end, length in zip(nodes, nodes[1:], (first_length, last_length)))
    return f"{pos} of {first_length}, {neg} of {last_length}", WriteInput(map_to_bytes(builder.build()), lines, pos, neg)


def longest_reference(rng, turn):
    """64 lines that need a leg each: 457 bytes, and 459 with both offsets. Every other time all lines are as long as can be."""
    sample = row_of_64(rng, "64 long lines", [HALF_LEG + 1, LONGEST_LINE - 1, LONGEST_LINE]) if turn % 2 else longest_lines(rng)
    pos, neg = [(1, 1), (HALF_LEG, HALF_LEG), (HALF_LEG + 1, 1), (0, 1), (0, 0)][turn % 5]
    byte_room = (AMPLE_BYTES, AMPLE_BYTES - 1, AMPLE_BYTES + 21)[turn // 5 % 3]
    return f"room for {byte_room} bytes", WriteInput(map_to_bytes(sample.depot_map), sample.stretch, pos, neg, byte_room=byte_room)


def full_size(rng, turn):
    sample = full_size_sample(rng)
    pos, neg = edge_offsets(rng, sample.depot_map, sample.stretch) if turn % 2 else (0, 0)
    return sample.label, WriteInput(map_to_bytes(sample.depot_map), sample.stretch, pos, neg)


def many_on_a_map(rng, depot_map, count):
    """Inputs on one map: walks of 1 to 64 lines, every other one with offsets, every fifth without heed of bans."""
    map_bytes = map_to_bytes(depot_map)
    for number in range(count):
        lines = random_walk(rng, depot_map, rng.choice([1, 2, 4, 8, 16, MOST_STRETCH_LINES]), number % 5 > 0)
        pos, neg = edge_offsets(rng, depot_map, lines) if number % 2 else (0, 0)
        yield WriteInput(map_bytes, lines, pos, neg)


def bytes_exactly_enough(rng, turn):
    label, given = accepted_input(rng, turn)
    return label, replace(given, byte_room=len(write_outcome(given).reference))


def bytes_too_few(rng, turn):
    label, given = accepted_input(rng, turn)
    room = len(write_outcome(given).reference) - 1
    return label, replace(given, byte_room=rng.choice([room, room, 15, 0]))


def damaged_map(refusal):
    def recipe(rng, turn):
        sample = any_sample(rng, turn)
        damage = map_damage(sample.depot_map, refusal, turn)
        # The stretch is wrong as well every other time; the map's refusal stands above.
        lines = sample.stretch if turn % 2 else ()
        return damage.label, WriteInput(damage.apply(sample.depot_map), lines)
    return recipe


def no_such_lines(rng, turn):
    sample = ring_sample(rng)
    around = (sample.stretch * (MOST_STRETCH_LINES + 1))[:MOST_STRETCH_LINES + 1]
    unknown = len(sample.depot_map.lines)
    start = sample.stretch[:MOST_STRETCH_LINES - 1]
    details = [
        ("no lines", ()), ("65 lines", around), ("65 lines that do not join", (0,) * 65),
        ("first line unknown", (unknown,) + start), ("last line unknown", start + (unknown,)),
        ("only line unknown", (LARGEST_NUMBER,)), ("unknown line after a gap", (0, 0, unknown)),
        ("65 lines, and an offset that leaves fewer", around), ("line unknown, but not the node of its number", ())]
    which = turn % len(details)
    detail, lines = details[which]
    if which == 7:
        # The stretch is refused as it is given.
        skipped = list_length(sample.depot_map, around[:rng.choice([1, 2, MOST_STRETCH_LINES])])
        pos, neg = ((skipped, 0), (0, skipped))[rng.randrange(2)]
        return detail, WriteInput(map_to_bytes(sample.depot_map), lines, pos, neg)
    if which == 8:
        return detail, line_of_a_node(rng)
    # Offsets that are too large do not count yet.
    return detail, WriteInput(map_to_bytes(sample.depot_map), lines, pos=LARGEST_NUMBER * (turn % 2))


def line_of_a_node(rng):
    """A line number that no line has and a node has: there are more nodes than lines."""
    builder = MapBuilder()
    nodes = builder.row_of_nodes(rng.randrange(3, 7))
    known = tuple(builder.line(start, end, 10_003) for start, end in zip(nodes, nodes[1:-1]))
    unknown = rng.randrange(len(known), len(nodes))
    return WriteInput(map_to_bytes(builder.build()), rng.choice([(unknown,), known + (unknown,)]))


def broken_joint(rng, turn):
    """A line taken twice in a row never joins, since its two ends differ."""
    sample = any_sample(rng, turn)
    stretch = sample.stretch[:MOST_STRETCH_LINES - 1]
    place, lines = (("first", stretch[:1] + stretch), ("last", stretch + stretch[-1:]))[turn % 2]
    pos = LARGEST_NUMBER * (turn // 2 % 2)
    return f"{place} joint", WriteInput(map_to_bytes(sample.depot_map), lines, pos)


def banned_pair(rng, turn):
    """A ban on the first, the last or another pair of the stretch, or on all. Offsets may be too large and the buffer too short: both stand below."""
    sample = until_found(lambda: with_two_lines(rng, rng.randrange(1_000)))
    pairs = pairs_of(sample.stretch)
    bans = [pairs[:1], pairs[-1:], [rng.choice(pairs)], pairs][turn % 4]
    depot_map = replace(sample.depot_map, bans=tuple(bans))
    pos, neg = [(0, 0), (LARGEST_NUMBER, 0), (0, LARGEST_NUMBER), edge_offsets(rng, depot_map, sample.stretch)][turn // 4 % 4]
    return sample.label, WriteInput(map_to_bytes(depot_map), sample.stretch, pos, neg, byte_room=AMPLE_BYTES * (turn // 2 % 2))


def with_two_lines(rng, turn):
    sample = any_sample(rng, turn)
    return sample if len(sample.stretch) > 1 else None


def banned_pair_skipped(rng, turn):
    """An offset covers the banned pair whole, at the start or at the end, or its outer line alone."""
    builder = MapBuilder()
    count = (3, 4, 64)[turn % 3]
    nodes = builder.row_of_nodes(count + 1)
    lengths = [rng.choice([1, 2, 10_003]) for _ in range(count)]
    lines = tuple(builder.line(start, end, length) for start, end, length in zip(nodes, nodes[1:], lengths))
    skipped = 1 + turn // 6 % 2
    if turn // 3 % 2:
        builder.ban(*lines[:2])
        pos, neg = sum(lengths[:skipped]), 0
    else:
        builder.ban(*lines[-2:])
        pos, neg = 0, sum(lengths[-skipped:])
    return f"{skipped} lines of the pair skipped", WriteInput(map_to_bytes(builder.build()), lines, pos, neg)


def broken_joint_and_banned_pair(rng, turn):
    """A ban on every pair of the stretch that joins, and one that does not."""
    label, given = broken_joint(rng, turn)
    depot_map = read_map(given.map_bytes)
    bans = tuple(pair for pair in pairs_of(given.lines) if joins(depot_map.lines, *pair))
    return label, replace(given, map_bytes=map_to_bytes(replace(depot_map, bans=bans)))


def tie_that_a_ban_decides(rng, turn):
    """Hops with ties, on each of which the other way is banned, but for one now and then: two points will do, or one point more is needed."""
    builder = MapBuilder()
    hops = hops_with_two_ways(rng, builder, (1, 2, 5, 32)[turn % 4], [2, DISTANCE_STEP, 10_001])
    own, other = zip(*(rng.sample(ways, 2) for ways in hops))
    left = turn // 4 % 2
    builder.bans += rng.sample(other, len(hops) - left)
    lines = tuple(line for way in own for line in way)
    return f"{left} ties left of {len(hops)}", WriteInput(map_to_bytes(builder.build()), lines)


def around_the_block(rng, turn):
    """A stretch that passes nodes twice, since turns are banned."""
    blocks = (1, 2, 5, 16)[turn % 4]
    depot_map, legs = chain_of_blocks([1] * blocks)
    lines = tuple(line for leg in legs for line in leg)
    return f"{blocks} blocks", WriteInput(map_to_bytes(depot_map), lines, pos=rng.choice([0, 1, depot_map.lines[0].length - 1]))


def no_usable_choice_by_a_ban(rng, turn):
    sample = other_first_line_sample(rng)
    return sample.label, WriteInput(map_to_bytes(sample.depot_map), sample.stretch, byte_room=turn % 459)


def sides_of_an_edge(rng, turn):
    """Two lines that only their steps can tell apart, where they are of different sectors; else no choice of points is usable."""
    sample = edge_sample(rng, turn)
    return sample.label, WriteInput(map_to_bytes(sample.depot_map), sample.stretch, pos=rng.choice([0, 1]))


def offsets_too_large(rng, turn):
    sample = longest_lines(rng) if turn % 12 == 11 else sample_with_free_stretch(rng, turn)
    total = list_length(sample.depot_map, sample.stretch)
    part = rng.randrange(total + 1)
    pairs = [(total, 0), (0, total), (part, total - part), (part, total - part + 1), (LARGEST_NUMBER, 0),
             (0, LARGEST_NUMBER), (LARGEST_NUMBER, 1), (LARGEST_NUMBER, LARGEST_NUMBER), (2 ** 31, 2 ** 31)]
    pos, neg = pairs[rng.randrange(len(pairs))]
    given = WriteInput(map_to_bytes(sample.depot_map), sample.stretch, pos, neg, byte_room=turn % 2)
    return sample.label, given


def offsets_just_below(rng, turn):
    sample = longest_lines(rng) if turn % 12 == 11 else any_sample(rng, turn)
    pos = rng.randrange(list_length(sample.depot_map, sample.stretch))
    neg = list_length(sample.depot_map, sample.stretch) - 1 - pos
    return sample.label, WriteInput(map_to_bytes(sample.depot_map), sample.stretch, pos, neg)


def no_usable_choice(rng, turn):
    """Two equal lines side by side, or a line between nodes too far apart."""
    if turn % 2:
        sample = far_sample(rng)
        # Lines 4 and 11 run from the hub to 32,768 and from -32,769 back to the hub.
        lines = (4,) if turn % 4 == 1 else (11,)
        return sample.label, WriteInput(map_to_bytes(sample.depot_map), lines, byte_room=0)
    builder = MapBuilder()
    nodes = builder.row_of_nodes(3)
    length = rng.choice([1, DISTANCE_STEP, HALF_LEG - 1])
    for _ in range(2):
        builder.line(nodes[0], nodes[1], length)
    builder.line(nodes[1], nodes[2], length)
    lines = rng.choice([(0,), (1,), (0, 2), (1, 2)])
    return "equal lines side by side", WriteInput(map_to_bytes(builder.build()), lines, byte_room=turn % 459)


def hops_with_two_ways(rng, builder, hop_count, totals):
    """For each hop the lines of two ways of equal marks and lengths, over a node each: only a point there tells them apart."""
    row = builder.row_of_nodes(hop_count + 1)
    hops = []
    for start, end in zip(row, row[1:]):
        total = rng.choice(totals)
        ways = []
        for side in range(2):
            first_length = rng.randrange(1, total)
            middle = builder.node(NODE_STEP * start + NODE_STEP // 2, 1_000 * (side + 1))
            ways.append((builder.line(start, middle, first_length), builder.line(middle, end, total - first_length)))
        hops.append(ways)
    return hops


def point_in_mid_leg(rng, turn):
    builder = MapBuilder()
    hops = hops_with_two_ways(rng, builder, 1 + turn % 4, [2, DISTANCE_STEP, 10_001, LONGEST_LEG - 1, LONGEST_LEG])
    stretch = tuple(line for ways in hops for line in rng.choice(ways))
    return f"{len(hops)} hops", WriteInput(map_to_bytes(builder.build()), stretch)


def legs_at_longest(rng, turn):
    """Lines in a row, the first two to five of which make the longest leg, one less or one more; past the longest a point is needed."""
    total = next_to(LONGEST_LEG)[turn % 3]
    cuts = sorted(rng.sample(range(1, total), 1 + turn // 3 % 4))
    lengths = [end - start for start, end in zip([0, *cuts], [*cuts, total])]
    lengths += [[], [1], [total - 1], [1, LONGEST_LEG - 1, 1]][turn // 12 % 4]
    builder = MapBuilder()
    nodes = builder.row_of_nodes(len(lengths) + 1)
    lines = tuple(builder.line(start, end, length) for start, end, length in zip(nodes, nodes[1:], lengths))
    pos, neg = [(0, 0), (lengths[0] - 1, 0), (0, lengths[-1] - 1)][rng.randrange(3)]
    return f"legs of {total}", WriteInput(map_to_bytes(builder.build()), lines, pos, neg)


def differences_at_ends(rng, turn):
    """One or two lines whose ends differ by a number at an end of 16 bits, or one past. Two may be cut."""
    difference = (-32_769, -32_768, -32_767, 32_766, 32_767, 32_768)[turn % 6]
    builder = MapBuilder()
    places = [0, difference] if turn // 6 % 2 else [0, difference // 2, difference]
    start = rng.choice([0, -1_000_000, 1_000_000])
    aside = rng.choice([0, 7])
    nodes = [builder.node(*((start + place, start + aside) if turn // 12 % 2 else (start + aside, start + place)))
             for place in places]
    lines = tuple(builder.line(start, end, rng.choice([1, 10_003])) for start, end in zip(nodes, nodes[1:]))
    return f"difference {difference}", WriteInput(map_to_bytes(builder.build()), lines)


def all_but_one_line_skipped(rng, turn):
    """A stretch of up to 64 lines and offsets that cover all of it but one line, or that line but one centimetre."""
    builder = MapBuilder()
    count = (2, 3, 63, 64)[turn % 4]
    nodes = builder.row_of_nodes(count + 1)
    lengths = [rng.choice([1, 2, 10_003, LONGEST_LINE]) for _ in range(count)]
    lines = tuple(builder.line(start, end, length) for start, end, length in zip(nodes, nodes[1:], lengths))
    kept = (0, count - 1, rng.randrange(count))[turn // 4 % 3]
    room = lengths[kept] - 1
    more = rng.choice([0, room, rng.randrange(room + 1)])
    pos, neg = sum(lengths[:kept]) + more, sum(lengths[kept + 1:]) + rng.choice([0, room - more])
    return f"{count} lines", WriteInput(map_to_bytes(builder.build()), lines, pos, neg)


def to_the_centimetre(rng, turn):
    """Two ways of which the one is a centimetre longer or as long, at an edge of D or of the longest leg."""
    sample = centimetre_sample(rng, turn)
    pos, neg = rng.choice([(0, 0), (1, 0), (0, 1), (1, 1), (sample.depot_map.lines[0].length - 1, 0)])
    return sample.label, WriteInput(map_to_bytes(sample.depot_map), sample.stretch, pos, neg)


def fewest_points(rng, turn):
    """The first leg with most lines, 0 to 2, leaves two more legs; 0 and 1 leave one.

    From the start of line 3 to the end of line 4 there is another way, with the same marks and longer by 1. So lines
    2 to 5 can be one leg, and 3 to 5 cannot. Up to two lines that need a leg each come before.
    """
    lead = turn % 3
    lengths = [LONGEST_LINE] * lead + [rng.choice([1_000_003, 1_200_007]), 100_001, 100_009, rng.choice([400_003, 450_001])]
    lengths += [10_003, 10_007]
    builder = MapBuilder()
    nodes = builder.row_of_nodes(len(lengths) + 1)
    aside = builder.node(0, 1_000)
    lines = tuple(builder.line(start, end, length) for start, end, length in zip(nodes, nodes[1:], lengths))
    builder.line(nodes[-4], aside, lengths[-3])
    builder.line(aside, nodes[-2], lengths[-2] + 1)
    pos, neg = rng.choice([0, 1, lengths[0] - 1]), rng.choice([0, 1, lengths[-1] - 1])
    return f"{lead} lines before", WriteInput(map_to_bytes(builder.build()), lines, pos, neg)


WRITE_RECIPES = all_with_all_tests({
    "stretch": plain_stretch,
    "offsets at line ends": offsets_at_edges,
    "skipped lines": skipped_lines,
    "offsets just below the total": offsets_just_below,
    "offsets at a half": offsets_at_a_half,
    "byte buffer exactly long enough": bytes_exactly_enough,
    "work area long enough": work_area_exactly_enough(accepted_input),
    "longest reference": longest_reference,
    "full size": full_size,
    "point in mid-leg": point_in_mid_leg,
    "legs at the longest": legs_at_longest,
    "differences at the ends of 16 bits": differences_at_ends,
    "all but one line skipped": all_but_one_line_skipped,
    "fewest points": fewest_points,
    "tie that a ban decides": tie_that_a_ban_decides,
    "around the block": around_the_block,
    "sides of an edge": sides_of_an_edge,
    "to the centimetre": to_the_centimetre,
    "refusal 1": work_area_too_short(accepted_input, {"map_bytes": b""}, {"lines": ()}, {"byte_room": 0}),
    "refusal 2": damaged_map(2),
    "refusal 3": damaged_map(3),
    "refusal 4": damaged_map(4),
    "refusal 5": damaged_map(5),
    "refusal 6": damaged_map(6),
    "refusal 23": damaged_map(23),
    "refusal 24": damaged_map(24),
    "refusal 7": no_such_lines,
    "refusal 8": broken_joint,
    "refusal 8, and a banned pair": broken_joint_and_banned_pair,
    "refusal 21": banned_pair,
    "refusal 21, in skipped lines": banned_pair_skipped,
    "refusal 9": offsets_too_large,
    "refusal 10": no_usable_choice,
    "refusal 10, by a ban": no_usable_choice_by_a_ban,
    "refusal 11": bytes_too_few,
})
