"""Maps and stretches from which cases are made. Each kind makes one sort of edge common."""

import random
from dataclasses import dataclass, replace

from depot_map import GREATEST_LONGITUDE, LATITUDE_SHIFT, LONGEST_LINE, LONGITUDE_SHIFT, MOST_BANS, DepotMap, Line, Node, Steps, map_to_bytes
from drawn_steps import EASTWARD, ENDS_OF_RANGE, NORTHWARD, SOUTHWARD, WESTWARD, any_steps, around_an_edge, redrawn, sides_of_edge, steps_of_sector
from fields import DISTANCE_STEP, LONGEST_LEG, brought_round
from lengths import ANOTHER_DISTANCE, DISTANCE_EDGES, HALF_LEG, LONGEST_WITH_HALVES, any_digit, next_to

NODE_STEP = 400
# Totals of a leg at the edges of D and at the longest leg. Another way is shorter by one, as long, or longer by one.
TOTALS_AT_EDGES = (*DISTANCE_EDGES, *next_to(LONGEST_LEG))
CENTIMETRE_SAMPLES = 3 * len(TOTALS_AT_EDGES)
# The last longitude before the 180th meridian, going east, and the first behind it. They are 2 apart.
LAST_BEFORE, FIRST_BEHIND = GREATEST_LONGITUDE, -LONGITUDE_SHIFT


@dataclass(frozen=True)
class Sample:
    """A good map and a connected line list on it."""
    label: str
    depot_map: DepotMap
    stretch: tuple


class MapBuilder:
    def __init__(self):
        self.nodes = []
        self.lines = []
        self.bans = []

    def node(self, longitude, latitude):
        self.nodes.append(Node(longitude, latitude))
        return len(self.nodes) - 1

    def row_of_nodes(self, count):
        """Nodes from west to east. Up to 82 of them, all differences fit 16 bits."""
        return [self.node(NODE_STEP * number, 0) for number in range(count)]

    def line(self, start, end, length, frc=3, fow=3, steps_out=EASTWARD, steps_back=WESTWARD):
        self.lines.append(Line(start, end, length, frc, fow, steps_out, steps_back))
        return len(self.lines) - 1

    def ban(self, first, second):
        self.bans.append((first, second))

    def build(self):
        return DepotMap(tuple(self.nodes), tuple(self.lines), tuple(self.bans))


def random_walk(rng, depot_map, most_lines, heed_bans=False):
    """A connected line list; it ends early where no line goes on. Lines may be taken several times."""
    walk = [rng.randrange(len(depot_map.lines))]
    banned = set(depot_map.bans) if heed_bans else ()
    while len(walk) < most_lines:
        node = depot_map.lines[walk[-1]].end_node
        onward = [number for number, line in enumerate(depot_map.lines) if line.start_node == node and (walk[-1], number) not in banned]
        if not onward:
            break
        walk.append(rng.choice(onward))
    return tuple(walk)


def joining_pairs(lines):
    """Every pair of line numbers whose second line starts where the first ends: what a ban may name."""
    from_node = {}
    for number, line in enumerate(lines):
        from_node.setdefault(line.start_node, []).append(number)
    return [(first, second) for first, line in enumerate(lines) for second in from_node.get(line.end_node, ())]


def pairs_of(lines):
    """The pairs of neighbours in a line list."""
    return list(zip(lines, lines[1:]))


def with_bans(rng, sample, spare_stretch):
    """The sample with no, a few or many bans in any order, some perhaps listed twice. Where that is asked, none is on its stretch."""
    spared = pairs_of(sample.stretch) if spare_stretch else ()
    pairs = [pair for pair in joining_pairs(sample.depot_map.lines) if pair not in spared]
    count = rng.choice([0, 0, 1, rng.randrange(2, 5), len(pairs) // 2, len(pairs)])
    bans = [rng.choice(pairs) for _ in range(min(count, MOST_BANS))] if pairs else []
    return replace(sample, depot_map=replace(sample.depot_map, bans=tuple(bans)))


def shifted(depot_map, shift):
    """The map with a number added to every longitude, and brought round."""
    return replace(depot_map, nodes=tuple(Node(brought_round(node.longitude + shift), node.latitude) for node in depot_map.nodes))


def lies_across(depot_map):
    """Whether nodes are on both sides of the meridian, nearer to it than to longitude 0."""
    longitudes = [node.longitude for node in depot_map.nodes]
    return min(longitudes) < FIRST_BEHIND // 2 and max(longitudes) > LAST_BEFORE // 2


def across_meridian(depot_map):
    """The map shifted so that the meridian runs through a gap between two longitudes: next to the one, next to the other or anywhere between.

    The gap is 2 at least, so that no node comes to 17,999,999. A map without one is shifted to an end of the longitudes.
    The choice is by chance, and for one map always the same.
    """
    rng = random.Random(map_to_bytes(depot_map))
    longitudes = sorted({node.longitude for node in depot_map.nodes})
    gaps = [(before, behind - before) for before, behind in zip(longitudes, longitudes[1:]) if behind - before >= 2]
    if not gaps:
        return shifted(depot_map, brought_round(rng.choice([LAST_BEFORE - longitudes[-1], FIRST_BEHIND - longitudes[0]])))
    before, gap = rng.choice(gaps)
    room = gap - 2
    return shifted(depot_map, brought_round(LAST_BEFORE - rng.choice([0, room, rng.randrange(room + 1)]) - before))


def sample_redrawn(rng, sample):
    """The sample as it is, or every other time with other steps of the same sectors."""
    return replace(sample, depot_map=redrawn(rng, sample.depot_map)) if rng.random() < 0.5 else sample


def sample_across(sample):
    """The sample on its map shifted to lie across the meridian."""
    return replace(sample, depot_map=across_meridian(sample.depot_map))


def ridge_map(*bans):
    """The map of the scope paper's "The tie at the ridge", with lengths tenfold, steps of the same sectors for its bearings, and bans where they are given."""
    builder = MapBuilder()
    builder.bans += bans
    for longitude, latitude in ((0, 0), (1000, 0), (1000, 1000), (2000, 0)):
        builder.node(longitude, latitude)
    builder.line(0, 1, 10_000)
    builder.line(1, 3, 10_000)
    builder.line(1, 2, 5_000, steps_out=NORTHWARD, steps_back=SOUTHWARD)
    builder.line(2, 3, 5_000, steps_out=Steps(141, -141), steps_back=Steps(-200, 7))
    return builder.build()


def smallest_sample(rng):
    builder = MapBuilder()
    start, end = builder.row_of_nodes(2)
    length = rng.choice([1, 2, 170, 171, 255, 256, 257, 511, 512, 513, 514, *DISTANCE_EDGES, LONGEST_WITH_HALVES, LONGEST_LINE - 1, LONGEST_LINE])
    builder.line(start, end, length, frc=rng.randrange(8), fow=rng.randrange(8), steps_out=any_steps(rng), steps_back=any_steps(rng))
    return Sample("smallest map", builder.build(), (0,))


def tied_ways(rng, label, total):
    """A first line, then two ways to the same node that differ by at most 1; total is one of the two."""
    builder = MapBuilder()
    start, fork, detour, join, beyond = builder.row_of_nodes(5)
    first_length = rng.randrange(1, total - 2)
    rest = total - first_length
    first = builder.line(start, fork, first_length)
    direct = builder.line(fork, join, rest)
    other = max(2, rest + rng.choice([-1, 0, 0, 1]))
    half = rng.randrange(1, other)
    detour_lines = (builder.line(fork, detour, half, steps_out=rng.choice([EASTWARD, NORTHWARD])),
                    builder.line(detour, join, other - half))
    if rng.random() < 0.4:
        builder.line(start, fork, min(LONGEST_LINE, first_length + rng.choice([0, 1, ANOTHER_DISTANCE])))
    onward = (builder.line(join, beyond, rng.choice([1, DISTANCE_STEP - 1, DISTANCE_STEP, 10_003])),)
    stretch = rng.choice([(first, direct), (first,) + detour_lines]) + rng.choice([(), onward])
    return Sample(label, builder.build(), stretch)


def tie_sample(rng):
    return tied_ways(rng, "tie of two ways", any_digit(rng, rng.choice([10, 1_000, 10_000, 20_000])))


def long_leg_sample(rng):
    return tied_ways(rng, "leg near the longest", rng.choice(next_to(LONGEST_LEG)))


def distance_edge_sample(rng):
    return tied_ways(rng, "leg at an edge of D", rng.choice(DISTANCE_EDGES))


def centimetre_sample(rng, turn):
    """A first line, then two ways with equal marks of which the other is shorter by one, as long, or longer by one.

    Each of these has its turn with each total at an edge. The stretch is the first line and the one way, which make the total.
    """
    total, more = TOTALS_AT_EDGES[turn % len(TOTALS_AT_EDGES)], (-1, 0, 1)[turn // len(TOTALS_AT_EDGES) % 3]
    builder = MapBuilder()
    start, fork, detour, join = builder.row_of_nodes(4)
    rest = rng.randrange(3, total)
    half = rng.randrange(1, rest + more)
    stretch = builder.line(start, fork, total - rest), builder.line(fork, join, rest)
    builder.line(fork, detour, half)
    builder.line(detour, join, rest + more - half)
    return Sample(f"{total} and {total + more}", builder.build(), stretch)


def parallel_sample(rng):
    """Hops with up to three lines of equal marks; told apart, if at all, in mid-leg or by D."""
    builder = MapBuilder()
    nodes = builder.row_of_nodes(rng.randrange(2, 7))
    stretch = []
    for start, end in zip(nodes, nodes[1:]):
        length = rng.choice([1_003, 3_007, DISTANCE_STEP])
        hop = [builder.line(start, end, length)]
        for _ in range(rng.choice([0, 0, 1, 2])):
            hop.append(builder.line(start, end, length + rng.choice([0, 1, 5, ANOTHER_DISTANCE])))
        stretch.append(hop[0] if rng.random() < 0.8 else rng.choice(hop))
    return Sample("parallel lines with equal marks", builder.build(), tuple(stretch))


def ring_sample(rng):
    """A closed stretch, up to several times around, sometimes with lines both ways."""
    builder = MapBuilder()
    nodes = builder.row_of_nodes(rng.randrange(2, 6))
    length = rng.choice([1, DISTANCE_STEP // 2, 10_007, 400_003])
    around = [builder.line(start, end, length) for start, end in zip(nodes, nodes[1:] + nodes[:1])]
    if rng.random() < 0.4:
        for start, end in zip(nodes, nodes[1:] + nodes[:1]):
            builder.line(end, start, length, steps_out=WESTWARD, steps_back=EASTWARD)
    count = rng.choice([len(nodes), len(nodes) + 1, 2 * len(nodes), 64])
    first = rng.randrange(len(nodes))
    stretch = tuple(around[(first + number) % len(nodes)] for number in range(count))
    return Sample("loop", builder.build(), stretch)


def far_sample(rng):
    """A hub and nodes whose differences to it are at the ends of 16 bits and one past each."""
    builder = MapBuilder()
    far = [32_766, 32_767, 32_768, -32_767, -32_768, -32_769]
    hub = builder.node(0, 0)
    turned = rng.random() < 0.5
    chosen = rng.choice(range(len(far)))
    for number, difference in enumerate(far):
        aside = 3 + 3 * number
        spoke = builder.node(*((aside, difference) if turned else (difference, aside)))
        builder.line(hub, spoke, 10_003 + number)
        builder.line(spoke, hub, 10_003 + number)
    stretch = rng.choice([(2 * chosen,), (2 * chosen + 1,), (2 * chosen + 1, 2 * (chosen + 1) % 12)])
    return Sample("differences at the ends of 16 bits", builder.build(), stretch)


def range_end_sample(rng):
    """Coordinates and line fields at the ends of their ranges."""
    builder = MapBuilder()
    west = rng.random() < 0.5
    south = rng.random() < 0.5
    longitude, step = (-LONGITUDE_SHIFT, 3) if west else (GREATEST_LONGITUDE, -3)
    latitude, rise = (-LATITUDE_SHIFT, 3) if south else (LATITUDE_SHIFT, -3)
    for number in range(4):
        builder.node(longitude + step * number, latitude + rise * (number % 2))
    for start, end in ((0, 1), (1, 2), (2, 3), (3, 0)):
        builder.line(start, end, rng.choice([1, 10, LONGEST_LINE - 1, LONGEST_LINE]), rng.choice([0, 7]),
                     rng.choice([0, 7]), rng.choice(ENDS_OF_RANGE), rng.choice(ENDS_OF_RANGE))
    depot_map = builder.build()
    return Sample("values at their range ends", depot_map, random_walk(rng, depot_map, 4))


def short_first_leg_sample(rng):
    """The longest possible first leg leaves a rest that cannot be written: its first line has a twin.

    Lines 0 and 1 fit one leg, and so do 1 to 3, but not 0 to 2. Cut before line 2, its twin fits as well.
    """
    builder = MapBuilder()
    nodes = builder.row_of_nodes(5)
    lengths = rng.choice([(1_000_003, 400_009, 300_007, 10_001), (LONGEST_LEG - DISTANCE_STEP, DISTANCE_STEP, 1, 1), (HALF_LEG, HALF_LEG, 13, 11)])
    stretch = tuple(builder.line(start, end, length) for start, end, length in zip(nodes, nodes[1:], lengths))
    builder.line(nodes[2], nodes[3], lengths[2] + 1)
    return Sample("first leg shorter than it could be", builder.build(), stretch)


def row_of_64(rng, label, lengths):
    """64 lines in a row, each with any of the lengths."""
    builder = MapBuilder()
    nodes = builder.row_of_nodes(65)
    stretch = tuple(builder.line(start, end, rng.choice(lengths)) for start, end in zip(nodes, nodes[1:]))
    return Sample(label, builder.build(), stretch)


def chain_sample(rng):
    """64 lines in a row; the long ones need a point each, the short ones need two in all."""
    # 64 of the last but one are just one leg, and of the last they are not.
    lengths = rng.choice([[HALF_LEG + 1, LONGEST_LINE], [LONGEST_LINE], [1, 101], [LONGEST_LEG // 64], [LONGEST_LEG // 64 + 1]])
    return row_of_64(rng, "chain of 64 lines", lengths)


def longest_lines(rng):
    """64 lines in a row that are as long as can be, and need a point each."""
    return row_of_64(rng, "64 longest lines", [LONGEST_LINE])


def chain_of_ties(leg_count, tied_legs):
    """A map and a list of legs, each a first line and one of two ways.

    On the tied legs the two ways have equal lengths and equal last marks. On the others the leg's own way is
    shorter, and the other differs in its last sector, which counts on the last leg. `other_way` has its lines.
    """
    builder = MapBuilder()
    row = builder.row_of_nodes(leg_count + 1)
    legs = []
    for number in range(leg_count):
        fork = builder.node(NODE_STEP * number, 1_000)
        aside = builder.node(NODE_STEP * number, 2_000)
        legs.append((builder.line(row[number], fork, 1_003), builder.line(fork, row[number + 1], 2_009)))
        builder.line(fork, aside, 1_002)
        if number in tied_legs:
            builder.line(aside, row[number + 1], 1_007)
        else:
            builder.line(aside, row[number + 1], 1_008, steps_back=NORTHWARD)
    return builder.build(), legs


def other_way(leg):
    """The list of a leg of chain_of_ties that goes the other way: its two lines stand behind those of the leg."""
    first, direct = leg
    return first, direct + 1, direct + 2


def chain_of_blocks(ways_around):
    """A map and a list of legs that cannot go straight on: the turn from a leg's first line into its last is banned.

    A leg has a number of equally long ways around a block, each through the node of the turn once more. With one way
    around the leg is that way, with several it is a tie, and with none it is the banned turn itself.
    """
    builder = MapBuilder()
    row = builder.row_of_nodes(len(ways_around) + 1)
    legs = []
    for number, count in enumerate(ways_around):
        turn = builder.node(NODE_STEP * number, 1_000)
        first, last = builder.line(row[number], turn, 1_003), builder.line(turn, row[number + 1], 1_001)
        builder.ban(first, last)
        legs.append((first, last))
        for way in range(count):
            corner = builder.node(NODE_STEP * number, 2_000 + 1_000 * way)
            legs[-1] = (first, builder.line(turn, corner, 1_001), builder.line(corner, turn, 1_009), last)
    return builder.build(), legs


def other_first_line_sample(rng):
    """Two first lines with equal marks. From the second a banned turn leaves only the way around, which is as long as the first line.

    So the first line is told apart by D without the ban, and not at all with it.
    """
    builder = MapBuilder()
    start, end, turn, corner = builder.row_of_nodes(4)
    around = rng.choice([2_001, DISTANCE_STEP // 2, 10_003])
    first_length, last_length = 1_003, 1_009
    builder.line(start, end, first_length + 2 * around + last_length)
    first, last = builder.line(start, turn, first_length), builder.line(turn, end, last_length)
    builder.line(turn, corner, around)
    builder.line(corner, turn, around)
    builder.ban(first, last)
    return Sample("another first line goes around", builder.build(), (0,))


def edge_sample(rng, turn):
    """Two lines that differ in their steps out alone, or in their steps back alone.

    The one line has the last steps before an edge of a sector, the other the first beyond it or on it. Each of the 32 edges has its turn. Every fifth time
    both are of the sector beyond the edge.
    """
    builder = MapBuilder()
    start, middle, end = builder.row_of_nodes(3)
    edge, one_sector = turn - turn // 5, turn % 5 == 4
    before, beyond = sides_of_edge(rng, edge)
    drawn = rng.sample([steps_of_sector(rng, edge) if one_sector else before, beyond], 2)
    if (edge + edge // 32) % 2:
        twins = [builder.line(start, middle, 3_001, steps_out=steps) for steps in drawn]
        stretch = (rng.choice(twins),) + rng.choice([(), (builder.line(middle, end, 3_001),)])
    else:
        twins = [builder.line(middle, end, 3_001, steps_back=steps) for steps in drawn]
        stretch = rng.choice([(), (builder.line(start, middle, 3_001),)]) + (rng.choice(twins),)
    return Sample("two lines of one sector" if one_sector else "two lines of neighbouring sectors", builder.build(), stretch)


def random_sample(rng):
    """A small map without a plan, with few different values so that equal ones are common."""
    builder = MapBuilder()
    step = rng.choice([3, 1_000, 16_384, 32_767, 32_768])
    cells = [(column, row) for column in range(3) for row in range(3)]
    for column, row in rng.sample(cells, rng.randrange(2, 7)):
        builder.node((column - 1) * step, (row - 1) * step)
    lengths = rng.choice([[1_001, 2_002, 3_003], [1, 2, 3], [*next_to(DISTANCE_STEP // 2), *next_to(DISTANCE_STEP)],
                          [*next_to(LONGEST_LEG // 3), HALF_LEG, HALF_LEG + 1, LONGEST_LINE - 1, LONGEST_LINE], range(1, LONGEST_LINE + 1)])
    classes = rng.choice([[3], [3, 4], range(8)])
    forms = rng.choice([[3], [2, 3]])
    drawn = rng.choice([[EASTWARD], around_an_edge(rng), [any_steps(rng) for _ in range(8)]])
    for _ in range(rng.randrange(1, 13)):
        start, end = rng.sample(range(len(builder.nodes)), 2)
        builder.line(start, end, rng.choice(lengths), rng.choice(classes), rng.choice(forms),
                     rng.choice(drawn), rng.choice(drawn))
    depot_map = builder.build()
    return Sample("random map", depot_map, random_walk(rng, depot_map, rng.randrange(1, 9)))


def full_sample(rng):
    """512 nodes in 32 columns and 16 rows, each with a line to the east and one to the south, closed."""
    builder = MapBuilder()
    for number in range(512):
        builder.node(1000 * (number % 32), 1000 * (number // 32))
    lengths = rng.choice([[10_007], [10_006, 10_007, 10_008], range(4_000, 16_000), range(4_000, 16_000)])
    classes = rng.choice([[3], [2, 3, 5]])
    for number in range(512):
        column, row = number % 32, number // 32
        east, south = row * 32 + (column + 1) % 32, (row + 1) % 16 * 32 + column
        builder.line(number, east, rng.choice(lengths), rng.choice(classes))
        builder.line(number, south, rng.choice(lengths), rng.choice(classes), 3, SOUTHWARD, NORTHWARD)
    depot_map = builder.build()
    return Sample("full-size map", depot_map, random_walk(rng, depot_map, rng.choice([1, 4, 16, 64])))


def dense_sample(rng):
    """Two nodes and 1,024 lines, half of them each way."""
    builder = MapBuilder()
    east, west = builder.row_of_nodes(2)
    for number in range(1_024):
        start, end = (east, west) if number % 2 else (west, east)
        builder.line(start, end, rng.choice([1, DISTANCE_STEP, 10_003, LONGEST_LINE]), steps_out=any_steps(rng), steps_back=any_steps(rng))
    depot_map = builder.build()
    return Sample("two nodes, 1,024 lines", depot_map, random_walk(rng, depot_map, rng.choice([1, 4, 64])))


def random_pairs(rng, lines, count):
    """Pairs of lines that join, for maps that have too many of them to list."""
    lines_from = {}
    for number, line in enumerate(lines):
        lines_from.setdefault(line.start_node, []).append(number)
    firsts = [number for number, line in enumerate(lines) if line.end_node in lines_from]
    return [(first, rng.choice(lines_from[lines[first].end_node])) for first in rng.choices(firsts, k=count)]


def pairs_at_a_junction(rng, lines, count):
    """Pairs at the node where line 0 ends. Where there are fewer, they are listed several times."""
    node = lines[0].end_node
    arriving = [number for number, line in enumerate(lines) if line.end_node == node]
    leaving = [number for number, line in enumerate(lines) if line.start_node == node]
    return [(rng.choice(arriving), rng.choice(leaving)) for _ in range(count)]


def pairs_after_a_line(rng, lines, count):
    """Every turn out of one line, listed until there are enough pairs."""
    first = rng.randrange(len(lines))
    leaving = [number for number, line in enumerate(lines) if line.start_node == lines[first].end_node]
    return [(first, leaving[number % len(leaving)]) for number in range(count)]


FULL_SIZE_BANS = (
    (random_pairs, 0), (random_pairs, 40), (random_pairs, MOST_BANS), (pairs_at_a_junction, MOST_BANS),
    (pairs_after_a_line, MOST_BANS))


def full_size_sample(rng, turn=None):
    """A map as large as can be: without bans, with some, with the most that there can be, all of them at one junction or after one line.

    The stretch heeds the bans three times out of four.
    """
    sample = sample_redrawn(rng, (dense_sample if rng.random() < 0.2 else full_sample)(rng))
    make_pairs, count = FULL_SIZE_BANS[turn % len(FULL_SIZE_BANS)] if turn is not None else rng.choice(FULL_SIZE_BANS)
    depot_map = replace(sample.depot_map, bans=tuple(make_pairs(rng, sample.depot_map.lines, count)))
    return replace(sample, depot_map=depot_map, stretch=random_walk(rng, depot_map, len(sample.stretch), rng.random() < 0.75))


SMALL_SAMPLES = [smallest_sample, tie_sample, long_leg_sample, distance_edge_sample, parallel_sample,
                 ring_sample, far_sample, range_end_sample, short_first_leg_sample, chain_sample,
                 random_sample]
