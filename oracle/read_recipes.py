"""Inputs for read cases (recipes.py says what a recipe is)."""

from dataclasses import dataclass, replace
from functools import lru_cache

from damages import map_damage, reference_damages, replaced
from depot_map import Line, map_to_bytes, read_map
from drawn_steps import EASTWARD, WESTWARD
from fields import GREATEST_BYTE, LONGEST_LEG, differences_fit, distance_byte, offset_byte, offset_span_by_trying
from legs import list_length
from reader import LEAST_WORK_LENGTH, read
from recipes import any_sample, until_found, work_area_exactly_enough, work_area_too_short
from reference import NEGATIVE_FLAG, POSITIVE_FLAG, last_point_position, p_byte_positions, put_together
from sample_maps import (CENTIMETRE_SAMPLES, SMALL_SAMPLES, MapBuilder, centimetre_sample, chain_of_blocks, chain_of_ties, edge_sample, full_size_sample,
                         other_way, pairs_of, random_walk)
from write_recipes import accepted_input, write_outcome
from writer import reference_of_legs

AMPLE_LINES = 1_024
# 63 legs of 1,023 lines and one of 1,024.
MOST_LINES_READ = 65_473
# Legs around which bytes change their spans. No offset gives byte 255 up to 170, nor byte 0 up to 512; up to 256 a byte has one offset at most; and on
# multiples of 512 spans start at an exact half between two 256ths.
OFFSET_EDGES = (170, 171, 255, 256, 257, 511, 512, 513, 514, 1_024)


@dataclass(frozen=True)
class ReadInput:
    map_bytes: bytes
    reference: bytes
    work_length: int = LEAST_WORK_LENGTH
    line_room: int = AMPLE_LINES


@lru_cache(maxsize=16)
def read_outcome(given):
    """The last outcomes are kept, as those of write_outcome are."""
    return read(given.map_bytes, given.reference, given.work_length, given.line_room)


def any_turn(rng):
    """A turn by chance, for recipes that use their own turn for another purpose than the kind of sample."""
    return rng.randrange(len(SMALL_SAMPLES))


def written_input(rng, turn):
    label, given = accepted_input(rng, turn)
    return label, ReadInput(given.map_bytes, write_outcome(given).reference)


def cut_into_legs(rng, walk, most_lines):
    legs = []
    while walk:
        count = rng.randrange(1, most_lines + 1)
        legs.append(walk[:count])
        walk = walk[count:]
    return legs


def legs_can_be_written(depot_map, legs):
    """Whether the differences fit 16 bits and D fits a byte. A leg may still be too long."""
    return all(differences_fit(depot_map.nodes[depot_map.lines[lines[0]].start_node],
                               depot_map.nodes[depot_map.lines[lines[-1]].end_node])
               and distance_byte(list_length(depot_map, lines)) <= GREATEST_BYTE for lines in legs)


def bytes_of_legs(depot_map, legs, pos=0, neg=0):
    return put_together(reference_of_legs(depot_map, legs, pos, neg))


def composed_from(rng, sample):
    """A reference made from a walk that is cut into legs by chance, as a writer need not cut it, or None."""
    walk = sample.stretch if rng.random() < 0.5 else random_walk(rng, sample.depot_map, rng.randrange(1, 12))
    legs = cut_into_legs(rng, walk, rng.choice([1, 3, 6, 64]))
    if not legs_can_be_written(sample.depot_map, legs):
        return None
    pos = rng.choice([0, rng.randrange(list_length(sample.depot_map, legs[0]))])
    neg = rng.choice([0, rng.randrange(list_length(sample.depot_map, legs[-1]))])
    return ReadInput(map_to_bytes(sample.depot_map), bytes_of_legs(sample.depot_map, legs, pos, neg))


def composed_on(make_sample):
    def recipe(rng, turn):
        def attempt():
            sample = make_sample(rng, turn)
            given = composed_from(rng, sample)
            return None if given is None else (sample.label, given)
        return until_found(attempt)
    return recipe


composed_legs = composed_on(any_sample)
full_size = composed_on(lambda rng, turn: full_size_sample(rng))


def changed_in_a_byte(rng, given):
    """Any byte of the reference changed, mostly in one bit or by one."""
    position = rng.randrange(len(given.reference))
    byte = given.reference[position]
    one_bit = byte ^ 1 << rng.randrange(8)
    changed = rng.choice([one_bit, (byte + 1) % 256, (byte - 1) % 256, rng.randrange(256)])
    return replace(given, reference=replaced(given.reference, position, bytes([changed])))


def changed_byte(*recipes):
    def recipe(rng, turn):
        label, given = recipes[turn % len(recipes)](rng, any_turn(rng))
        return label, changed_in_a_byte(rng, given)
    return recipe


def changed_leg_field(rng, turn):
    """D or the lowest class of a leg changed by one."""
    label, given = composed_legs(rng, turn)
    q_position = rng.choice(p_byte_positions(len(given.reference))[:-1]) + 1
    lowest_class, distance = (q_position, 32), (q_position + 1, 1)
    position, step = rng.choice([lowest_class, distance])
    step *= rng.choice([1, -1])
    changed = bytes([(given.reference[position] + step) % 256])
    return label, replace(given, reference=replaced(given.reference, position, changed))


def changed_offset_byte(rng, turn):
    """Offset bytes from 0 to 255 on whatever leg there is."""
    label, given = composed_legs(rng, turn)
    end = last_point_position(len(given.reference)) + 6
    flags = rng.choice([0x40, 0x20, 0x60])
    offset_bytes = bytes(rng.choice([0, 1, 127, 128, 254, 255]) for _ in range(bin(flags).count("1")))
    r_byte = bytes([given.reference[end - 1] & 0x1F | flags])
    return label, replace(given, reference=given.reference[:end - 1] + r_byte + offset_bytes)


def lines_exactly_enough(accepted, outcome):
    """What another recipe makes, which is read."""
    def recipe(rng, turn):
        label, given = accepted(rng, turn)
        return label, replace(given, line_room=len(outcome(given).lines))
    return recipe


def lines_too_few(accepted, outcome):
    def recipe(rng, turn):
        label, given = accepted(rng, turn)
        room = len(outcome(given).lines) - 1
        return label, replace(given, line_room=rng.choice([room, room, 0]))
    return recipe


def damaged_map(refusal, written=written_input):
    def recipe(rng, turn):
        _, given = written(rng, turn)
        depot_map = read_map(given.map_bytes)
        damage = map_damage(depot_map, refusal, turn)
        # The reference is wrong as well every other time; the map's refusal stands above.
        reference = given.reference if turn % 2 else b""
        return damage.label, ReadInput(damage.apply(depot_map), reference)
    return recipe


def damaged_reference(refusal, written=written_input, damages_of=reference_damages):
    def recipe(rng, turn):
        _, given = written(rng, any_turn(rng))
        all_damages = damages_of(read_map(given.map_bytes), given.reference)
        damages = [damage for damage in all_damages if damage.refusal == refusal]
        damage = damages[turn % len(damages)]
        # The line buffer is too short as well every other time; refusal 20 stands below all others.
        return damage.label, replace(given, reference=damage.reference, line_room=AMPLE_LINES * (turn % 2))
    return recipe


def two_faults(written, damages_of):
    """Two damages of different refusals at once. They leave the length and change different bits, so that both can be put in."""
    def recipe(rng, turn):
        _, given = written(rng, any_turn(rng))
        damages = [damage for damage in damages_of(read_map(given.map_bytes), given.reference)
                   if len(damage.reference) == len(given.reference)]
        first = rng.choice(damages)
        second = rng.choice([damage for damage in damages if damage.refusal != first.refusal])
        both = bytes(old ^ one ^ other for old, one, other
                     in zip(given.reference, first.reference, second.reference))
        if turn % 6 == 0:
            return f"12 and {first.refusal}", replace(given, reference=first.reference[:15])
        return f"{first.refusal} and {second.refusal}", replace(given, reference=both)
    return recipe


def longest_reference(rng, turn):
    """459 bytes: 64 legs and two offsets. Ties on legs that are asked for make it a refusal 18."""
    tied = [(), (0,), (63,), (0, 63)][turn % 4]
    depot_map, legs = chain_of_ties(64, tied)
    pos, neg = (rng.randrange(1, list_length(depot_map, leg)) for leg in (legs[0], legs[-1]))
    reference = bytes_of_legs(depot_map, legs, pos, neg)
    return f"tied legs {list(tied)}", ReadInput(map_to_bytes(depot_map), reference)


def longest_reference_damaged(refusal, place):
    """Refusal 16 or 17 at a point or leg of a reference of 64 legs, where only that one is wrong."""
    def recipe(rng, turn):
        depot_map, legs = chain_of_ties(64, ())
        reference = bytes_of_legs(depot_map, legs, 1, 1)
        p_position = p_byte_positions(len(reference))[place]
        if refusal == 17:
            position, wrong = p_position + 2, bytes([rng.choice([1, 2, 255])])
        elif place == 0:
            position, wrong = p_position - 6, rng.choice([b"\x7f\xff\xff", b"\x80\x00\x00"])
        else:
            position, wrong = p_position - 4, rng.choice([b"\x7f\xff", b"\x80\x00"])
        # The line buffer is too short as well every other time; refusal 20 stands below.
        return (f"place {place}", ReadInput(map_to_bytes(depot_map), replaced(reference, position, wrong),
                                            line_room=AMPLE_LINES * (turn % 2)))
    return recipe


def around(node_count, leg_count):
    """A ring that runs one way, and legs that each go once around it, from a node to itself.

    A second line beside the first, with another FOW, can only be a last line. A last leg that ends with it has
    a line more than there are nodes: no leg's reading has more.
    """
    builder = MapBuilder()
    columns = 32
    for number in range(node_count):
        builder.node(1_000 * (number % columns), 1_000 * (number // columns))
    nodes = range(node_count)
    length = LONGEST_LEG // (node_count + 1)
    once = tuple(builder.line(node, (node + 1) % node_count, length) for node in nodes)
    beside = builder.line(0, 1, length, fow=4)
    return builder.build(), [once] * (leg_count - 1) + [once + (beside,)]


@lru_cache(maxsize=1)
def around_twice(node_count, leg_count):
    """A ring with two lines from node to node, and legs from a depot out, around by the one, around by the other, and back.

    Bans leave no other way: only at the end of the first round may a leg go over into the second. A second line out of
    the depot, with another FOW, can only be a last line. A last leg that ends with it has all lines of the map.
    """
    builder = MapBuilder()
    columns = 32
    depot, *ring = [builder.node(1_000 * (number % columns), 1_000 * (number // columns)) for number in range(node_count)]
    length = LONGEST_LEG // (2 * node_count)
    hops = list(zip(ring, ring[1:] + ring[:1]))
    out = builder.line(depot, ring[0], length)
    first_round = [builder.line(start, end, length) for start, end in hops]
    second_round = [builder.line(start, end, length) for start, end in hops[:-1]]
    back = builder.line(ring[-1], depot, length)
    beside = builder.line(depot, ring[0], length, fow=4)
    builder.bans += zip([out] + first_round, second_round + [back])
    once = (out, *first_round, *second_round, back)
    depot_map = builder.build()
    return map_to_bytes(depot_map), bytes_of_legs(depot_map, [once] * (leg_count - 1) + [once + (beside,)])


def many_lines(rng, turn):
    """More lines than a map can have: the buffer holds them exactly, one fewer, 1,024 or a few more."""
    depot_map, legs = around(rng.choice([40, 60, 100]), rng.choice([40, 64]))
    count = sum(len(leg) for leg in legs)
    room = (count, count - 1, AMPLE_LINES, count + 5)[turn % 4]
    return f"{count} lines, room for {room}", ReadInput(map_to_bytes(depot_map), bytes_of_legs(depot_map, legs),
                                                        line_room=room)


def most_lines(rng, turn):
    """Without bans, the longest reading that there is: 64 legs around 512 nodes, and the line more."""
    depot_map, legs = around(512, 64)
    room = (32_769, 32_768)[turn % 2]
    return f"room for {room}", ReadInput(map_to_bytes(depot_map), bytes_of_legs(depot_map, legs), line_room=room)


def most_lines_with_bans(rng, turn):
    """64 legs that take all lines of a map but one, the last leg that one too."""
    map_bytes, reference = around_twice(512, 64)
    room = (MOST_LINES_READ, MOST_LINES_READ - 1)[turn % 2]
    return f"room for {room}", ReadInput(map_bytes, reference, line_room=room)


def closed_loop(rng, turn):
    """Legs from a node to itself, the last one every other time with a line more."""
    node_count, leg_count = rng.randrange(2, 6), rng.choice([1, 2, 3])
    depot_map, legs = around(node_count, leg_count)
    if turn % 2:
        legs[-1] = legs[-1][:-1]
    pos = rng.choice([0, rng.randrange(list_length(depot_map, legs[0]))])
    return f"{leg_count} times {node_count} nodes", ReadInput(map_to_bytes(depot_map),
                                                              bytes_of_legs(depot_map, legs, pos))


def offset_at_leg_end(rng, turn):
    """Bytes 255 and 0 of the positive offset, and those of 1 and of one below the leg length of the negative one. Each on each of 15 lengths has its turn.

    On legs of their own both may be flagged; the other byte is then one that an offset gives.
    """
    edge_lengths = (2, 100, *OFFSET_EDGES, 10_003, LONGEST_LEG - 1, LONGEST_LEG)
    length = edge_lengths[turn % len(edge_lengths)]
    lengths = rng.choice([[length], [length, length], [length, 10_003, length]])
    depot_map = row_of_lines(lengths)
    good = bytes_of_legs(depot_map, [(line,) for line in range(len(lengths))])
    given = (offset_byte(1, length), offset_byte(length - 1, length))
    byte, other, is_positive = (255, 0, *given)[turn % 4], rng.choice(given), turn % 4 < 2
    if len(lengths) > 1 and rng.random() < 0.5:
        flags, offset_bytes = POSITIVE_FLAG | NEGATIVE_FLAG, (byte, other) if is_positive else (other, byte)
    else:
        flags, offset_bytes = POSITIVE_FLAG if is_positive else NEGATIVE_FLAG, (byte,)
    reference = good[:-1] + bytes([good[-1] | flags, *offset_bytes])
    return f"lengths {lengths}", ReadInput(map_to_bytes(depot_map), reference)


def shortest_reference(rng, turn):
    """16 bytes: one leg, no offsets."""
    depot_map, legs = chain_of_ties(1, (0,) if turn % 2 else ())
    return "tie" if turn % 2 else "no tie", ReadInput(map_to_bytes(depot_map), bytes_of_legs(depot_map, legs))


def tied_leg(rng, turn):
    """Several readings on the first, the last or a middle leg; a later leg without any does not count."""
    leg_count = rng.randrange(2, 8)
    tied = [0, leg_count - 1, rng.randrange(leg_count)][turn % 3]
    depot_map, legs = chain_of_ties(leg_count, (tied,))
    reference = bytes_of_legs(depot_map, legs)
    if turn % 2 and tied < leg_count - 1:
        d_position = p_byte_positions(len(reference))[tied + 1] + 2
        reference = replaced(reference, d_position, b"\xff")
    return f"leg {tied} of {leg_count}", ReadInput(map_to_bytes(depot_map), reference)


def leg_without_reading(rng, turn):
    """No reading because of D on the first, the last or a middle leg; a later tie does not count."""
    leg_count = rng.randrange(2, 8)
    wrong = [0, leg_count - 1, rng.randrange(leg_count)][turn % 3]
    depot_map, legs = chain_of_ties(leg_count, range(wrong, leg_count))
    reference = bytes_of_legs(depot_map, legs)
    d_position = p_byte_positions(len(reference))[wrong] + 2
    return (f"leg {wrong} of {leg_count}",
            ReadInput(map_to_bytes(depot_map), replaced(reference, d_position, b"\x01")))


def no_node_after_failed_leg(rng, turn):
    """A leg without exactly one reading, and a later point with no node: every point is asked before any leg."""
    leg_count = rng.randrange(2, 8)
    wrong = [0, leg_count - 2, rng.randrange(leg_count - 1)][turn % 3]
    depot_map, legs = chain_of_ties(leg_count, (wrong,) if turn % 2 else ())
    reference = bytes_of_legs(depot_map, legs)
    positions = p_byte_positions(len(reference))
    if turn % 2 == 0:
        reference = replaced(reference, positions[wrong] + 2, b"\x01")
    point = rng.randrange(wrong + 2, leg_count + 1)
    return (f"leg {wrong} and point {point} of {leg_count} legs",
            ReadInput(map_to_bytes(depot_map), replaced(reference, positions[point] - 4, b"\x7f\xff")))


def banned_other_ways(rng, depot_map, legs):
    """The map with the other way of each leg of chain_of_ties banned, in one of its two turns."""
    return replace(depot_map, bans=tuple(rng.choice(pairs_of(other_way(leg))) for leg in legs))


def tie_that_a_ban_decides(rng, turn):
    """Legs with ties, on each of which the other way is banned."""
    leg_count = (1, 2, 5, 64)[turn % 4]
    depot_map, legs = chain_of_ties(leg_count, range(leg_count))
    pos = rng.choice([0, rng.randrange(list_length(depot_map, legs[0]))])
    return f"{leg_count} legs", ReadInput(map_to_bytes(banned_other_ways(rng, depot_map, legs)), bytes_of_legs(depot_map, legs, pos))


def around_the_block(rng, turn):
    """Legs that each pass a node twice, and one perhaps that has several such ways or none."""
    leg_count = (1, 2, 5, 64)[turn % 4]
    ways_around = [1] * leg_count
    place = rng.randrange(leg_count)
    ways_around[place] = (1, 0, 2, 1)[turn // 4 % 4]
    depot_map, legs = chain_of_blocks(ways_around)
    detail = f"{ways_around[place]} ways on leg {place} of {leg_count}"
    neg = rng.choice([0, 1, list_length(depot_map, legs[-1]) - 1])
    return detail, ReadInput(map_to_bytes(depot_map), bytes_of_legs(depot_map, legs, neg=neg))


def leg_with_ways_around(count):
    """A leg whose way is banned, and that has that many ways around; on the others there is one."""
    def recipe(rng, turn):
        leg_count = rng.randrange(1, 8)
        place = [0, leg_count - 1, rng.randrange(leg_count)][turn % 3]
        depot_map, legs = chain_of_blocks([count if number == place else 1 for number in range(leg_count)])
        return f"leg {place} of {leg_count}", ReadInput(map_to_bytes(depot_map), bytes_of_legs(depot_map, legs), line_room=AMPLE_LINES * (turn % 2))
    return recipe


def joint_of(legs, place):
    """The pair of lines where a leg meets the next."""
    return legs[place][-1], legs[place + 1][0]


def banned_joint(rng, turn):
    """Two legs that meet in a banned turn, at the first, the last or another joint, or at all of them.

    Every other time the positive offset's byte is given by no offset, or the line buffer is too short: both stand below.
    """
    leg_count = (2, 3, rng.randrange(4, 9), 64)[turn // 4 % 4]
    depot_map, legs = row_of_legs(rng, [100] + [10_003] * (leg_count - 1))
    places = [[0], [leg_count - 2], [rng.randrange(leg_count - 1)], range(leg_count - 1)][turn % 4]
    reference = bytes_of_legs(depot_map, legs, pos=1)
    if turn // 2 % 2:
        reference = reference[:-1] + b"\x01"
    depot_map = replace(depot_map, bans=tuple(joint_of(legs, place) for place in places))
    return f"joints {list(places)[:3]} of {leg_count} legs", ReadInput(map_to_bytes(depot_map), reference, line_room=AMPLE_LINES * (turn % 2))


def leg_behind_a_banned_joint(refusal):
    """A banned joint, and behind it a leg with no reading or several: all legs are tried before any joint."""
    def recipe(rng, turn):
        leg_count = rng.randrange(3, 9)
        place = rng.randrange(2, leg_count)
        depot_map, legs = chain_of_ties(leg_count, (place,) if refusal == 18 else ())
        depot_map = replace(depot_map, bans=(joint_of(legs, rng.randrange(place - 1)),))
        reference = bytes_of_legs(depot_map, legs)
        if refusal == 17:
            reference = replaced(reference, p_byte_positions(len(reference))[place] + 2, b"\x01")
        return f"leg {place} of {leg_count}", ReadInput(map_to_bytes(depot_map), reference)
    return recipe


def leg_read_alone(rng, turn):
    """A tie of two lines, of which one may not come after the leg before: the ban at the joint does not decide it."""
    depot_map, legs = chain_of_ties(2, (0,) if turn % 2 else (1,))
    if turn % 2:
        bans = ((other_way(legs[0])[-1], legs[1][0]),)
    else:
        bans = (joint_of(legs, 0),)
    return f"tie on leg {(turn + 1) % 2}", ReadInput(map_to_bytes(replace(depot_map, bans=bans)), bytes_of_legs(depot_map, legs))


def sides_of_an_edge(rng, turn):
    """Two lines that only their steps can tell apart, where they are of different sectors."""
    sample = edge_sample(rng, turn)
    return sample.label, ReadInput(map_to_bytes(sample.depot_map), bytes_of_legs(sample.depot_map, [sample.stretch], pos=rng.choice([0, 1])))


def to_the_centimetre(rng, turn):
    """Two ways of which the one is a centimetre longer or as long, at an edge of D or of the longest leg, with a leg more behind or as the only leg."""
    sample = centimetre_sample(rng, turn)
    depot_map, legs = sample.depot_map, [sample.stretch]
    if turn // CENTIMETRE_SAMPLES % 2 == 0:
        end = depot_map.lines[sample.stretch[-1]].end_node
        depot_map = replace(depot_map, lines=depot_map.lines + (Line(end, 0, 10_003, 3, 3, EASTWARD, WESTWARD),))
        legs.append((len(sample.depot_map.lines),))
    pos = rng.choice([0, 1, list_length(depot_map, sample.stretch) - 1])
    return sample.label, ReadInput(map_to_bytes(depot_map), bytes_of_legs(depot_map, legs, pos))


def row_of_lines(lengths):
    builder = MapBuilder()
    nodes = builder.row_of_nodes(len(lengths) + 1)
    for start, end, length in zip(nodes, nodes[1:], lengths):
        builder.line(start, end, length)
    return builder.build()


def row_of_legs(rng, leg_lengths):
    """Lines in a row, one to three for each leg, and the legs."""
    lengths, legs = [], []
    for leg_length in leg_lengths:
        cuts = sorted(rng.sample(range(1, leg_length), rng.randrange(3)))
        legs.append(tuple(range(len(lengths), len(lengths) + len(cuts) + 1)))
        lengths += [end - start for start, end in zip([0, *cuts], [*cuts, leg_length])]
    return row_of_lines(lengths), legs


def offset_without_span(rng, turn):
    """A flagged byte that no whole offset gives on its own leg, though on the other leg one would.

    Up to 170 these are bytes 0, 255 and others, up to 255 they are byte 0 and others, and up to 512 byte 0 alone.
    """
    length = (1, 2, 100, 170, 171, 255, 256, 257, 511, 512, rng.randrange(1, 513))[turn // 2 % 11]
    free = [byte for byte in range(256) if offset_span_by_trying(byte, length) is None]
    byte = (free[0], free[-1], rng.choice(free))[turn % 3]
    lengths, flag = (([length, 30_007], 0x40), ([30_007, length], 0x20))[turn % 2]
    depot_map = row_of_lines(lengths)
    good = bytes_of_legs(depot_map, [(0,), (1,)])
    reference = good[:-1] + bytes([good[-1] | flag, byte])
    given = ReadInput(map_to_bytes(depot_map), reference, line_room=rng.randrange(3))
    return ("positive", "negative")[turn % 2], given


def offsets_reach_total(rng, turn):
    """One leg with both offsets; up to a length of 256 a byte belongs to one offset at most, since the next is a 256th further or more."""
    length = rng.choice([2, 3, 100, 170, 171, 255, 256])
    pos = rng.choice([1, length - 1, rng.randrange(1, length)])
    depot_map = row_of_lines([length])
    reference = bytes_of_legs(depot_map, [(0,)], pos, length - pos)
    return f"length {length}", ReadInput(map_to_bytes(depot_map), reference, line_room=turn % 2)


def offsets_next_to_total(rng, turn):
    length = rng.choice([3, 100, 256, 511, 512, 513, 1_024, 10_003, LONGEST_LEG])
    pos = rng.choice([1, length - 2, rng.randrange(1, length - 1)])
    depot_map = row_of_lines([length])
    return f"length {length}", ReadInput(map_to_bytes(depot_map),
                                         bytes_of_legs(depot_map, [(0,)], pos, length - 1 - pos))


READ_RECIPES = {
    "written": written_input,
    "composed legs": composed_legs,
    "changed byte": changed_byte(written_input, composed_legs),
    "D or lowest class changed": changed_leg_field,
    "offset bytes changed": changed_offset_byte,
    "offsets one below the total": offsets_next_to_total,
    "line buffer exactly long enough": lines_exactly_enough(written_input, read_outcome),
    "work area long enough": work_area_exactly_enough(written_input),
    "shortest reference": shortest_reference,
    "longest reference": longest_reference,
    "closed loop": closed_loop,
    "offsets at leg ends": offset_at_leg_end,
    "many lines": many_lines,
    "most lines": most_lines,
    "most lines with bans": most_lines_with_bans,
    "tie that a ban decides": tie_that_a_ban_decides,
    "around the block": around_the_block,
    "full size": full_size,
    "sides of an edge": sides_of_an_edge,
    "to the centimetre": to_the_centimetre,
    "two faults": two_faults(written_input, reference_damages),
    "refusal 1": work_area_too_short(written_input, {"map_bytes": b""}, {"reference": b""}, {"line_room": 0}),
    "refusal 2": damaged_map(2),
    "refusal 3": damaged_map(3),
    "refusal 4": damaged_map(4),
    "refusal 5": damaged_map(5),
    "refusal 6": damaged_map(6),
    "refusal 23": damaged_map(23),
    "refusal 24": damaged_map(24),
    "refusal 12": damaged_reference(12),
    "refusal 13": damaged_reference(13),
    "refusal 14": damaged_reference(14),
    "refusal 15": damaged_reference(15),
    "refusal 16": damaged_reference(16),
    "refusal 16, point 0 of 65": longest_reference_damaged(16, 0),
    "refusal 16, point 64 of 65": longest_reference_damaged(16, 64),
    "refusal 16, after a leg with no reading or several": no_node_after_failed_leg,
    "refusal 17, leg 0 of 64": longest_reference_damaged(17, 0),
    "refusal 17, leg 63 of 64": longest_reference_damaged(17, 63),
    "refusal 17, by marks": damaged_reference(17),
    "refusal 17, by D": leg_without_reading,
    "refusal 17, by a ban": leg_with_ways_around(0),
    "refusal 17, behind a banned joint": leg_behind_a_banned_joint(17),
    "refusal 18": tied_leg,
    "refusal 18, by a ban": leg_with_ways_around(2),
    "refusal 18, behind a banned joint": leg_behind_a_banned_joint(18),
    "refusal 18, before a banned joint": leg_read_alone,
    "refusal 22": banned_joint,
    "refusal 19, no offset": offset_without_span,
    "refusal 19, total reached": offsets_reach_total,
    "refusal 20": lines_too_few(written_input, read_outcome),
}
