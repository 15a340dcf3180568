"""Ways to damage a good map or a good reference, each with the refusal that must follow from the table."""

from dataclasses import dataclass, field, replace
from itertools import product
from typing import Optional

from depot_map import (GREATEST_LATITUDE, GREATEST_LONGITUDE, LARGEST_NUMBER, LATITUDE_SHIFT, LONGEST_LINE, LONGITUDE_SHIFT, MOST_BANS, MOST_LINES,
                       STEP_SHIFT, joins, map_numbers, numbers_to_bytes, write_number)
from fields import GREATEST_STEP, coordinate_code, differences
from legs import Marks, marks_arriving, marks_leaving
from reader import point_nodes
from reference import LONGEST_POINT_ALONG_LINE, POSITIVE_FLAG, last_point_position, p_byte_positions, take_apart, take_point_along_line

# The numbers of a line in byte order: those whose faults are refusal 5, and the steps, whose faults are 24.
LINE_FIELDS = ("start node", "end node", "length", "FRC", "FOW")
STEP_PAIRS = {"out": ("step out east", "step out north"), "back": ("step back east", "step back north")}
STEP_FIELDS = tuple(name for pair in STEP_PAIRS.values() for name in pair)
LINE_NUMBERS = LINE_FIELDS + STEP_FIELDS
# What a step of 0 and the greatest one are stored as, and some that are out of range.
ZERO_STEP, GREATEST_STORED_STEP = STEP_SHIFT, STEP_SHIFT + GREATEST_STEP
STEPS_OUT_OF_RANGE = (501, 5_000, LARGEST_NUMBER)


@dataclass(frozen=True)
class MapDamage:
    """Other bans than the map's own, numbers of it to be replaced (by a value, or by bytes in a wrong form), bytes cut off or added."""
    refusal: int
    label: str
    changes: dict = field(default_factory=dict)
    cut_bytes: int = 0
    left_over: bytes = b""
    bans: Optional[tuple] = None

    def apply(self, depot_map):
        if self.bans is not None:
            depot_map = replace(depot_map, bans=self.bans)
        numbers = map_numbers(depot_map)
        for index, replacement in self.changes.items():
            numbers[index] = replacement
        written = numbers_to_bytes(numbers)
        return written[:len(written) - self.cut_bytes] + self.left_over


def longitude_index(node):
    return 1 + 2 * node


def latitude_index(node):
    return 2 + 2 * node


def line_count_index(depot_map):
    return 1 + 2 * len(depot_map.nodes)


def line_field_index(depot_map, line, line_field):
    return line_count_index(depot_map) + 1 + len(LINE_NUMBERS) * line + LINE_NUMBERS.index(line_field)


def ban_count_index(depot_map):
    return line_field_index(depot_map, len(depot_map.lines), "start node")


def not_shortest(number):
    """The number with a useless group of zero bits at its end."""
    shortest = write_number(number)
    return shortest[:-1] + bytes([shortest[-1] + 128, 0])


def form_damages(depot_map):
    """Refusal 2, at the first and at the last number."""
    numbers = map_numbers(depot_map)
    last = len(numbers) - 1
    whole = len(numbers_to_bytes(numbers))
    bans = len(numbers_to_bytes(numbers[ban_count_index(depot_map):]))
    over = write_number(LARGEST_NUMBER + 1)
    return [
        MapDamage(2, "ends before its count of bans", cut_bytes=bans),
        MapDamage(2, "ends after the first number of its only ban", cut_bytes=1, bans=((0, 0),)),
        MapDamage(2, "no bytes", cut_bytes=whole),
        MapDamage(2, "ends after its first number", cut_bytes=whole - len(write_number(numbers[0]))),
        MapDamage(2, "ends one byte early", cut_bytes=1),
        MapDamage(2, "first number not shortest", {0: not_shortest(numbers[0])}),
        MapDamage(2, "last number not shortest", {last: not_shortest(numbers[last])}),
        MapDamage(2, "first number too large", {0: over}),
        MapDamage(2, "last number too large", {last: over}),
        MapDamage(2, "last number without an end", {last: b"\xff\xff\xff\xff\xff\xff"}),
        MapDamage(2, "a zero byte left over", left_over=b"\x00"),
        MapDamage(2, "left-over byte that is no number", left_over=b"\x80"),
    ]


def count_damages(depot_map):
    lines, bans = line_count_index(depot_map), ban_count_index(depot_map)
    return [MapDamage(3, f"{count} nodes", {0: count}) for count in (0, 1, 513, LARGEST_NUMBER)] + [
        MapDamage(3, f"{count} lines", {lines: count}) for count in (0, 1_025, LARGEST_NUMBER)] + [
        MapDamage(3, f"{count} bans", {bans: count}) for count in (513, LARGEST_NUMBER)] + [
        MapDamage(3, "513 bans with their pairs", bans=((0, 0),) * (MOST_BANS + 1))]


def coordinate_damages(depot_map):
    damages = []
    for place, node in (("first", 0), ("last", len(depot_map.nodes) - 1)):
        for value in (GREATEST_LONGITUDE + LONGITUDE_SHIFT + 1, LARGEST_NUMBER):
            damages.append(MapDamage(4, f"{place} longitude too large", {longitude_index(node): value}))
        for value in (GREATEST_LATITUDE + LATITUDE_SHIFT + 1, LARGEST_NUMBER):
            damages.append(MapDamage(4, f"{place} latitude too large", {latitude_index(node): value}))
    return damages


def ends_of_lines(depot_map):
    return ("first", 0), ("last", len(depot_map.lines) - 1)


def step_pairs(depot_map):
    """Each pair of steps of the first and of the last line: its name, and the places of its east and of its north step among the map's numbers."""
    for place, line in ends_of_lines(depot_map):
        for name, pair in STEP_PAIRS.items():
            east, north = (line_field_index(depot_map, line, step) for step in pair)
            yield f"{name} of the {place} line", east, north


def step_damages(depot_map):
    """Refusal 24: each step out of range, and both of a pair zero."""
    damages = [MapDamage(24, f"both steps {pair} zero", {east: ZERO_STEP, north: ZERO_STEP}) for pair, east, north in step_pairs(depot_map)]
    for value, (place, line), name in product(STEPS_OUT_OF_RANGE, ends_of_lines(depot_map), STEP_FIELDS):
        damages.append(MapDamage(24, f"{name} of the {place} line {value}", {line_field_index(depot_map, line, name): value}))
    return damages


def step_form_damages(depot_map):
    """Refusal 2 in a step of the last line: the map ends before it or inside it, or it is in a wrong form, though it would be good or out of range."""
    numbers = map_numbers(depot_map)
    damages = []
    for name in STEP_FIELDS:
        index = line_field_index(depot_map, len(depot_map.lines) - 1, name)
        behind = len(numbers_to_bytes(numbers[index + 1:]))
        # The greatest step has two bytes.
        damages += [
            MapDamage(2, f"ends before the last {name}", {index: GREATEST_STORED_STEP}, cut_bytes=behind + 2),
            MapDamage(2, f"ends inside the last {name}", {index: GREATEST_STORED_STEP}, cut_bytes=behind + 1),
            MapDamage(2, f"last {name} not shortest", {index: not_shortest(numbers[index])}),
            MapDamage(2, f"last {name} not shortest and out of range", {index: not_shortest(GREATEST_STORED_STEP + 1)}),
            MapDamage(2, f"last {name} too large", {index: write_number(LARGEST_NUMBER + 1)}),
        ]
    return damages


def two_step_damages(depot_map):
    """A faulty step and another fault. An east step out of range decides whatever comes after it, and both zero is found at the north step."""
    numbers = map_numbers(depot_map)
    damages = []
    for pair, east, north in step_pairs(depot_map):
        behind_east = len(numbers_to_bytes(numbers[north:]))
        zeros = {east: ZERO_STEP, north: ZERO_STEP}
        damages += [
            MapDamage(24, f"ends after an east step {pair} out of range", {east: 501}, cut_bytes=behind_east),
            MapDamage(24, f"east step {pair} out of range before a wrong form", {east: 501, north: not_shortest(numbers[north])}),
            MapDamage(24, f"both steps {pair} out of range", {east: 501, north: LARGEST_NUMBER}),
            MapDamage(24, f"north step {pair} out of range behind an east step of zero", {east: ZERO_STEP, north: 501}),
            MapDamage(2, f"both steps {pair} zero, the north step in a wrong form", {east: ZERO_STEP, north: not_shortest(ZERO_STEP)}),
            MapDamage(2, f"both steps {pair} zero, the east step in a wrong form", {east: not_shortest(ZERO_STEP), north: ZERO_STEP}),
            MapDamage(2, f"ends after an east step {pair} of zero", {east: ZERO_STEP}, cut_bytes=behind_east),
            MapDamage(24, f"both steps {pair} zero before a wrong form", {**zeros, north + 1: not_shortest(numbers[north + 1])}),
        ]
    return damages


def line_damages(depot_map):
    node_count = len(depot_map.nodes)
    wrong_values = {"start node": (node_count,), "end node": (node_count,), "length": (0, LONGEST_LINE + 1),
                    "FRC": (8,), "FOW": (8,)}
    damages = []
    for place, line in ends_of_lines(depot_map):
        for name in LINE_FIELDS:
            index = line_field_index(depot_map, line, name)
            for value in wrong_values[name] + (LARGEST_NUMBER,):
                damages.append(MapDamage(5, f"{name} of the {place} line {value}", {index: value}))
        equal_end = {line_field_index(depot_map, line, "end node"): depot_map.lines[line].start_node}
        damages.append(MapDamage(5, f"equal ends of the {place} line", equal_end))
    return damages


def neighbour_with_same_code(coordinate, shift):
    """Another coordinate with the same code, as a map's number. Each code has at least two coordinates."""
    below = coordinate - 1
    if below >= -shift and coordinate_code(below) == coordinate_code(coordinate):
        return below + shift
    return coordinate + 1 + shift


def same_code_damages(depot_map):
    """Refusal 6, between the first two, the last two and the first and the last node."""
    last = len(depot_map.nodes) - 1
    damages = []
    for kept, changed in ((0, 1), (last - 1, last), (0, last)):
        node = depot_map.nodes[kept]
        same = {longitude_index(changed): node.longitude + LONGITUDE_SHIFT,
                latitude_index(changed): node.latitude + LATITUDE_SHIFT}
        near = dict(same)
        near[longitude_index(changed)] = neighbour_with_same_code(node.longitude, LONGITUDE_SHIFT)
        near_latitude = dict(same)
        near_latitude[latitude_index(changed)] = neighbour_with_same_code(node.latitude, LATITUDE_SHIFT)
        where = f"nodes {kept} and {changed} of {last + 1}"
        damages += [MapDamage(6, f"{where} equal", same), MapDamage(6, f"{where} with the same codes", near),
                    MapDamage(6, f"{where} with the same codes", near_latitude)]
    return damages


def wrong_pairs(lines):
    """Pairs that no ban may name, each with what is wrong with it. Some name lines that join, but for bits above a line number's."""
    last = len(lines) - 1
    yield "names no line first", (last + 1, 0)
    yield "names no line second", (last, last + 1)
    for pair in ((LARGEST_NUMBER, 0), (0, LARGEST_NUMBER), (LARGEST_NUMBER, LARGEST_NUMBER)):
        yield "names the largest number", pair
    yield "first line and itself", (0, 0)
    yield "last line and itself", (last, last)
    joined = next(((first, second) for first in range(last + 1) for second in range(last + 1) if joins(lines, first, second)), None)
    if joined is not None:
        first, second = joined
        for more in (MOST_LINES, 2 ** 16, 2 ** 31):
            yield f"first line {more} too large", (first + more, second)
            yield f"second line {more} too large", (first, second + more)
    for first, second in ((0, last), (last, 0), joined[::-1] if joined else (0, 0)):
        if first != second and not joins(lines, first, second):
            yield "does not join", (first, second)


def ban_damages(depot_map):
    """Refusal 23: a wrong pair alone, before the map's own bans and after them."""
    damages = []
    for label, pair in wrong_pairs(depot_map.lines):
        own = depot_map.bans[:MOST_BANS - 1]
        places = {"only": (pair,), "first": (pair,) + own, "last": own + (pair,)}
        damages += [MapDamage(23, f"{place} ban {label}", bans=bans) for place, bans in places.items() if own or place == "only"]
    return damages


def two_map_damages(depot_map):
    """Maps with two faults: the first faulty number decides, left-over bytes come after, then refusal 6, then 23."""
    numbers = map_numbers(depot_map)
    first_end = line_field_index(depot_map, 0, "end node")
    first_length = line_field_index(depot_map, 0, "length")
    ban_count = ban_count_index(depot_map)
    last_form, last_step = line_field_index(depot_map, len(depot_map.lines) - 1, "FOW"), ban_count - 1
    first_form, first_step = line_field_index(depot_map, 0, "FOW"), line_field_index(depot_map, 0, "step out east")
    equal_ends = depot_map.lines[0].start_node
    same_nodes = same_code_damages(depot_map)[0].changes
    return [
        MapDamage(2, "wrong form before a wrong coordinate",
                  {1: not_shortest(numbers[1]), 2: LARGEST_NUMBER}),
        MapDamage(4, "wrong coordinate before a wrong form",
                  {1: LARGEST_NUMBER, 2: not_shortest(numbers[2])}),
        MapDamage(3, "wrong count before a wrong coordinate", {0: 513, 1: LARGEST_NUMBER}),
        MapDamage(4, "wrong coordinate before a wrong count",
                  {2: LARGEST_NUMBER, line_count_index(depot_map): 0}),
        MapDamage(5, "equal ends before a wrong form",
                  {first_end: equal_ends, first_length: not_shortest(numbers[first_length])}),
        MapDamage(2, "end node in a wrong form with equal ends", {first_end: not_shortest(equal_ends)}),
        MapDamage(2, "count in a wrong form and outside its range", {0: b"\x80\x00"}),
        MapDamage(5, "wrong line field and a byte left over", {last_form: 8}, left_over=b"\x00"),
        MapDamage(3, "no lines and bytes left over", {line_count_index(depot_map): 0}, left_over=b"\x00"),
        MapDamage(2, "equal nodes and a byte left over", same_nodes, left_over=b"\x00"),
        MapDamage(5, "equal nodes and a wrong line field", {**same_nodes, last_form: 8}),
        MapDamage(5, "wrong line field before a wrong count of bans", {last_form: 8, ban_count: 513}),
        MapDamage(3, "wrong count of bans before a wrong form", {ban_count: 513, ban_count + 1: b"\x80\x00"}, bans=((0, 0),)),
        MapDamage(2, "count of bans in a wrong form and outside its range", {ban_count: b"\x81\x84\x00"}),
        MapDamage(2, "wrong pair before a wrong form", {ban_count + 3: b"\x80\x00"}, bans=((0, 0), (0, 0))),
        MapDamage(2, "wrong pair with a number too large", {ban_count + 2: write_number(LARGEST_NUMBER + 1)}, bans=((0, 0),)),
        MapDamage(2, "wrong pair and an early end", {ban_count: 2}, bans=((0, 0),)),
        MapDamage(2, "wrong pair and a byte left over", left_over=b"\x00", bans=((0, 0),)),
        MapDamage(6, "equal nodes and a wrong pair", same_nodes, bans=((0, 0),)),
        MapDamage(5, "wrong line field before a wrong step", {first_form: 8, first_step: 501}),
        MapDamage(24, "wrong step before a wrong count of bans", {last_step: 501, ban_count: 513}),
        MapDamage(24, "wrong step and a byte left over", {last_step: 501}, left_over=b"\x00"),
        MapDamage(24, "equal nodes and a wrong step", {**same_nodes, last_step: 501}),
        MapDamage(24, "wrong step and a wrong pair", {last_step: 501}, bans=((0, 0),)),
        MapDamage(4, "wrong coordinate before a wrong step", {latitude_index(1): LARGEST_NUMBER, first_step: 501}),
    ]


def steps_of_two_lines(depot_map):
    """With two lines or more: a wrong step of the first line, and a fault of another kind in the last."""
    if len(depot_map.lines) == 1:
        return []
    first_step = line_field_index(depot_map, 0, "step back north")
    last_form, last_step = (line_field_index(depot_map, len(depot_map.lines) - 1, name) for name in ("FOW", "step out east"))
    return [
        MapDamage(24, "wrong step before a wrong line field", {first_step: 501, last_form: 8}),
        MapDamage(24, "wrong step before a wrong form", {first_step: 501, last_step: b"\x80\x00"}),
        MapDamage(2, "wrong form before a wrong step", {first_step: b"\x80\x00", last_step: 501}),
    ]


def map_damages(depot_map):
    """All damages that are known for a map, refusals 2 to 6, 23 and 24."""
    return (form_damages(depot_map) + count_damages(depot_map) + coordinate_damages(depot_map) + line_damages(depot_map)
            + same_code_damages(depot_map) + ban_damages(depot_map) + two_map_damages(depot_map) + step_damages(depot_map)
            + step_form_damages(depot_map) + two_step_damages(depot_map) + steps_of_two_lines(depot_map))


def map_damage(depot_map, refusal, turn):
    """One of the damages that give a refusal, each in its turn."""
    damages = [damage for damage in map_damages(depot_map) if damage.refusal == refusal]
    return damages[turn % len(damages)]


@dataclass(frozen=True)
class ReferenceDamage:
    """Changed bytes of a good reference, and the refusal with its point or leg that follows."""
    refusal: int
    label: str
    reference: bytes
    place: int = None


def replaced(data, position, new_bytes):
    return data[:position] + new_bytes + data[position + len(new_bytes):]


def length_damages(reference):
    shortest = reference[:16]
    return [ReferenceDamage(12, f"{length} bytes", (reference * 30 + bytes(500))[:length])
            for length in (0, 15, 460, 461, 466)] + [
        ReferenceDamage(12, f"{length} bytes", (shortest + bytes(500))[:length])
        for length in (19, 22, 26, 29, 453, 456)]


def form_byte_damages(reference):
    """Refusals 13 to 15."""
    p_positions = p_byte_positions(len(reference))
    r_position = last_point_position(len(reference)) + 5
    damages = [ReferenceDamage(13, f"status byte {status:02X}", replaced(reference, 0, bytes([status])))
               for status in (0x00, 0x0A, 0x0C, 0x8B, 0x2B)]
    for place, position in (("first", p_positions[0]), ("last", p_positions[-1])):
        for bit in (6, 7):
            changed = replaced(reference, position, bytes([reference[position] | 1 << bit]))
            damages.append(ReferenceDamage(14, f"bit {bit} of the {place} P", changed))
    r_byte = reference[r_position]
    damages.append(ReferenceDamage(14, "bit 7 of R", replaced(reference, r_position, bytes([r_byte | 0x80]))))
    for name, bit in (("positive", 0x40), ("negative", 0x20)):
        label = f"{name} flag turned over"
        damages.append(ReferenceDamage(15, label, replaced(reference, r_position, bytes([r_byte ^ bit]))))
    return damages


def absent_pair(taken, width):
    """A pair of signed numbers of a width in bytes that is not among the taken ones."""
    value = 0
    while (value, value) in taken:
        value += 1
    return value.to_bytes(width, "big", signed=True) * 2


def point_damages(depot_map, reference, take=take_apart):
    """Refusal 16, at the first, the second and the last point."""
    nodes = point_nodes(depot_map, take(reference))
    codes = {(coordinate_code(node.longitude), coordinate_code(node.latitude)) for node in depot_map.nodes}
    damages = [ReferenceDamage(16, "first point", replaced(reference, 1, absent_pair(codes, 3)), 0)]
    for place, point, position in (("second", 1, 10),
                                   ("last", len(nodes) - 1, last_point_position(len(reference)))):
        previous = depot_map.nodes[nodes[point - 1]]
        taken = {differences(previous, node) for node in depot_map.nodes}
        changed = replaced(reference, position, absent_pair(taken, 2))
        damages.append(ReferenceDamage(16, f"{place} point", changed, point))
    return damages


def absent_sector(taken_marks, frc, fow):
    """A sector that no line among the taken marks has with this FRC and FOW, or None."""
    free = [sector for sector in range(32) if Marks(frc, fow, sector) not in taken_marks]
    return free[0] if free else None


def leg_damages(depot_map, reference, take=take_apart):
    """Refusal 17, at the first and the last leg: a sector that no line there has."""
    parts = take(reference)
    nodes = point_nodes(depot_map, parts)
    last_leg = len(parts.points) - 2
    p_positions = p_byte_positions(len(reference))
    damages = []
    for place, leg in (("first", 0), ("last", last_leg)):
        point = parts.points[leg]
        leaving = {marks_leaving(line) for line in depot_map.lines if line.start_node == nodes[leg]}
        sector = absent_sector(leaving, point.frc, point.fow)
        if sector is not None:
            changed = replaced(reference, p_positions[leg] + 1, bytes([point.lowest_frc * 32 + sector]))
            damages.append(ReferenceDamage(17, f"no first line on the {place} leg", changed, leg))
    end = parts.points[-1]
    arriving = {marks_arriving(line) for line in depot_map.lines if line.end_node == nodes[-1]}
    sector = absent_sector(arriving, end.frc, end.fow)
    if sector is not None:
        r_position = p_positions[-1] + 1
        changed = replaced(reference, r_position, bytes([reference[r_position] & 0xE0 | sector]))
        damages.append(ReferenceDamage(17, "no last line on the last leg", changed, last_leg))
    return damages


def reference_damages(depot_map, reference):
    """All damages that are known for a reference to a stretch that can be read, refusals 12 to 17."""
    return (length_damages(reference) + form_byte_damages(reference) + point_damages(depot_map, reference)
            + leg_damages(depot_map, reference))


def point_length_damages(reference):
    """Lengths that a point along a line does not have. References to stretches have some of them."""
    return [ReferenceDamage(12, f"{length} bytes", (reference + bytes(500))[:length]) for length in (0, 1, 15, 18, 19, 23, 24, 459, 460)]


def point_form_damages(reference):
    """Refusals 13 to 15 of a point along a line."""
    damages = [ReferenceDamage(13, f"status byte {status:02X}", replaced(reference, 0, bytes([status])))
               for status in (0x0B, 0x00, 0x23, 0x2A, 0x2C, 0x3B, 0x6B, 0xAB)]
    r_position = last_point_position(len(reference)) + 5
    r_byte = reference[r_position]
    for label, bits in (("bit 7 of R", 0x80), ("negative flag", 0x20), ("bit 7 of R and negative flag", 0xA0)):
        damages.append(ReferenceDamage(14, label, replaced(reference, r_position, bytes([r_byte | bits]))))
    damages.append(ReferenceDamage(15, "positive flag turned over", replaced(reference, r_position, bytes([r_byte ^ POSITIVE_FLAG]))))
    other_length = reference[:-1] if len(reference) == LONGEST_POINT_ALONG_LINE else reference + b"\x80"
    return damages + [ReferenceDamage(15, "of the other length", other_length)]


def point_along_line_damages(depot_map, reference):
    """All damages that are known for a point along a line that can be read, refusals 12 to 17."""
    return (point_length_damages(reference) + point_form_damages(reference) + point_damages(depot_map, reference, take_point_along_line)
            + leg_damages(depot_map, reference, take_point_along_line))
