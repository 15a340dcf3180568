//! Maps and references with something changed.

use plain::depot_map::{Ban, DepotMap};
use plain::fields::{
    coordinate_code, place_of_p, LONGEST_LINE, NEGATIVE_FLAG, POSITIVE_FLAG, SHORTEST_REFERENCE,
};
use plain::maps::{number_parts, push_number, MapPlan, Xorshift, LINE_NUMBERS, PAIR_NUMBERS};

use crate::inputs::{random_bytes, EASTERNMOST, EDGE_LENGTHS, MOST_BANS, WESTERNMOST};
use crate::points::{hops, legs, Hop};

/// At the edges of the ranges of a map's numbers.
#[rustfmt::skip]
const EDGE_NUMBERS: [u32; 21] = [
    0, 1, 2, 7, 8, 250, 500, 501, 511, 512, 513, 1024, 1025, LONGEST_LINE, LONGEST_LINE + 1,
    18_000_000, 18_000_001, 35_999_998, 35_999_999, 36_000_000, u32::MAX,
];

/// No lengths of lines. The last is too long by one alone.
const NO_LENGTHS: [u32; 4] = [0, u32::MAX, 10 * LONGEST_LINE, LONGEST_LINE + 1];

/// A step of 0 as it is stored, and steps that are out of range.
const NO_STEP: u32 = 250;
const TOO_FAR: [u32; 5] = [501, 502, 511, 512, u32::MAX];

/// The bytes of a map with something changed. They may still be those of a map.
pub fn damaged_map(rng: &mut Xorshift, plan: &MapPlan) -> Vec<u8> {
    let mut bytes = plan.encode();
    let part = any_part(rng, plan);
    match rng.below(12) {
        0 => change_bytes(rng, &mut bytes[part..]),
        1 => bytes.truncate(part + rng.below((bytes.len() - part) as u32) as usize),
        2 => bytes.extend(random_bytes(rng, &[1, 2, 7])),
        3 => return with_same_codes(rng, plan),
        4 => return with_no_turn(rng, plan),
        5 => bytes = random_bytes(rng, &[0, 1, 2, 10, 60]),
        6 | 7 => return with_faulty_steps(rng, plan),
        8 => return with_other_lengths(rng, plan),
        _ => return with_other_numbers(rng, plan),
    }
    bytes
}

/// The start of the whole map or of the bans.
fn any_part(rng: &mut Xorshift, plan: &MapPlan) -> usize {
    let without_bans = MapPlan {
        bans: Vec::new(),
        ..plan.clone()
    };
    *rng.pick(&[0, without_bans.encode().len() - 1])
}

fn change_bytes(rng: &mut Xorshift, bytes: &mut [u8]) {
    for _ in 0..rng.within(1, 2) {
        let at = rng.below(bytes.len() as u32) as usize;
        match rng.below(2) {
            0 => bytes[at] ^= 1 << rng.below(8),
            _ => bytes[at] = rng.below(256) as u8,
        }
    }
}

/// A node moved to another, or next to it; at times with a ban of no turn as well.
fn with_same_codes(rng: &mut Xorshift, plan: &MapPlan) -> Vec<u8> {
    let mut plan = plan.clone();
    move_node_to_another(rng, &mut plan);
    match rng.below(4) {
        0 => with_no_turn(rng, &plan),
        _ => plan.encode(),
    }
}

fn move_node_to_another(rng: &mut Xorshift, plan: &mut MapPlan) {
    let mut place = *rng.pick(&plan.nodes);
    place.longitude += rng.below(3) as i32 - 1;
    place.latitude += rng.below(3) as i32 - 1;
    let moved = rng.below(plan.nodes.len() as u32) as usize;
    plan.nodes[moved] = place;
}

/// One ban more, or where there is no room in place of another, of lines that need not meet or of no
/// line.
fn with_no_turn(rng: &mut Xorshift, plan: &MapPlan) -> Vec<u8> {
    let mut plan = plan.clone();
    let line_count = plan.lines.len() as u32;
    let mut ban = Ban {
        line: rng.below(line_count),
        next: rng.below(line_count),
    };
    let no_line = *rng.pick(&[line_count, line_count + 1, 1024, u32::MAX]);
    match rng.below(4) {
        0 => ban.line = no_line,
        1 => ban.next = no_line,
        _ => {}
    }
    let place = rng.below(plan.bans.len() as u32 + 1) as usize;
    if plan.bans.len() < MOST_BANS {
        plan.bans.insert(place, ban);
    } else {
        plan.bans[place % MOST_BANS] = ban;
    }
    plan.encode()
}

/// One to three lines become as long as an edge, and half of the times one of them cannot be.
fn with_other_lengths(rng: &mut Xorshift, plan: &MapPlan) -> Vec<u8> {
    let mut plan = plan.clone();
    let line_count = plan.lines.len() as u32;
    let mut last = 0;
    for _ in 0..rng.within(1, 3) {
        last = rng.below(line_count) as usize;
        plan.lines[last].length = *rng.pick(&EDGE_LENGTHS);
    }
    if rng.below(2) == 0 {
        plan.lines[last].length = *rng.pick(&NO_LENGTHS);
    }
    plan.encode()
}

/// One of the counts, coordinates, fields and bans becomes another number, or some do.
fn with_other_numbers(rng: &mut Xorshift, plan: &MapPlan) -> Vec<u8> {
    let mut numbers = all_numbers(plan);
    let (nodes, lines) = (plan.nodes.len() as u32, plan.lines.len() as u32);
    let count_of_lines = 1 + 2 * nodes;
    let line_numbers = LINE_NUMBERS as u32 * lines;
    let count_of_bans = count_of_lines + 1 + line_numbers;
    for _ in 0..*rng.pick(&[1, 1, 3]) {
        let place = match rng.below(10) {
            0 => 0,
            1 => count_of_lines,
            2 => count_of_bans,
            3..=5 => rng.within(1, 2 * nodes),
            6 => rng.within(count_of_bans, numbers.len() as u32 - 1),
            _ => count_of_lines + rng.within(1, line_numbers),
        };
        let number = &mut numbers[place as usize];
        *number = other_number(rng, number);
    }
    numbers.concat()
}

/// Mostly a number at an edge; else a form that is not the shortest, or one that holds too much.
fn other_number(rng: &mut Xorshift, number: &[u8]) -> Vec<u8> {
    let mut other = Vec::new();
    match rng.below(8) {
        0 => {
            let continued = number.iter().map(|byte| byte | 0x80);
            other.extend(continued.chain([0]));
        }
        1 => other.extend([0x80, 0x80, 0x80, 0x80, 0x10]),
        2 => other.extend([0xFF, 0xFF, 0xFF, 0xFF, 0x8F, 0x01]),
        _ => push_number(&mut other, *rng.pick(&EDGE_NUMBERS)),
    }
    other
}

fn all_numbers(plan: &MapPlan) -> Vec<Vec<u8>> {
    let bytes = plan.encode();
    number_parts(&bytes).map(<[u8]>::to_vec).collect()
}

fn number(value: u32) -> Vec<u8> {
    let mut bytes = Vec::new();
    push_number(&mut bytes, value);
    bytes
}

/// A pair of steps out of range or both 0, at times with a north step in no right form or with none.
/// Then nodes may have the same codes as well, and the numbers behind the pair may be faulty.
fn with_faulty_steps(rng: &mut Xorshift, plan: &MapPlan) -> Vec<u8> {
    let mut plan = plan.clone();
    if rng.below(4) == 0 {
        move_node_to_another(rng, &mut plan);
    }
    let mut numbers = all_numbers(&plan);
    let (east, north) = places_of_steps(rng, &plan);
    if rng.below(4) == 0 {
        let behind = rng.within(north as u32 + 1, numbers.len() as u32 - 1) as usize;
        numbers[behind] = other_number(rng, &numbers[behind]);
    }
    let too_far = number(*rng.pick(&TOO_FAR));
    match rng.below(6) {
        0 => numbers[east] = too_far,
        1 => numbers[north] = too_far,
        2 => numbers[east..=north].fill(number(NO_STEP)),
        3 => {
            numbers[east] = number(NO_STEP);
            numbers[north] = other_number(rng, &number(NO_STEP));
        }
        4 => {
            numbers[east] = too_far;
            numbers[north] = other_number(rng, &number(NO_STEP));
        }
        _ => {
            numbers[east] = too_far;
            numbers.truncate(north);
        }
    }
    numbers.concat()
}

/// Where the east and the north step of some pair stand among the numbers of the map.
fn places_of_steps(rng: &mut Xorshift, plan: &MapPlan) -> (usize, usize) {
    let line = rng.below(plan.lines.len() as u32) as usize;
    let next_line = 2 + 2 * plan.nodes.len() + LINE_NUMBERS * (line + 1);
    let east = next_line - PAIR_NUMBERS * rng.within(1, 2) as usize;
    (east, east + 1)
}

/// A reference with something changed, once or twice. It may still be one.
pub fn damaged_reference(rng: &mut Xorshift, map: &DepotMap, reference: &[u8]) -> Vec<u8> {
    let mut bytes = reference.to_vec();
    damage_reference(rng, map, &mut bytes);
    if rng.below(4) == 0 && bytes.len() >= SHORTEST_REFERENCE {
        damage_reference(rng, map, &mut bytes);
    }
    bytes
}

fn damage_reference(rng: &mut Xorshift, map: &DepotMap, bytes: &mut Vec<u8>) {
    match rng.below(13) {
        0 => change_bytes(rng, bytes),
        1 => bytes.truncate(rng.below(bytes.len() as u32) as usize),
        2 => bytes.extend(random_bytes(rng, &[1, 2, 3, 7, 460])),
        3 => change_offsets(rng, bytes),
        4 => move_first_point(rng, map, bytes),
        5 => move_point(rng, map, bytes),
        6 => move_point_to_meridian(rng, map, bytes),
        _ => change_field(rng, bytes),
    }
}

/// Marks, the lowest class, D or the bits that must be zero.
fn change_field(rng: &mut Xorshift, bytes: &mut [u8]) {
    let leg = rng.below(legs(bytes) as u32) as usize;
    let (p, last_p) = (place_of_p(leg), place_of_p(legs(bytes)));
    let (q, d, r) = (p + 1, p + 2, last_p + 1);
    match rng.below(8) {
        0 => bytes[d] = rng.below(256) as u8,
        1 => bytes[d] = bytes[d].wrapping_add(1),
        2 => bytes[d] = bytes[d].wrapping_sub(1),
        3 => bytes[q] = bytes[q] & 0x1F | (rng.below(8) << 5) as u8,
        4 => bytes[q] ^= 1 << rng.below(5),
        5 => bytes[*rng.pick(&[p, last_p])] ^= 1 << rng.below(6),
        6 => bytes[*rng.pick(&[p, last_p])] ^= 1 << rng.within(6, 7),
        _ => bytes[r] ^= *rng.pick(&[0x80, POSITIVE_FLAG, NEGATIVE_FLAG, 1]),
    }
}

/// Other flags, with as many offset bytes, at the edges or anything. Two bytes are often 256 or 257 together:
/// with 257 the least offsets may just be the total.
pub fn change_offsets(rng: &mut Xorshift, bytes: &mut Vec<u8>) {
    let r = place_of_p(legs(bytes)) + 1;
    let flags = *rng.pick(&[POSITIVE_FLAG, NEGATIVE_FLAG, POSITIVE_FLAG | NEGATIVE_FLAG]);
    bytes.truncate(r + 1);
    bytes[r] = bytes[r] & 0x1F | flags;
    for _ in 0..flags.count_ones() {
        let offsets = [0, 1, 2, 127, 128, 254, 255, rng.below(256)];
        bytes.push(*rng.pick(&offsets) as u8);
    }
    if let ([positive, negative], 0) = (&mut bytes[r + 1..], rng.below(2)) {
        *negative = (rng.below(2) as u8).wrapping_sub(*positive);
    }
}

/// The first point takes the codes of some node.
fn move_first_point(rng: &mut Xorshift, map: &DepotMap, bytes: &mut [u8]) {
    let node = rng.pick(&map.nodes);
    for (place, coordinate) in [(1, node.longitude), (4, node.latitude)] {
        let code = coordinate_code(coordinate).to_be_bytes();
        bytes[place..place + 3].copy_from_slice(&code[1..]);
    }
}

/// A later point moves by what lies between two nodes. Those after it stay.
fn move_point(rng: &mut Xorshift, map: &DepotMap, bytes: &mut [u8]) {
    let (from, to) = (*rng.pick(&map.nodes), *rng.pick(&map.nodes));
    let point = rng.within(1, legs(bytes) as u32) as usize;
    move_point_by(bytes, point, from.differences_to(to));
}

/// A later point moves to the 180th meridian, unless that is too far, or beside a node. Those after it
/// stay.
fn move_point_to_meridian(rng: &mut Xorshift, map: &DepotMap, bytes: &mut [u8]) {
    let hops = hops(map, bytes);
    if hops.is_empty() {
        return move_point(rng, map, bytes);
    }
    let place = rng.below(hops.len() as u32) as usize;
    let Hop { from, differences } = hops[place];
    let mut to = from.place_at(differences);
    let node = *rng.pick(&map.nodes);
    to.latitude = *rng.pick(&[to.latitude, node.latitude]);
    to.longitude = *rng.pick(&[EASTERNMOST, EASTERNMOST + 1, WESTERNMOST]);
    if i16::try_from(from.differences_to(to)[0]).is_err() || rng.below(4) == 0 {
        to.longitude = node.longitude + *rng.pick(&[-1, 1]);
    }
    let [longitude, latitude] = from.differences_to(to);
    let way = [longitude - differences[0], latitude - differences[1]];
    move_point_by(bytes, place + 1, way);
}

fn move_point_by(bytes: &mut [u8], point: usize, way: [i32; 2]) {
    add_to_differences(bytes, point, way);
    if point < legs(bytes) {
        add_to_differences(bytes, point + 1, way.map(i32::wrapping_neg));
    }
}

fn add_to_differences(bytes: &mut [u8], point: usize, way: [i32; 2]) {
    let end = place_of_p(point);
    let (pairs, _) = bytes[end - 4..end].as_chunks_mut();
    for (pair, way) in pairs.iter_mut().zip(way) {
        *pair = i16::from_be_bytes(*pair)
            .wrapping_add(way as i16)
            .to_be_bytes();
    }
}
