//! Points and their references from a random source.

use plain::depot_map::DepotMap;
use plain::fields::{place_of_p, NEGATIVE_FLAG, POINT_STATUS_BYTE, POSITIVE_FLAG, ZERO_BIT_OF_R};
use plain::maps::Xorshift;
use plain::point::{is_alone, point_bytes, Point};
use plain::writer::Stretch;

use crate::damages::damaged_reference;
use crate::inputs::{
    any_offsets, any_turns, below_leg, offset_at_edge, random_bytes, shortest_line, walk,
};

/// The greatest length of random bytes, and of a reference that is cut off or goes on.
const LONGEST: u32 = 20;

/// Over 3, and some of them not over 3 in their last bits.
const TOO_GREAT: [u32; 10] = [4, 4, 5, 7, 8, 255, 256, 259, 1 << 30, u32::MAX];

/// That of a stretch, that of a point with a bit changed, and none of its bits.
const STATUS_BYTES: [u8; 8] = [0x0B, 0x0B, 0xAB, 0x6B, 0x3B, 0x23, 0x2A, 0x00];

pub fn any_point(rng: &mut Xorshift, map: &DepotMap) -> Point {
    let line = any_line(rng, map);
    let length = map.lines.get(line as usize).map_or(1, |line| line.length);
    Point {
        line,
        offset: any_offset(rng, length),
        orientation: any_number(rng),
        side: any_number(rng),
    }
}

/// Mostly a line of the map, and often one that is not alone with its marks, if one is found.
fn any_line(rng: &mut Xorshift, map: &DepotMap) -> u32 {
    let count = map.lines.len() as u32;
    let some = [(); 4].map(|()| rng.below(count));
    let not_alone = some.into_iter().find(|&line| !is_alone(map, line));
    match rng.below(20) {
        0 => *rng.pick(&[count, count + 1, 1024, u32::MAX]),
        1..=7 => not_alone.unwrap_or(some[0]),
        _ => some[0],
    }
}

/// Mostly an orientation or a side.
fn any_number(rng: &mut Xorshift) -> u32 {
    match rng.below(20) {
        0 => *rng.pick(&TOO_GREAT),
        _ => rng.below(4),
    }
}

/// None, at the ends of the line and beyond, at the edges of an offset byte, or anything.
fn any_offset(rng: &mut Xorshift, length: u32) -> u32 {
    match rng.below(24) {
        0..=3 => 0,
        4 | 5 => 1,
        6 | 7 => length - 1,
        8 => length,
        9 => length + 1,
        10 => u32::MAX - rng.below(3),
        11..=15 => offset_at_edge(rng, length),
        _ => rng.below(length),
    }
}

/// Mostly the reference of a point that may be read.
pub fn any_point_reference(rng: &mut Xorshift, map: &DepotMap) -> Vec<u8> {
    let length = rng.below(LONGEST + 1);
    match rng.below(12) {
        0 => random_bytes(rng, &[length]),
        1 => [vec![POINT_STATUS_BYTE], random_bytes(rng, &[15, 16])].concat(),
        2 => {
            let mut bytes = composed_point(rng, map);
            bytes.resize(length as usize, rng.below(256) as u8);
            bytes
        }
        _ => composed_point(rng, map),
    }
}

/// The reference of a point along a walk, which need not be a reading.
fn composed_point(rng: &mut Xorshift, map: &DepotMap) -> Vec<u8> {
    let count = *rng.pick(&[1, 1, 2, 2, 3, 4, 6, 12]);
    let turns = any_turns(rng, 6);
    let lines = walk(rng, map, count, turns);
    let (positive, _) = any_offsets(rng, map, &lines);
    let positive = below_leg(positive, map, &lines);
    point_along(rng, map, &lines, positive)
}

fn point_along(rng: &mut Xorshift, map: &DepotMap, lines: &[u32], positive: u32) -> Vec<u8> {
    let stretch = Stretch {
        lines,
        positive,
        negative: 0,
    };
    point_bytes(map, &stretch, rng.below(4), rng.below(4))
}

/// A point along this many lines of a chain.
pub fn point_along_chain(rng: &mut Xorshift, map: &DepotMap, count: u32) -> Vec<u8> {
    let between = |node: u32| shortest_line(map, node, node + 1);
    let lines: Vec<u32> = (0..count).filter_map(between).collect();
    let positive = rng.below(2) * rng.below(10 * count);
    point_along(rng, map, &lines, positive)
}

/// The reference of a point with something changed. It may still be one.
pub fn damaged_point(rng: &mut Xorshift, map: &DepotMap, reference: &[u8]) -> Vec<u8> {
    let mut bytes = reference.to_vec();
    let r = place_of_p(1) + 1;
    match rng.below(8) {
        0 => bytes[0] = *rng.pick(&STATUS_BYTES),
        1 => bytes[r] |= *rng.pick(&[ZERO_BIT_OF_R, NEGATIVE_FLAG]),
        2 => bytes[r] ^= POSITIVE_FLAG,
        3 => {
            bytes[r] |= POSITIVE_FLAG;
            bytes.resize(r + 2, 0);
            let offsets = [0, 1, 128, 254, 255, rng.below(256)];
            bytes[r + 1] = *rng.pick(&offsets) as u8;
        }
        _ => return damaged_reference(rng, map, reference),
    }
    bytes
}
