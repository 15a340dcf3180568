//! The points of a reference: where they stand in its bytes, and on the map; and its offset bytes, with
//! the legs that they are on.

use plain::depot_map::{DepotMap, Node};
use plain::fields::{
    place_of_p, MIDDLE_POINT_BYTES, NEGATIVE_FLAG, POSITIVE_FLAG, SHORTEST_REFERENCE,
};

/// Of the positive and of the negative offset.
const FLAGS: [u8; 2] = [POSITIVE_FLAG, NEGATIVE_FLAG];

pub fn legs(reference: &[u8]) -> usize {
    (reference.len() - SHORTEST_REFERENCE) / MIDDLE_POINT_BYTES + 1
}

/// From a point that has a node to the next, which need not have one.
#[derive(Clone, Copy)]
pub struct Hop {
    pub from: Node,
    /// Of longitude and latitude, as the bytes have them.
    pub differences: [i32; 2],
}

impl Hop {
    /// The longitude that the hop leads to before it is brought round.
    pub fn plain_longitude(&self) -> i32 {
        self.from.longitude + self.differences[0]
    }
}

/// The hops of a reference of 16 bytes at least, up to the first point without a node.
pub fn hops(map: &DepotMap, reference: &[u8]) -> Vec<Hop> {
    let code = |at: usize| {
        let bytes = [reference[at], reference[at + 1], reference[at + 2], 0];
        i32::from_be_bytes(bytes) >> 8
    };
    let mut hops = Vec::new();
    let mut node = map.node_with_codes(code(1), code(4));
    for point in 1..=legs(reference) {
        let Some(from) = node.map(|node| map.node(node)) else {
            break;
        };
        let differences = differences(reference, point);
        node = map.node_at(from.place_at(differences));
        hops.push(Hop { from, differences });
    }
    hops
}

/// They stand before P of a later point.
fn differences(reference: &[u8], point: usize) -> [i32; 2] {
    let end = place_of_p(point);
    [end - 4, end - 2].map(|at| {
        let bytes = [reference[at], reference[at + 1]];
        i32::from(i16::from_be_bytes(bytes))
    })
}

/// The positive and the negative offset byte of a reference with as many as it has flags.
pub fn offset_bytes(reference: &[u8]) -> [Option<u8>; 2] {
    let r = place_of_p(legs(reference)) + 1;
    let mut bytes = reference[r + 1..].iter().copied();
    FLAGS.map(|flag| match reference[r] & flag {
        0 => None,
        _ => bytes.next(),
    })
}

/// The reference with each of its offsets alone.
pub fn with_one_offset(reference: &[u8]) -> [Option<Vec<u8>>; 2] {
    let r = place_of_p(legs(reference)) + 1;
    let offset_bytes = offset_bytes(reference);
    [0, 1].map(|offset| {
        let byte = offset_bytes[offset]?;
        let mut bytes = [&reference[..=r], &[byte]].concat();
        bytes[r] = bytes[r] & !(POSITIVE_FLAG | NEGATIVE_FLAG) | FLAGS[offset];
        Some(bytes)
    })
}

/// The lengths of the first and of the last leg of a reference that stands for these lines. A leg before
/// the last ends where it first comes to its end: with more lines it would not be least.
pub fn end_legs(map: &DepotMap, reference: &[u8], lines: &[u32]) -> [u32; 2] {
    let mut first = None;
    let mut rest = lines;
    for hop in &hops(map, reference)[1..] {
        let is_last_line = |&line: &u32| map.node(map.line(line).end) == hop.from;
        let last_line = rest.iter().position(is_last_line);
        let (leg, behind) = rest.split_at(1 + last_line.expect("a leg ends at its point"));
        first = first.or(Some(leg));
        rest = behind;
    }
    [first.unwrap_or(rest), rest].map(|leg| total_length(map, leg))
}

pub fn total_length(map: &DepotMap, lines: &[u32]) -> u32 {
    lines.iter().map(|&line| map.line(line).length).sum()
}
