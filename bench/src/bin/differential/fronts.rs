//! Fronts of messages from a random source: for a map or beside it, and fronts that cannot be read.

use plain::depot_map::DepotMap;
use plain::front::Front;
use plain::hexadecimal::bytes;
use plain::maps::{number_parts, push_number, MapPlan, Xorshift};

use crate::inputs::random_bytes;

pub const MODULUS: u32 = 4_294_967_291;

/// As the paper says it, byte by byte.
pub fn sum_of(map: &[u8]) -> u32 {
    let add = |sum: u64, byte: &u8| (sum * 257 + u64::from(*byte)) % u64::from(MODULUS);
    map.iter().fold(0, add) as u32
}

pub fn front_of(map: &[u8]) -> Vec<u8> {
    front(map.len() as u32, sum_of(map))
}

/// Maps of one line, with sums of 0 and of 4: with the modulus added, these still have 32 bits. Their fronts have two
/// bytes.
const WITH_SMALL_SUMS: [&str; 2] = [
    "02B7BFEA0AC0A8A504DCBCCB06A8B0A504010001904E0303C203FA0132FA0100",
    "02AEFBE109C0A8A504B980BE0FA8B0A504010001904E0303C203FA0132FA0100",
];

pub fn map_with_small_sum(rng: &mut Xorshift) -> Vec<u8> {
    let digits: &&str = rng.pick(&WITH_SMALL_SUMS);
    bytes(digits).expect("they are digits")
}

/// With the modulus added to such a sum.
pub fn front_past_modulus(map: &[u8]) -> Vec<u8> {
    front(map.len() as u32, sum_of(map) + MODULUS)
}

fn front(map_count: u32, map_sum: u32) -> Vec<u8> {
    Front::new(map_count, map_sum).bytes().to_vec()
}

/// Of what a front was written, beside the map that a reference is read on.
#[derive(Clone, Copy, Debug, PartialEq, Eq)]
pub enum Written {
    ForTheMap,
    ForOneOtherByte,
    /// Its lines in another order.
    ForOneOfThatLength,
    ForOtherCount,
    ForOtherSum,
    ForSumPastModulus,
    ForAnything,
    Faulty,
}

pub const WRITTEN: [Written; 8] = [
    Written::ForTheMap,
    Written::ForOneOtherByte,
    Written::ForOneOfThatLength,
    Written::ForOtherCount,
    Written::ForOtherSum,
    Written::ForSumPastModulus,
    Written::ForAnything,
    Written::Faulty,
];

/// Half of them are for the map.
pub fn any_written(rng: &mut Xorshift) -> Written {
    match rng.below(2) {
        0 => Written::ForTheMap,
        _ => *rng.pick(&WRITTEN),
    }
}

pub fn front_written(rng: &mut Xorshift, map: &[u8], written: Written) -> Vec<u8> {
    let (count, sum) = (map.len() as u32, sum_of(map));
    match written {
        Written::ForTheMap => front(count, sum),
        Written::ForOneOtherByte => front_of(&with_one_other_byte(rng, map)),
        Written::ForOneOfThatLength => front_of(&of_that_length(rng, map)),
        Written::ForOtherCount => front(any_beside(rng, count), sum),
        Written::ForOtherSum => front(count, any_beside(rng, sum) % MODULUS),
        Written::ForSumPastModulus => front(count, rng.within(MODULUS, u32::MAX)),
        Written::ForAnything => any_front(rng),
        Written::Faulty => faulty_front(rng, count, sum),
    }
}

/// Where there is no byte, there is one then.
pub fn with_one_other_byte(rng: &mut Xorshift, map: &[u8]) -> Vec<u8> {
    let mut other = map.to_vec();
    match other.len() as u32 {
        0 => other.push(0),
        byte_count => {
            let places = [0, byte_count - 1, rng.below(byte_count)];
            let changes = [1, 2, 0x80, rng.within(1, 255) as u8];
            other[*rng.pick(&places) as usize] ^= *rng.pick(&changes);
        }
    }
    other
}

/// A map's lines in another order, if it can be read so far; else the bytes in another order.
pub fn of_that_length(rng: &mut Xorshift, map: &[u8]) -> Vec<u8> {
    if DepotMap::check(map).is_ok() {
        let mut plan = MapPlan::of_bytes(map);
        rng.shuffle(&mut plan.lines);
        return plan.encode();
    }
    let mut parts: Vec<&[u8]> = number_parts(map).collect();
    rng.shuffle(&mut parts);
    parts.concat()
}

fn any_beside(rng: &mut Xorshift, number: u32) -> u32 {
    let others = [
        number.wrapping_add(1),
        number.wrapping_sub(1),
        number ^ 0x80,
        number ^ 1 << rng.below(32),
        rng.draw() as u32,
    ];
    *rng.pick(&others)
}

/// At the edges of a number's bytes and of a sum.
const EDGES: [u32; 12] = [
    0,
    1,
    127,
    128,
    16_383,
    16_384,
    23_558,
    1 << 21,
    1 << 28,
    MODULUS - 1,
    MODULUS,
    u32::MAX,
];

/// Of any two numbers.
pub fn any_front(rng: &mut Xorshift) -> Vec<u8> {
    let mut any = || match rng.below(3) {
        0 => rng.draw() as u32,
        _ => *rng.pick(&EDGES),
    };
    let (count, sum) = (any(), any());
    front(count, sum)
}

/// One of the two numbers cannot be read, for each of the reasons; at times there are no bytes at all, or any.
pub fn faulty_front(rng: &mut Xorshift, count: u32, sum: u32) -> Vec<u8> {
    let mut numbers = [count, sum].map(|number| {
        let mut bytes = Vec::new();
        push_number(&mut bytes, number);
        bytes
    });
    let number = &mut numbers[rng.below(2) as usize];
    match rng.below(8) {
        0 | 1 => lengthen(rng, number),
        2 | 3 => make_too_large(rng, number),
        4 => return Vec::new(),
        5 => return random_bytes(rng, &[1, 2, 3, 10, 20]),
        _ => {
            let front = numbers.concat();
            return front[..rng.below(front.len() as u32) as usize].to_vec();
        }
    }
    numbers.concat()
}

/// Groups of no bits behind the last.
fn lengthen(rng: &mut Xorshift, number: &mut Vec<u8>) {
    if let Some(last) = number.last_mut() {
        *last |= 0x80;
    }
    number.extend(vec![0x80; rng.below(6) as usize]);
    number.push(0);
}

/// Cut off at 32 or at 64 bits, some are what they were.
fn make_too_large(rng: &mut Xorshift, number: &mut Vec<u8>) {
    let low_bits = match number.get(4) {
        Some(last) => last & 0x0F,
        None => 0,
    };
    if let Some(last) = number.last_mut() {
        *last |= 0x80;
    }
    number.resize(4, 0x80);
    match rng.below(4) {
        0 => number.push(low_bits | 0x10),
        1 => number.push(low_bits | 0x70),
        2 => number.extend([low_bits | 0x80, 1]),
        _ => number.extend([low_bits | 0x80, 0x80, 0x80, 0x80, 0x80, 2]),
    }
}
