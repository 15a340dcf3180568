//! The front of a message as the paper says it, byte by byte and group by group.

use plain::maps::push_number;

pub fn sum_of(map: &[u8]) -> u64 {
    map.iter().fold(0, |sum, byte| {
        (sum * 257 + u64::from(*byte)) % 4_294_967_291
    })
}

/// Of any two numbers.
pub fn front(count: u32, sum: u32) -> Vec<u8> {
    let mut front = Vec::new();
    push_number(&mut front, count);
    push_number(&mut front, sum);
    front
}

pub fn front_of(map: &[u8]) -> Vec<u8> {
    front(map.len() as u32, sum_of(map) as u32)
}
