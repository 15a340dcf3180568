//! The front of a message: the byte count of the map that it is written for, and a sum over that map's bytes
//! ("The wrong map").

use crate::map_sum::map_sum;
use crate::outcome::{Outcome, Refusal};

/// Of any 32-bit numbers. A map that is not refused has a count of three bytes at most.
const MOST_BYTES: usize = 10;

/// The bytes of a front.
pub struct Front {
    bytes: [u8; MOST_BYTES],
    byte_count: usize,
}

impl Front {
    /// Of a message for this map, which is not refused.
    #[inline]
    pub fn of_map(map_bytes: &[u8]) -> Front {
        Front::new(map_bytes.len() as u32, map_sum(map_bytes))
    }

    /// Of this byte count and this sum.
    #[inline]
    pub fn new(map_count: u32, map_sum: u32) -> Front {
        let mut front = Front {
            bytes: [0; MOST_BYTES],
            byte_count: 0,
        };
        front.put(map_count);
        front.put(map_sum);
        front
    }

    #[inline]
    pub fn bytes(&self) -> &[u8] {
        &self.bytes[..self.byte_count]
    }

    #[inline]
    fn put(&mut self, number: u32) {
        let mut rest = number;
        while rest >= 0x80 {
            self.put_byte(rest as u8 | 0x80);
            rest >>= 7;
        }
        self.put_byte(rest as u8);
    }

    #[inline]
    fn put_byte(&mut self, byte: u8) {
        self.bytes[self.byte_count] = byte;
        self.byte_count += 1;
    }
}

/// Refusal 30: the message does not start with the map's byte count and sum. A number has one form only, so their
/// bytes are all that need be compared.
#[inline]
pub fn check_front(map_bytes: &[u8], message: &[u8]) -> Outcome<()> {
    match message.starts_with(Front::of_map(map_bytes).bytes()) {
        true => Ok(()),
        false => Err(Refusal::OtherMap),
    }
}

/// How many bytes the front of a received message has, or none where it cannot be read.
#[inline]
pub fn front_length(message: &[u8]) -> Option<usize> {
    let count = number_length(message)?;
    let sum = number_length(&message[count..])?;
    Some(count + sum)
}

/// Of the number at the start. Its fifth byte has the last four of 32 bits.
#[inline]
fn number_length(bytes: &[u8]) -> Option<usize> {
    let last = bytes.iter().take(5).position(|&byte| byte < 0x80)?;
    match bytes[last] {
        0 if last > 0 => None,
        0x10.. if last == 4 => None,
        _ => Some(last + 1),
    }
}
