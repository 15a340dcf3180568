//! Calls on messages, received messages and made-up states from a random source.

use plain::fields::LONGEST_REFERENCE;
use plain::maps::{push_number, Xorshift};
use plain::message::{bytes_of_length, usable, State, LONGEST_MESSAGE};
use plain::message_calls::Call;

use crate::damages::damaged_map;
use crate::fronts::{any_front, faulty_front, map_with_small_sum, with_one_other_byte};
use crate::inputs::{any_small_plan, full_size_plan, random_bytes};
use crate::message_calls::{History, MadeUpCall};

/// At the edges of a length's bytes, and the greatest.
const EDGE_LENGTHS: [u32; 8] = [1, 2, 126, 127, 128, 129, 458, 459];

/// Over 459. The last bits of most of them are those of a length.
const TOO_LONG: [u32; 8] = [460, 461, 511, 513, 587, 16_385, 65_541, u32::MAX];

/// What stands behind the first two groups of a number that is over 32 bits: groups of no bits, and the last
/// one. Cut off at 32 or 64 bits, the numbers are lengths.
const TOO_LARGE: [(usize, u8); 6] = [(2, 0x10), (2, 0x70), (3, 1), (6, 1), (7, 2), (20, 1)];

pub fn any_room(rng: &mut Xorshift) -> usize {
    let rooms = [
        rng.below(12),
        rng.below(60),
        rng.within(127, 133),
        rng.within(127, 133),
        rng.within(255, 264),
        rng.within(456, 466),
        rng.below(1_500),
    ];
    *rng.pick(&rooms) as usize
}

/// For messages of about 16,384 bytes.
pub fn any_large_room(rng: &mut Xorshift) -> usize {
    *rng.pick(&[16_383, 16_384, 16_385, 16_386, 16_500, 20_000])
}

/// A buffer that is about as long as a front.
pub fn any_tight_room(rng: &mut Xorshift) -> usize {
    rng.below(10) as usize
}

/// Maps for the starts of one history, some of which may be refused: two of any kind, one that differs from one of them
/// in one byte, and one with something changed.
pub fn any_maps(rng: &mut Xorshift) -> Vec<Vec<u8>> {
    let plan = any_small_plan(rng);
    let map = plan.encode();
    vec![
        with_one_other_byte(rng, &map),
        damaged_map(rng, &plan),
        any_small_plan(rng).encode(),
        map,
    ]
}

/// One with a short front and one of full size, whose front goes past a buffer that has a message with the other.
pub fn any_tight_maps(rng: &mut Xorshift) -> Vec<Vec<u8>> {
    let kind = u64::from(rng.below(20));
    let mut maps = vec![map_with_small_sum(rng), full_size_plan(rng, kind).encode()];
    if rng.below(2) == 0 {
        maps.extend(any_maps(rng));
    }
    maps
}

/// Mostly a call that goes on with the message. It starts one for one of these maps, if there are any.
pub fn any_call(rng: &mut Xorshift, history: &History, maps: &[Vec<u8>]) -> Call {
    let is_empty = history.message().added == Some(0);
    let start_every = if history.is_started() { 20 } else { 1 };
    if !maps.is_empty() && rng.below(start_every) == 0 {
        let map: &Vec<u8> = rng.pick(maps);
        return Call::start(map);
    }
    match (rng.below(20), history.message().added) {
        (0, _) => Call::Open,
        (1, _) => Call::Close,
        (2 | 3, _) => Call::Add(Vec::new()),
        (4, _) => Call::Add(any_portion(rng, history)),
        (5..=8, _) => Call::Ask(any_number(rng, history.references())),
        (_, None) => Call::Open,
        (9..=13, _) if !is_empty => Call::Close,
        _ => Call::Add(any_portion(rng, history)),
    }
}

/// A number of a list with so many references, or one behind it.
pub fn any_number(rng: &mut Xorshift, references: u32) -> u32 {
    match rng.below(8) {
        0 | 1 => references,
        2 => references + 1,
        3 => *rng.pick(&[u32::MAX, 1 << 31, 65_536 + references]),
        4 => references.saturating_sub(1),
        _ => rng.below(references + 1),
    }
}

/// Often to the end of the room or of the longest message, to an edge of a length's bytes or to 459, or one
/// byte less or more; and often one byte to 127.
fn any_portion(rng: &mut Xorshift, history: &History) -> Vec<u8> {
    let added = history.message().added.unwrap_or(0);
    if added == 127 && rng.below(2) == 0 {
        return random_bytes(rng, &[1]);
    }
    let length = match rng.below(12) {
        0..=4 => longest_that_fits(history),
        5 | 6 => *rng.pick(&EDGE_LENGTHS),
        7 => 127,
        8 => LONGEST_REFERENCE as u32,
        9 => added + rng.below(600),
        _ => added + rng.below(8),
    };
    let length = (length + rng.below(3)).saturating_sub(1);
    random_bytes(rng, &[length.saturating_sub(added)])
}

/// With its length, between the finished references and the end; of 129 bytes one stays free.
fn longest_that_fits(history: &History) -> u32 {
    let left = usable(history.room()) - history.message().byte_count as usize;
    let fits = |length: &usize| bytes_of_length(*length) + length <= left;
    (1..left).rev().find(fits).unwrap_or(0) as u32
}

/// A portion that takes a message nearly to 459 bytes at once, while there is room for more.
pub fn quick_portion(rng: &mut Xorshift, history: &History) -> Option<Vec<u8>> {
    let length = LONGEST_REFERENCE as u32 - rng.below(30) * rng.below(3);
    let has_room = longest_that_fits(history) > length + 300;
    has_room.then(|| random_bytes(rng, &[length]))
}

/// A reference in two portions, one of which may be empty.
pub fn portions(rng: &mut Xorshift, reference: &[u8]) -> [Vec<u8>; 2] {
    let place = rng.below(reference.len() as u32 + 1) as usize;
    [&reference[..place], &reference[place..]].map(<[u8]>::to_vec)
}

/// A front, mostly one that can be read, then references, and often something behind them that stops the list.
pub fn any_received(rng: &mut Xorshift) -> Vec<u8> {
    let mut message = match rng.below(8) {
        0 => {
            let front = faulty_front(rng, 35, 1 << 30);
            if rng.below(2) == 0 {
                return front;
            }
            front
        }
        _ => any_front(rng),
    };
    match rng.below(16) {
        0 => return random_bytes(rng, &[0, 1, 2, 3, 8, 300]),
        1 => return any_longest(rng, message),
        _ => {
            for _ in 0..rng.below(6) {
                push_any_reference(rng, &mut message);
            }
        }
    }
    if rng.below(4) != 0 {
        push_any_stop(rng, &mut message);
    }
    if rng.below(8) == 0 && !message.is_empty() {
        let place = rng.below(message.len() as u32) as usize;
        message[place] = rng.below(256) as u8;
    }
    message
}

fn push_any_reference(rng: &mut Xorshift, message: &mut Vec<u8>) {
    let length = match rng.below(4) {
        0 => *rng.pick(&EDGE_LENGTHS),
        _ => rng.within(1, 40),
    };
    push_reference(rng, message, length as usize);
}

fn push_reference(rng: &mut Xorshift, message: &mut Vec<u8>, length: usize) {
    push_number(message, length as u32);
    message.extend(random_bytes(rng, &[length as u32]));
}

/// A number that is no length, or an early end. Behind most of them the list could go on.
fn push_any_stop(rng: &mut Xorshift, message: &mut Vec<u8>) {
    let length = *rng.pick(&EDGE_LENGTHS);
    let groups = [length as u8 | 0x80, (length >> 7) as u8 | 0x80];
    match rng.below(6) {
        0 => message.push(0),
        1 => push_number(message, *rng.pick(&TOO_LONG)),
        2 => {
            message.extend(&groups[..rng.within(1, 2) as usize]);
            message.extend(vec![0x80; rng.below(8) as usize]);
            message.push(0);
        }
        3 => {
            let (zeros, last) = *rng.pick(&TOO_LARGE);
            message.extend(groups);
            message.extend(vec![0x80; zeros]);
            message.push(last);
        }
        4 => {
            let count = rng.within(1, 6) as usize;
            message.extend([&groups[..], &[0x80; 4]].concat().iter().take(count));
            return;
        }
        _ => {
            push_number(message, length);
            let counts = [length - 1, rng.below(length)];
            message.extend(random_bytes(rng, &counts));
            return;
        }
    }
    message.extend(random_bytes(rng, &[0, length, length]));
    push_any_reference(rng, message);
}

/// A message of 16,384 bytes or a few less behind this front, and often more references behind them.
fn any_longest(rng: &mut Xorshift, mut message: Vec<u8>) -> Vec<u8> {
    let left = *rng.pick(&[0, 0, 1, 1, 2, 3, 129, 130]);
    fill(rng, &mut message, LONGEST_MESSAGE - left);
    for _ in 0..rng.below(4) {
        let length = *rng.pick(&EDGE_LENGTHS) as usize;
        push_reference(rng, &mut message, length);
    }
    message
}

/// References up to just so many bytes, not close to where it starts. None has 129 with its length.
fn fill(rng: &mut Xorshift, message: &mut Vec<u8>, byte_count: usize) {
    while message.len() < byte_count {
        let length = match byte_count - message.len() {
            left @ 2..=128 => left - 1,
            left @ 130..=461 => left - 2,
            129 => 1,
            left if left > 1_000 => rng.within(300, 459) as usize,
            _ => 198,
        };
        push_reference(rng, message, length);
    }
}

/// A call that changes a message, with any state.
pub fn any_made_up(rng: &mut Xorshift) -> MadeUpCall {
    let room = match rng.below(10) {
        0 => any_large_room(rng),
        _ => any_room(rng),
    };
    let portion = random_bytes(rng, &[0, 1, 1, 2, 127, 128, 129, 330, 459, 460, 1_000]);
    MadeUpCall {
        room,
        state: any_state(rng, room as u32),
        call: match rng.below(4) {
            0 => Call::Open,
            1 => Call::Close,
            _ => Call::Add(portion),
        },
    }
}

/// Any numbers, and those that a call might take too far.
fn any_state(rng: &mut Xorshift, room: u32) -> State {
    let byte_counts = [
        0,
        1,
        rng.below(room + 1),
        room.saturating_sub(1),
        room,
        room + 1,
        16_383,
        16_384,
        16_385,
        1 << 31,
        u32::MAX - rng.below(600),
    ];
    let inside = rng.below(room + 1);
    let edges = [0, 1, 126, 127, 128, 129, 458, 459, 460];
    let others = [inside, inside, 1 << 31, u32::MAX - rng.below(600)];
    State {
        refusal: *rng.pick(&[0, 27, 28, u32::MAX]),
        byte_count: *rng.pick(&byte_counts),
        open: *rng.pick(&[0, 1, 1, 1, 2, 1 << 31, u32::MAX]),
        added: *rng.pick(&[&edges[..], &others].concat()),
    }
}
