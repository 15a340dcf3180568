//! The rows of messages: starting one, filling one in portions, additions by their length and at the edge of a length's
//! bytes, opening and closing, asking for the last reference, and a whole morning. Each whole message starts with a
//! front, for a small map, so that reading the map weighs little.
//! Every call goes by a pointer to a C function, on both sides: the caller is compiled with neither.

use std::hint::black_box;
use std::slice;

use plain::front::Front;
use plain::maps::{small_map, Xorshift};
use plain::message::{bytes_of_length, reference, Message, Part, State, LONGEST_MESSAGE};
use plain::outcome::WORK_AREA;

use crate::proved::PROVED_MESSAGES;
use crate::{Row, Sample};

/// The C functions of include/openlr.h for messages.
#[derive(Clone, Copy)]
pub struct MessageFunctions {
    pub start: unsafe extern "C" fn(*const u8, usize, *mut u8, usize) -> State,
    pub open: unsafe extern "C" fn(State) -> State,
    pub add: unsafe extern "C" fn(State, *mut u8, usize, *const u8, usize) -> State,
    pub close: unsafe extern "C" fn(State) -> State,
    pub reference: unsafe extern "C" fn(*const u8, usize, u32) -> Part,
}

impl MessageFunctions {
    fn start(&self, map: &[u8], buffer: &mut [u8]) -> State {
        let (buffer, room) = (buffer.as_mut_ptr(), buffer.len());
        unsafe { (self.start)(map.as_ptr(), map.len(), buffer, room) }
    }

    fn open(&self, state: State) -> State {
        unsafe { (self.open)(state) }
    }

    fn add(&self, state: State, buffer: &mut [u8], portion: &[u8]) -> State {
        let (buffer, room) = (buffer.as_mut_ptr(), buffer.len());
        unsafe { (self.add)(state, buffer, room, portion.as_ptr(), portion.len()) }
    }

    fn close(&self, state: State) -> State {
        unsafe { (self.close)(state) }
    }

    fn reference(&self, message: &[u8], number: u32) -> Part {
        unsafe { (self.reference)(message.as_ptr(), message.len(), number) }
    }
}

const PLAIN_MESSAGES: MessageFunctions = MessageFunctions {
    start: plain_start,
    open: plain_open,
    add: plain_add,
    close: plain_close,
    reference: plain_reference,
};

/// Each pointer is valid for the length beside it.
unsafe extern "C" fn plain_start(
    map: *const u8,
    map_len: usize,
    buffer: *mut u8,
    buffer_len: usize,
) -> State {
    let map = slice::from_raw_parts(map, map_len);
    let buffer = slice::from_raw_parts_mut(buffer, buffer_len);
    State::default().answered(Message::start(map, WORK_AREA, buffer))
}

extern "C" fn plain_open(state: State) -> State {
    state.answered(state.message().open())
}

/// Each pointer is valid for the length beside it.
unsafe extern "C" fn plain_add(
    state: State,
    buffer: *mut u8,
    buffer_len: usize,
    portion: *const u8,
    portion_len: usize,
) -> State {
    let buffer = slice::from_raw_parts_mut(buffer, buffer_len);
    let portion = slice::from_raw_parts(portion, portion_len);
    state.answered(state.message().add(buffer, portion))
}

extern "C" fn plain_close(state: State) -> State {
    state.answered(state.message().close())
}

/// The pointer is valid for the length.
unsafe extern "C" fn plain_reference(message: *const u8, message_len: usize, number: u32) -> Part {
    reference(slice::from_raw_parts(message, message_len), number)
}

/// Calls of one kind to a row, so that its microseconds are the nanoseconds of one.
const TIMES: usize = 1_000;

/// Of one portion, to a message that is filled and in single additions.
const PORTIONS: [usize; 4] = [1, 16, 64, 459];
const ADDITIONS: [usize; 7] = [1, 16, 64, 127, 128, 256, 459];

/// Lengths of references, for asking for the last of as many as a message holds.
const LENGTHS: [usize; 3] = [1, 16, 459];

/// Of one start.
pub fn print_start_row(sample: &Sample) {
    let map = &sample.bytes;
    let what = format!("start, {}, {} bytes", sample.name, map.len());
    row(what, |functions, buffer| {
        let state = functions.start(black_box(map), buffer);
        assert_eq!(state.refusal, 0, "there is room");
    });
}

pub fn print_rows() {
    let map = &small_map(1).encode();
    filling_rows(map);
    addition_rows();
    let opening = |functions: &MessageFunctions, _: &mut [u8]| {
        black_box(functions.open(black_box(closed_state(0))));
        black_box(functions.close(black_box(open_state(0, 16))));
    };
    repeated_row("openings and closings", opening);
    for length in LENGTHS {
        asking_row(map, length);
    }
    for (least, greatest) in [(16, 16), (16, 100), (459, 459)] {
        morning_row(map, least, greatest);
    }
}

fn closed_state(byte_count: u32) -> State {
    State {
        byte_count,
        ..State::default()
    }
}

fn open_state(byte_count: u32, added: u32) -> State {
    State {
        byte_count,
        open: 1,
        added,
        ..State::default()
    }
}

/// Times the same work with the proved functions and with plain Rust, each in a buffer of its own. Both must
/// leave the same bytes. Gives the two times.
fn row(what: String, work: impl Fn(&MessageFunctions, &mut [u8])) -> [f64; 2] {
    let mut buffers = [(); 2].map(|()| vec![0; LONGEST_MESSAGE]);
    work(&PROVED_MESSAGES, &mut buffers[0]);
    work(&PLAIN_MESSAGES, &mut buffers[1]);
    assert!(buffers[0] == buffers[1], "{what}");
    let [ours, plain] = &mut buffers;
    let row = Row {
        what: format!("message, {what}"),
        inputs: 1,
        ours: Box::new(|_| work(black_box(&PROVED_MESSAGES), ours)),
        plain: Box::new(|_| work(black_box(&PLAIN_MESSAGES), plain)),
    };
    row.print_times()
}

fn repeated_row(what: &str, work: impl Fn(&MessageFunctions, &mut [u8])) -> [f64; 2] {
    let many = |functions: &MessageFunctions, buffer: &mut [u8]| {
        for _ in 0..TIMES {
            work(functions, buffer);
        }
    };
    row(format!("{TIMES} {what}"), many)
}

/// Puts these references into a message for the map, each in portions of so many bytes. None is refused.
fn fill(
    functions: &MessageFunctions,
    buffer: &mut [u8],
    map: &[u8],
    references: &[Vec<u8>],
    portion: usize,
) -> State {
    let mut state = functions.start(map, buffer);
    for reference in references {
        state = functions.open(state);
        for portion in reference.chunks(portion) {
            state = functions.add(state, buffer, portion);
        }
        state = functions.close(state);
        assert_eq!(state.refusal, 0, "there is room");
    }
    state
}

/// How many bytes of a message for the map are left to references.
fn room_behind_front(map: &[u8]) -> usize {
    LONGEST_MESSAGE - Front::of_map(map).bytes().len()
}

/// References of lengths from the least to the greatest, as many as a message for the map holds.
fn references(map: &[u8], least: usize, greatest: usize) -> Vec<Vec<u8>> {
    let mut rng = Xorshift::new(1);
    let mut references = Vec::new();
    let mut left = room_behind_front(map);
    loop {
        let length = rng.within(least as u32, greatest as u32);
        let whole = bytes_of_length(length as usize) + length as usize;
        if whole > left {
            return references;
        }
        left -= whole;
        references.push((0..length).map(|_| rng.below(256) as u8).collect());
    }
}

fn filling_rows(map: &[u8]) {
    let mut references = references(map, 459, 459);
    // It takes what those of 459 bytes leave, and so has a length of two bytes.
    let left = room_behind_front(map) - 461 * references.len();
    references.push(vec![0xAA; left - 2]);
    for portion in PORTIONS {
        let what = format!("{LONGEST_MESSAGE} bytes in portions of {portion}");
        let times = row(what, |functions, buffer| {
            let state = fill(functions, buffer, map, &references, portion);
            assert_eq!(state, closed_state(LONGEST_MESSAGE as u32));
        });
        let [ours, plain] = times.map(|time| 1_000.0 * time / LONGEST_MESSAGE as f64);
        println!("message, in portions of {portion}: proved {ours:.2}, plain {plain:.2} ns a byte");
    }
}

/// The state that an addition is given stays, so that each is made anew.
fn additions_row(length: usize, state: State, behind: &str) -> [f64; 2] {
    let portion = vec![0xAA; length];
    repeated_row(
        &format!("additions of {length} {behind}"),
        |functions, buffer| {
            let added = functions.add(black_box(state), buffer, black_box(&portion));
            assert_eq!(added.refusal, 0, "there is room");
        },
    )
}

/// By how much a byte more costs it is seen whether the time is linear in the length.
fn addition_rows() {
    let times = ADDITIONS.map(|length| additions_row(length, open_state(0, 0), "to none"));
    for places in [[4, 5], [5, 6]] {
        let [from, to] = places.map(|place| ADDITIONS[place]);
        let [less, more] = places.map(|place| times[place]);
        let a_byte = |of: usize| 1_000.0 * (more[of] - less[of]) / (TIMES * (to - from)) as f64;
        let [ours, plain] = [0, 1].map(a_byte);
        println!("message, additions from {from} to {to}: proved {ours:.3}, plain {plain:.3} ns for a byte more");
    }
    additions_row(16, open_state(16_000, 0), "to none behind 16000");
    for added in [126, 127, 128] {
        additions_row(1, open_state(0, added), &format!("to {added}"));
    }
}

fn asking_row(map: &[u8], length: usize) {
    let references = references(map, length, length);
    let last = references.len() as u32 - 1;
    let mut message = vec![0; LONGEST_MESSAGE];
    let state = fill(&PLAIN_MESSAGES, &mut message, map, &references, length);
    message.truncate(state.byte_count as usize);
    let from = message.len() - length;
    let what = format!("asking for the last of {} of {length}", references.len());
    row(what, |functions, _| {
        let part = functions.reference(black_box(&message), black_box(last));
        assert_eq!(part.from as usize, from);
    });
}

/// Puts references into a message, each at once, and asks for each of them.
fn morning_row(map: &[u8], least: usize, greatest: usize) {
    let references = references(map, least, greatest);
    let count = references.len() as u32;
    let what = format!("a morning of {count}, {least} to {greatest} bytes");
    row(what, |functions, buffer| {
        let state = fill(functions, buffer, map, &references, greatest);
        let message = &buffer[..state.byte_count as usize];
        for (number, reference) in (0..).zip(&references) {
            let part = functions.reference(message, number);
            assert_eq!(part.byte_count as usize, reference.len());
        }
        assert_eq!(functions.reference(message, count).byte_count, 0);
    });
}
