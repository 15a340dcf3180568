//! The rows of readings out of a message, of stretches and of points, each beside the same reading by itself.
//! Every call goes by a pointer to a C function, on both sides: the caller is compiled with neither.

use std::fmt::Debug;
use std::hint::black_box;
use std::ops::Range;
use std::slice;

use plain::front::Front;
use plain::maps::push_number;
use plain::openlr::{PointAnswer, ReadingAnswer};
use plain::outcome::WORK_AREA;
use plain::point::{read_point, read_point_of_message};
use plain::reader::{read, read_of_message};

use crate::proved::{PROVED_POINT_READERS, PROVED_READERS};
use crate::{point_rows, reading_references, time_in_turn, Sample};

/// What a C function hands back at most.
const MOST_LINES: usize = 1_024;

/// Of the readings by itself, a short one and two long ones: legs and their lengths.
const REFERENCES: [(usize, u32); 3] = [(1, 120_000), (64, 15_000), (64, 120_000)];

type ByItself<Answer> =
    unsafe extern "C" fn(*const u8, usize, *const u8, usize, *mut u8, usize) -> Answer;

type OfMessage<Answer> = unsafe extern "C" fn(
    *const u8,
    usize,
    *const u8,
    usize,
    *const u8,
    usize,
    *mut u8,
    usize,
) -> Answer;

/// The two C functions of include/openlr.h that read a stretch, or a point.
#[derive(Clone, Copy)]
pub struct Readers<Answer> {
    pub by_itself: ByItself<Answer>,
    pub of_message: OfMessage<Answer>,
}

impl<Answer> Readers<Answer> {
    fn by_itself(&self, map: &[u8], reference: &[u8], buffer: &mut [u8]) -> Answer {
        let (buffer, room) = (buffer.as_mut_ptr(), buffer.len());
        let (reference, reference_len) = (reference.as_ptr(), reference.len());
        unsafe {
            (self.by_itself)(
                map.as_ptr(),
                map.len(),
                reference,
                reference_len,
                buffer,
                room,
            )
        }
    }

    /// The reference is a part of the message.
    fn of_message(
        &self,
        map: &[u8],
        message: &[u8],
        part: Range<usize>,
        buffer: &mut [u8],
    ) -> Answer {
        let (buffer, room) = (buffer.as_mut_ptr(), buffer.len());
        let reference = &message[part];
        unsafe {
            (self.of_message)(
                map.as_ptr(),
                map.len(),
                message.as_ptr(),
                message.len(),
                reference.as_ptr(),
                reference.len(),
                buffer,
                room,
            )
        }
    }
}

const PLAIN_READERS: Readers<ReadingAnswer> = Readers {
    by_itself: plain_read,
    of_message: plain_read_of_message,
};

const PLAIN_POINT_READERS: Readers<PointAnswer> = Readers {
    by_itself: plain_read_point,
    of_message: plain_read_point_of_message,
};

fn line_room(buffer_len: usize) -> usize {
    (buffer_len / 4).min(MOST_LINES)
}

fn put_lines(lines: &[u32], buffer: &mut [u8]) {
    let (places, _) = buffer.as_chunks_mut();
    for (line, place) in lines.iter().zip(places) {
        *place = line.to_le_bytes();
    }
}

/// Each pointer is valid for the length beside it, here and below.
unsafe extern "C" fn plain_read(
    map: *const u8,
    map_len: usize,
    reference: *const u8,
    reference_len: usize,
    line_buffer: *mut u8,
    line_buffer_len: usize,
) -> ReadingAnswer {
    let map = slice::from_raw_parts(map, map_len);
    let reference = slice::from_raw_parts(reference, reference_len);
    let outcome = read(map, reference, WORK_AREA, line_room(line_buffer_len));
    if let Ok(reading) = &outcome {
        let line_buffer = slice::from_raw_parts_mut(line_buffer, line_buffer_len);
        put_lines(&reading.lines, line_buffer);
    }
    ReadingAnswer::of(&outcome)
}

unsafe extern "C" fn plain_read_of_message(
    map: *const u8,
    map_len: usize,
    message: *const u8,
    message_len: usize,
    reference: *const u8,
    reference_len: usize,
    line_buffer: *mut u8,
    line_buffer_len: usize,
) -> ReadingAnswer {
    let map = slice::from_raw_parts(map, map_len);
    let message = slice::from_raw_parts(message, message_len);
    let reference = slice::from_raw_parts(reference, reference_len);
    let room = line_room(line_buffer_len);
    let outcome = read_of_message(map, message, reference, WORK_AREA, room);
    if let Ok(reading) = &outcome {
        let line_buffer = slice::from_raw_parts_mut(line_buffer, line_buffer_len);
        put_lines(&reading.lines, line_buffer);
    }
    ReadingAnswer::of(&outcome)
}

unsafe extern "C" fn plain_read_point(
    map: *const u8,
    map_len: usize,
    reference: *const u8,
    reference_len: usize,
    line_buffer: *mut u8,
    line_buffer_len: usize,
) -> PointAnswer {
    let map = slice::from_raw_parts(map, map_len);
    let reference = slice::from_raw_parts(reference, reference_len);
    let outcome = read_point(map, reference, WORK_AREA, line_room(line_buffer_len));
    if let Ok(reading) = &outcome {
        let line_buffer = slice::from_raw_parts_mut(line_buffer, line_buffer_len);
        put_lines(&reading.lines, line_buffer);
    }
    PointAnswer::of(&outcome)
}

unsafe extern "C" fn plain_read_point_of_message(
    map: *const u8,
    map_len: usize,
    message: *const u8,
    message_len: usize,
    reference: *const u8,
    reference_len: usize,
    line_buffer: *mut u8,
    line_buffer_len: usize,
) -> PointAnswer {
    let map = slice::from_raw_parts(map, map_len);
    let message = slice::from_raw_parts(message, message_len);
    let reference = slice::from_raw_parts(reference, reference_len);
    let room = line_room(line_buffer_len);
    let outcome = read_point_of_message(map, message, reference, WORK_AREA, room);
    if let Ok(reading) = &outcome {
        let line_buffer = slice::from_raw_parts_mut(line_buffer, line_buffer_len);
        put_lines(&reading.lines, line_buffer);
    }
    PointAnswer::of(&outcome)
}

/// What readings out of a message take of the time of readings by themselves.
pub struct Share {
    what: String,
    proved: [f64; 2],
    plain: [f64; 2],
}

impl Share {
    pub fn print(&self) {
        let text = |[of_message, by_itself]: [f64; 2]| {
            let ratio = of_message / by_itself;
            format!("{of_message:.2} / {by_itself:.2} = {ratio:.2}")
        };
        let (what, proved, plain) = (&self.what, text(self.proved), text(self.plain));
        println!("out of a message / by itself, {what}: proved {proved}, plain {plain}");
    }
}

/// The rows of one map. Gives what is said last of them.
pub fn print_rows(sample: &Sample) -> Vec<Share> {
    let stretches = REFERENCES.map(|(legs, leg_length)| {
        let references = reading_references(sample, legs, leg_length);
        let heading = format!("read, {}, legs {legs}", sample.name);
        print_row(sample, heading, references, [PROVED_READERS, PLAIN_READERS])
    });
    let points = point_rows::reading_references(sample).map(|references| {
        let heading = format!("read point, {}", sample.name);
        let readers = [PROVED_POINT_READERS, PLAIN_POINT_READERS];
        print_row(sample, heading, references, readers)
    });
    stretches.into_iter().chain(points).flatten().collect()
}

/// Of the references whose lines a C function hands back, if there are any. The proved functions and plain Rust, out
/// of a message and by itself, all take turns. Each comes straight after one of the other: a long reading straight after
/// the same one by the same code was up to a fifth faster, and so the two would not compare.
fn print_row<Answer: Copy + Debug + PartialEq>(
    sample: &Sample,
    heading: String,
    mut references: Vec<(Vec<u8>, Vec<u32>)>,
    [proved, plain]: [Readers<Answer>; 2],
) -> Option<Share> {
    references.retain(|(_, lines)| lines.len() <= MOST_LINES);
    if references.is_empty() {
        return None;
    }
    let lines: usize = references.iter().map(|(_, lines)| lines.len()).sum();
    let lines = lines / references.len();
    let (message, parts) = message_of(sample, &references);
    for (part, (_, lines)) in parts.iter().zip(&references) {
        check_readings(sample, &message, part, lines, &[proved, plain]);
    }
    let mut calls: [_; 4] = [
        (proved, true),
        (plain, true),
        (proved, false),
        (plain, false),
    ]
    .map(|(readers, is_of_message)| {
        let mut buffer = vec![0; 4 * MOST_LINES];
        let (message, parts) = (&message, &parts);
        move |input: usize| {
            let (readers, map, message) = black_box((&readers, &sample.bytes, message));
            let part = parts[input].clone();
            black_box(match is_of_message {
                true => readers.of_message(map, message, part, &mut buffer),
                false => readers.by_itself(map, &message[part], &mut buffer),
            });
        }
    });
    let calls = calls.each_mut().map(|call| call as &mut dyn FnMut(usize));
    let [of_message, plain_of_message, by_itself, plain_by_itself] =
        time_in_turn(calls, references.len());
    let what = format!("{heading}, lines {lines}");
    let ratio = of_message / plain_of_message;
    println!("{what}, out of a message | {of_message:.2} | {plain_of_message:.2} | {ratio:.2}");
    Some(Share {
        what,
        proved: [of_message, by_itself],
        plain: [plain_of_message, plain_by_itself],
    })
}

/// A message for the map with these references, and where they stand.
fn message_of(sample: &Sample, references: &[(Vec<u8>, Vec<u32>)]) -> (Vec<u8>, Vec<Range<usize>>) {
    let mut message = Front::of_map(&sample.bytes).bytes().to_vec();
    let mut parts = Vec::new();
    for (reference, _) in references {
        push_number(&mut message, reference.len() as u32);
        parts.push(message.len()..message.len() + reference.len());
        message.extend(reference);
    }
    (message, parts)
}

/// What is timed is a reading of these lines, with the same answer by all.
fn check_readings<Answer: Debug + PartialEq>(
    sample: &Sample,
    message: &[u8],
    part: &Range<usize>,
    lines: &[u32],
    readers: &[Readers<Answer>; 2],
) {
    let mut expected = vec![0; 4 * MOST_LINES];
    put_lines(lines, &mut expected);
    let map = &sample.bytes;
    let mut answers = Vec::new();
    for readers in readers {
        let mut buffers = [(); 2].map(|()| vec![0; 4 * MOST_LINES]);
        answers.push(readers.of_message(map, message, part.clone(), &mut buffers[0]));
        answers.push(readers.by_itself(map, &message[part.clone()], &mut buffers[1]));
        assert!(buffers.iter().all(|buffer| *buffer == expected));
    }
    assert!(
        answers.windows(2).all(|pair| pair[0] == pair[1]),
        "{answers:?}"
    );
}
