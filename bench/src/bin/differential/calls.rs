//! A call of a C function, and what the plain Rust says that it gives.

use std::fmt::{self, Debug};

use plain::hexadecimal::{bytes, digits};
use plain::openlr::{ReadingAnswer, WrittenAnswer};
use plain::outcome::{Outcome, Reading, Refusal, Written, WORK_AREA};
use plain::{reader, writer};

use crate::c_functions;
use crate::memory::Memory;

/// A list of more lines is refused, however long the buffer.
pub const MOST_LINES_READ: usize = 1024;

#[derive(Clone, Copy)]
pub struct ReadCall<'a> {
    pub map: &'a [u8],
    pub reference: &'a [u8],
    /// In bytes.
    pub room: usize,
}

#[derive(Clone, Copy)]
pub struct WriteCall<'a> {
    pub map: &'a [u8],
    /// Four bytes a line, low byte first.
    pub stretch: &'a [u8],
    pub pos: u32,
    pub neg: u32,
    pub tests: u32,
    pub room: usize,
}

impl ReadCall<'_> {
    /// The outcome that both agree on, or how they differ.
    pub fn compare(&self) -> Result<Outcome<Reading>, String> {
        self.compare_within(self.reference, 0)
    }

    /// The C function reads the reference where it stands in a message, from this byte on.
    pub fn compare_within(&self, message: &[u8], from: usize) -> Result<Outcome<Reading>, String> {
        let outcome = reader::read(self.map, self.reference, WORK_AREA, line_room(self.room));
        let (answer, result) = expected_reading(&outcome);
        let memory = Memory::new(self.map, message, self.room);
        let part = from..from + self.reference.len();
        let read = |memory: &mut Memory| c_functions::read(memory, part);
        compare(read, memory, &result, answer)?;
        Ok(outcome)
    }

    /// Of a row as it is displayed.
    pub fn compare_row(row: &str) -> Option<Result<(), String>> {
        let mut words = row.strip_prefix("read ")?.split_ascii_whitespace();
        let (map, reference) = (bytes(words.next()?)?, bytes(words.next()?)?);
        let call = ReadCall {
            map: &map,
            reference: &reference,
            room: words.next()?.parse().ok()?,
        };
        Some(call.compare().map(drop))
    }
}

impl WriteCall<'_> {
    /// The outcome that both agree on, or how they differ.
    pub fn compare(&self) -> Result<Outcome<Written>, String> {
        let (pos, neg, tests) = (self.pos, self.neg, self.tests);
        let lines = line_numbers(self.stretch);
        let outcome = writer::write(self.map, &lines, pos, neg, tests, WORK_AREA, self.room);
        let (answer, result) = match &outcome {
            Ok(written) => (written_answer(written), written.reference.as_slice()),
            Err(refusal) => (written_refusal(*refusal), [].as_slice()),
        };
        let memory = Memory::new(self.map, self.stretch, self.room);
        let write = |memory: &mut Memory| c_functions::write(memory, pos, neg, tests);
        compare(write, memory, result, answer)?;
        Ok(outcome)
    }

    /// Of a row as it is displayed.
    pub fn compare_row(row: &str) -> Option<Result<(), String>> {
        let mut words = row.strip_prefix("write ")?.split_ascii_whitespace();
        let (map, stretch) = (bytes(words.next()?)?, bytes(words.next()?)?);
        let call = WriteCall {
            map: &map,
            stretch: &stretch,
            pos: words.next()?.parse().ok()?,
            neg: words.next()?.parse().ok()?,
            tests: words.next()?.parse().ok()?,
            room: words.next()?.parse().ok()?,
        };
        Some(call.compare().map(drop))
    }
}

/// How many lines a buffer of so many bytes has room for.
pub fn line_room(room: usize) -> usize {
    (room / 4).min(MOST_LINES_READ)
}

/// Calls a C function on the memory. It must give this answer, put this result first in the buffer
/// and change nothing else.
pub fn compare<Answer: Debug + PartialEq>(
    call: impl FnOnce(&mut Memory) -> Answer,
    mut memory: Memory,
    result: &[u8],
    expected: Answer,
) -> Result<(), String> {
    let mut expected_memory = memory.clone();
    expected_memory.buffer.put_first(result);
    let answer = call(&mut memory);
    check_answer(answer, expected)?;
    memory.check(&expected_memory)
}

pub fn check_answer<Answer: Debug + PartialEq>(
    answer: Answer,
    expected: Answer,
) -> Result<(), String> {
    if answer != expected {
        return Err(format!("C: {answer:?}\nplain Rust: {expected:?}"));
    }
    Ok(())
}

/// What C answers to a reading, and what it puts into the line buffer.
pub fn expected_reading(outcome: &Outcome<Reading>) -> (ReadingAnswer, Vec<u8>) {
    let lines = outcome.as_ref().map(|reading| line_bytes(&reading.lines));
    (ReadingAnswer::of(outcome), lines.unwrap_or_default())
}

fn written_answer(written: &Written) -> WrittenAnswer {
    WrittenAnswer {
        refusal: 0,
        byte_count: written.reference.len() as u32,
        tests: written.tests,
        excess: written.excess,
    }
}

fn written_refusal(refusal: Refusal) -> WrittenAnswer {
    WrittenAnswer {
        refusal: refusal.number(),
        ..WrittenAnswer::default()
    }
}

pub fn line_bytes(lines: &[u32]) -> Vec<u8> {
    lines.iter().flat_map(|line| line.to_le_bytes()).collect()
}

/// A stretch whose count of bytes is no multiple of four holds no line.
pub fn line_numbers(stretch: &[u8]) -> Vec<u32> {
    let (lines, []) = stretch.as_chunks() else {
        return Vec::new();
    };
    lines.iter().map(|&line| u32::from_le_bytes(line)).collect()
}

/// As tests/answer.c takes it, and `differential replay`.
impl fmt::Display for ReadCall<'_> {
    fn fmt(&self, out: &mut fmt::Formatter<'_>) -> fmt::Result {
        let (map, reference) = (digits(self.map), digits(self.reference));
        write!(out, "read {map} {reference} {}", self.room)
    }
}

impl fmt::Display for WriteCall<'_> {
    fn fmt(&self, out: &mut fmt::Formatter<'_>) -> fmt::Result {
        let (map, stretch) = (digits(self.map), digits(self.stretch));
        let WriteCall {
            pos,
            neg,
            tests,
            room,
            ..
        } = self;
        write!(out, "write {map} {stretch} {pos} {neg} {tests} {room}")
    }
}
