//! A reading out of a message by a C function, and what the plain Rust says that it gives.

use std::fmt;
use std::ops::Range;

use plain::hexadecimal::{bytes, digits};
use plain::outcome::{Outcome, WORK_AREA};
use plain::point::read_point_of_message;
use plain::reader::read_of_message;

use crate::calls::{check_answer, expected_reading, line_room};
use crate::memory::Lent;
use crate::message_functions::{self, ReadingMemory};
use crate::point_calls::expected_point;

#[derive(Clone)]
pub struct ReadOfMessageCall<'a> {
    pub is_point: bool,
    pub map: &'a [u8],
    /// The message is the first of these bytes.
    pub lent: &'a [u8],
    pub message_len: usize,
    pub reference: Place<'a>,
    /// In bytes.
    pub room: usize,
}

/// Where a reference is lent: among the bytes that the message is the first of, or beside them.
#[derive(Clone)]
pub enum Place<'a> {
    Within(Range<usize>),
    Beside(&'a [u8]),
}

impl ReadOfMessageCall<'_> {
    pub fn message(&self) -> &[u8] {
        &self.lent[..self.message_len]
    }

    pub fn reference(&self) -> &[u8] {
        match &self.reference {
            Place::Within(part) => &self.lent[part.clone()],
            Place::Beside(reference) => reference,
        }
    }

    /// The outcome that both agree on, the count of lines or a refusal, or how they differ.
    pub fn compare(&self) -> Result<Outcome<usize>, String> {
        let (map, message, reference) = (self.map, self.message(), self.reference());
        let room = line_room(self.room);
        if self.is_point {
            let outcome = read_point_of_message(map, message, reference, WORK_AREA, room);
            let (answer, lines) = expected_point(&outcome);
            let read = message_functions::read_point_of_message;
            self.compare_with(read, answer, &lines)?;
            return Ok(outcome.map(|reading| reading.lines.len()));
        }
        let outcome = read_of_message(map, message, reference, WORK_AREA, room);
        let (answer, lines) = expected_reading(&outcome);
        self.compare_with(message_functions::read_of_message, answer, &lines)?;
        Ok(outcome.map(|reading| reading.lines.len()))
    }

    /// The C function must give this answer, put these bytes first in the line buffer and change nothing else.
    fn compare_with<Answer: fmt::Debug + PartialEq>(
        &self,
        read: fn(&mut ReadingMemory) -> Answer,
        expected: Answer,
        lines: &[u8],
    ) -> Result<(), String> {
        let (reference, within) = match &self.reference {
            Place::Within(part) => (&[][..], Some((part.start, part.len()))),
            Place::Beside(reference) => (*reference, None),
        };
        let mut memory = ReadingMemory {
            map: Lent::of(self.map),
            message: Lent::of(self.lent),
            message_len: self.message_len,
            reference: Lent::of(reference),
            within,
            buffer: Lent::new(self.room),
        };
        let mut expected_memory = memory.clone();
        expected_memory.buffer.put_first(lines);
        check_answer(read(&mut memory), expected)?;
        memory.check(&expected_memory)
    }

    /// Of a row as it is displayed.
    pub fn compare_row(row: &str) -> Option<Result<(), String>> {
        let mut words = row.split_ascii_whitespace();
        let is_point = match words.next()? {
            "read_of_message" => false,
            "read_point_of_message" => true,
            _ => return None,
        };
        let mut next = || bytes(words.next()?);
        let (map, message, reference) = (next()?, next()?, next()?);
        let call = ReadOfMessageCall {
            is_point,
            map: &map,
            lent: &message,
            message_len: message.len(),
            reference: Place::Beside(&reference),
            room: words.next()?.parse().ok()?,
        };
        Some(call.compare().map(drop))
    }
}

/// As tests/answer.c takes it, and `differential replay`.
impl fmt::Display for ReadOfMessageCall<'_> {
    fn fmt(&self, out: &mut fmt::Formatter<'_>) -> fmt::Result {
        let name = match self.is_point {
            true => "read_point_of_message",
            false => "read_of_message",
        };
        let [map, message, reference] = [self.map, self.message(), self.reference()].map(digits);
        write!(out, "{name} {map} {message} {reference} {}", self.room)
    }
}
