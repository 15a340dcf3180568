//! A call of a C function for points, and what the plain Rust says that it gives.

use std::fmt;

use plain::hexadecimal::{bytes, digits};
use plain::openlr::{PointAnswer, PointWrittenAnswer};
use plain::outcome::{Outcome, PointReading, Refusal, WORK_AREA};
use plain::point::{read_point, write_point, Point};

use crate::c_functions;
use crate::calls::{compare, line_bytes, line_room};
use crate::memory::Memory;

#[derive(Clone, Copy)]
pub struct ReadPointCall<'a> {
    pub map: &'a [u8],
    pub reference: &'a [u8],
    /// In bytes.
    pub room: usize,
}

#[derive(Clone, Copy)]
pub struct WritePointCall<'a> {
    pub map: &'a [u8],
    pub point: Point,
    pub room: usize,
}

impl ReadPointCall<'_> {
    /// The outcome that both agree on, or how they differ.
    pub fn compare(&self) -> Result<Outcome<PointReading>, String> {
        self.compare_within(self.reference, 0)
    }

    /// The C function reads the reference where it stands in a message, from this byte on.
    pub fn compare_within(
        &self,
        message: &[u8],
        from: usize,
    ) -> Result<Outcome<PointReading>, String> {
        let outcome = read_point(self.map, self.reference, WORK_AREA, line_room(self.room));
        let (answer, result) = expected_point(&outcome);
        let memory = Memory::new(self.map, message, self.room);
        let part = from..from + self.reference.len();
        let read = |memory: &mut Memory| c_functions::read_point(memory, part);
        compare(read, memory, &result, answer)?;
        Ok(outcome)
    }

    /// Of a row as it is displayed.
    pub fn compare_row(row: &str) -> Option<Result<(), String>> {
        let mut words = row.strip_prefix("read_point ")?.split_ascii_whitespace();
        let (map, reference) = (bytes(words.next()?)?, bytes(words.next()?)?);
        let call = ReadPointCall {
            map: &map,
            reference: &reference,
            room: words.next()?.parse().ok()?,
        };
        Some(call.compare().map(drop))
    }
}

impl WritePointCall<'_> {
    /// The outcome that both agree on, or how they differ.
    pub fn compare(&self) -> Result<Outcome<Vec<u8>>, String> {
        let outcome = write_point(self.map, self.point, WORK_AREA, self.room);
        let (answer, result) = match &outcome {
            Ok(reference) => (written_answer(reference), reference.as_slice()),
            Err(refusal) => (written_refusal(*refusal), [].as_slice()),
        };
        let memory = Memory::new(self.map, &[], self.room);
        let write = |memory: &mut Memory| c_functions::write_point(memory, self.point);
        compare(write, memory, result, answer)?;
        Ok(outcome)
    }

    /// Of a row as it is displayed.
    pub fn compare_row(row: &str) -> Option<Result<(), String>> {
        let mut words = row.strip_prefix("write_point ")?.split_ascii_whitespace();
        let map = bytes(words.next()?)?;
        let mut number = || words.next()?.parse().ok();
        let point = Point {
            line: number()?,
            offset: number()?,
            orientation: number()?,
            side: number()?,
        };
        let call = WritePointCall {
            map: &map,
            point,
            room: number()? as usize,
        };
        Some(call.compare().map(drop))
    }
}

fn written_answer(reference: &[u8]) -> PointWrittenAnswer {
    PointWrittenAnswer {
        refusal: 0,
        bytes: reference.len() as u32,
    }
}

fn written_refusal(refusal: Refusal) -> PointWrittenAnswer {
    PointWrittenAnswer {
        refusal: refusal.number(),
        bytes: 0,
    }
}

/// What C answers to a reading, and what it puts into the line buffer.
pub fn expected_point(outcome: &Outcome<PointReading>) -> (PointAnswer, Vec<u8>) {
    let lines = outcome.as_ref().map(|reading| line_bytes(&reading.lines));
    (PointAnswer::of(outcome), lines.unwrap_or_default())
}

/// As `differential replay` takes it.
impl fmt::Display for ReadPointCall<'_> {
    fn fmt(&self, out: &mut fmt::Formatter<'_>) -> fmt::Result {
        let (map, reference) = (digits(self.map), digits(self.reference));
        write!(out, "read_point {map} {reference} {}", self.room)
    }
}

impl fmt::Display for WritePointCall<'_> {
    fn fmt(&self, out: &mut fmt::Formatter<'_>) -> fmt::Result {
        let Point {
            line,
            offset,
            orientation,
            side,
        } = self.point;
        let (map, room) = (digits(self.map), self.room);
        write!(
            out,
            "write_point {map} {line} {offset} {orientation} {side} {room}"
        )
    }
}
