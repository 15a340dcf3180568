//! The C functions of include/openlr.h. Each reads and writes within the slices that it is lent alone; that it does is
//! proved. Each pointer must be valid for the length beside it, and what is written must not overlap the rest.

use crate::message::{Part, State};
use crate::outcome::{Outcome, PointReading, Reading};

/// `struct openlr_reading`.
#[repr(C)]
#[derive(Clone, Copy, Debug, Default, PartialEq, Eq)]
pub struct ReadingAnswer {
    pub refusal: u32,
    pub place: u32,
    pub line_count: u32,
    pub pos_least: u32,
    pub pos_greatest: u32,
    pub neg_least: u32,
    pub neg_greatest: u32,
}

impl ReadingAnswer {
    /// What is answered to this reading. The lines stand in the line buffer.
    #[inline]
    pub fn of(outcome: &Outcome<Reading>) -> ReadingAnswer {
        match outcome {
            Ok(reading) => ReadingAnswer {
                refusal: 0,
                place: 0,
                line_count: reading.lines.len() as u32,
                pos_least: reading.positive.least,
                pos_greatest: reading.positive.greatest,
                neg_least: reading.negative.least,
                neg_greatest: reading.negative.greatest,
            },
            Err(refusal) => ReadingAnswer {
                refusal: refusal.number(),
                place: refusal.place().unwrap_or(0),
                ..ReadingAnswer::default()
            },
        }
    }
}

/// `struct openlr_point`.
#[repr(C)]
#[derive(Clone, Copy, Debug, Default, PartialEq, Eq)]
pub struct PointAnswer {
    pub refusal: u32,
    pub place: u32,
    pub lines: u32,
    pub least: u32,
    pub greatest: u32,
    pub orientation: u32,
    pub side: u32,
}

impl PointAnswer {
    /// What is answered to this reading. The lines stand in the line buffer.
    #[inline]
    pub fn of(outcome: &Outcome<PointReading>) -> PointAnswer {
        match outcome {
            Ok(reading) => PointAnswer {
                refusal: 0,
                place: 0,
                lines: reading.lines.len() as u32,
                least: reading.offset.least,
                greatest: reading.offset.greatest,
                orientation: reading.orientation,
                side: reading.side,
            },
            Err(refusal) => PointAnswer {
                refusal: refusal.number(),
                place: refusal.place().unwrap_or(0),
                ..PointAnswer::default()
            },
        }
    }
}

/// `struct openlr_written`.
#[repr(C)]
#[derive(Clone, Copy, Debug, Default, PartialEq, Eq)]
pub struct WrittenAnswer {
    pub refusal: u32,
    pub byte_count: u32,
    pub tests: u32,
    pub excess: u32,
}

/// `struct openlr_point_written`.
#[repr(C)]
#[derive(Clone, Copy, Debug, Default, PartialEq, Eq)]
pub struct PointWrittenAnswer {
    pub refusal: u32,
    pub bytes: u32,
}

#[link(name = "openlr", kind = "static")]
extern "C" {
    pub fn openlr_read(
        map: *const u8,
        map_len: usize,
        reference: *const u8,
        reference_len: usize,
        line_buffer: *mut u8,
        line_buffer_len: usize,
    ) -> ReadingAnswer;
    pub fn openlr_write(
        map: *const u8,
        map_len: usize,
        stretch: *const u8,
        stretch_len: usize,
        pos: u32,
        neg: u32,
        tests: u32,
        byte_buffer: *mut u8,
        byte_buffer_len: usize,
    ) -> WrittenAnswer;
    pub fn openlr_read_point(
        map: *const u8,
        map_len: usize,
        reference: *const u8,
        reference_len: usize,
        line_buffer: *mut u8,
        line_buffer_len: usize,
    ) -> PointAnswer;
    pub fn openlr_write_point(
        map: *const u8,
        map_len: usize,
        line: u32,
        offset: u32,
        orientation: u32,
        side: u32,
        byte_buffer: *mut u8,
        byte_buffer_len: usize,
    ) -> PointWrittenAnswer;
    pub fn openlr_message_start(
        map: *const u8,
        map_len: usize,
        buffer: *mut u8,
        buffer_len: usize,
    ) -> State;
    pub fn openlr_message_open(message: State) -> State;
    pub fn openlr_message_add(
        message: State,
        buffer: *mut u8,
        buffer_len: usize,
        portion: *const u8,
        portion_len: usize,
    ) -> State;
    pub fn openlr_message_close(message: State) -> State;
    pub fn openlr_message_reference(message: *const u8, message_len: usize, n: u32) -> Part;
    pub fn openlr_read_of_message(
        map: *const u8,
        map_len: usize,
        message: *const u8,
        message_len: usize,
        reference: *const u8,
        reference_len: usize,
        line_buffer: *mut u8,
        line_buffer_len: usize,
    ) -> ReadingAnswer;
    pub fn openlr_read_point_of_message(
        map: *const u8,
        map_len: usize,
        message: *const u8,
        message_len: usize,
        reference: *const u8,
        reference_len: usize,
        line_buffer: *mut u8,
        line_buffer_len: usize,
    ) -> PointAnswer;
}
