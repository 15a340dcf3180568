//! The proved functions that are timed, those of crates/measured and the C functions for messages. Each
//! reads and writes within the slices that it is lent alone; that it does is proved.

use plain::openlr::{
    openlr_message_add, openlr_message_close, openlr_message_open, openlr_message_reference,
    openlr_message_start, openlr_read, openlr_read_of_message, openlr_read_point,
    openlr_read_point_of_message, PointAnswer, ReadingAnswer,
};
use plain::point::Point;

use crate::message_rows::MessageFunctions;
use crate::of_message_rows::Readers;

#[link(name = "measured", kind = "static")]
extern "C" {
    fn measured_read_map(map: *const u8, map_len: usize, work: *mut u32, work_len: usize) -> u32;
    fn measured_search(
        map: *const u8,
        map_len: usize,
        work: *mut u32,
        work_len: usize,
        first: u32,
        class: u32,
        limit: u32,
        times: u32,
    ) -> u32;
    fn measured_read(
        map: *const u8,
        map_len: usize,
        reference: *const u8,
        reference_len: usize,
        work: *mut u32,
        work_len: usize,
        lines: *mut u32,
        lines_len: usize,
    ) -> u32;
    fn measured_write(
        map: *const u8,
        map_len: usize,
        stretch: *const u32,
        stretch_len: usize,
        pos: u32,
        neg: u32,
        tests: u32,
        work: *mut u32,
        work_len: usize,
        bytes: *mut u8,
        bytes_len: usize,
    ) -> usize;
    fn measured_read_point(
        map: *const u8,
        map_len: usize,
        reference: *const u8,
        reference_len: usize,
        work: *mut u32,
        work_len: usize,
        lines: *mut u32,
        lines_len: usize,
    ) -> u32;
    fn measured_write_point(
        map: *const u8,
        map_len: usize,
        line: u32,
        offset: u32,
        orientation: u32,
        side: u32,
        work: *mut u32,
        work_len: usize,
        bytes: *mut u8,
        bytes_len: usize,
    ) -> usize;
    fn measured_offset_byte(leg: u32, offset: u32) -> u32;
    fn measured_span(leg: u32, byte: u8) -> u64;
}

pub const PROVED_MESSAGES: MessageFunctions = MessageFunctions {
    start: openlr_message_start,
    open: openlr_message_open,
    add: openlr_message_add,
    close: openlr_message_close,
    reference: openlr_message_reference,
};

pub const PROVED_READERS: Readers<ReadingAnswer> = Readers {
    by_itself: openlr_read,
    of_message: openlr_read_of_message,
};

pub const PROVED_POINT_READERS: Readers<PointAnswer> = Readers {
    by_itself: openlr_read_point,
    of_message: openlr_read_point_of_message,
};

/// Decodes a map into the work area. The answer is the number of the refusal, or 0.
pub fn decode(map_bytes: &[u8], work_area: &mut [u32]) -> u32 {
    unsafe {
        measured_read_map(
            map_bytes.as_ptr(),
            map_bytes.len(),
            work_area.as_mut_ptr(),
            work_area.len(),
        )
    }
}

/// Decodes a map into the work area and searches so many times from a first line, under a class and
/// a limit. The time of a search is the difference that the number of times makes.
pub fn search(
    map_bytes: &[u8],
    work_area: &mut [u32],
    first: u32,
    class: u8,
    limit: u32,
    times: u32,
) {
    let refusal = unsafe {
        measured_search(
            map_bytes.as_ptr(),
            map_bytes.len(),
            work_area.as_mut_ptr(),
            work_area.len(),
            first,
            u32::from(class),
            limit,
            times,
        )
    };
    assert_eq!(refusal, 0, "the map is whole");
}

/// Reads a reference into the line buffer. The answer is the number of the refusal, or 0.
pub fn read(
    map_bytes: &[u8],
    reference: &[u8],
    work_area: &mut [u32],
    line_buffer: &mut [u32],
) -> u32 {
    unsafe {
        measured_read(
            map_bytes.as_ptr(),
            map_bytes.len(),
            reference.as_ptr(),
            reference.len(),
            work_area.as_mut_ptr(),
            work_area.len(),
            line_buffer.as_mut_ptr(),
            line_buffer.len(),
        )
    }
}

/// A stretch with no offsets, and how many leg tests may be made for it.
#[derive(Clone)]
pub struct TestedStretch {
    pub lines: Vec<u32>,
    pub tests: u32,
}

/// Writes a stretch into the byte buffer. The answer is the count of bytes, or the number of the
/// refusal.
pub fn write(
    map_bytes: &[u8],
    stretch: &TestedStretch,
    work_area: &mut [u32],
    byte_buffer: &mut [u8],
) -> usize {
    unsafe {
        measured_write(
            map_bytes.as_ptr(),
            map_bytes.len(),
            stretch.lines.as_ptr(),
            stretch.lines.len(),
            0,
            0,
            stretch.tests,
            work_area.as_mut_ptr(),
            work_area.len(),
            byte_buffer.as_mut_ptr(),
            byte_buffer.len(),
        )
    }
}

/// Reads a point into the line buffer. The answer is the number of the refusal, or 0.
pub fn read_point(
    map_bytes: &[u8],
    reference: &[u8],
    work_area: &mut [u32],
    line_buffer: &mut [u32],
) -> u32 {
    unsafe {
        measured_read_point(
            map_bytes.as_ptr(),
            map_bytes.len(),
            reference.as_ptr(),
            reference.len(),
            work_area.as_mut_ptr(),
            work_area.len(),
            line_buffer.as_mut_ptr(),
            line_buffer.len(),
        )
    }
}

/// Writes a point into the byte buffer. The answer is the count of bytes, or the number of the refusal.
pub fn write_point(
    map_bytes: &[u8],
    point: &Point,
    work_area: &mut [u32],
    byte_buffer: &mut [u8],
) -> usize {
    unsafe {
        measured_write_point(
            map_bytes.as_ptr(),
            map_bytes.len(),
            point.line,
            point.offset,
            point.orientation,
            point.side,
            work_area.as_mut_ptr(),
            work_area.len(),
            byte_buffer.as_mut_ptr(),
            byte_buffer.len(),
        )
    }
}

/// The byte of an offset on a leg, or 256 where it does not lie on it.
pub fn offset_byte(offset: u32, leg_length: u32) -> u32 {
    unsafe { measured_offset_byte(leg_length, offset) }
}

/// The sum of the least and the greatest offset that give a byte, or 0 where none does.
pub fn span(byte: u8, leg_length: u32) -> u64 {
    unsafe { measured_span(leg_length, byte) }
}
