//! Calls of the C functions for stretches and points on lent memory.

use std::ops::Range;

use plain::openlr::{
    openlr_read, openlr_read_point, openlr_write, openlr_write_point, PointAnswer,
    PointWrittenAnswer, ReadingAnswer, WrittenAnswer,
};
use plain::point::Point;

use crate::memory::Memory;

/// Reads the reference that is this part of what the memory holds beside the map.
pub fn read(memory: &mut Memory, part: Range<usize>) -> ReadingAnswer {
    let Memory { map, given, buffer } = memory;
    let reference = &given.bytes_mut()[part];
    // Each pointer is valid for the length beside it, and the three parts do not overlap.
    unsafe {
        openlr_read(
            map.as_mut_ptr(),
            map.len(),
            reference.as_ptr(),
            reference.len(),
            buffer.as_mut_ptr(),
            buffer.len(),
        )
    }
}

/// Writes the stretch that the memory holds beside the map.
pub fn write(memory: &mut Memory, pos: u32, neg: u32, tests: u32) -> WrittenAnswer {
    let Memory { map, given, buffer } = memory;
    unsafe {
        openlr_write(
            map.as_mut_ptr(),
            map.len(),
            given.as_mut_ptr(),
            given.len(),
            pos,
            neg,
            tests,
            buffer.as_mut_ptr(),
            buffer.len(),
        )
    }
}

/// Reads the point that is this part of what the memory holds beside the map.
pub fn read_point(memory: &mut Memory, part: Range<usize>) -> PointAnswer {
    let Memory { map, given, buffer } = memory;
    let reference = &given.bytes_mut()[part];
    unsafe {
        openlr_read_point(
            map.as_mut_ptr(),
            map.len(),
            reference.as_ptr(),
            reference.len(),
            buffer.as_mut_ptr(),
            buffer.len(),
        )
    }
}

/// Writes a point on the map that the memory holds.
pub fn write_point(memory: &mut Memory, point: Point) -> PointWrittenAnswer {
    let Memory { map, buffer, .. } = memory;
    unsafe {
        openlr_write_point(
            map.as_mut_ptr(),
            map.len(),
            point.line,
            point.offset,
            point.orientation,
            point.side,
            buffer.as_mut_ptr(),
            buffer.len(),
        )
    }
}
