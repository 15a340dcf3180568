//! Points along a line, such as signs and hydrants ("Signs and hydrants").

use crate::depot_map::DepotMap;
use crate::fields::{
    distance_byte, place_of_p, GREATEST_ORIENTATION_OR_SIDE, ORIENTATION_OR_SIDE_SHIFT,
    POINT_STATUS_BYTE,
};
use crate::front::check_front;
use crate::legs::{matching_first_lines, matching_last_lines, verdict, Leg, LegEnd, Verdict};
use crate::outcome::{check_work_area, Outcome, PointReading, Refusal};
use crate::reader::Reference;
use crate::search::{Method, Search};
use crate::writer::{reference_bytes, Stretch};

/// What the user gives: where on which line, and the white paper's numbers for the orientation and the
/// side of road.
#[derive(Clone, Copy, Debug, PartialEq, Eq)]
pub struct Point {
    pub line: u32,
    pub offset: u32,
    pub orientation: u32,
    pub side: u32,
}

/// Reads a point: refusals 1 to 6, 23, 24, and 12 to 20.
pub fn read_point(
    map_bytes: &[u8],
    reference: &[u8],
    work_length: usize,
    line_room: usize,
) -> Outcome<PointReading> {
    check_work_area(work_length)?;
    let map = DepotMap::decode(map_bytes)?;
    read_point_on_map(&map, reference, line_room)
}

/// Reads a point out of a message: refusal 30 after 23, and else as by itself.
pub fn read_point_of_message(
    map_bytes: &[u8],
    message: &[u8],
    reference: &[u8],
    work_length: usize,
    line_room: usize,
) -> Outcome<PointReading> {
    check_work_area(work_length)?;
    let map = DepotMap::decode(map_bytes)?;
    check_front(map_bytes, message)?;
    read_point_on_map(&map, reference, line_room)
}

/// Reads a point on a map that is read already: refusals 12 to 20.
pub fn read_point_on_map(
    map: &DepotMap,
    reference: &[u8],
    line_room: usize,
) -> Outcome<PointReading> {
    let reference = Reference::of_point(reference)?;
    let reading = reference.read_on_map(map, line_room)?;
    let number = |point| u32::from(reference.p(point) >> ORIENTATION_OR_SIDE_SHIFT);
    Ok(PointReading {
        lines: reading.lines,
        offset: reading.positive,
        orientation: number(0),
        side: number(1),
    })
}

/// Writes a point: refusals 1 to 6, 23, 24, 7, 9, 25, 10 and 11.
pub fn write_point(
    map_bytes: &[u8],
    point: Point,
    work_length: usize,
    byte_room: usize,
) -> Outcome<Vec<u8>> {
    check_work_area(work_length)?;
    let map = DepotMap::decode(map_bytes)?;
    write_point_on_map(&map, point, byte_room)
}

/// Writes a point on a map that is read already: refusals 7, 9, 25, 10 and 11.
pub fn write_point_on_map(map: &DepotMap, point: Point, byte_room: usize) -> Outcome<Vec<u8>> {
    let Point {
        line,
        offset,
        orientation,
        side,
    } = point;
    let lines = [line];
    let stretch = Stretch::new(map, &lines, offset, 0)?;
    if orientation.max(side) > GREATEST_ORIENTATION_OR_SIDE {
        return Err(Refusal::OrientationOrSide);
    }
    if !differences_fit(map, line) || !is_only_reading(map, line) {
        return Err(Refusal::NoUsablePoints);
    }
    let reference = point_bytes(map, &stretch, orientation, side);
    if reference.len() > byte_room {
        return Err(Refusal::ByteRoom);
    }
    Ok(reference)
}

fn differences_fit(map: &DepotMap, line: u32) -> bool {
    let line = map.line(line);
    map.node(line.start).differences_fit(map.node(line.end))
}

/// Whether no other line that leaves the line's start, or that arrives at its end, has its marks there.
pub fn is_alone(map: &DepotMap, number: u32) -> bool {
    let line = map.line(number);
    let mut first_lines = matching_first_lines(map, line.start, line.leaving_marks());
    let mut last_lines = matching_last_lines(map, line.end, line.arriving_marks());
    first_lines.all(|other| other == number) && last_lines.all(|other| other == number)
}

/// Whether the line is the only reading of its leg. It is one, since every other way that begins and
/// ends with it is longer. So where it is alone there is nothing to search for.
fn is_only_reading(map: &DepotMap, number: u32) -> bool {
    if is_alone(map, number) {
        return true;
    }
    let line = map.line(number);
    let leg = Leg {
        start: line.start,
        first_marks: line.leaving_marks(),
        lowest_class: line.frc,
        distance: distance_byte(line.length),
        end: LegEnd {
            node: line.end,
            last_marks: Some(line.arriving_marks()),
        },
    };
    let mut search = Search::new(map, Method::NodeAndLineHeap);
    verdict(map, &mut search, &leg, &mut Vec::new()) == Verdict::One
}

/// The bytes of a point along these lines, for an orientation and a side in their ranges, where the
/// differences fit and the lines are not over the longest leg.
pub fn point_bytes(map: &DepotMap, stretch: &Stretch, orientation: u32, side: u32) -> Vec<u8> {
    let mut bytes = reference_bytes(map, stretch, &[0, stretch.lines.len()]);
    bytes[0] = POINT_STATUS_BYTE;
    for (point, number) in [orientation, side].into_iter().enumerate() {
        bytes[place_of_p(point)] |= (number << ORIENTATION_OR_SIDE_SHIFT) as u8;
    }
    bytes
}
