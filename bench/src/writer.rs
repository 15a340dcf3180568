//! The writer: from a stretch of road to the bytes of a reference.

use crate::choice::{choose_points, Tested};
use crate::depot_map::DepotMap;
use crate::fields::{
    coordinate_code, distance_byte, offset_byte, FIRST_POINT_BYTES, LONGEST_REFERENCE,
    NEGATIVE_FLAG, POSITIVE_FLAG, STATUS_BYTE,
};
use crate::leg_tests::LegTester;
use crate::outcome::{check_work_area, Outcome, Refusal, Written};

pub use crate::leg_tests::Effort;

pub const MOST_LINES: usize = 64;

/// As many leg tests as there are legs, whatever the stretch.
pub const ALL_TESTS: u32 = u32::MAX;

/// Writes a stretch with so many leg tests: refusals 1 to 6, 23, and 7 to 11 with 21 between 8 and 9 and
/// 26 between 9 and 10.
pub fn write(
    map_bytes: &[u8],
    stretch: &[u32],
    pos: u32,
    neg: u32,
    tests: u32,
    work_length: usize,
    byte_room: usize,
) -> Outcome<Written> {
    check_work_area(work_length)?;
    let map = DepotMap::decode(map_bytes)?;
    write_on_map(&map, stretch, pos, neg, tests, byte_room)
}

/// Writes a stretch of a map that is read already: refusals 7 to 11, 21 and 26.
pub fn write_on_map(
    map: &DepotMap,
    stretch: &[u32],
    pos: u32,
    neg: u32,
    tests: u32,
    byte_room: usize,
) -> Outcome<Written> {
    let stretch = Stretch::new(map, stretch, pos, neg)?;
    let tested = Tested::new(stretch.lines.len(), tests);
    let mut tester = LegTester::new(map, stretch.lines);
    let choice = choose_points(&mut tester, tested)?;
    let reference = reference_bytes(map, &stretch, &choice.places);
    if reference.len() > byte_room {
        return Err(Refusal::ByteRoom);
    }
    Ok(Written {
        reference,
        tests: tested.made,
        excess: choice.excess,
    })
}

/// What writing a stretch takes, whether it is accepted or refused for want of points.
pub fn effort(map: &DepotMap, stretch: &[u32], pos: u32, neg: u32, tests: u32) -> Outcome<Effort> {
    let stretch = Stretch::new(map, stretch, pos, neg)?;
    let tested = Tested::new(stretch.lines.len(), tests);
    let mut tester = LegTester::new(map, stretch.lines);
    let _ = choose_points(&mut tester, tested);
    Ok(tester.effort)
}

/// What remains of a stretch when the lines skipped whole are dropped ("A stretch").
#[derive(Clone, Copy, Debug, PartialEq, Eq)]
pub struct Stretch<'a> {
    pub lines: &'a [u32],
    pub positive: u32,
    pub negative: u32,
}

impl<'a> Stretch<'a> {
    /// Refusals 7, 8, 21 and 9, in this order, look at the stretch as given.
    pub fn new(map: &DepotMap, lines: &'a [u32], pos: u32, neg: u32) -> Outcome<Stretch<'a>> {
        let no_such_line = |&line: &u32| line as usize >= map.lines.len();
        if lines.is_empty() || lines.len() > MOST_LINES || lines.iter().any(no_such_line) {
            return Err(Refusal::NoSuchLines);
        }
        let joined = |pair: &[u32]| map.line(pair[0]).end == map.line(pair[1]).start;
        if !lines.windows(2).all(joined) {
            return Err(Refusal::LinesNotJoined);
        }
        let banned = |pair: &[u32]| map.is_banned(pair[0], pair[1]);
        if lines.windows(2).any(banned) {
            return Err(Refusal::BannedInStretch);
        }
        let total: u64 = lines
            .iter()
            .map(|&line| u64::from(map.line(line).length))
            .sum();
        if u64::from(pos) + u64::from(neg) >= total {
            return Err(Refusal::OffsetsReachTotal);
        }
        let stretch = Stretch {
            lines,
            positive: pos,
            negative: neg,
        };
        Ok(stretch.without_skipped_lines(map))
    }

    /// Where the offsets are below the total a line always remains.
    pub fn without_skipped_lines(mut self, map: &DepotMap) -> Stretch<'a> {
        while let [first, rest @ ..] = self.lines {
            let length = map.line(*first).length;
            if self.positive < length {
                break;
            }
            self.positive -= length;
            self.lines = rest;
        }
        while let [rest @ .., last] = self.lines {
            let length = map.line(*last).length;
            if self.negative < length {
                break;
            }
            self.negative -= length;
            self.lines = rest;
        }
        self
    }
}

/// The bytes of a stretch cut at these places, for a choice whose differences fit and of whose legs
/// none is over the longest ("The bytes").
pub fn reference_bytes(map: &DepotMap, stretch: &Stretch, places: &[usize]) -> Vec<u8> {
    let mut bytes = Vec::with_capacity(LONGEST_REFERENCE);
    bytes.push(STATUS_BYTE);
    let start = map.node(map.line(stretch.lines[0]).start);
    for coordinate in [start.longitude, start.latitude] {
        bytes.extend_from_slice(&coordinate_code(coordinate).to_be_bytes()[1..]);
    }
    debug_assert_eq!(bytes.len() + 3, 1 + FIRST_POINT_BYTES);
    let mut lengths = Vec::with_capacity(places.len());
    for ends in places.windows(2) {
        let leg = &stretch.lines[ends[0]..ends[1]];
        lengths.push(push_leg(map, leg, &mut bytes));
    }
    let last = map.line(stretch.lines[stretch.lines.len() - 1]);
    let marks = last.arriving_marks();
    let flag = |offset: u32, flag: u8| if offset == 0 { 0 } else { flag };
    let flags = flag(stretch.positive, POSITIVE_FLAG) | flag(stretch.negative, NEGATIVE_FLAG);
    bytes.extend_from_slice(&[marks.p(), flags | marks.sector]);
    let first_and_last = [lengths[0], lengths[lengths.len() - 1]];
    for (offset, leg_length) in [stretch.positive, stretch.negative]
        .into_iter()
        .zip(first_and_last)
    {
        if offset != 0 {
            bytes.push(offset_byte(offset, leg_length));
        }
    }
    bytes
}

/// P, Q and D of the leg's point and the differences to the next point. Gives the leg length.
fn push_leg(map: &DepotMap, leg: &[u32], bytes: &mut Vec<u8>) -> u32 {
    let first = map.line(leg[0]);
    let last = map.line(leg[leg.len() - 1]);
    let marks = first.leaving_marks();
    let lines = || leg.iter().map(|&line| map.line(line));
    let lowest_class = lines().fold(0, |class, line| class.max(line.frc));
    let length = lines().map(|line| line.length).sum();
    bytes.extend_from_slice(&[marks.p(), lowest_class << 5 | marks.sector]);
    bytes.push(distance_byte(length));
    let (from, to) = (map.node(first.start), map.node(last.end));
    for difference in from.differences_to(to) {
        bytes.extend_from_slice(&(difference as i16).to_be_bytes());
    }
    length
}
