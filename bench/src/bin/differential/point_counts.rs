//! How many calls for points had what only points have: orientation and side, one leg of any lines, and
//! bits of R that must be zero.

use plain::depot_map::DepotMap;
use plain::fields::{place_of_p, NEGATIVE_FLAG, SHORTEST_REFERENCE, ZERO_BIT_OF_R};
use plain::outcome::{Outcome, PointReading, Refusal};
use plain::point::Point;

use crate::counts::print_rows;

/// How many points had each of the numbers 0 to 3.
type Numbers = [u64; 4];

/// How many calls had one thing, and how many the other.
type Pair = [u64; 2];

#[derive(Default)]
pub struct PointCounts {
    orientations_written: Numbers,
    sides_written: Numbers,
    orientations_read: Numbers,
    sides_read: Numbers,
    /// Readings along one line and along several: without an offset, with byte 0 and with another.
    without_offset: Pair,
    with_byte_0: Pair,
    with_other_byte: Pair,
    /// Refusal 25 with the orientation alone over 3, and with the side alone.
    over_3: Pair,
    /// Refusal 10 where the differences fit, and where they do not.
    not_told: Pair,
    /// Refusal 14 for bit 7 of R alone, and for the negative flag alone.
    zero_bits: Pair,
    /// Refusal 16 of the first point, and of the last.
    no_node: Pair,
    /// References of stretches with refusal 12 and 13.
    of_stretches: Pair,
    pub most_lines: usize,
}

impl PointCounts {
    pub fn count_written(&mut self, map: &DepotMap, point: Point, outcome: &Outcome<Vec<u8>>) {
        let Point {
            orientation, side, ..
        } = point;
        match outcome {
            Ok(_) => {
                self.orientations_written[orientation as usize] += 1;
                self.sides_written[side as usize] += 1;
            }
            Err(Refusal::OrientationOrSide) => {
                self.over_3[0] += u64::from(side <= 3);
                self.over_3[1] += u64::from(orientation <= 3);
            }
            Err(Refusal::NoUsablePoints) => {
                let line = map.line(point.line);
                let fits = map.node(line.start).differences_fit(map.node(line.end));
                self.not_told[usize::from(!fits)] += 1;
            }
            Err(_) => {}
        }
    }

    pub fn count_read(&mut self, reference: &[u8], outcome: &Outcome<PointReading>) {
        match outcome {
            Ok(reading) => self.count_accepted(reference, reading),
            Err(Refusal::ZeroBit) => {
                match reference[place_of_p(1) + 1] & (ZERO_BIT_OF_R | NEGATIVE_FLAG) {
                    ZERO_BIT_OF_R => self.zero_bits[0] += 1,
                    NEGATIVE_FLAG => self.zero_bits[1] += 1,
                    _ => {}
                }
            }
            Err(Refusal::PointWithoutNode(point)) => self.no_node[*point as usize] += 1,
            Err(_) => {}
        }
    }

    fn count_accepted(&mut self, reference: &[u8], reading: &PointReading) {
        self.orientations_read[reading.orientation as usize] += 1;
        self.sides_read[reading.side as usize] += 1;
        let readings = match reference.get(SHORTEST_REFERENCE) {
            None => &mut self.without_offset,
            Some(0) => &mut self.with_byte_0,
            Some(_) => &mut self.with_other_byte,
        };
        readings[usize::from(reading.lines.len() > 1)] += 1;
        self.most_lines = self.most_lines.max(reading.lines.len());
    }

    /// Of the reference of a stretch.
    pub fn count_stretch<T>(&mut self, outcome: &Outcome<T>) {
        match outcome {
            Err(Refusal::ReferenceLength) => self.of_stretches[0] += 1,
            Err(Refusal::StatusByte) => self.of_stretches[1] += 1,
            _ => {}
        }
    }

    /// Prints the counts. Nothing must be missing.
    pub fn report(&self) -> Result<(), String> {
        let numbers = [
            ("orientation written", self.orientations_written),
            ("side written", self.sides_written),
            ("orientation read", self.orientations_read),
            ("side read", self.sides_read),
        ];
        print_rows("points with 0 to 3", &numbers)?;
        let readings = [
            ("without offset", self.without_offset),
            ("offset byte 0", self.with_byte_0),
            ("another offset byte", self.with_other_byte),
        ];
        print_rows("points read, along one line and along several", &readings)?;
        let refused = [
            ("25, orientation alone and side alone", self.over_3),
            ("10, differences that fit and that do not", self.not_told),
            ("14, bit 7 alone and negative flag alone", self.zero_bits),
            ("16, first point and last point", self.no_node),
            ("12 and 13, references of stretches", self.of_stretches),
        ];
        print_rows("points refused", &refused)
    }
}
