//! How many calls had to do with offset bytes: which way an offset was rounded, and which offsets a byte
//! stood for.

use plain::depot_map::DepotMap;
use plain::outcome::{Outcome, PointReading, Reading, Refusal, Span};
use plain::point::Point;
use plain::reader::read_on_map;
use plain::writer::Stretch;

use crate::counts::print_rows;
use crate::points::{end_legs, offset_bytes, total_length, with_one_offset};

/// Of one kind of offsets: the positive or the negative ones of stretches, or those of points.
#[derive(Default)]
struct Counts {
    /// Offsets written: 1, one before the end of the line, exactly at a half and rounded up, nearest to
    /// 256, and with byte 0.
    one: u64,
    before_end: u64,
    half_up: u64,
    nearest_256: u64,
    written_0: u64,
    /// With a byte above the quotient rounded down, and with that quotient itself.
    above: u64,
    quotient: u64,
    /// Bytes read, and those that stand for more than one offset.
    read_0: u64,
    read_255: u64,
    read_several: u64,
    /// Bytes with refusal 19 since no offset gives them.
    refused_0: u64,
    refused_255: u64,
}

impl Counts {
    /// Of an offset that is not 0, on a line of a leg that may be written.
    fn count_written(&mut self, offset: u32, line_length: u32, leg_length: u32, byte: u8) {
        self.one += u64::from(offset == 1);
        self.before_end += u64::from(offset + 1 == line_length);
        let quotient = 256 * offset / leg_length;
        let left = 256 * offset % leg_length;
        let is_above = u32::from(byte) > quotient;
        self.half_up += u64::from(is_above && 2 * left == leg_length);
        self.nearest_256 += u64::from(quotient == 255 && 2 * left >= leg_length);
        self.written_0 += u64::from(byte == 0);
        self.above += u64::from(is_above);
        self.quotient += u64::from(u32::from(byte) == quotient);
    }

    fn count_read(&mut self, byte: u8, span: Span) {
        self.read_0 += u64::from(byte == 0);
        self.read_255 += u64::from(byte == 255);
        self.read_several += u64::from(span.least < span.greatest);
    }

    fn count_refused(&mut self, byte: u8) {
        self.refused_0 += u64::from(byte == 0);
        self.refused_255 += u64::from(byte == 255);
    }
}

#[derive(Default)]
pub struct StretchOffsets {
    /// Of the positive ones and of the negative ones.
    counts: [Counts; 2],
    /// References with refusal 19 in which there are offsets for both bytes: the least are the total
    /// together, or more.
    together: [u64; 2],
    /// Refusal 9 for offsets whose sum has 33 bits and would be below the total in 32.
    beyond_32_bits: u64,
    /// Stretches written whose total does not fit 32 bits once it is taken 256 times.
    wide_total: u64,
}

impl StretchOffsets {
    /// Of what is left of a stretch, and its reference.
    pub fn count_written(&mut self, map: &DepotMap, left: &Stretch, reference: &[u8]) {
        let offsets = [left.positive, left.negative];
        let end_lines = [left.lines[0], left.lines[left.lines.len() - 1]];
        let line_lengths = end_lines.map(|line| map.line(line).length);
        let leg_lengths = end_legs(map, reference, left.lines);
        for (kind, byte) in offset_bytes(reference).into_iter().enumerate() {
            if let Some(byte) = byte {
                let (line_length, leg_length) = (line_lengths[kind], leg_lengths[kind]);
                self.counts[kind].count_written(offsets[kind], line_length, leg_length, byte);
            }
        }
        let is_wide = total_length(map, left.lines).checked_mul(256).is_none();
        self.wide_total += u64::from(is_wide);
    }

    /// Of a stretch with refusal 9.
    pub fn count_reaching_total(&mut self, map: &DepotMap, given: &Stretch) {
        let (sum, has_33_bits) = given.positive.overflowing_add(given.negative);
        let is_below = sum < total_length(map, given.lines);
        self.beyond_32_bits += u64::from(has_33_bits && is_below);
    }

    pub fn count_read(&mut self, map: &DepotMap, reference: &[u8], outcome: &Outcome<Reading>) {
        match outcome {
            Ok(reading) => {
                let spans = [reading.positive, reading.negative];
                for (kind, byte) in offset_bytes(reference).into_iter().enumerate() {
                    if let Some(byte) = byte {
                        self.counts[kind].count_read(byte, spans[kind]);
                    }
                }
            }
            Err(Refusal::OffsetByte) => self.count_refused(map, reference),
            Err(_) => {}
        }
    }

    /// An offset alone does not reach the total, so it is read if there is one for its byte.
    fn count_refused(&mut self, map: &DepotMap, reference: &[u8]) {
        let mut read = Vec::new();
        for (counts, alone) in self.counts.iter_mut().zip(with_one_offset(reference)) {
            let Some(alone) = alone else {
                continue;
            };
            match read_on_map(map, &alone, usize::MAX) {
                Ok(reading) => read.push(reading),
                Err(_) => counts.count_refused(alone[alone.len() - 1]),
            }
        }
        if let [one, other] = &read[..] {
            let least = one.positive.least + other.negative.least;
            let is_more = least > total_length(map, &one.lines);
            self.together[usize::from(is_more)] += 1;
        }
    }

    /// Prints the counts. Nothing must be missing.
    pub fn report(&self) -> Result<(), String> {
        let title = "offsets of stretches, positive and negative";
        print_counts(title, self.counts.each_ref())?;
        let together = [("least offsets", self.together)];
        print_rows("stretches refused 19, the total and more", &together)?;
        let wide = [
            ("refused 9, the sum of the offsets", [self.beyond_32_bits]),
            ("written, 256 times the total", [self.wide_total]),
        ];
        print_rows("stretches with numbers of more than 32 bits", &wide)
    }
}

#[derive(Default)]
pub struct PointOffsets {
    counts: Counts,
}

impl PointOffsets {
    pub fn count_written(&mut self, map: &DepotMap, point: Point, reference: &[u8]) {
        if let [Some(byte), _] = offset_bytes(reference) {
            let length = map.line(point.line).length;
            self.counts
                .count_written(point.offset, length, length, byte);
        }
    }

    pub fn count_read(&mut self, reference: &[u8], outcome: &Outcome<PointReading>) {
        let span = match outcome {
            Ok(reading) => Some(reading.offset),
            Err(Refusal::OffsetByte) => None,
            Err(_) => return,
        };
        match (offset_bytes(reference)[0], span) {
            (Some(byte), Some(span)) => self.counts.count_read(byte, span),
            (Some(byte), None) => self.counts.count_refused(byte),
            (None, _) => {}
        }
    }

    /// Prints the counts. Nothing must be missing.
    pub fn report(&self) -> Result<(), String> {
        print_counts("offsets of points", [&self.counts])
    }
}

fn print_counts<const KINDS: usize>(title: &str, of: [&Counts; KINDS]) -> Result<(), String> {
    let rows = [
        ("written, 1", of.map(|counts| counts.one)),
        (
            "written, one before the end of the line",
            of.map(|counts| counts.before_end),
        ),
        (
            "written, a half rounded up",
            of.map(|counts| counts.half_up),
        ),
        (
            "written, nearest to 256",
            of.map(|counts| counts.nearest_256),
        ),
        ("written, byte 0", of.map(|counts| counts.written_0)),
        ("written, above the quotient", of.map(|counts| counts.above)),
        ("written, the quotient", of.map(|counts| counts.quotient)),
        ("read, byte 0", of.map(|counts| counts.read_0)),
        ("read, byte 255", of.map(|counts| counts.read_255)),
        (
            "read, several offsets",
            of.map(|counts| counts.read_several),
        ),
        ("refused 19, byte 0", of.map(|counts| counts.refused_0)),
        ("refused 19, byte 255", of.map(|counts| counts.refused_255)),
    ];
    print_rows(title, &rows)
}
