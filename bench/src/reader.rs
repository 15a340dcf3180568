//! The reader: from the bytes of a reference to the lines and the spans of the offsets.

use crate::depot_map::DepotMap;
use crate::fields::{
    offset_span, place_of_p, Marks, LONGEST_POINT, LONGEST_REFERENCE, MIDDLE_POINT_BYTES,
    NEGATIVE_FLAG, POINT_STATUS_BYTE, POSITIVE_FLAG, SHORTEST_REFERENCE, STATUS_BYTE,
    ZERO_BITS_OF_P, ZERO_BIT_OF_R,
};
use crate::front::check_front;
use crate::legs::{verdict, Leg, LegEnd, Verdict};
use crate::outcome::{check_work_area, Outcome, Reading, Refusal, Span};
use crate::search::{Method, Search};

/// Reads a reference: refusals 1 to 6, 23, and 12 to 20 with 22 between 18 and 19.
pub fn read(
    map_bytes: &[u8],
    reference: &[u8],
    work_length: usize,
    line_room: usize,
) -> Outcome<Reading> {
    check_work_area(work_length)?;
    let map = DepotMap::decode(map_bytes)?;
    read_on_map(&map, reference, line_room)
}

/// Reads a reference out of a message: refusal 30 after 23, and else as by itself.
pub fn read_of_message(
    map_bytes: &[u8],
    message: &[u8],
    reference: &[u8],
    work_length: usize,
    line_room: usize,
) -> Outcome<Reading> {
    check_work_area(work_length)?;
    let map = DepotMap::decode(map_bytes)?;
    check_front(map_bytes, message)?;
    read_on_map(&map, reference, line_room)
}

/// Reads a reference on a map that is read already: refusals 12 to 20 and 22.
pub fn read_on_map(map: &DepotMap, reference: &[u8], line_room: usize) -> Outcome<Reading> {
    Reference::new(reference)?.read_on_map(map, line_room)
}

#[derive(Clone, Copy, Default)]
struct LegLengths {
    first: u32,
    last: u32,
    total: u32,
}

impl LegLengths {
    /// A leg is not empty and a line is 1 long at least, so a first leg is known by the total 0.
    fn add(&mut self, length: u32) {
        if self.total == 0 {
            self.first = length;
        }
        self.last = length;
        self.total += length;
    }
}

/// The bytes of a reference that refusals 12 to 15 let pass, those of a stretch or those of a point
/// along a line.
pub(crate) struct Reference<'a> {
    bytes: &'a [u8],
    legs: usize,
}

impl<'a> Reference<'a> {
    /// Of a stretch.
    fn new(bytes: &'a [u8]) -> Outcome<Reference<'a>> {
        if bytes.len() < SHORTEST_REFERENCE || bytes.len() > LONGEST_REFERENCE {
            return Err(Refusal::ReferenceLength);
        }
        let middle = (bytes.len() - SHORTEST_REFERENCE) / MIDDLE_POINT_BYTES;
        let offset_bytes = (bytes.len() - SHORTEST_REFERENCE) % MIDDLE_POINT_BYTES;
        if offset_bytes > 2 {
            return Err(Refusal::ReferenceLength);
        }
        if bytes[0] != STATUS_BYTE {
            return Err(Refusal::StatusByte);
        }
        let legs = middle + 1;
        let reference = Reference { bytes, legs };
        let p_has_zero_bit = (0..=legs).any(|point| reference.p(point) & ZERO_BITS_OF_P != 0);
        if p_has_zero_bit || reference.r() & ZERO_BIT_OF_R != 0 {
            return Err(Refusal::ZeroBit);
        }
        reference.with_flags(offset_bytes)
    }

    /// Of a point along a line.
    pub(crate) fn of_point(bytes: &'a [u8]) -> Outcome<Reference<'a>> {
        if bytes.len() < SHORTEST_REFERENCE || bytes.len() > LONGEST_POINT {
            return Err(Refusal::ReferenceLength);
        }
        if bytes[0] != POINT_STATUS_BYTE {
            return Err(Refusal::StatusByte);
        }
        let reference = Reference { bytes, legs: 1 };
        if reference.r() & (ZERO_BIT_OF_R | NEGATIVE_FLAG) != 0 {
            return Err(Refusal::ZeroBit);
        }
        reference.with_flags(bytes.len() - SHORTEST_REFERENCE)
    }

    /// Refusal 15: there are not as many flags as offset bytes.
    fn with_flags(self, offset_bytes: usize) -> Outcome<Reference<'a>> {
        let flags = (self.r() & (POSITIVE_FLAG | NEGATIVE_FLAG)).count_ones();
        if offset_bytes != flags as usize {
            return Err(Refusal::FlagCount);
        }
        Ok(self)
    }

    /// Refusals 16 to 20 and 22.
    pub(crate) fn read_on_map(&self, map: &DepotMap, line_room: usize) -> Outcome<Reading> {
        let nodes = self.nodes(map)?;
        let mut search = Search::new(map, Method::NodeAndLineHeap);
        let mut lines = Vec::new();
        let mut lengths = LegLengths::default();
        let mut banned_where_legs_meet = false;
        for (number, ends) in nodes.windows(2).enumerate() {
            let leg = self.leg(number, ends[0], ends[1]);
            let before = lines.len();
            match verdict(map, &mut search, &leg, &mut lines) {
                Verdict::None => return Err(Refusal::LegWithoutReading(number as u32)),
                Verdict::Several => return Err(Refusal::LegWithSeveralReadings(number as u32)),
                Verdict::One => {}
            }
            if let [.., last] = lines[..before] {
                banned_where_legs_meet |= map.is_banned(last, lines[before]);
            }
            let leg_lines = lines[before..].iter();
            lengths.add(leg_lines.map(|&line| map.line(line).length).sum());
        }
        if banned_where_legs_meet {
            return Err(Refusal::BannedWhereLegsMeet);
        }
        let (positive, negative) = self.spans(lengths)?;
        if lines.len() > line_room {
            return Err(Refusal::LineRoom);
        }
        Ok(Reading {
            lines,
            positive,
            negative,
        })
    }

    pub(crate) fn p(&self, point: usize) -> u8 {
        self.bytes[place_of_p(point)]
    }

    /// The byte after P: Q, or R on the last point.
    fn beside_p(&self, point: usize) -> u8 {
        self.bytes[place_of_p(point) + 1]
    }

    fn r(&self) -> u8 {
        self.beside_p(self.legs)
    }

    fn marks(&self, point: usize) -> Marks {
        Marks::from_bytes(self.p(point), self.beside_p(point))
    }

    fn leg(&self, number: usize, start: u32, end: u32) -> Leg {
        let is_last = number + 1 == self.legs;
        Leg {
            start,
            first_marks: self.marks(number),
            lowest_class: self.beside_p(number) >> 5,
            distance: self.bytes[place_of_p(number) + 2],
            end: LegEnd {
                node: end,
                last_marks: is_last.then(|| self.marks(self.legs)),
            },
        }
    }

    /// The nodes of the points, or refusal 16 with the first point that has none.
    fn nodes(&self, map: &DepotMap) -> Outcome<Vec<u32>> {
        let longitude_code = self.signed_24_bits(1);
        let latitude_code = self.signed_24_bits(4);
        let first = map.node_with_codes(longitude_code, latitude_code);
        let mut node = first.ok_or(Refusal::PointWithoutNode(0))?;
        let mut nodes = Vec::with_capacity(self.legs + 1);
        nodes.push(node);
        for point in 1..=self.legs {
            let differences = [4, 2].map(|before| self.signed_16_bits(place_of_p(point) - before));
            let place = map.node(node).place_at(differences);
            let refusal = Refusal::PointWithoutNode(point as u32);
            node = map.node_at(place).ok_or(refusal)?;
            nodes.push(node);
        }
        Ok(nodes)
    }

    fn signed_24_bits(&self, at: usize) -> i32 {
        let bytes = &self.bytes[at..at + 3];
        i32::from_be_bytes([bytes[0], bytes[1], bytes[2], 0]) >> 8
    }

    fn signed_16_bits(&self, at: usize) -> i32 {
        i32::from(i16::from_be_bytes([self.bytes[at], self.bytes[at + 1]]))
    }

    /// The spans of the positive and of the negative offset, or refusal 19.
    fn spans(&self, lengths: LegLengths) -> Outcome<(Span, Span)> {
        let mut offset_bytes = self.bytes[place_of_p(self.legs) + 2..].iter();
        let mut span = |flag: u8, leg_length: u32| {
            if self.r() & flag == 0 {
                return Ok(Span::default());
            }
            let byte = offset_bytes.next().copied();
            let span = byte.and_then(|byte| offset_span(byte, leg_length));
            span.ok_or(Refusal::OffsetByte)
        };
        let positive = span(POSITIVE_FLAG, lengths.first)?;
        let negative = span(NEGATIVE_FLAG, lengths.last)?;
        if positive.least + negative.least >= lengths.total {
            return Err(Refusal::OffsetByte);
        }
        Ok((positive, negative))
    }
}
