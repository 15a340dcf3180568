//! How many calls had to do with lengths: those of the lines and legs of accepted writings, and maps that
//! are refused for the length of a line.

use plain::depot_map::DepotMap;
use plain::fields::{distance_byte, lengths_of_distance_byte, LONGEST_LEG, LONGEST_LINE};
use plain::maps::{stored_numbers, LINE_NUMBERS};

use crate::counts::print_rows;
use crate::step_counts::Calls;

#[derive(Default)]
pub struct LengthCounts {
    /// Accepted writings of lines that have a length which is no multiple of ten, and of lines that have none.
    to_centimetres: u64,
    to_decimetres: u64,
    /// Those with a first or last leg that has the least length of its D, the greatest, and the longest
    /// that there is.
    least_of_distance: u64,
    greatest_of_distance: u64,
    longest_leg: u64,
    /// Refusal 5 for a line of length 0, and for one that is too long by one alone.
    no_length: Calls,
    over_longest: Calls,
}

impl LengthCounts {
    /// Of lines, and the lengths of the first and of the last leg along them.
    pub fn count_written(&mut self, map: &DepotMap, lines: &[u32], leg_lengths: [u32; 2]) {
        let is_no_ten = |&line: &u32| !map.line(line).length.is_multiple_of(10);
        match lines.iter().any(is_no_ten) {
            true => self.to_centimetres += 1,
            false => self.to_decimetres += 1,
        }
        let edges = leg_lengths.map(|length| lengths_of_distance_byte(distance_byte(length)));
        let is_at =
            |edges: [u32; 2]| u64::from(leg_lengths[0] == edges[0] || leg_lengths[1] == edges[1]);
        self.least_of_distance += is_at(edges.map(|(least, _)| least));
        self.greatest_of_distance += is_at(edges.map(|(_, greatest)| greatest));
        self.longest_leg += is_at([LONGEST_LEG; 2]);
    }

    pub fn count_refused(&mut self, map_bytes: &[u8], function: usize) {
        match faulty_length(map_bytes) {
            Some(0) => self.no_length[function] += 1,
            Some(length) if length == LONGEST_LINE + 1 => self.over_longest[function] += 1,
            _ => {}
        }
    }

    /// Prints the counts of stretches or points. Nothing must be missing, and of most writings some length
    /// must be no multiple of ten.
    pub fn report(&self, of: &str) -> Result<(), String> {
        let refused = [
            ("length 0", self.no_length),
            ("too long by one", self.over_longest),
        ];
        print_rows(&format!("{of} refused 5, written and read"), &refused)?;
        let written = [
            ("some length no multiple of ten", [self.to_centimetres]),
            ("all lengths multiples of ten", [self.to_decimetres]),
        ];
        print_rows(&format!("{of} written, by the lengths of lines"), &written)?;
        let legs = [
            ("the least of a D", [self.least_of_distance]),
            ("the greatest of a D", [self.greatest_of_distance]),
            ("the longest leg", [self.longest_leg]),
        ];
        print_rows(&format!("{of} written, by the length of a leg"), &legs)?;
        match self.to_centimetres > self.to_decimetres {
            true => Ok(()),
            false => Err(format!("{of}: most lengths were multiples of ten")),
        }
    }
}

/// Of a map with refusal 5: no number before the first faulty one of a line has a fault. Gives that one if
/// it is a length.
fn faulty_length(map_bytes: &[u8]) -> Option<u32> {
    let numbers = stored_numbers(map_bytes);
    let nodes = numbers[0];
    let mut lines = numbers[2 + 2 * nodes as usize..].chunks(LINE_NUMBERS);
    let fault = lines.find_map(|line| {
        let [start, end, rest @ ..] = line else {
            return None;
        };
        if *start >= nodes || *end >= nodes || start == end {
            return Some(None);
        }
        let [length, marks @ ..] = rest else {
            return None;
        };
        if !(1..=LONGEST_LINE).contains(length) {
            return Some(Some(*length));
        }
        let is_no_mark = |&number: &u32| number > 7;
        marks.iter().take(2).any(is_no_mark).then_some(None)
    });
    fault.flatten()
}
