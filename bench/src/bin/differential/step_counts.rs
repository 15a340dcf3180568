//! How many calls had to do with steps: maps that are refused for them, and lines whose sectors are
//! compared.

use plain::fields::{Steps, LONGEST_STEP};
use plain::maps::{number_parts, stored_numbers, MapPlan, PlannedLine, LINE_NUMBERS, PAIR_NUMBERS};

use crate::counts::print_rows;

/// How many calls of the writer, and how many of the reader, of stretches or of points.
pub type Calls = [u64; 2];
pub const WRITER: usize = 0;
pub const READER: usize = 1;

/// How many readings at their first line, and how many at their last.
type Ends = [u64; 2];

/// What is faulty in a map with refusal 24. Behind an east step the north step may be missing or in no
/// right form.
#[derive(Clone, Copy)]
enum Fault {
    East,
    EastBeforeBadForm,
    North,
    BothZero,
}

const FAULTS: [&str; 4] = [
    "east step out of range",
    "the same, and the north step in no right form",
    "north step out of range",
    "both steps 0",
];

#[derive(Default)]
pub struct StepCounts {
    refused: [Calls; FAULTS.len()],
    /// Readings where another line has the same class and form of way: of the same sector by other
    /// steps, and of the sector before or after.
    same_sector: Ends,
    next_sector: Ends,
}

impl StepCounts {
    pub fn count_refused(&mut self, map_bytes: &[u8], function: usize) {
        let fault = fault(map_bytes).expect("a map with refusal 24");
        self.refused[fault as usize][function] += 1;
    }

    pub fn count_read(&mut self, plan: &MapPlan, lines: &[u32]) {
        let line = |place: usize| &plan.lines[lines[place] as usize];
        let (first, last) = (line(0), line(lines.len() - 1));
        let leaving = plan.lines.iter().filter(|line| line.start == first.start);
        self.count_beside(0, first, leaving, |line| line.out);
        let arriving = plan.lines.iter().filter(|line| line.end == last.end);
        self.count_beside(1, last, arriving, |line| line.back);
    }

    fn count_beside<'a>(
        &mut self,
        end: usize,
        line: &PlannedLine,
        others: impl Iterator<Item = &'a PlannedLine>,
        steps: impl Fn(&PlannedLine) -> Steps,
    ) {
        let (mut has_same, mut has_next) = (false, false);
        for other in others.filter(|other| (other.frc, other.fow) == (line.frc, line.fow)) {
            let apart = (32 + steps(other).sector() - steps(line).sector()) % 32;
            has_same |= apart == 0 && steps(other) != steps(line);
            has_next |= apart == 1 || apart == 31;
        }
        self.same_sector[end] += u64::from(has_same);
        self.next_sector[end] += u64::from(has_next);
    }

    /// Prints the counts of stretches or points. Nothing must be missing.
    pub fn report(&self, of: &str) -> Result<(), String> {
        let refused: Vec<_> = FAULTS.into_iter().zip(self.refused).collect();
        print_rows(&format!("{of} refused 24, written and read"), &refused)?;
        let beside = [
            ("same sector by other steps", self.same_sector),
            ("next sector", self.next_sector),
        ];
        let title = format!("{of} read, with a line beside the first and beside the last");
        print_rows(&title, &beside)
    }
}

/// Of a map with refusal 24: no number before the first faulty step has a fault.
fn fault(map_bytes: &[u8]) -> Option<Fault> {
    let parts: Vec<&[u8]> = number_parts(map_bytes).collect();
    let numbers = stored_numbers(map_bytes);
    let lines = 2 + 2 * numbers[0] as usize;
    let is_too_far = |place: usize| numbers[place] > 2 * LONGEST_STEP as u32;
    let is_no_step = |place: usize| numbers[place] == LONGEST_STEP as u32;
    let mut easts = (lines..numbers.len()).filter(|place| is_east_step(place - lines));
    easts.find_map(|east| {
        let north = east + 1;
        if is_too_far(east) {
            let is_right = parts.get(north).is_some_and(|part| has_right_form(part));
            let faults = [Fault::EastBeforeBadForm, Fault::East];
            return Some(faults[usize::from(is_right)]);
        }
        if is_too_far(north) {
            return Some(Fault::North);
        }
        (is_no_step(east) && is_no_step(north)).then_some(Fault::BothZero)
    })
}

/// By its place among the numbers of the lines.
fn is_east_step(place: usize) -> bool {
    let before_end = LINE_NUMBERS - place % LINE_NUMBERS;
    before_end == PAIR_NUMBERS || before_end == 2 * PAIR_NUMBERS
}

/// A number that is whole, in its shortest form and of 32 bits.
fn has_right_form(part: &[u8]) -> bool {
    match *part {
        [last] => last < 0x80,
        [_, .., last] => {
            (1..0x80).contains(&last) && (part.len() < 5 || part.len() == 5 && last < 16)
        }
        [] => false,
    }
}
