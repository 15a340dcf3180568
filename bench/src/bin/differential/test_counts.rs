//! How many calls of the writer had to do with the number of leg tests, and what holds for every number.

use plain::depot_map::DepotMap;
use plain::outcome::{Outcome, Refusal, Written};
use plain::writer::{write_on_map, Stretch, ALL_TESTS};

use crate::counts::print_rows;

/// How many legs so many lines have.
pub fn legs_of(lines: usize) -> u32 {
    (lines * (lines + 1) / 2) as u32
}

#[derive(Default)]
pub struct TestCounts {
    /// With fewer tests than legs: refusal 10, and acceptances.
    refused_10: u64,
    accepted: u64,
    with_excess: u64,
    /// With another reference than with all tests: of as many points, and of more.
    other_places: u64,
    more_points: u64,
    /// Two calls where the second has more tests: accepted after 26, refused with 10 after it, accepted with
    /// fewer points and with a smaller excess.
    found_later: u64,
    given_up_later: u64,
    fewer_points_later: u64,
    smaller_excess_later: u64,
}

impl TestCounts {
    pub fn count(
        &mut self,
        map: &DepotMap,
        given: &Stretch,
        tests: u32,
        outcome: &Outcome<Written>,
    ) {
        let are_fewer = || {
            let left = given.without_skipped_lines(map).lines;
            tests < legs_of(left.len())
        };
        match outcome {
            Ok(written) if are_fewer() => self.count_accepted(map, given, written),
            Err(Refusal::NoUsablePoints) if are_fewer() => self.refused_10 += 1,
            _ => {}
        }
    }

    fn count_accepted(&mut self, map: &DepotMap, given: &Stretch, written: &Written) {
        let (pos, neg) = (given.positive, given.negative);
        let with_all = write_on_map(map, given.lines, pos, neg, ALL_TESTS, usize::MAX);
        let Ok(with_all) = with_all else {
            return;
        };
        let (found, best) = (&written.reference, &with_all.reference);
        self.accepted += 1;
        self.with_excess += u64::from(written.excess > 0);
        self.more_points += u64::from(found.len() > best.len());
        self.other_places += u64::from(found.len() == best.len() && found != best);
    }

    pub fn count_with_more(&mut self, fewer: &Outcome<Written>, more: &Outcome<Written>) {
        match (fewer, more) {
            (Ok(fewer), Ok(more)) => {
                let has_fewer = more.reference.len() < fewer.reference.len();
                self.fewer_points_later += u64::from(has_fewer);
                self.smaller_excess_later += u64::from(more.excess < fewer.excess);
            }
            (Err(Refusal::TooFewTests), Ok(_)) => self.found_later += 1,
            (Err(Refusal::TooFewTests), Err(Refusal::NoUsablePoints)) => self.given_up_later += 1,
            _ => {}
        }
    }

    /// Prints the counts. Nothing must be missing.
    pub fn report(&self) -> Result<(), String> {
        let fewer = [
            ("refused 10", [self.refused_10]),
            ("accepted", [self.accepted]),
            ("accepted, with an excess", [self.with_excess]),
            ("accepted, other points than with all", [self.other_places]),
            ("accepted, more points than with all", [self.more_points]),
        ];
        print_rows("stretches with fewer tests than legs", &fewer)?;
        let twice = [
            ("accepted after 26", [self.found_later]),
            ("refused 10 after 26", [self.given_up_later]),
            ("fewer points", [self.fewer_points_later]),
            ("smaller excess", [self.smaller_excess_later]),
        ];
        print_rows("stretches again with more tests", &twice)
    }
}

/// One test for each leg of what remains, or as many as are given if that is fewer.
pub fn check_tests_made(lines: usize, tests: u32, written: &Written) -> Result<(), String> {
    if written.tests != tests.min(legs_of(lines)) {
        return Err(format!("{} tests made on {lines} lines", written.tests));
    }
    Ok(())
}

/// In a buffer that is long enough: more tests give no more points and no greater excess, and refuse
/// nothing that fewer accept.
pub fn check_with_more_tests(
    fewer: &Outcome<Written>,
    more: &Outcome<Written>,
) -> Result<(), String> {
    let holds = match (fewer, more) {
        (Ok(fewer), Ok(more)) => {
            more.reference.len() <= fewer.reference.len() && more.excess <= fewer.excess
        }
        (Err(Refusal::TooFewTests), more) => matches!(
            more,
            Ok(_) | Err(Refusal::TooFewTests | Refusal::NoUsablePoints)
        ),
        (fewer, more) => fewer == more,
    };
    match holds {
        true => Ok(()),
        false => Err(format!("{fewer:?}\n{more:?} with more tests")),
    }
}
