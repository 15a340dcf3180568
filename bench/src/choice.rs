//! The choice of points: the fewest over the legs that test good, and how many the fewest are when
//! untested legs count as good ("Best found so far").

use crate::leg_tests::LegTester;
use crate::outcome::{Outcome, Refusal};
use crate::places::Places;
use crate::sole_legs::Wanted;
use crate::writer::MOST_LINES;

/// The legs that are tested, in the order of their starts and then of their ends.
#[derive(Clone, Copy, Debug, PartialEq, Eq)]
pub struct Tested {
    pub made: u32,
    /// From how many places, the first ones, every leg is tested. From the next place some may be, and
    /// the last is not: what is tested there is of no use, since no leg from where it ends is tested.
    rows: usize,
}

impl Tested {
    pub fn new(lines: usize, tests: u32) -> Tested {
        let mut rest = tests;
        let mut rows = 0;
        let mut legs = lines as u32;
        while legs > 0 && rest >= legs {
            rest -= legs;
            legs -= 1;
            rows += 1;
        }
        let all = lines as u32 * (lines as u32 + 1) / 2;
        Tested {
            made: tests.min(all),
            rows,
        }
    }
}

/// The places of all points, from 0 to the count of lines.
pub struct Choice {
    pub places: Vec<usize>,
    /// Over the fewest points when untested legs count as good.
    pub excess: u32,
}

/// The fewest points, and among those choices the one with most lines first. Refusals 26 and 10.
pub fn choose_points(tester: &mut LegTester, tested: Tested) -> Outcome<Choice> {
    let rows = tested.rows;
    if rows == 0 {
        return Err(Refusal::TooFewTests);
    }
    if rows < tester.lines.len() && has_good_lines(tester, rows) && !ends_somewhere(tester, rows) {
        return Err(Refusal::TooFewTests);
    }
    if let Some(places) = furthest_each_time(tester, rows) {
        return Ok(Choice { places, excess: 0 });
    }
    best_of_all(tester, rows)
}

/// Whether each of these first lines is a good leg by itself, and nothing has to be searched for to know
/// it. They lead to where legs are untested.
fn has_good_lines(tester: &LegTester, rows: usize) -> bool {
    (0..rows).all(|from| tester.differences_fit(from, from + 1) && !tester.has_rivals(from))
}

/// Whether a leg to the end from one of these first places is sole. If any is, so is the last of them.
fn ends_somewhere(tester: &mut LegTester, rows: usize) -> bool {
    let count = tester.lines.len();
    let row = tester.row(rows - 1);
    row.furthest == count
        && tester
            .sole_places(&row, Places::one(count), Wanted::Furthest)
            .contains(count)
}

/// Takes the longest sole leg each time, if all of these are good.
///
/// A sole leg is so without its first lines too, so from a later place no furthest sole leg ends earlier:
/// after as many legs no other choice is further on. So none has fewer points, and with as many none
/// has more lines first. Nor does any come to a place with untested legs sooner, so that untested legs
/// make no fewer points.
fn furthest_each_time(tester: &mut LegTester, rows: usize) -> Option<Vec<usize>> {
    let count = tester.lines.len();
    let mut places = vec![0];
    let mut from = 0;
    while from < count {
        if from >= rows {
            return None;
        }
        let row = tester.row(from);
        let all = Places::range(from + 1, row.furthest);
        let to = tester.sole_places(&row, all, Wanted::Furthest).last()?;
        if !tester.differences_fit(from, to) {
            return None;
        }
        if tester.good_of_sole(to, Places::one(from)).is_empty() {
            return None;
        }
        places.push(to);
        from = to;
    }
    Some(places)
}

/// No legs from this place lead to the end.
const NONE: u32 = u32::MAX / 2;

/// The fewest legs from each place on, over the legs tested good, and when untested legs count as good.
struct LegsLeft {
    tested: [u32; MOST_LINES + 1],
    at_best: [u32; MOST_LINES + 1],
    /// Where the first of the legs tested good ends.
    next: [usize; MOST_LINES + 1],
}

impl LegsLeft {
    /// From places where no leg is looked at: an untested leg leads to the end.
    fn new(count: usize, rows: usize) -> LegsLeft {
        let mut left = LegsLeft {
            tested: [NONE; MOST_LINES + 1],
            at_best: [NONE; MOST_LINES + 1],
            next: [0; MOST_LINES + 1],
        };
        left.at_best[rows..count].fill(1);
        left.tested[count] = 0;
        left.at_best[count] = 0;
        left
    }

    fn has_use_for(&self, from: usize, to: usize) -> bool {
        self.tested[to] + 1 < self.tested[from] || self.at_best[to] + 1 < self.at_best[from]
    }

    fn take(&mut self, from: usize, to: usize) {
        self.at_best[from] = self.at_best[from].min(self.at_best[to] + 1);
        if self.tested[to] + 1 < self.tested[from] {
            self.tested[from] = self.tested[to] + 1;
            self.next[from] = to;
        }
    }

    fn choice(&self, count: usize) -> Outcome<Choice> {
        if self.at_best[0] >= NONE {
            return Err(Refusal::NoUsablePoints);
        }
        if self.tested[0] >= NONE {
            return Err(Refusal::TooFewTests);
        }
        let mut places = vec![0];
        let mut place = 0;
        while place != count {
            place = self.next[place];
            places.push(place);
        }
        Ok(Choice {
            places,
            excess: self.tested[0] - self.at_best[0],
        })
    }
}

/// Looks at all legs that are of use.
///
/// From the end on: once the legs to all later places are known, so are the fewest legs from a
/// place. Of places that take equally many the furthest comes first.
fn best_of_all(tester: &mut LegTester, rows: usize) -> Outcome<Choice> {
    let count = tester.lines.len();
    let sole = sole_legs_to(tester, rows);
    let mut left = LegsLeft::new(count, rows);
    for to in (1..=count).rev() {
        let mut of_use = Places::NONE;
        for from in sole[to].iter().filter(|&from| left.has_use_for(from, to)) {
            of_use.insert(from);
        }
        for from in tester.good_of_sole(to, of_use).iter() {
            left.take(from, to);
        }
    }
    left.choice(count)
}

/// For each place the first places from which the leg to it is sole and its differences fit. A place to
/// which there is no such leg is not begun with.
fn sole_legs_to(tester: &mut LegTester, rows: usize) -> [Places; MOST_LINES + 1] {
    let mut legs_to = [Places::NONE; MOST_LINES + 1];
    let mut known = Places::NONE;
    for from in 0..rows {
        if from > 0 && legs_to[from].is_empty() {
            continue;
        }
        let row = tester.row(from);
        known = known.from(from + 1);
        let open = Places::range(from + 1, row.furthest).without(known);
        known = known.union(tester.sole_places(&row, open, Wanted::All));
        for to in known.iter().filter(|&to| tester.differences_fit(from, to)) {
            legs_to[to].insert(from);
        }
    }
    legs_to
}
