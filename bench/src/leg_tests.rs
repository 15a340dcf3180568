//! Which legs of a stretch are the only reading of their own description, if they are sole: whether other
//! first or last lines with the same marks have readings.

use crate::depot_map::{DepotMap, Direction};
use crate::fields::{distance_byte, lengths_of_distance_byte};
use crate::legs::{ends_at_lines, least_way, matching_first_lines, matching_last_lines, Ends};
use crate::places::Places;
use crate::search::{Bounds, Method, Search};
use crate::sole_legs::Detour;
use crate::writer::MOST_LINES;

/// How long the legs are guessed to get before any is tested: 1 km.
const FIRST_REACH: u32 = 100_000;

/// What the choice of points took: searches, and legs that were looked at after one. A leg is looked at
/// once for each first line that matches, until it fails.
#[derive(Clone, Copy, Debug, Default, PartialEq, Eq)]
pub struct Effort {
    pub searches: u32,
    pub leg_tests: u32,
}

/// The least and the greatest length that give the D of a leg.
type Lengths = (u32, u32);

pub struct LegTester<'a> {
    pub map: &'a DepotMap,
    pub lines: &'a [u32],
    pub search: Search,
    /// The length of the lines before each place. 64 of the longest are 96,000,000 long.
    length_to: [u32; MOST_LINES + 1],
    /// How long the legs from the place before got.
    pub reach: u32,
    /// The last that was found to each place.
    pub detours: [Detour; MOST_LINES + 1],
    pub effort: Effort,
}

impl<'a> LegTester<'a> {
    pub fn new(map: &'a DepotMap, lines: &'a [u32]) -> LegTester<'a> {
        let mut length_to = [0; MOST_LINES + 1];
        for (place, &line) in lines.iter().enumerate() {
            length_to[place + 1] = length_to[place] + map.line(line).length;
        }
        LegTester {
            map,
            lines,
            search: Search::new(map, Method::NodeAndLineHeap),
            length_to,
            reach: FIRST_REACH,
            detours: [Detour::default(); MOST_LINES + 1],
            effort: Effort::default(),
        }
    }

    #[inline]
    pub fn leg_length(&self, from: usize, to: usize) -> u32 {
        self.length_to[to] - self.length_to[from]
    }

    pub fn differences_fit(&self, from: usize, to: usize) -> bool {
        let start = self.map.node(self.map.line(self.lines[from]).start);
        let end = self.map.node(self.map.line(self.lines[to - 1]).end);
        start.differences_fit(end)
    }

    fn lowest_class(&self, from: usize, to: usize) -> u8 {
        let lines = self.lines[from..to].iter();
        lines.fold(0, |class, &line| class.max(self.map.line(line).frc))
    }

    fn lengths(&self, from: usize, to: usize) -> Lengths {
        lengths_of_distance_byte(distance_byte(self.leg_length(from, to)))
    }

    /// The first lines of the legs from a place: those with the marks of the stretch's own line.
    fn first_lines(&self, from: usize) -> impl Iterator<Item = u32> + 'a {
        let own = self.map.line(self.lines[from]);
        matching_first_lines(self.map, own.start, own.leaving_marks())
    }

    fn rivals(&self, from: usize) -> impl Iterator<Item = u32> + 'a {
        let own = self.lines[from];
        self.first_lines(from).filter(move |&line| line != own)
    }

    pub fn has_rivals(&self, from: usize) -> bool {
        self.rivals(from).next().is_some()
    }

    /// Those of these places from which the leg to this place is good. All of these legs are sole, and
    /// their differences fit.
    pub fn good_of_sole(&mut self, to: usize, sole: Places) -> Places {
        if to < self.lines.len() {
            let ends = Ends::node(self.map.line(self.lines[to]).start);
            return self.without_rivals(to, sole, &ends);
        }
        let ends = Ends::line(self.lines[to - 1]);
        let good = self.without_rivals(to, sole, &ends);
        self.without_other_last_lines(good)
    }

    /// Leaves out the legs where another first line has a reading to these ends of theirs. The longest
    /// leg of a class comes first, so that its search serves the others.
    fn without_rivals(&mut self, to: usize, sole: Places, ends: &Ends) -> Places {
        let mut good = sole;
        let mut searched = None;
        for from in sole.iter() {
            let lengths = self.lengths(from, to);
            let Some(rivals) = self.rivals_to_search(from, to, lengths) else {
                good.remove(from);
                continue;
            };
            if rivals.is_empty() {
                continue;
            }
            let class = self.lowest_class(from, to);
            if searched != Some(class) {
                self.search_back(ends, class, lengths.1);
                searched = Some(class);
            }
            self.effort.leg_tests += rivals.len() as u32;
            let has_reading = |&rival: &u32| self.has_reading(rival, None, lengths);
            if rivals.iter().any(has_reading) {
                good.remove(from);
            }
        }
        good
    }

    /// The rivals of a leg that have to be searched for, unless one is known to have a reading.
    ///
    /// A line that is itself a way to the leg's end is the least: one that leads to its end node, or its
    /// last line on the last leg. Another line beside the first has the same ways before it, if
    /// neither has bans: the least goes along the leg.
    fn rivals_to_search(&self, from: usize, to: usize, lengths: Lengths) -> Option<Vec<u32>> {
        let own = self.lines[from];
        let behind = self.leg_length(from, to) - self.map.line(own).length;
        let last = self.lines[to - 1];
        let end = self.map.line(last).end;
        let to_node = to < self.lines.len();
        let mut others = Vec::new();
        for rival in self.rivals(from) {
            let line = self.map.line(rival);
            let is_way = if to_node {
                line.end == end
            } else {
                rival == last
            };
            let length = if is_way {
                line.length
            } else if behind > 0 && self.has_same_ways_on(own, rival) {
                line.length + behind
            } else {
                others.push(rival);
                continue;
            };
            if length >= lengths.0 && length <= lengths.1 {
                return None;
            }
        }
        Some(others)
    }

    fn has_same_ways_on(&self, own: u32, other: u32) -> bool {
        self.map.line(own).end == self.map.line(other).end
            && self.map.banned_after(own).is_empty()
            && self.map.banned_after(other).is_empty()
    }

    fn search_back(&mut self, ends: &Ends, class: u8, limit: u32) {
        self.effort.searches += 1;
        ends.search_back(self.map, &mut self.search, class, limit, 1);
    }

    /// After a search back.
    fn has_reading(&self, first: u32, behind: Option<u32>, lengths: Lengths) -> bool {
        let way = least_way(self.map, &self.search, first, behind);
        way.is_some_and(|way| way.is_within(lengths))
    }

    /// Leaves out the last legs that have readings with another last line, by searches onward or back:
    /// there may be as many of one as first lines, of the other as last lines.
    fn without_other_last_lines(&mut self, good: Places) -> Places {
        let own = self.lines[self.lines.len() - 1];
        let last = self.map.line(own);
        let alike = matching_last_lines(self.map, last.end, last.arriving_marks());
        let others: Vec<u32> = alike.filter(|&line| line != own).collect();
        if others.is_empty() {
            return good;
        }
        let all_ends = ends_at_lines(self.map, others.iter().copied());
        let first_lines: usize = good.iter().map(|from| self.first_lines(from).count()).sum();
        if first_lines <= all_ends.len() {
            return self.without_readings_onward(good, &others);
        }
        let each = all_ends.iter();
        each.fold(good, |good, ends| self.without_readings_back(good, ends))
    }

    /// Leaves out the last legs that have readings with one of these last lines.
    fn without_readings_onward(&mut self, mut good: Places, last_lines: &[u32]) -> Places {
        let count = self.lines.len();
        for from in good.iter() {
            let lengths = self.lengths(from, count);
            let class = self.lowest_class(from, count);
            let mut first_lines = self.first_lines(from);
            if first_lines.any(|first| self.has_reading_to(first, last_lines, class, lengths)) {
                good.remove(from);
            }
        }
        good
    }

    fn has_reading_to(
        &mut self,
        first: u32,
        last_lines: &[u32],
        class: u8,
        lengths: Lengths,
    ) -> bool {
        let bounds = Bounds {
            first,
            class,
            limit: lengths.1,
        };
        self.effort.searches += 1;
        self.effort.leg_tests += 1;
        self.search.run_for(self.map, Direction::Onward, bounds, 1);
        let mut found = last_lines
            .iter()
            .filter_map(|&last| self.search.least(last));
        found.any(|length| length >= lengths.0)
    }

    /// Leaves out the last legs that have readings to these ends. The longest leg of a class comes
    /// first, so that its search serves the others.
    fn without_readings_back(&mut self, mut good: Places, ends: &Ends) -> Places {
        let count = self.lines.len();
        let mut searched = None;
        for from in good.iter() {
            let lengths = self.lengths(from, count);
            let class = self.lowest_class(from, count);
            if searched != Some(class) {
                self.search_back(ends, class, lengths.1);
                searched = Some(class);
            }
            self.effort.leg_tests += 1;
            let has_reading = |first| {
                let mut behind = ends.lines_behind();
                behind.any(|behind| self.has_reading(first, behind, lengths))
            };
            if self.first_lines(from).any(has_reading) {
                good.remove(from);
            }
        }
        good
    }
}
