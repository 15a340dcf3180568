//! A leg's readings ("What counts as a reading").
//!
//! One search back from where a leg ends serves all of its first lines. On the last leg there is
//! one for each last line that matches, or for all of those that start at the same node and that
//! no line is banned before. Where only one first line matches, the search goes onward from it.

use crate::depot_map::{DepotMap, Direction};
use crate::fields::{lengths_of_distance_byte, Marks};
use crate::search::{Before, Bounds, Search};

/// Where a leg ends. The last line's marks are given on the last leg only.
#[derive(Clone, Copy, Debug)]
pub struct LegEnd {
    pub node: u32,
    pub last_marks: Option<Marks>,
}

/// A leg as the bytes describe it.
#[derive(Clone, Copy, Debug)]
pub struct Leg {
    pub start: u32,
    pub first_marks: Marks,
    pub lowest_class: u8,
    pub distance: u8,
    pub end: LegEnd,
}

#[derive(Clone, Copy, Debug, PartialEq, Eq)]
pub enum Verdict {
    None,
    One,
    Several,
}

/// The leg's verdict. If there is one reading, its lines are put behind the list.
///
/// No way longer than D allows is looked at: a least way that is longer does not give D,
/// and no way that is longer can be least in place of one that is not.
pub fn verdict(map: &DepotMap, search: &mut Search, leg: &Leg, list: &mut Vec<u32>) -> Verdict {
    let mut first_lines = matching_first_lines(map, leg.start, leg.first_marks);
    let Some(first) = first_lines.next() else {
        return Verdict::None;
    };
    if first_lines.next().is_none() {
        return verdict_onward(map, search, leg, first, list);
    }
    let start = list.len();
    let verdict = match leg.end.last_marks {
        None => {
            let to_node = Ends::node(leg.end.node);
            verdict_with(map, search, leg, &to_node, Verdict::None, list)
        }
        Some(marks) => verdict_of_last_leg(map, search, leg, marks, list),
    };
    if verdict == Verdict::Several {
        list.truncate(start);
    }
    verdict
}

/// The verdict where this is the only first line.
fn verdict_onward(
    map: &DepotMap,
    search: &mut Search,
    leg: &Leg,
    first: u32,
    list: &mut Vec<u32>,
) -> Verdict {
    let (shortest_way, limit) = lengths_of_distance_byte(leg.distance);
    let last_lengths = map.lines_to(leg.end.node).map(|line| map.line(line).length);
    let Some(shortest) = last_lengths.min() else {
        return Verdict::None;
    };
    let bounds = Bounds {
        first,
        class: leg.lowest_class,
        limit,
    };
    search.run_for(map, Direction::Onward, bounds, shortest);
    let (length, last) = match leg.end.last_marks {
        None => nearest_last_line(map, search, leg.end.node),
        Some(marks) => only_last_line(map, search, leg.end.node, marks, shortest_way),
    };
    match last {
        _ if length < shortest_way || length > limit => Verdict::None,
        Some(last) if search.before(last) != Before::Several => {
            search.append_way(last, list);
            Verdict::One
        }
        _ => Verdict::Several,
    }
}

/// After a search onward: the least length to the node, and the last line if only one has it.
fn nearest_last_line(map: &DepotMap, search: &Search, node: u32) -> (u32, Option<u32>) {
    let mut nearest = (u32::MAX, None);
    for last in map.lines_to(node) {
        match search.least(last) {
            Some(length) if length < nearest.0 => nearest = (length, Some(last)),
            Some(length) if length == nearest.0 => nearest.1 = None,
            _ => {}
        }
    }
    nearest
}

/// After a search onward: a length to a last line with these marks that is not too short, and that
/// line if it is the only one.
fn only_last_line(
    map: &DepotMap,
    search: &Search,
    node: u32,
    marks: Marks,
    shortest_way: u32,
) -> (u32, Option<u32>) {
    let mut only = (u32::MAX, None);
    for last in matching_last_lines(map, node, marks) {
        match search.least(last) {
            Some(length) if length >= shortest_way => {
                let is_first = only.0 == u32::MAX;
                only = (length, is_first.then_some(last));
            }
            _ => {}
        }
    }
    only
}

fn verdict_of_last_leg(
    map: &DepotMap,
    search: &mut Search,
    leg: &Leg,
    marks: Marks,
    list: &mut Vec<u32>,
) -> Verdict {
    let mut verdict = Verdict::None;
    if marks.frc > leg.lowest_class {
        return verdict;
    }
    let last_lines = matching_last_lines(map, leg.end.node, marks);
    for ends in ends_at_lines(map, last_lines) {
        verdict = verdict_with(map, search, leg, &ends, verdict, list);
        if verdict == Verdict::Several {
            break;
        }
    }
    verdict
}

/// The verdict on the readings to these ends and to those before, whose only reading is the last of
/// the list.
fn verdict_with(
    map: &DepotMap,
    search: &mut Search,
    leg: &Leg,
    ends: &Ends,
    mut verdict: Verdict,
    list: &mut Vec<u32>,
) -> Verdict {
    let lengths = lengths_of_distance_byte(leg.distance);
    let first_lines = || matching_first_lines(map, leg.start, leg.first_marks);
    let first_lengths = first_lines().map(|line| map.line(line).length);
    let Some(shortest) = first_lengths.min() else {
        return verdict;
    };
    ends.search_back(map, search, leg.lowest_class, lengths.1, shortest);
    for first in first_lines() {
        for behind in ends.lines_behind() {
            let Some(way) = least_way(map, search, first, behind) else {
                continue;
            };
            if !way.is_within(lengths) {
                continue;
            }
            if verdict == Verdict::One || !way.is_only {
                return Verdict::Several;
            }
            verdict = Verdict::One;
            append_way(search, first, behind, list);
        }
    }
    verdict
}

/// The lines that leave the node with these marks.
pub fn matching_first_lines(
    map: &DepotMap,
    node: u32,
    marks: Marks,
) -> impl Iterator<Item = u32> + '_ {
    let leaving = map.lines_from(node);
    leaving.filter(move |&line| map.line(line).leaving_marks() == marks)
}

/// The lines that arrive at the node with these marks.
pub fn matching_last_lines(
    map: &DepotMap,
    node: u32,
    marks: Marks,
) -> impl Iterator<Item = u32> + '_ {
    let arriving = map.lines_to(node);
    arriving.filter(move |&line| map.line(line).arriving_marks() == marks)
}

#[derive(Clone, Copy, Debug, PartialEq, Eq)]
enum Origin {
    Node(u32),
    Line(u32),
}

/// Ends of ways that one search back serves: a node, whatever line they arrive there by, a last
/// line, or each of some last lines behind the ways to a node.
#[derive(Clone, Debug, PartialEq, Eq)]
pub struct Ends {
    origin: Origin,
    behind: Vec<u32>,
}

impl Ends {
    pub fn node(node: u32) -> Ends {
        Ends {
            origin: Origin::Node(node),
            behind: Vec::new(),
        }
    }

    pub fn line(line: u32) -> Ends {
        Ends {
            origin: Origin::Line(line),
            behind: Vec::new(),
        }
    }

    /// For each end the line behind the ways that the search finds, if they are not whole.
    pub fn lines_behind(&self) -> impl Iterator<Item = Option<u32>> + '_ {
        let whole = self.behind.is_empty().then_some(None);
        whole
            .into_iter()
            .chain(self.behind.iter().copied().map(Some))
    }

    /// Searches for all ways to these ends that are no longer than the limit, from first lines of
    /// at least the shortest length.
    pub fn search_back(
        &self,
        map: &DepotMap,
        search: &mut Search,
        class: u8,
        limit: u32,
        shortest: u32,
    ) {
        match self.origin {
            Origin::Line(first) => {
                let bounds = Bounds {
                    first,
                    class,
                    limit,
                };
                search.run_for(map, Direction::Back, bounds, shortest);
            }
            Origin::Node(node) => {
                let lengths = self.behind.iter().map(|&line| map.line(line).length);
                let limit = limit.saturating_sub(lengths.min().unwrap_or(0));
                search.run_back_from_node(map, node, class, limit, shortest);
            }
        }
    }
}

/// These last lines as ends. Those that start at one node share a search, but not where a line is
/// banned before them.
pub fn ends_at_lines(map: &DepotMap, lines: impl Iterator<Item = u32>) -> Vec<Ends> {
    let back = map.view(Direction::Back);
    let mut all: Vec<Ends> = Vec::new();
    for line in lines {
        if !back.banned_next(line).is_empty() {
            all.push(Ends::line(line));
            continue;
        }
        let origin = Origin::Node(map.line(line).start);
        match all.iter_mut().find(|ends| ends.origin == origin) {
            Some(ends) => ends.behind.push(line),
            None => all.push(Ends {
                origin,
                behind: vec![line],
            }),
        }
    }
    all
}

/// The length of the least ways from a first line to an end, and whether there is only one.
#[derive(Clone, Copy, Debug, PartialEq, Eq)]
pub struct LeastWay {
    pub length: u32,
    pub is_only: bool,
}

impl LeastWay {
    pub fn is_within(self, (shortest, longest): (u32, u32)) -> bool {
        self.length >= shortest && self.length <= longest
    }
}

/// After a search back: the least ways from this line to one of the ends. A line that is itself the
/// end is the least way to it.
#[inline]
pub fn least_way(
    map: &DepotMap,
    search: &Search,
    first: u32,
    behind: Option<u32>,
) -> Option<LeastWay> {
    let length_behind = behind.map_or(0, |line| map.line(line).length);
    if behind == Some(first) {
        return Some(LeastWay {
            length: length_behind,
            is_only: true,
        });
    }
    Some(LeastWay {
        length: search.least(first)? + length_behind,
        is_only: search.before(first) != Before::Several,
    })
}

fn append_way(search: &Search, first: u32, behind: Option<u32>, list: &mut Vec<u32>) {
    if behind != Some(first) {
        search.append_way_onward(first, list);
    }
    list.extend(behind);
}
