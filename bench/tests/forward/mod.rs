//! A leg's readings by one search onward from each first line, for comparing.

use plain::depot_map::DepotMap;
use plain::fields::lengths_of_distance_byte;
use plain::legs::{matching_first_lines, Leg, LegEnd, Verdict};
use plain::search::{Before, Bounds, Method, Search};

/// All readings of the leg, where none has a tie: else there are several.
pub fn verdict(map: &DepotMap, leg: &Leg) -> (Verdict, Vec<u32>) {
    let search = &mut Search::new(map, Method::LineHeap);
    let (shortest, longest) = lengths_of_distance_byte(leg.distance);
    let mut found = Vec::new();
    for first in matching_first_lines(map, leg.start, leg.first_marks) {
        let bounds = Bounds {
            first,
            class: leg.lowest_class,
            limit: longest,
        };
        search.run(map, bounds);
        for last in last_lines(map, search, leg.end) {
            if search.least(last) < Some(shortest) {
                continue;
            }
            if !found.is_empty() || search.before(last) == Before::Several {
                return (Verdict::Several, Vec::new());
            }
            search.append_way(last, &mut found);
        }
    }
    match found.is_empty() {
        true => (Verdict::None, found),
        false => (Verdict::One, found),
    }
}

/// The last lines of the least ways: to the node, or to each line with the marks of the last.
fn last_lines(map: &DepotMap, search: &Search, end: LegEnd) -> Vec<u32> {
    let reached = |line: &u32| search.least(*line).is_some();
    let reached = map.lines_to(end.node).filter(reached);
    match end.last_marks {
        Some(marks) => reached
            .filter(|&line| map.line(line).arriving_marks() == marks)
            .collect(),
        None => {
            let mut lines: Vec<u32> = reached.collect();
            let least = lines.iter().map(|&line| search.least(line)).min();
            lines.retain(|&line| Some(search.least(line)) == least);
            lines
        }
    }
}
