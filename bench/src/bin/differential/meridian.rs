//! How many calls had to do with the 180th meridian.

use plain::depot_map::{DepotMap, Node};
use plain::maps::MapPlan;
use plain::outcome::{Outcome, Refusal};

use crate::counts::print_rows;
use crate::points::{hops, Hop};

/// How many calls went over the meridian eastward, and how many westward.
type Ways = [u64; 2];
const EAST: usize = 0;
const WEST: usize = 1;

/// The greatest difference of 16 bits each way, and the next one.
const GREATEST: [i32; 2] = [32_767, -32_768];
const TOO_GREAT: [i32; 2] = [32_768, -32_769];

/// From the easternmost longitude of a map to its westernmost, and back.
const LEAST: [i32; 2] = [2, -2];

/// What lies between these two, before it is brought round.
const NO_LONGITUDE: [i32; 2] = [17_999_999, -18_000_001];

#[derive(Default)]
pub struct Meridian {
    /// Stretches or points with a leg over the meridian, and those of them with one of the greatest
    /// and of the least difference.
    written: Ways,
    written_greatest: Ways,
    written_least: Ways,
    /// Those with refusal 10 for differences that are too great by one alone.
    too_far: Ways,
    /// References with a leg over the meridian.
    read: Ways,
    /// References with refusal 16 for a point over the meridian, and for one at 17,999,999.
    no_node: Ways,
    no_longitude: Ways,
}

impl Meridian {
    pub fn count_written(&mut self, map: &DepotMap, reference: &[u8]) {
        let hops = hops(map, reference);
        for way in [EAST, WEST] {
            let across = || hops.iter().filter(|hop| is_across(hop, way));
            let has = |difference| across().any(|hop| hop.differences[0] == difference);
            count(&mut self.written[way], across().next().is_some());
            count(&mut self.written_greatest[way], has(GREATEST[way]));
            count(&mut self.written_least[way], has(LEAST[way]));
        }
    }

    /// Of lines with refusal 10. It is asked whether they are written where all nodes on one side of
    /// the meridian are one nearer to it.
    pub fn count_too_far(
        &mut self,
        map: &DepotMap,
        plan: &MapPlan,
        lines: &[u32],
        is_written: impl Fn(&[u8]) -> bool,
    ) {
        for way in [EAST, WEST] {
            let is_too_far = has_nodes_apart(map, lines, TOO_GREAT[way]);
            let is_alone = is_too_far && is_written(&with_sides_nearer(plan).encode());
            count(&mut self.too_far[way], is_alone);
        }
    }

    pub fn count_read<T>(&mut self, map: &DepotMap, reference: &[u8], outcome: &Outcome<T>) {
        let hops = match outcome {
            Ok(_) | Err(Refusal::PointWithoutNode(1..)) => hops(map, reference),
            Err(_) => return,
        };
        for way in [EAST, WEST] {
            if outcome.is_ok() {
                let mut all = hops.iter();
                count(&mut self.read[way], all.any(|hop| is_across(hop, way)));
            } else if let Some(last) = hops.last() {
                count(&mut self.no_node[way], is_across(last, way));
                let has_none = last.plain_longitude() == NO_LONGITUDE[way];
                count(&mut self.no_longitude[way], has_none);
            }
        }
    }

    /// Prints the counts of stretches or points. Nothing must be missing.
    pub fn report(&self, of: &str) -> Result<(), String> {
        let rows = [
            ("written", self.written),
            ("written, greatest difference", self.written_greatest),
            ("written, least difference", self.written_least),
            ("refused 10, one past 16 bits", self.too_far),
            ("read", self.read),
            ("refused 16", self.no_node),
            ("refused 16 at 17,999,999", self.no_longitude),
        ];
        let title = format!("{of} over the 180th meridian, eastward and westward");
        print_rows(&title, &rows)
    }
}

fn count(calls: &mut u64, is_one: bool) {
    *calls += u64::from(is_one);
}

fn is_across(hop: &Hop, way: usize) -> bool {
    match way {
        EAST => hop.plain_longitude() >= 18_000_000,
        _ => hop.plain_longitude() < -18_000_000,
    }
}

/// Whether two nodes on the way are so far apart, with the meridian between them.
fn has_nodes_apart(map: &DepotMap, lines: &[u32], difference: i32) -> bool {
    let starts = lines.iter().map(|&line| map.line(line).start);
    let ends = lines.iter().map(|&line| map.line(line).end);
    let is_apart = |from: Node, to: Node| {
        let is_across = to.longitude - from.longitude != difference;
        is_across && from.differences_to(to)[0] == difference
    };
    starts.enumerate().any(|(place, start)| {
        let mut later = ends.clone().skip(place);
        later.any(|end| is_apart(map.node(start), map.node(end)))
    })
}

fn with_sides_nearer(plan: &MapPlan) -> MapPlan {
    let mut plan = plan.clone();
    let west_of_greenwich = plan.nodes.iter_mut().filter(|node| node.longitude < 0);
    west_of_greenwich.for_each(|node| node.longitude -= 1);
    plan
}
