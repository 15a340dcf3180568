//! Searching back from where a leg ends against searching onward from each first line, on small maps
//! full of ties, without bans and with many.

mod forward;

use plain::depot_map::{Ban, DepotMap, Direction};
use plain::fields::{distance_byte, LONGEST_LEG};
use plain::legs::{verdict, Leg, LegEnd};
use plain::maps::{small_map, MapPlan, Xorshift};
use plain::search::{Before, Bounds, Method, Search};

const SEEDS: u64 = 3000;

/// Each turn is banned with the same chance, on some maps none.
fn some_bans(plan: &MapPlan, rng: &mut Xorshift) -> Vec<Ban> {
    let chance = rng.below(10);
    let mut bans = plan.turns();
    bans.retain(|_| rng.below(10) < chance);
    rng.shuffle(&mut bans);
    bans.truncate(512);
    bans
}

fn map_with_bans(seed: u64, rng: &mut Xorshift) -> DepotMap {
    let mut plan = small_map(seed);
    plan.bans = some_bans(&plan, rng);
    DepotMap::decode(&plan.encode()).unwrap()
}

/// The least length from one line to another, and whether it is that of several ways.
fn least(search: &Search, line: u32) -> Option<(u32, bool)> {
    let length = search.least(line)?;
    Some((length, search.before(line) == Before::Several))
}

/// Of ways to different last lines: the least length, and whether several have it.
fn least_of(ways: impl Iterator<Item = (u32, bool)>) -> Option<(u32, bool)> {
    ways.reduce(|one, other| match one.0.cmp(&other.0) {
        std::cmp::Ordering::Less => one,
        std::cmp::Ordering::Equal => (one.0, true),
        std::cmp::Ordering::Greater => other,
    })
}

/// What a search back says of each line against a search onward from it.
fn compare_searches(map: &DepotMap, class: u8, limit: u32, back: &mut Search) {
    let lines = 0..map.lines.len() as u32;
    let mut onward = Search::new(map, Method::LineHeap);
    let mut table = Vec::new();
    for first in lines.clone() {
        let bounds = Bounds {
            first,
            class,
            limit,
        };
        onward.run(map, bounds);
        let row: Vec<_> = lines.clone().map(|last| least(&onward, last)).collect();
        table.push(row);
    }
    for last in lines.clone() {
        let bounds = Bounds {
            first: last,
            class,
            limit,
        };
        back.run_for(map, Direction::Back, bounds, 1);
        for first in lines.clone() {
            let expected = table[first as usize][last as usize];
            assert_eq!(least(back, first), expected, "{first} to {last}");
        }
    }
    for node in 0..map.nodes.len() as u32 {
        back.run_back_from_node(map, node, class, limit, 1);
        for first in lines.clone() {
            let row = &table[first as usize];
            let ways = map.lines_to(node).filter_map(|last| row[last as usize]);
            let expected = least_of(ways);
            assert_eq!(least(back, first), expected, "{first} to node {node}");
        }
    }
}

#[test]
fn searches_back_find_what_searches_onward_find() {
    for seed in 0..SEEDS {
        let rng = &mut Xorshift::new(seed);
        let map = map_with_bans(seed, rng);
        let longest = map.lines.iter().map(|line| line.length).max().unwrap();
        let limit = (rng.within(1, 8) * longest).min(LONGEST_LEG);
        let back = &mut Search::new(&map, Method::NodeAndLineHeap);
        compare_searches(&map, rng.within(0, 7) as u8, limit, back);
    }
}

/// A leg between any nodes, with the marks of lines there where there are any.
fn any_leg(map: &DepotMap, rng: &mut Xorshift) -> Leg {
    let count = map.lines.len() as u32;
    let [first, last] = [(); 2].map(|()| map.line(rng.below(count)));
    let length = (1..rng.within(2, 5)).fold(first.length, |length, _| {
        length + map.line(rng.below(count)).length
    });
    let is_last = rng.below(2) == 0;
    Leg {
        start: first.start,
        first_marks: first.leaving_marks(),
        lowest_class: rng.within(u32::from(first.frc), 7) as u8,
        distance: distance_byte(length.min(LONGEST_LEG)),
        end: LegEnd {
            node: last.end,
            last_marks: is_last.then(|| last.arriving_marks()),
        },
    }
}

#[test]
fn legs_have_the_same_readings() {
    let mut counts = [[0; 3]; 2];
    for seed in 0..SEEDS {
        let rng = &mut Xorshift::new(seed);
        let map = map_with_bans(seed, rng);
        let search = &mut Search::new(&map, Method::NodeAndLineHeap);
        for _ in 0..20 {
            let leg = any_leg(&map, rng);
            let mut lines = Vec::new();
            let found = verdict(&map, search, &leg, &mut lines);
            let (expected, expected_lines) = forward::verdict(&map, &leg);
            assert_eq!(found, expected, "seed {seed} {leg:?}");
            assert_eq!(lines, expected_lines, "seed {seed} {leg:?}");
            let kind = usize::from(leg.end.last_marks.is_some());
            counts[kind][found as usize] += 1;
        }
    }
    let enough = |of_kind: &[u32; 3]| of_kind.iter().all(|&count| count > 1000);
    assert!(counts.iter().all(enough), "{counts:?}");
}
