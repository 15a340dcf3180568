//! The searches against going through every way, on small maps, and against each other, on the
//! maps of the benchmark; without bans and with many.

use plain::depot_map::{Ban, DepotMap};
use plain::fields::LONGEST_LEG;
use plain::maps::{
    chain, grid, hub, random_graph, small_map, steep, Bans, Lengths, MapPlan, PlannedLine, Xorshift,
};
use plain::search::{Before, Bounds, Method, Search};

const METHODS: [Method; 3] = [Method::LineQueue, Method::LineHeap, Method::NodeAndLineHeap];

/// For each line the least length of the ways that end with it, and all ways of that length.
type LeastWays = Vec<Option<(u32, Vec<Vec<u32>>)>>;

fn try_every_way(map: &DepotMap, bounds: Bounds, way: &mut Vec<u32>, least: &mut LeastWays) {
    let length = way.iter().map(|&line| map.line(line).length).sum();
    let last = way[way.len() - 1];
    if length > bounds.limit || map.line(last).frc > bounds.class {
        return;
    }
    match &mut least[last as usize] {
        Some((known, ways)) if *known == length => ways.push(way.clone()),
        Some((known, _)) if *known < length => {}
        entry => *entry = Some((length, vec![way.clone()])),
    }
    for next in map.lines_from(map.line(last).end) {
        if map.bans.contains(&Ban { line: last, next }) {
            continue;
        }
        way.push(next);
        try_every_way(map, bounds, way, least);
        way.pop();
    }
}

/// Gives whether a least way passes a node twice.
fn compare(map: &DepotMap, bounds: Bounds, search: &mut Search) -> bool {
    let mut least = vec![None; map.lines.len()];
    try_every_way(map, bounds, &mut vec![bounds.first], &mut least);
    search.run(map, bounds);
    let mut node_twice = false;
    for (line, expected) in (0..).zip(least) {
        let length = expected.as_ref().map(|(length, _)| *length);
        assert_eq!(search.least(line), length, "{bounds:?} line {line}");
        let Some((_, ways)) = expected else {
            continue;
        };
        node_twice |= passes_node_twice(map, &ways[0]);
        if ways.len() > 1 {
            let before = search.before(line);
            assert_eq!(before, Before::Several, "{bounds:?} line {line}");
            continue;
        }
        let mut way = Vec::new();
        search.append_way(line, &mut way);
        assert_eq!(way, ways[0], "{bounds:?} line {line}");
    }
    node_twice
}

fn passes_node_twice(map: &DepotMap, way: &[u32]) -> bool {
    let mut nodes: Vec<u32> = way.iter().map(|&line| map.line(line).end).collect();
    nodes.sort_unstable();
    nodes.windows(2).any(|pair| pair[0] == pair[1])
}

/// Compares each method from some lines. A way has seven lines at most, so that there are not too
/// many. Gives whether a least way passes a node twice.
fn compare_methods(plan: &MapPlan, rng: &mut Xorshift) -> bool {
    let map = DepotMap::decode(&plan.encode()).unwrap();
    let shortest = map.lines.iter().map(|line| line.length).min().unwrap();
    let mut node_twice = false;
    for method in METHODS {
        let mut search = Search::new(&map, method);
        for _ in 0..4 {
            let bounds = Bounds {
                first: rng.below(map.lines.len() as u32),
                class: rng.within(2, 7) as u8,
                limit: 7 * shortest,
            };
            node_twice |= compare(&map, bounds, &mut search);
        }
    }
    node_twice
}

#[test]
fn searches_find_the_least_ways() {
    for seed in 0..400 {
        compare_methods(&small_map(seed), &mut Xorshift::new(seed));
    }
}

/// Each turn is banned with the same chance, and some bans are listed again.
fn banned_turns(plan: &MapPlan, rng: &mut Xorshift) -> Vec<Ban> {
    let chance = rng.within(1, 9);
    let mut bans = plan.turns();
    bans.retain(|_| rng.below(10) < chance);
    bans.truncate(256);
    let again = rng.below(3) as usize * bans.len() / 2;
    bans.extend_from_within(..again);
    rng.shuffle(&mut bans);
    bans
}

#[test]
fn searches_find_the_least_ways_without_banned_turns() {
    let mut node_twice = 0;
    for seed in 0..1500 {
        let rng = &mut Xorshift::new(seed);
        let mut plan = small_map(seed);
        plan.bans = banned_turns(&plan, rng);
        node_twice += u32::from(compare_methods(&plan, rng));
    }
    assert!(node_twice > 100, "{node_twice} maps");
}

/// What a search answers for each line.
fn answers(map: &DepotMap, bounds: Bounds, search: &mut Search) -> Vec<Option<(u32, Before)>> {
    search.run(map, bounds);
    let lines = 0..map.lines.len() as u32;
    let answer = |line| Some((search.least(line)?, search.before(line)));
    lines.map(answer).collect()
}

/// Full-size maps and those made against the search.
fn plans() -> [MapPlan; 6] {
    let plans = [
        grid(1, Lengths::Equal),
        grid(2, Lengths::SlightlyDifferent),
        random_graph(3),
        chain(4, Lengths::SlightlyDifferent),
        hub(),
        steep(),
    ];
    plans.map(|plan| plan.shuffled(5))
}

const LIMITS: [u32; 6] = [
    50_000,
    150_000,
    LONGEST_LEG,
    LONGEST_LEG,
    LONGEST_LEG,
    LONGEST_LEG,
];

fn check_that_searches_agree(plan: &MapPlan) {
    let rng = &mut Xorshift::new(5);
    let map = DepotMap::decode(&plan.encode()).unwrap();
    let mut searches = METHODS.map(|method| Search::new(&map, method));
    for limit in LIMITS {
        let bounds = Bounds {
            first: rng.below(map.lines.len() as u32),
            class: rng.within(5, 7) as u8,
            limit,
        };
        let [first, others @ ..] = searches
            .each_mut()
            .map(|search| answers(&map, bounds, search));
        for (method, other) in METHODS[1..].iter().zip(others) {
            assert_eq!(first, other, "{method:?} {bounds:?}");
        }
    }
}

#[test]
fn searches_agree_on_full_size_maps() {
    for plan in plans() {
        check_that_searches_agree(&plan);
    }
}

#[test]
fn searches_agree_with_bans_spread_or_at_one_junction() {
    for plan in plans() {
        for place in [Bans::Spread, Bans::AtOneJunction] {
            let plan = plan.clone().with_bans(6, 512, place);
            assert_eq!(plan.bans.len(), 512);
            check_that_searches_agree(&plan);
        }
    }
}

/// No line may turn into one, one may turn into none, and each may turn into all but one or two.
#[test]
fn searches_agree_with_bans_in_rows() {
    let plan = hub().shuffled(5);
    let numbers = |start: u32| {
        let lines = (0..).zip(&plan.lines);
        let from =
            move |(number, line): (u32, &PlannedLine)| (line.start == start).then_some(number);
        lines.filter_map(from).collect::<Vec<u32>>()
    };
    let (out, back) = (numbers(0), numbers(1));
    let into_one = out.iter().map(|&line| (line, back[0]));
    let from_one = back.iter().map(|&next| (out[0], next));
    let in_turn = out.iter().zip(&back).map(|(&line, &next)| (line, next));
    let crossed = out
        .iter()
        .zip(back.iter().rev())
        .map(|(&line, &next)| (line, next));
    let halves = in_turn.clone().take(256).chain(crossed.take(256));
    let rows: [Vec<(u32, u32)>; 4] = [
        into_one.collect(),
        from_one.collect(),
        in_turn.collect(),
        halves.collect(),
    ];
    for row in rows {
        let mut plan = plan.clone();
        plan.bans = row.iter().map(|&(line, next)| Ban { line, next }).collect();
        check_that_searches_agree(&plan);
    }
}

/// Lengths of earlier searches are not reset before some 2,800 searches of the longest limit.
#[test]
fn a_search_does_not_see_the_ones_before_it() {
    let plan = small_map(7).with_bans(7, 5, Bans::Spread);
    let map = DepotMap::decode(&plan.encode()).unwrap();
    let all_bounds: Vec<Bounds> = (0..map.lines.len() as u32)
        .flat_map(|first| [2, 4_000, LONGEST_LEG].map(|limit| (first, limit)))
        .map(|(first, limit)| Bounds {
            first,
            class: 7,
            limit,
        })
        .collect();
    for method in METHODS {
        let fresh = |&bounds| answers(&map, bounds, &mut Search::new(&map, method));
        let expected: Vec<_> = all_bounds.iter().map(fresh).collect();
        let mut search = Search::new(&map, method);
        for turn in 0..100_000 {
            let number = turn % all_bounds.len();
            let found = answers(&map, all_bounds[number], &mut search);
            assert_eq!(found, expected[number], "{method:?} turn {turn}");
        }
    }
}
