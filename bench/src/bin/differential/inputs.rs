//! Maps, stretches, offsets and references from a random source.

use plain::depot_map::{Ban, DepotMap, Node};
use plain::fields::{
    brought_round, Steps, DISTANCE_STEP, LONGEST_LEG, LONGEST_LINE, LONGEST_STEP, STATUS_BYTE,
};
use plain::maps::{
    any_steps, chain, grid, nearest_steps, random_graph, random_walk, small_map, Bans, Lengths,
    MapPlan, PlannedLine, Turns, Xorshift,
};
use plain::writer::{reference_bytes, write_on_map, Stretch, ALL_TESTS, MOST_LINES};

use crate::calls::line_bytes;
use crate::damages::change_offsets;
use crate::points::total_length;
use crate::test_counts::legs_of;

const MOST_LEGS: usize = 64;
pub const MOST_BANS: usize = 512;

/// The longitudes of a map's nodes on both sides of the 180th meridian.
pub const EASTERNMOST: i32 = 17_999_998;
pub const WESTERNMOST: i32 = -18_000_000;

/// How far apart nodes are put across the meridian: the least that there is, at the ends of 16 bits,
/// which hold 32,768 westward alone, and half a circle.
const WIDTHS: [i32; 7] = [2, 32_767, 32_768, 32_768, 32_769, 32_769, 18_000_000];

/// At the edges of D, with and without offsets of byte 255 and of byte 0, and up to the longest.
pub const EDGE_LENGTHS: [u32; 13] = [
    1,
    170,
    171,
    512,
    513,
    DISTANCE_STEP - 1,
    DISTANCE_STEP,
    DISTANCE_STEP + 1,
    2 * DISTANCE_STEP - 1,
    2 * DISTANCE_STEP,
    LONGEST_LEG / 2,
    LONGEST_LINE - 1,
    LONGEST_LINE,
];

/// Where an offset byte ends and the next begins, in 512ths of the leg: the first two and the last two. From
/// the last on the nearest is 256.
const EDGE_PARTS: [u32; 4] = [1, 3, 509, 511];

pub fn any_small_plan(rng: &mut Xorshift) -> MapPlan {
    let mut plan = match rng.below(8) {
        0 => zigzag_road(rng),
        _ => small_map(rng.draw()),
    };
    match rng.below(16) {
        0..=3 => make_multiples_of_512(&mut plan),
        4 => make_nearly_longest(&mut plan),
        _ => {}
    }
    if rng.below(4) == 0 {
        for _ in 0..rng.within(1, 4) {
            let line = rng.below(plan.lines.len() as u32) as usize;
            plan.lines[line].length = *rng.pick(&EDGE_LENGTHS);
        }
    }
    if rng.below(4) != 0 {
        draw_steps(rng, &mut plan);
    }
    match rng.below(8) {
        0 | 1 => move_to_corner(rng, &mut plan),
        2 => move_over_meridian(rng, &mut plan),
        3 => move_to_both_sides(rng, &mut plan),
        _ => {}
    }
    plan.bans = any_bans(rng, &plan);
    plan
}

/// A road with a line each way, to and fro over longitudes: the differences of many legs do not fit, and
/// those of longer ones do. So the fewest points hang on which legs are tested.
fn zigzag_road(rng: &mut Xorshift) -> MapPlan {
    const REACH: i32 = 90_000;
    let mut plan = MapPlan::default();
    let mut longitude = 0;
    for node in 0..rng.within(6, 20) as i32 {
        plan.nodes.push(Node {
            longitude,
            latitude: 100 * node,
        });
        let way = rng.within(12_000, 32_767) as i32;
        longitude = (longitude + *rng.pick(&[-way, way])).clamp(-REACH, REACH);
    }
    for node in 1..plan.nodes.len() as u32 {
        for (start, end) in [(node - 1, node), (node, node - 1)] {
            plan.lines.push(PlannedLine {
                start,
                end,
                length: rng.within(1, 20_000),
                frc: rng.below(8) as u8,
                fow: 3,
                out: any_steps(rng),
                back: any_steps(rng),
            });
        }
    }
    plan
}

/// On a leg of another length no offset is exactly at a half.
fn make_multiples_of_512(plan: &mut MapPlan) {
    for line in &mut plan.lines {
        line.length = line.length.next_multiple_of(512);
    }
}

/// Many of these lines have a total that does not fit 32 bits once it is taken 256 times.
fn make_nearly_longest(plan: &mut MapPlan) {
    for line in &mut plan.lines {
        line.length = LONGEST_LINE - line.length % 100;
    }
}

/// A few directions for all lines, and for some lines steps beside them. So many lines have one sector
/// by different steps, or sectors next to each other.
fn draw_steps(rng: &mut Xorshift, plan: &mut MapPlan) {
    let count = *rng.pick(&[1, 1, 2, 3, 4, 40]);
    let directions: Vec<Steps> = (0..count).map(|_| steps_with_edges(rng)).collect();
    let rarity = *rng.pick(&[1, 2, 8]);
    for line in &mut plan.lines {
        for steps in [&mut line.out, &mut line.back] {
            *steps = *rng.pick(&directions);
            if rng.below(rarity) == 0 {
                *steps = steps_beside(rng, *steps);
            }
        }
    }
}

/// At or next to the edge of a sector, at the ends of the range, or anything.
fn steps_with_edges(rng: &mut Xorshift) -> Steps {
    let reaches = [1, 2, 5, 200, 249, 250, rng.within(1, 250)];
    let reach = *rng.pick(&reaches);
    match rng.below(6) {
        0 => nearest_steps(f64::from(90 * rng.below(4)), f64::from(reach)),
        1 => {
            let [east, north] = [(); 2].map(|()| *rng.pick(&[-1, 1]) * reach as i32);
            Steps { east, north }
        }
        2 | 3 => nearest_steps(11.25 * f64::from(rng.below(32)), f64::from(reach)),
        _ => any_steps(rng),
    }
}

/// Steps that differ by one at most, unless both would be 0.
fn steps_beside(rng: &mut Xorshift, steps: Steps) -> Steps {
    let [east, north] = [steps.east, steps.north]
        .map(|step| (step + rng.below(3) as i32 - 1).clamp(-LONGEST_STEP, LONGEST_STEP));
    match (east, north) {
        (0, 0) => steps,
        _ => Steps { east, north },
    }
}

/// Some turns of the map: none, one, a few or many, and some of them listed again.
fn any_bans(rng: &mut Xorshift, plan: &MapPlan) -> Vec<Ban> {
    let mut bans = plan.turns();
    rng.shuffle(&mut bans);
    let many = rng.below(bans.len() as u32 + 1) as usize;
    let counts = [0, 1, 2, 3, 5, many / 4, many / 2];
    bans.truncate(*rng.pick(&counts));
    let again = *rng.pick(&[0, 0, 1, bans.len()]);
    bans.extend_from_within(..again.min(bans.len()));
    bans.truncate(MOST_BANS);
    bans
}

/// Moves all nodes as far as coordinates go. Codes may fall together.
fn move_to_corner(rng: &mut Xorshift, plan: &mut MapPlan) {
    let longitudes = plan.nodes.iter().map(|node| node.longitude);
    let east = to_edge(rng, longitudes, (WESTERNMOST, EASTERNMOST));
    let latitudes = plan.nodes.iter().map(|node| node.latitude);
    let north = to_edge(rng, latitudes, (-9_000_000, 9_000_000));
    for node in &mut plan.nodes {
        node.longitude += east;
        node.latitude += north;
    }
}

/// Moves all nodes so far that one stands beside the meridian. What comes to 17,999,999 stops before
/// it, so that codes may fall together.
pub fn move_over_meridian(rng: &mut Xorshift, plan: &mut MapPlan) {
    let east = *rng.pick(&[WESTERNMOST, EASTERNMOST]) - rng.pick(&plan.nodes).longitude;
    for node in &mut plan.nodes {
        node.longitude = brought_round(node.longitude + east).min(EASTERNMOST);
    }
}

/// Moves each node to one of two longitudes that the meridian lies between.
fn move_to_both_sides(rng: &mut Xorshift, plan: &mut MapPlan) {
    let width = *rng.pick(&WIDTHS);
    let places = [0, rng.below(width as u32 - 1) as i32, width - 2];
    let east = EASTERNMOST - *rng.pick(&places);
    for node in &mut plan.nodes {
        node.longitude = *rng.pick(&[east, brought_round(east + width)]);
    }
}

/// How far to move so that a coordinate stands at one of the two edges.
fn to_edge(
    rng: &mut Xorshift,
    coordinates: impl Iterator<Item = i32> + Clone,
    (least, greatest): (i32, i32),
) -> i32 {
    match rng.below(2) {
        0 => least - coordinates.min().unwrap_or(least),
        _ => greatest - coordinates.max().unwrap_or(greatest),
    }
}

/// Maps of 512 nodes and 1,024 lines, of each kind in turn, and of each with no bans, with some and
/// with as many as there may be. Some lie across the 180th meridian.
pub fn full_size_plan(rng: &mut Xorshift, turn: u64) -> MapPlan {
    let seed = rng.draw();
    let plan = match turn % 5 {
        0 => grid(seed, Lengths::Equal),
        1 => random_graph(seed),
        2 => chain(seed, Lengths::SlightlyDifferent),
        3 => grid(seed, Lengths::SlightlyDifferent),
        _ => chain(seed, Lengths::Equal),
    };
    let mut plan = plan.shuffled(seed);
    if rng.below(2) == 0 {
        draw_steps(rng, &mut plan);
    }
    if rng.below(4) == 0 {
        move_over_meridian(rng, &mut plan);
    }
    match turn / 5 % 4 {
        0 => plan,
        1 => plan.with_bans(seed, rng.within(1, 60) as usize, Bans::Spread),
        2 => plan.with_bans(seed, MOST_BANS, Bans::Spread),
        _ => plan.with_bans(seed, MOST_BANS, Bans::AtOneJunction),
    }
}

/// A walk of this many lines, or of fewer where dead ends are met. One line is always found.
pub fn walk(rng: &mut Xorshift, map: &DepotMap, count: u32, turns: Turns) -> Vec<u32> {
    let mut counts = (0..32).map(|turn| (count >> turn).max(1) as usize);
    let found = counts.find_map(|count| random_walk(rng, map, count, turns));
    found.unwrap_or_default()
}

/// The bytes of a stretch, mostly of a walk of one to 64 lines.
pub fn any_stretch(rng: &mut Xorshift, map: &DepotMap) -> Vec<u8> {
    let count = any_count(rng);
    let turns = any_turns(rng, 6);
    let mut lines = walk(rng, map, count, turns);
    let place = rng.below(lines.len() as u32) as usize;
    let line_count = map.lines.len() as u32;
    let mut more = 0;
    match rng.below(24) {
        0 => lines.clear(),
        1 => lines[place] = *rng.pick(&[line_count, line_count + 1, u32::MAX]),
        2 => lines[place] = rng.below(line_count),
        3 => lines.fill_with(|| rng.below(line_count)),
        4 => lines = walk(rng, map, 65, turns),
        5 => lines = walk(rng, map, 300, turns),
        6 => more = rng.within(1, 3),
        _ => {}
    }
    let mut bytes = line_bytes(&lines);
    bytes.extend(random_bytes(rng, &[more]));
    bytes
}

/// Once in so many times banned turns too.
pub fn any_turns(rng: &mut Xorshift, rarity: u32) -> Turns {
    match rng.below(rarity) {
        0 => Turns::BannedToo,
        _ => Turns::Allowed,
    }
}

fn any_count(rng: &mut Xorshift) -> u32 {
    match rng.below(8) {
        0 => 1,
        1 => MOST_LINES as u32,
        2 => rng.within(13, MOST_LINES as u32),
        _ => rng.within(2, 12),
    }
}

/// The positive and the negative offset: none, at and beside the ends of lines and the edges of offset
/// bytes, at and beside the total, beyond, and of a sum that has 33 bits.
pub fn any_offsets(rng: &mut Xorshift, map: &DepotMap, lines: &[u32]) -> (u32, u32) {
    let mut lengths: Vec<u32> = lines.iter().filter_map(|&line| length(map, line)).collect();
    let total: u32 = lengths.iter().sum();
    let pos = offset(rng, &lengths);
    lengths.reverse();
    let neg = offset(rng, &lengths);
    match rng.below(32) {
        0 => (pos, total.wrapping_sub(pos)),
        1 => (pos, total.wrapping_sub(pos).wrapping_sub(1)),
        2 => beyond_32_bits(rng, total),
        3 => {
            let (neg, pos) = beyond_32_bits(rng, total);
            (pos, neg)
        }
        4..=10 => (pos, 0),
        11..=17 => (0, neg),
        18..=24 => (pos, neg),
        _ => (0, 0),
    }
}

/// Two offsets whose sum is mostly below the total again if it is held in 32 bits. The first is the greatest
/// that there is or one less, half of what 32 bits hold, or anything.
fn beyond_32_bits(rng: &mut Xorshift, total: u32) -> (u32, u32) {
    let firsts = [u32::MAX, u32::MAX - 1, 1 << 31, rng.draw() as u32];
    let first = *rng.pick(&firsts);
    let sum = (1 << 32) + u64::from(rng.below(total.saturating_add(2)));
    let other = sum - u64::from(first);
    (first, u32::try_from(other).unwrap_or(u32::MAX))
}

/// How many leg tests may be made for these lines: all for a third of the calls; else often a number that tells
/// something, if there is one.
pub fn any_tests(rng: &mut Xorshift, map: &DepotMap, lines: &[u32], offsets: (u32, u32)) -> u32 {
    let count = lines.len().min(MOST_LINES);
    let all = legs_of(count);
    match rng.below(6) {
        0 | 1 => *rng.pick(&[all, all, all + 1, 2_080, ALL_TESTS]),
        2 | 3 => telling_tests(map, lines, offsets).unwrap_or_else(|| fewer_tests(rng, count)),
        _ => fewer_tests(rng, count),
    }
}

/// None, one or a few, at and beside the ends of rows of legs from one place, all but one, or anything.
fn fewer_tests(rng: &mut Xorshift, count: usize) -> u32 {
    let all = legs_of(count);
    let beside = rng.below(3);
    match rng.below(10) {
        0 => 0,
        1 => 1,
        2 => rng.within(2, 5),
        3 => (count as u32 + beside).saturating_sub(1),
        4 => all.saturating_sub(1),
        5..=6 => (legs_of_rows(rng, count) + beside).saturating_sub(1),
        7..=8 => rng.below(all + 1),
        _ => rng.draw() as u32,
    }
}

/// How many legs there are from some of the first places.
fn legs_of_rows(rng: &mut Xorshift, count: usize) -> u32 {
    let rows = rng.below(count as u32 + 1) as usize;
    legs_of(count) - legs_of(count - rows)
}

/// The fewest tests at the end of a row with which a short stretch is accepted with an excess, or with more
/// points than with all tests.
fn telling_tests(map: &DepotMap, lines: &[u32], (pos, neg): (u32, u32)) -> Option<u32> {
    const MOST: usize = 16;
    if lines.len() > MOST {
        return None;
    }
    let write = |tests| write_on_map(map, lines, pos, neg, tests, usize::MAX).ok();
    let fewest = write(ALL_TESTS)?.reference.len();
    let mut rows = (1..lines.len()).map(|rows| legs_of(lines.len()) - legs_of(lines.len() - rows));
    rows.find(|&tests| {
        write(tests).is_some_and(|written| written.excess > 0 || written.reference.len() > fewest)
    })
}

/// For a stretch of so many lines: one more, a row more, all or anything between.
pub fn more_tests(rng: &mut Xorshift, tests: u32, count: usize) -> u32 {
    let all = legs_of(count.min(MOST_LINES)).max(tests);
    let between = rng.within(tests, all);
    let row = tests.saturating_add(count as u32);
    *rng.pick(&[tests.saturating_add(1), row, between, all, all, ALL_TESTS])
}

fn length(map: &DepotMap, line: u32) -> Option<u32> {
    map.lines.get(line as usize).map(|line| line.length)
}

/// Of lines with these lengths, from the end of the stretch on that it is taken from.
fn offset(rng: &mut Xorshift, lengths: &[u32]) -> u32 {
    let total = lengths.iter().sum();
    let skipped = rng.within(0, lengths.len().min(3) as u32) as usize;
    let end: u32 = lengths[..skipped].iter().sum();
    let leg = lengths[skipped..].iter().take(rng.within(1, 3) as usize);
    match rng.below(10) {
        0 => end,
        1 => end + 1,
        2 => end.saturating_sub(1),
        3 => rng.within(0, total),
        4 | 5 => end + offset_at_edge(rng, leg.sum()),
        6 => 1,
        7 => lengths.first().map_or(0, |length| length - 1),
        _ => rng.within(0, total / 8),
    }
}

/// The least offset with a byte, or the greatest with the one before it. 511 times three of the longest lines
/// is a number of 32 bits.
pub fn offset_at_edge(rng: &mut Xorshift, leg_length: u32) -> u32 {
    let parts = match rng.below(4) {
        0 => *rng.pick(&EDGE_PARTS),
        _ => 2 * rng.below(256) + 1,
    };
    let edge = (parts * leg_length).div_ceil(512);
    edge.saturating_sub(rng.below(2))
        .min(leg_length.saturating_sub(1))
}

/// Mostly a reference that may be read.
pub fn any_reference(rng: &mut Xorshift, map: &DepotMap) -> Vec<u8> {
    match rng.below(12) {
        0 => random_bytes(rng, &[0, 1, 15, 16, 17, 18, 19, 23, 459, 460, 466, 3000]),
        1 => [vec![STATUS_BYTE], random_bytes(rng, &[15, 16, 17, 22, 458])].concat(),
        2..=4 => {
            let mut bytes = composed_reference(rng, map);
            change_offsets(rng, &mut bytes);
            bytes
        }
        _ => composed_reference(rng, map),
    }
}

/// The reference of a walk that is cut anywhere, and mostly where a turn is banned. Its legs need not
/// be readings. The offsets are brought below the legs that they are on.
fn composed_reference(rng: &mut Xorshift, map: &DepotMap) -> Vec<u8> {
    let count = any_count(rng);
    let turns = any_turns(rng, 3);
    let lines = walk(rng, map, count, turns);
    let rarity = *rng.pick(&[1, 2, 4, 16]);
    let is_banned = |place: usize| map.is_banned(lines[place - 1], lines[place]);
    let inner = (1..lines.len()).filter(|&place| match is_banned(place) {
        true => rng.below(8) != 0,
        false => rng.below(rarity) == 0,
    });
    let places: Vec<usize> = std::iter::once(0)
        .chain(inner)
        .chain([lines.len()])
        .collect();
    let (positive, negative) = any_offsets(rng, map, &lines);
    let (first_leg, last_leg) = (&lines[..places[1]], &lines[places[places.len() - 2]..]);
    let stretch = Stretch {
        lines: &lines,
        positive: below_leg(positive, map, first_leg),
        negative: below_leg(negative, map, last_leg),
    };
    reference_bytes(map, &stretch, &places)
}

/// An offset brought below a leg of these lines, and below the longest leg.
pub fn below_leg(offset: u32, map: &DepotMap, lines: &[u32]) -> u32 {
    offset % total_length(map, lines).min(LONGEST_LEG)
}

/// A reference with this many lines, at least 64, on a chain: 64 legs to and fro.
pub fn reference_along_chain(map: &DepotMap, count: usize) -> Vec<u8> {
    let last_node = map.nodes.len() as u32 - 1;
    let mut lines = Vec::new();
    let mut places = vec![0];
    let (mut node, mut forward) = (0, true);
    for leg in 0..MOST_LEGS {
        let leg_lines = (count + leg) / MOST_LEGS;
        let room = if forward { last_node - node } else { node };
        forward ^= (room as usize) < leg_lines;
        for _ in 0..leg_lines {
            let next = if forward { node + 1 } else { node - 1 };
            lines.extend(shortest_line(map, node, next));
            node = next;
        }
        places.push(lines.len());
    }
    let stretch = Stretch {
        lines: &lines,
        positive: 0,
        negative: 0,
    };
    reference_bytes(map, &stretch, &places)
}

pub fn shortest_line(map: &DepotMap, start: u32, end: u32) -> Option<u32> {
    let between = |line: &u32| map.line(*line).end == end;
    let lines = map.lines_from(start).filter(between);
    lines.min_by_key(|line| map.line(*line).length)
}

/// As many bytes as one of the counts says.
pub fn random_bytes(rng: &mut Xorshift, counts: &[u32]) -> Vec<u8> {
    let count = *rng.pick(counts);
    (0..count).map(|_| rng.below(256) as u8).collect()
}

/// The length of a line buffer in bytes that is just long enough for these lines, or too short.
pub fn room_at_the_edge(rng: &mut Xorshift, lines: &[u32]) -> usize {
    let enough = 4 * lines.len();
    *rng.pick(&[enough, enough + 3, enough - 1, enough - 4, 0])
}
