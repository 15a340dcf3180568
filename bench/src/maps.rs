//! Makers of maps and stretches from a seed, for measuring and comparing.

use std::collections::HashSet;

use crate::depot_map::{Ban, DepotMap, Line, Node};
use crate::fields::{coordinate_code, distance_byte, Steps, LONGEST_STEP};
use crate::legs::{verdict, Leg, LegEnd, Verdict};
use crate::reader::read_on_map;
use crate::search::{Bounds, Method, Search};
use crate::writer::{reference_bytes, Stretch};

/// A xorshift generator with a multiplied output.
pub struct Xorshift(u64);

impl Xorshift {
    pub fn new(seed: u64) -> Xorshift {
        // The state must not be 0.
        Xorshift(seed.wrapping_mul(0x9E37_79B9_7F4A_7C15) | 1)
    }

    pub fn draw(&mut self) -> u64 {
        self.0 ^= self.0 >> 12;
        self.0 ^= self.0 << 25;
        self.0 ^= self.0 >> 27;
        self.0.wrapping_mul(0x2545_F491_4F6C_DD1D)
    }

    /// A number from 0 to below the bound.
    pub fn below(&mut self, bound: u32) -> u32 {
        (((self.draw() >> 32) * u64::from(bound)) >> 32) as u32
    }

    /// A number from the least to the greatest, both included.
    pub fn within(&mut self, least: u32, greatest: u32) -> u32 {
        least + self.below(greatest - least + 1)
    }

    pub fn pick<'a, T>(&mut self, items: &'a [T]) -> &'a T {
        &items[self.below(items.len() as u32) as usize]
    }

    pub fn shuffle<T>(&mut self, items: &mut [T]) {
        for last in (1..items.len()).rev() {
            items.swap(last, self.below(last as u32 + 1) as usize);
        }
    }
}

/// A line with the steps that its sectors are found from.
#[derive(Clone, Copy, Debug, PartialEq, Eq)]
pub struct PlannedLine {
    pub start: u32,
    pub end: u32,
    pub length: u32,
    pub frc: u8,
    pub fow: u8,
    pub out: Steps,
    pub back: Steps,
}

/// How many numbers a line has in the bytes of a map, and how many a pair of steps.
pub const LINE_NUMBERS: usize = 9;
pub const PAIR_NUMBERS: usize = 2;

impl PlannedLine {
    /// As a map keeps it.
    pub fn kept(&self) -> Line {
        Line {
            start: self.start,
            end: self.end,
            length: self.length,
            frc: self.frc,
            fow: self.fow,
            sector_out: self.out.sector(),
            sector_back: self.back.sector(),
        }
    }

    /// Its numbers in the bytes of a map.
    fn stored(&self) -> [u32; LINE_NUMBERS] {
        let step = |step: i32| (step + LONGEST_STEP) as u32;
        let PlannedLine { out, back, .. } = self;
        [
            self.start,
            self.end,
            self.length,
            u32::from(self.frc),
            u32::from(self.fow),
            step(out.east),
            step(out.north),
            step(back.east),
            step(back.north),
        ]
    }

    /// The line with these numbers, which are in their ranges.
    fn of_stored(stored: [u32; LINE_NUMBERS]) -> PlannedLine {
        let [start, end, length, frc, fow, out_east, out_north, back_east, back_north] = stored;
        let steps = |east: u32, north: u32| Steps {
            east: east as i32 - LONGEST_STEP,
            north: north as i32 - LONGEST_STEP,
        };
        PlannedLine {
            start,
            end,
            length,
            frc: frc as u8,
            fow: fow as u8,
            out: steps(out_east, out_north),
            back: steps(back_east, back_north),
        }
    }
}

/// A map before it is put into bytes.
#[derive(Clone, Debug, Default, PartialEq, Eq)]
pub struct MapPlan {
    pub nodes: Vec<Node>,
    pub lines: Vec<PlannedLine>,
    pub bans: Vec<Ban>,
}

impl MapPlan {
    /// The plan of a map's bytes, which are not refused.
    pub fn of_bytes(map_bytes: &[u8]) -> MapPlan {
        let mut numbers = stored_numbers(map_bytes).into_iter();
        let mut next = || numbers.next().expect("a map that is not refused");
        let mut plan = MapPlan::default();
        for _ in 0..next() {
            plan.nodes.push(Node {
                longitude: next() as i32 - 18_000_000,
                latitude: next() as i32 - 9_000_000,
            });
        }
        for _ in 0..next() {
            let stored = [(); LINE_NUMBERS].map(|()| next());
            plan.lines.push(PlannedLine::of_stored(stored));
        }
        for _ in 0..next() {
            let (line, next) = (next(), next());
            plan.bans.push(Ban { line, next });
        }
        plan
    }

    /// The bytes in the order of "The depot map".
    pub fn encode(&self) -> Vec<u8> {
        let mut bytes = Vec::new();
        push_number(&mut bytes, self.nodes.len() as u32);
        for node in &self.nodes {
            push_number(&mut bytes, (node.longitude + 18_000_000) as u32);
            push_number(&mut bytes, (node.latitude + 9_000_000) as u32);
        }
        push_number(&mut bytes, self.lines.len() as u32);
        for line in &self.lines {
            for number in line.stored() {
                push_number(&mut bytes, number);
            }
        }
        push_number(&mut bytes, self.bans.len() as u32);
        for ban in &self.bans {
            push_number(&mut bytes, ban.line);
            push_number(&mut bytes, ban.next);
        }
        bytes
    }

    /// The same map, without bans yet, with its lines in another order.
    pub fn shuffled(mut self, seed: u64) -> MapPlan {
        assert_eq!(self.bans, [], "bans name lines by their place");
        Xorshift::new(seed).shuffle(&mut self.lines);
        self
    }
}

/// Any steps of the whole range.
pub fn any_steps(rng: &mut Xorshift) -> Steps {
    let reach = LONGEST_STEP as u32;
    loop {
        let [east, north] = [(); 2].map(|()| rng.within(0, 2 * reach) as i32 - LONGEST_STEP);
        if (east, north) != (0, 0) {
            return Steps { east, north };
        }
    }
}

impl MapPlan {
    /// The map with steps of the whole range, no two pairs alike.
    pub fn with_random_steps(mut self, seed: u64) -> MapPlan {
        let rng = &mut Xorshift::new(seed);
        let mut taken = HashSet::new();
        let mut next = || loop {
            let steps = any_steps(rng);
            if taken.insert(steps) {
                return steps;
            }
        };
        for line in &mut self.lines {
            (line.out, line.back) = (next(), next());
        }
        self
    }
}

/// Which turns are banned: up to half of those of the map, or of the node with most of them. Where
/// these are too few, bans are listed many times.
#[derive(Clone, Copy, Debug, PartialEq, Eq)]
pub enum Bans {
    Spread,
    AtOneJunction,
}

impl MapPlan {
    /// The map with this many bans, if lines meet.
    pub fn with_bans(mut self, seed: u64, count: usize, place: Bans) -> MapPlan {
        let mut turns = self.turns();
        if place == Bans::AtOneJunction {
            let junction = self.busiest_node(&turns);
            turns.retain(|turn| self.lines[turn.line as usize].end == junction);
        }
        Xorshift::new(seed).shuffle(&mut turns);
        turns.truncate(turns.len().div_ceil(2));
        self.bans = turns.into_iter().cycle().take(count).collect();
        self
    }

    /// Every pair of lines that meet: the second starts where the first ends.
    pub fn turns(&self) -> Vec<Ban> {
        let mut leaving = vec![Vec::new(); self.nodes.len()];
        for (number, line) in (0..).zip(&self.lines) {
            leaving[line.start as usize].push(number);
        }
        let turns = (0..).zip(&self.lines).flat_map(|(number, line)| {
            let nexts = leaving[line.end as usize].iter();
            nexts.map(move |&next| Ban { line: number, next })
        });
        turns.collect()
    }

    fn busiest_node(&self, turns: &[Ban]) -> u32 {
        let mut counts = vec![0; self.nodes.len()];
        for turn in turns {
            counts[self.lines[turn.line as usize].end as usize] += 1;
        }
        let nodes = 0..self.nodes.len() as u32;
        let busiest = nodes.max_by_key(|&node| counts[node as usize]);
        busiest.unwrap_or_default()
    }
}

/// A number in its shortest form: seven bits a byte, lowest first.
pub fn push_number(bytes: &mut Vec<u8>, mut number: u32) {
    while number >= 0x80 {
        bytes.push(number as u8 | 0x80);
        number >>= 7;
    }
    bytes.push(number as u8);
}

/// The numbers in the bytes, each with its own bytes. The last one may end early.
pub fn number_parts(map_bytes: &[u8]) -> impl Iterator<Item = &[u8]> {
    map_bytes.split_inclusive(|&byte| byte < 0x80)
}

/// What they stand for, where each has 32 bits at most.
pub fn stored_numbers(map_bytes: &[u8]) -> Vec<u32> {
    let value = |part: &[u8]| {
        let groups = part.iter().rev().map(|byte| u32::from(byte & 0x7F));
        groups.fold(0, |number, group| number << 7 | group)
    };
    number_parts(map_bytes).map(value).collect()
}

/// How the lengths of a maker's lines vary.
#[derive(Clone, Copy, Debug, PartialEq, Eq)]
pub enum Lengths {
    Equal,
    SlightlyDifferent,
}

impl Lengths {
    fn around(self, rng: &mut Xorshift, length: u32) -> u32 {
        match self {
            Lengths::Equal => length,
            Lengths::SlightlyDifferent => length + rng.below(1 + length / 20),
        }
    }
}

pub(crate) const FULL_NODES: u32 = 512;
pub(crate) const FULL_LINES: usize = 1024;

/// Most lines have one of two classes, so that a search under a class still goes far.
fn mixed_frc(rng: &mut Xorshift) -> u8 {
    *rng.pick(&[3, 3, 3, 3, 3, 4, 4, 4, 4, 2, 2, 5, 6, 7])
}

/// The compass bearing between two nodes, in whole degrees.
fn bearing(from: Node, to: Node) -> u16 {
    let east = f64::from(to.longitude - from.longitude);
    let north = f64::from(to.latitude - from.latitude);
    (east.atan2(north).to_degrees().rem_euclid(360.0) as u16).min(359)
}

/// The steps to the point that is so far away in this direction, in decimetres.
pub fn nearest_steps(degrees: f64, distance: f64) -> Steps {
    let (east, north) = degrees.to_radians().sin_cos();
    let step = |part: f64| (distance * part).round() as i32;
    Steps {
        east: step(east),
        north: step(north),
    }
}

/// 20 m in a direction of whole degrees. The steps have its sector: rounding turns it by 0.21 degrees
/// at most, and where it is not on an edge itself it is 0.25 degrees from one at least.
pub fn steps_at(bearing: u16) -> Steps {
    nearest_steps(f64::from(bearing), 200.0)
}

fn line_between(plan: &MapPlan, ends: (u32, u32), length: u32, frc: u8, fow: u8) -> PlannedLine {
    let (start, end) = ends;
    let (from, to) = (plan.nodes[start as usize], plan.nodes[end as usize]);
    PlannedLine {
        start,
        end,
        length,
        frc,
        fow,
        out: steps_at(bearing(from, to)),
        back: steps_at(bearing(to, from)),
    }
}

/// 16 by 32 junctions. Neighbouring streets run opposite ways; lines the other way, chosen
/// freely, fill the map up to 1,024.
pub fn grid(seed: u64, lengths: Lengths) -> MapPlan {
    const COLUMNS: u32 = 16;
    let rng = &mut Xorshift::new(seed);
    let mut plan = MapPlan::default();
    for node in 0..FULL_NODES {
        let (row, column) = (node / COLUMNS, node % COLUMNS);
        plan.nodes.push(Node {
            longitude: 500_000 + 100 * column as i32,
            latitude: 5_200_000 + 100 * row as i32,
        });
    }
    for node in 0..FULL_NODES {
        let (row, column) = (node / COLUMNS, node % COLUMNS);
        let east = (column + 1 < COLUMNS).then_some((node + 1, row));
        let north = (node + COLUMNS < FULL_NODES).then_some((node + COLUMNS, column));
        for (neighbour, street) in east.into_iter().chain(north) {
            let forward = street % 2 == 0;
            let ends = if forward {
                (node, neighbour)
            } else {
                (neighbour, node)
            };
            let (length, frc) = (lengths.around(rng, 10_000), mixed_frc(rng));
            plan.lines.push(line_between(&plan, ends, length, frc, 3));
        }
    }
    add_opposite_lines(rng, &mut plan);
    plan
}

fn add_opposite_lines(rng: &mut Xorshift, plan: &mut MapPlan) {
    let count = plan.lines.len() as u32;
    while plan.lines.len() < FULL_LINES {
        let line = plan.lines[rng.below(count) as usize];
        plan.lines.push(opposite(plan, line));
    }
}

fn opposite(plan: &MapPlan, line: PlannedLine) -> PlannedLine {
    let ends = (line.end, line.start);
    line_between(plan, ends, line.length, line.frc, line.fow)
}

/// Nodes anywhere in a square whose sides fit the differences, two lines out of each.
pub fn random_graph(seed: u64) -> MapPlan {
    let rng = &mut Xorshift::new(seed);
    let mut plan = MapPlan {
        nodes: scattered_nodes(rng, FULL_NODES, 30_000),
        ..MapPlan::default()
    };
    for number in 0..FULL_LINES as u32 {
        let start = number % FULL_NODES;
        let end = (start + 1 + rng.below(FULL_NODES - 1)) % FULL_NODES;
        let length = rng.within(3_000, 25_000);
        let (frc, fow) = (mixed_frc(rng), rng.within(1, 4) as u8);
        plan.lines
            .push(line_between(&plan, (start, end), length, frc, fow));
    }
    plan
}

/// The same nodes, and half as many roads, each with a line each way.
pub fn random_roads(seed: u64) -> MapPlan {
    let mut plan = random_graph(seed);
    plan.lines.truncate(FULL_LINES / 2);
    let opposites: Vec<PlannedLine> = plan
        .lines
        .iter()
        .map(|&line| opposite(&plan, line))
        .collect();
    plan.lines.extend(opposites);
    plan
}

/// Nodes in a square, no two with the same codes.
fn scattered_nodes(rng: &mut Xorshift, count: u32, side: u32) -> Vec<Node> {
    let mut nodes = Vec::new();
    let mut codes = HashSet::new();
    while nodes.len() < count as usize {
        let node = Node {
            longitude: rng.below(side) as i32 - side as i32 / 2,
            latitude: rng.below(side) as i32 - side as i32 / 2,
        };
        if codes.insert((
            coordinate_code(node.longitude),
            coordinate_code(node.latitude),
        )) {
            nodes.push(node);
        }
    }
    nodes
}

/// One road of 512 nodes with a line each way, and two lines beside others: with equal lengths
/// ties, else a little longer. The whole road is just within the longest leg.
pub fn chain(seed: u64, lengths: Lengths) -> MapPlan {
    let rng = &mut Xorshift::new(seed);
    let mut plan = MapPlan::default();
    for node in 0..FULL_NODES as i32 {
        plan.nodes.push(Node {
            longitude: 50 * node,
            latitude: -30 * node,
        });
    }
    for node in 1..FULL_NODES {
        let (length, frc) = (lengths.around(rng, 2_800), mixed_frc(rng));
        for ends in [(node - 1, node), (node, node - 1)] {
            plan.lines.push(line_between(&plan, ends, length, frc, 2));
        }
    }
    while plan.lines.len() < FULL_LINES {
        let mut beside = *rng.pick(&plan.lines);
        beside.length += u32::from(lengths != Lengths::Equal);
        plan.lines.push(beside);
    }
    plan
}

/// Some nodes in a row, so far apart that their codes differ.
pub(crate) fn row_of_nodes(count: u32) -> MapPlan {
    let nodes = (0..count as i32).map(|node| Node {
        longitude: 50 * node,
        latitude: 0,
    });
    MapPlan {
        nodes: nodes.collect(),
        ..MapPlan::default()
    }
}

/// The most lines that can follow each line: two nodes, and half of the lines each way.
pub fn hub() -> MapPlan {
    let mut plan = row_of_nodes(2);
    for number in 0..FULL_LINES as u32 {
        let ends = if number % 2 == 0 { (0, 1) } else { (1, 0) };
        plan.lines
            .push(line_between(&plan, ends, 1_000 + number % 97 * 10, 0, 2));
    }
    plan
}

/// The worst order for a queue: from every node a line to every later one, and the more lines a way
/// has the shorter it is, so that lengths come down again and again.
pub fn steep() -> MapPlan {
    const NODES: u32 = 45;
    let mut plan = row_of_nodes(NODES);
    for start in 0..NODES {
        for end in (start + 1..NODES).rev() {
            let length = (end - start) * (end - start) * 500;
            plan.lines
                .push(line_between(&plan, (start, end), length, 0, 2));
        }
    }
    plan
}

/// How many lengths the lines of a small map may have, and what they are multiples of: very few, many
/// to the decimetre, and ten times as many to the centimetre.
const LENGTHS_OF_SMALL_MAPS: [(u32, u32); 9] = [
    (1, 1),
    (2, 1),
    (3, 1),
    (400, 10),
    (1_200, 10),
    (60_000, 10),
    (4_000, 1),
    (12_000, 1),
    (600_000, 1),
];

/// A small map full of ties: few lengths, few marks, lines beside each other.
pub fn small_map(seed: u64) -> MapPlan {
    let rng = &mut Xorshift::new(seed);
    let node_count = rng.within(2, 12);
    let side = *rng.pick(&[100, 1000, 60_000]);
    let mut plan = MapPlan {
        nodes: scattered_nodes(rng, node_count, side),
        ..MapPlan::default()
    };
    let (lengths, unit) = *rng.pick(&LENGTHS_OF_SMALL_MAPS);
    let classes = rng.within(1, 8);
    let sectors = rng.within(1, 4);
    for _ in 0..rng.within(1, 4 * node_count) {
        let start = rng.below(node_count);
        let end = (start + 1 + rng.below(node_count - 1)) % node_count;
        let length = unit * rng.within(1, lengths);
        let mut line = line_between(&plan, (start, end), length, 0, 3);
        line.frc = rng.below(classes) as u8;
        line.fow = rng.below(2) as u8;
        let [out, back] = [(); 2].map(|()| steps_at((90 * rng.below(sectors)) as u16));
        (line.out, line.back) = (out, back);
        plan.lines.push(line);
    }
    plan
}

/// Which turns a walk may take.
#[derive(Clone, Copy, Debug, PartialEq, Eq)]
pub enum Turns {
    Allowed,
    BannedToo,
}

/// A walk of this many lines from a line chosen freely, if no dead end is met. Where there is a
/// choice it does not turn back to the node it came from.
pub fn random_walk(
    rng: &mut Xorshift,
    map: &DepotMap,
    count: usize,
    turns: Turns,
) -> Option<Vec<u32>> {
    let mut line = rng.below(map.lines.len() as u32);
    let mut walk = vec![line];
    while walk.len() < count {
        let at = map.line(line);
        let may_follow = |next: &u32| turns == Turns::BannedToo || !map.is_banned(line, *next);
        let leaving: Vec<u32> = map.lines_from(at.end).filter(may_follow).collect();
        let onward = |next: &&u32| map.line(**next).end != at.start;
        let ahead: Vec<u32> = leaving.iter().filter(onward).copied().collect();
        let choices = if ahead.is_empty() { leaving } else { ahead };
        if choices.is_empty() {
            return None;
        }
        line = *rng.pick(&choices);
        walk.push(line);
    }
    Some(walk)
}

/// A reference of this many legs, each of about this length, that the reader accepts, and the
/// lines it stands for. Unlike a stretch it may have more than 64 lines.
pub fn reference_with_legs(
    rng: &mut Xorshift,
    map: &DepotMap,
    legs: usize,
    leg_length: u32,
) -> Option<(Vec<u8>, Vec<u32>)> {
    let mut search = Search::new(map, Method::NodeAndLineHeap);
    for _ in 0..1000 {
        let Some((lines, places)) = joined_legs(rng, map, &mut search, legs, leg_length) else {
            continue;
        };
        let stretch = Stretch {
            lines: &lines,
            positive: 0,
            negative: 0,
        };
        let reference = reference_bytes(map, &stretch, &places);
        let read = read_on_map(map, &reference, usize::MAX);
        if read.is_ok_and(|reading| reading.lines == lines) {
            return Some((reference, lines));
        }
    }
    None
}

/// Legs that are only readings, each from where the one before ends and by a turn that is not
/// banned: the lines and the places of the points among them.
fn joined_legs(
    rng: &mut Xorshift,
    map: &DepotMap,
    search: &mut Search,
    legs: usize,
    leg_length: u32,
) -> Option<(Vec<u32>, Vec<usize>)> {
    let mut node = rng.below(map.nodes.len() as u32);
    let mut lines = Vec::new();
    let mut places = vec![0];
    while places.len() <= legs {
        let last: Option<u32> = lines.last().copied();
        let joins = |leg: &Vec<u32>| {
            let banned = last.is_some_and(|last| map.is_banned(last, leg[0]));
            !banned
                && !leg
                    .last()
                    .is_some_and(|&line| has_every_turn_banned(map, line))
        };
        let mut legs = (0..20).filter_map(|_| only_reading(rng, map, search, node, leg_length));
        let leg = legs.find(joins)?;
        node = map.line(*leg.last()?).end;
        lines.extend_from_slice(&leg);
        places.push(lines.len());
    }
    Some((lines, places))
}

fn has_every_turn_banned(map: &DepotMap, line: u32) -> bool {
    let mut leaving = map.lines_from(map.line(line).end);
    leaving.len() > 0 && leaving.all(|next| map.is_banned(line, next))
}

/// A least way of about the wanted length from the node, if it is the only reading of its leg.
fn only_reading(
    rng: &mut Xorshift,
    map: &DepotMap,
    search: &mut Search,
    node: u32,
    leg_length: u32,
) -> Option<Vec<u32>> {
    let leaving: Vec<u32> = map.lines_from(node).collect();
    if leaving.is_empty() {
        return None;
    }
    let bounds = Bounds {
        first: *rng.pick(&leaving),
        class: 7,
        limit: leg_length,
    };
    search.run(map, bounds);
    let numbers = 0..map.lines.len() as u32;
    let far = |line: &u32| {
        search
            .least(*line)
            .is_some_and(|least| 2 * least > leg_length)
    };
    let ends: Vec<u32> = numbers.filter(far).collect();
    if ends.is_empty() {
        return None;
    }
    let mut way = Vec::new();
    search.append_way(*rng.pick(&ends), &mut way);
    let leg = leg_of_lines(map, &way);
    let mut read = Vec::new();
    let verdict = verdict(map, search, &leg, &mut read);
    (verdict == Verdict::One && read == way).then_some(way)
}

/// The leg that the bytes of a line list describe, when it is not the last.
fn leg_of_lines(map: &DepotMap, lines: &[u32]) -> Leg {
    let (first, last) = (map.line(lines[0]), map.line(lines[lines.len() - 1]));
    let each = || lines.iter().map(|&line| map.line(line));
    Leg {
        start: first.start,
        first_marks: first.leaving_marks(),
        lowest_class: each().fold(0, |class, line| class.max(line.frc)),
        distance: distance_byte(each().map(|line| line.length).sum()),
        end: LegEnd {
            node: last.end,
            last_marks: None,
        },
    }
}
