//! Maps made against the reader and the writer, each with calls that make them work.
//!
//! Unless a maker says otherwise all lines have the same marks, so that every line that leaves a
//! point is a first line to try.

use crate::depot_map::Ban;
use crate::fields::{Steps, DISTANCE_STEP, LONGEST_LEG};
use crate::maps::{row_of_nodes, MapPlan, PlannedLine, FULL_LINES, FULL_NODES};

/// The most legs of a reference, and the most lines of a stretch.
pub const MOST_LEGS: usize = 64;

/// A map, and calls on it.
pub struct WorstCase {
    pub name: String,
    pub plan: MapPlan,
    /// The line that a search goes back from.
    pub first: u32,
    /// The lines of each leg of a reading.
    pub legs: Vec<Vec<u32>>,
    pub stretch: Vec<u32>,
}

/// The maps made against a search that goes along the lines, and then the same maps mirrored: they
/// are made against one that goes back.
pub fn worst_cases() -> Vec<WorstCase> {
    let mirrored_cases = cases().into_iter().map(mirrored);
    cases().into_iter().chain(mirrored_cases).collect()
}

fn cases() -> Vec<WorstCase> {
    vec![
        hub_case("hub", &|_| SHORT),
        hub_case("hub, lengths falling", &|number| SHORT * (512 - number / 2)),
        star("star, equal lengths", &|_| 3_000),
        star("star, lengths rising", &|spoke| 6_000 + SHORT * spoke),
        star("star, lengths falling", &|spoke| 12_000 - SHORT * spoke),
        hub_with_a_ban_each("a ban on each of 512 lines, equal lengths", &|_| SHORT),
        hub_with_a_ban_each("a ban on each of 512 lines", &|number| {
            SHORT * (1 + number / 2)
        }),
        hub_with_last_lines_alike(),
        hub_with_two_banned_lines("2 lines with 256 bans each", turn_from),
        last_lines_alike(hub_with_two_banned_lines(
            "256 bans into each of 2 lines, all last lines alike",
            turn_into,
        )),
        ladder("ladder of 2 lines a step", 2),
        ladder("ladder of 16 lines a step", 16),
        long_chain(),
        equal_grid(),
        steep_case("steep, nearest first", true),
        steep_case("steep, furthest first", false),
        steep_hub(),
        steep_hub_before(),
        first_and_last_lines(),
        first_lines_before_a_long_road(),
        loops_before_a_hub(),
        loops_before_a_steep_hub(),
        loops_after_a_steep_hub(),
    ]
}

/// Every line the other way round, and so every ban, leg and stretch. The line that the stretch and
/// the last leg end with has marks of its own there.
fn mirrored(case: WorstCase) -> WorstCase {
    let WorstCase {
        name,
        mut plan,
        first,
        mut legs,
        mut stretch,
    } = case;
    for line in &mut plan.lines {
        std::mem::swap(&mut line.start, &mut line.end);
        std::mem::swap(&mut line.out, &mut line.back);
    }
    for ban in &mut plan.bans {
        std::mem::swap(&mut ban.line, &mut ban.next);
    }
    for leg in &mut legs {
        leg.reverse();
    }
    legs.reverse();
    stretch.reverse();
    for last in [legs.last().and_then(|leg| leg.last()), stretch.last()] {
        let last = *last.expect("there are legs and lines") as usize;
        plan.lines[last].back = BACK_AT_LAST;
    }
    WorstCase {
        name: format!("{name}, mirrored"),
        plan,
        first,
        legs,
        stretch,
    }
}

const FORM: u8 = 2;

/// The length of the shortest lines.
const SHORT: u32 = 10;

/// The steps of the other lines, and of every line where it leaves.
const ALIKE: Steps = Steps {
    east: 0,
    north: 200,
};

/// The steps back of the line that a reference or a stretch ends with, so that no other line has
/// its marks.
const BACK_AT_LAST: Steps = Steps {
    east: 200,
    north: 0,
};

impl MapPlan {
    /// A line of the lowest number of class, with the marks of all others. Gives its number.
    fn add_line(&mut self, start: u32, end: u32, length: u32) -> u32 {
        self.lines.push(PlannedLine {
            start,
            end,
            length,
            frc: 0,
            fow: FORM,
            out: ALIKE,
            back: ALIKE,
        });
        self.lines.len() as u32 - 1
    }

    /// A line with marks of its own where it arrives.
    fn add_last_line(&mut self, start: u32, end: u32, length: u32) -> u32 {
        let number = self.add_line(start, end, length);
        self.lines[number as usize].back = BACK_AT_LAST;
        number
    }

    /// A way from this node to a node without other lines, and back. With a short line before them its
    /// two lines are as long as a leg can be: each leg along them has one reading, and its searches see
    /// all of the map.
    fn add_loop(&mut self, node: u32, away: u32) -> [u32; 2] {
        let half = LONGEST_LEG / 2;
        let out = self.add_line(node, away, half);
        [out, self.add_last_line(away, node, half - SHORT)]
    }
}

/// 64 legs along the loop, and 64 lines of it.
fn loop_case(name: &'static str, plan: MapPlan, first: u32, around: [u32; 2]) -> WorstCase {
    WorstCase {
        name: name.to_string(),
        plan,
        first,
        legs: vec![around.to_vec(); MOST_LEGS],
        stretch: around.repeat(MOST_LEGS / 2),
    }
}

/// Two nodes and half of the lines each way. The last line of each way is so long that only a leg
/// along it gives its D, also with two short lines before it: legs go there and back by these.
fn hub_plan(length_of: &dyn Fn(u32) -> u32) -> MapPlan {
    const LONG: u32 = 2 * DISTANCE_STEP - 1;
    let mut plan = row_of_nodes(2);
    let count = FULL_LINES as u32;
    for number in 0..count - 2 {
        plan.add_line(number % 2, 1 - number % 2, length_of(number));
    }
    plan.add_last_line(0, 1, LONG);
    plan.add_last_line(1, 0, LONG);
    plan
}

fn there_and_back(name: &'static str, plan: MapPlan) -> WorstCase {
    let count = plan.lines.len() as u32;
    let stretch = [count - 2, count - 1].repeat(MOST_LEGS / 2);
    WorstCase {
        name: name.to_string(),
        plan,
        first: 1,
        legs: stretch.iter().map(|&line| vec![line]).collect(),
        stretch,
    }
}

/// The most lines that can follow each line.
fn hub_case(name: &'static str, length_of: &dyn Fn(u32) -> u32) -> WorstCase {
    there_and_back(name, hub_plan(length_of))
}

/// A node with a line to each of 510 others, and a line back.
fn star(name: &'static str, length_out: &dyn Fn(u32) -> u32) -> WorstCase {
    let mut plan = row_of_nodes(FULL_NODES);
    let around = plan.add_loop(0, FULL_NODES - 1);
    for spoke in 1..FULL_NODES - 1 {
        plan.add_line(0, spoke, length_out(spoke));
        plan.add_line(spoke, 0, 3_000);
    }
    loop_case(name, plan, around[1] + 1, around)
}

/// The hub, and each line there has one banned turn: all arrive for themselves.
fn hub_with_a_ban_each(name: &'static str, length_of: &dyn Fn(u32) -> u32) -> WorstCase {
    let mut plan = hub_plan(length_of);
    let count = plan.lines.len() as u32;
    let ban = |line| Ban {
        line,
        next: (line + 3) % count,
    };
    plan.bans = (0..count).step_by(2).map(ban).collect();
    there_and_back(name, plan)
}

/// The same, and all lines arrive with the same marks: on the last leg each pair of a first and a
/// last line is tried. Only the two long ones give D.
fn hub_with_last_lines_alike() -> WorstCase {
    let name = "a ban on each of 512 lines, all last lines alike";
    last_lines_alike(hub_with_a_ban_each(name, &|_| SHORT))
}

fn last_lines_alike(mut case: WorstCase) -> WorstCase {
    for line in &mut case.plan.lines {
        line.back = ALIKE;
    }
    case.legs.truncate(MOST_LEGS - 2);
    case.legs.push(case.stretch[..2].to_vec());
    case
}

/// The hub, and two lines there have 256 banned turns each, with lines back. The last line back is
/// not among them.
fn hub_with_two_banned_lines(name: &'static str, ban: fn(u32, u32) -> Ban) -> WorstCase {
    let mut plan = hub_plan(&|_| SHORT);
    let backs = (1..FULL_LINES as u32 - 2).step_by(2).cycle();
    let lines = [0, 2].into_iter().flat_map(|line| [line; 256]);
    plan.bans = lines
        .zip(backs)
        .map(|(line, back)| ban(line, back))
        .collect();
    there_and_back(name, plan)
}

fn turn_from(line: u32, next: u32) -> Ban {
    Ban { line, next }
}

fn turn_into(next: u32, line: u32) -> Ban {
    Ban { line, next }
}

/// Nodes in a row, with this many lines of one length each way between neighbours.
fn ladder(name: &'static str, width: u32) -> WorstCase {
    let steps = (FULL_LINES as u32 - 2) / (2 * width);
    let mut plan = row_of_nodes(steps + 2);
    for step in 0..steps {
        for _ in 0..width {
            plan.add_line(step, step + 1, SHORT);
            plan.add_line(step + 1, step, SHORT);
        }
    }
    let around = plan.add_loop(0, steps + 1);
    loop_case(name, plan, 0, around)
}

/// One road of 512 nodes with a line each way, just as long as a leg can be. Each leg goes from
/// one end to the other.
fn long_chain() -> WorstCase {
    const LENGTH: u32 = LONGEST_LEG / (FULL_NODES - 1);
    let mut plan = row_of_nodes(FULL_NODES);
    for node in 1..FULL_NODES {
        plan.add_line(node - 1, node, LENGTH);
        plan.add_line(node, node - 1, LENGTH);
    }
    let count = plan.lines.len() as u32;
    let there: Vec<u32> = (0..count).step_by(2).collect();
    let back: Vec<u32> = (1..count).step_by(2).rev().collect();
    WorstCase {
        name: "long chain".to_string(),
        plan,
        first: 0,
        stretch: there[..MOST_LEGS].to_vec(),
        legs: [there, back].into_iter().cycle().take(MOST_LEGS).collect(),
    }
}

/// 16 by 16 nodes, neighbours joined by a line each way.
fn equal_grid() -> WorstCase {
    const SIDE: u32 = 16;
    let mut plan = row_of_nodes(SIDE * SIDE + 1);
    for node in 0..SIDE * SIDE {
        let east = (node % SIDE + 1 < SIDE).then_some(node + 1);
        let north = (node + SIDE < SIDE * SIDE).then_some(node + SIDE);
        for neighbour in east.into_iter().chain(north) {
            plan.add_line(node, neighbour, 10_000);
            plan.add_line(neighbour, node, 10_000);
        }
    }
    let around = plan.add_loop(SIDE * SIDE / 2 + SIDE / 2, SIDE * SIDE);
    loop_case("grid, equal lengths, whole", plan, 0, around)
}

/// From every node a line to every later one, and the more lines a way has the shorter it is, so
/// that lengths come down again and again where the list is made in the worse of two orders.
fn steep_case(name: &'static str, nearest_first: bool) -> WorstCase {
    const NODES: u32 = 45;
    let mut plan = row_of_nodes(NODES + 1);
    for start in 0..NODES {
        for step in 1..NODES - start {
            let step = if nearest_first {
                step
            } else {
                NODES - start - step
            };
            plan.add_line(start, start + step, step * step * 500);
        }
    }
    let first = if nearest_first { 0 } else { NODES - 2 };
    let around = plan.add_loop(0, NODES);
    loop_case(name, plan, first, around)
}

/// Nodes from this one on, each reached by a line from the first of them and by one from the node
/// before. The more of the latter a way has the shorter it is. The nodes that are reached by least
/// lines are listed last, so that a list that is gone along again and again lowers the last node
/// once a time. Gives the last node.
fn add_steep_road(plan: &mut MapPlan, from: u32, steps: u32) -> u32 {
    for step in 1..=steps {
        plan.add_line(from, from + step, 3 * SHORT * step);
    }
    for step in 1..steps {
        plan.add_line(from + step, from + step + 1, SHORT);
    }
    from + steps
}

/// Lines between two nodes, half of them each way.
fn add_hub(plan: &mut MapPlan, nodes: [u32; 2], lines_each_way: u32) {
    for _ in 0..lines_each_way {
        plan.add_line(nodes[0], nodes[1], SHORT);
        plan.add_line(nodes[1], nodes[0], SHORT);
    }
}

/// Many first lines, and behind them a steep road to a hub: the hub is gone through once for each
/// step of the road.
fn steep_hub() -> WorstCase {
    const FIRST_LINES: u32 = 250;
    const STEPS: u32 = 128;
    const EACH_WAY: u32 = 255;
    let mut plan = row_of_nodes(STEPS + 4);
    for _ in 0..FIRST_LINES {
        plan.add_line(0, 1, SHORT);
    }
    let end = add_steep_road(&mut plan, 1, STEPS);
    add_hub(&mut plan, [end, end + 1], EACH_WAY);
    let around = plan.add_loop(0, end + 2);
    loop_case("steep road to a hub", plan, 0, around)
}

/// Nodes from this one on, as those of the steep road, but that lead to the first of them. Gives the
/// last node.
fn add_steep_road_back(plan: &mut MapPlan, to: u32, first: u32, steps: u32) -> u32 {
    for step in 0..steps {
        plan.add_line(first + step, to, 3 * SHORT * (step + 1));
    }
    for step in 1..steps {
        plan.add_line(first + step, first + step - 1, SHORT);
    }
    first + steps - 1
}

/// The same for a search back from where the legs end: a hub, and a steep road from there to the
/// node of the loop. Two first lines match.
fn steep_hub_before() -> WorstCase {
    const STEPS: u32 = 170;
    const EACH_WAY: u32 = 340;
    let mut plan = row_of_nodes(STEPS + 3);
    let around = plan.add_loop(0, 1);
    plan.add_line(0, 1, SHORT);
    let end = add_steep_road_back(&mut plan, 0, 2, STEPS);
    add_hub(&mut plan, [end, end + 1], EACH_WAY);
    let first = plan.lines.len() as u32 - 1;
    loop_case("steep road from a hub", plan, first, around)
}

/// Very many first lines of the same marks to a long road, which leads back to where they start. A
/// loop from there has their marks too.
fn first_lines_before_a_long_road() -> WorstCase {
    const LINES: u32 = 480;
    const STEPS: u32 = 500;
    let mut plan = row_of_nodes(STEPS + 3);
    let around = plan.add_loop(0, STEPS + 2);
    for _ in 0..LINES {
        plan.add_line(0, 1, SHORT);
    }
    for node in 1..=STEPS {
        plan.add_line(node, (node + 1) % (STEPS + 1), SHORT);
    }
    loop_case("first lines before a long road", plan, around[1], around)
}

/// A road with very many first and very many last lines of the same marks. Of these pairs one
/// alone gives D: of first lines one is 6,000 longer than the others, of last lines one is 12,000.
fn first_and_last_lines() -> WorstCase {
    const LINES: u32 = 490;
    const STEPS: u32 = 20;
    let mut plan = row_of_nodes(STEPS + 4);
    let around = plan.add_loop(0, STEPS + 3);
    let first = plan.add_line(0, 1, 6_000 + SHORT);
    for _ in 1..LINES {
        plan.add_line(0, 1, SHORT);
    }
    let road: Vec<u32> = (1..=STEPS)
        .map(|node| plan.add_line(node, node + 1, SHORT))
        .collect();
    let last = plan.add_line(STEPS + 1, STEPS + 2, 12_000 + SHORT);
    for _ in 1..LINES {
        plan.add_line(STEPS + 1, STEPS + 2, SHORT);
    }
    let last_leg = [&[first], road.as_slice(), &[last]].concat();
    let mut legs = vec![around.to_vec(); MOST_LEGS - 1];
    legs.push(last_leg.clone());
    let loops = (MOST_LEGS - last_leg.len()) / 2;
    WorstCase {
        name: "many first and last lines".to_string(),
        plan,
        first,
        legs,
        stretch: [around.repeat(loops), last_leg].concat(),
    }
}

const LOOPS: u32 = 32;
const LOOP_CLASSES: u32 = 7;

/// 32 loops from node 0, to be gone round one after another: no later one but the next may follow.
/// So from each of them the ways to the ends of all later ones are legs that can be used. The last
/// seven come back by lower and lower classes, and the legs along them have eight classes.
fn add_loops(plan: &mut MapPlan) -> Vec<u32> {
    let mut lines = Vec::new();
    for number in 1..=LOOPS {
        lines.push(plan.add_line(0, number, 6_000));
        let back = plan.add_line(number, 0, 6_000);
        let class = (number + LOOP_CLASSES).saturating_sub(LOOPS);
        plan.lines[back as usize].frc = class as u8;
        lines.push(back);
    }
    plan.lines[lines[lines.len() - 1] as usize].back = BACK_AT_LAST;
    let loops = lines.chunks_exact(2);
    plan.bans = (2..)
        .zip(loops)
        .flat_map(|(later, around)| {
            let outs = lines.iter().step_by(2).skip(later);
            outs.map(|&next| Ban {
                line: around[1],
                next,
            })
        })
        .collect();
    lines
}

fn loops_case(name: &'static str, plan: MapPlan, first: u32, lines: Vec<u32>) -> WorstCase {
    WorstCase {
        name: name.to_string(),
        plan,
        first,
        legs: lines.iter().map(|&line| vec![line]).collect(),
        stretch: lines,
    }
}

/// The loops, and from their node many lines to a hub.
fn loops_before_a_hub() -> WorstCase {
    const EACH: u32 = 320;
    let mut plan = row_of_nodes(LOOPS + 3);
    let lines = add_loops(&mut plan);
    let hub = [LOOPS + 1, LOOPS + 2];
    let first = plan.add_line(0, hub[0], SHORT);
    for _ in 1..EACH {
        plan.add_line(0, hub[0], SHORT);
    }
    add_hub(&mut plan, hub, EACH);
    loops_case("loops of 8 classes, hub", plan, first, lines)
}

/// The loops, and from their node many lines to a steep road to a hub.
fn loops_before_a_steep_hub() -> WorstCase {
    const FIRST_LINES: u32 = 240;
    const STEPS: u32 = 120;
    const EACH_WAY: u32 = 240;
    let mut plan = row_of_nodes(LOOPS + STEPS + 3);
    let lines = add_loops(&mut plan);
    let first = plan.add_line(0, LOOPS + 1, SHORT);
    for _ in 1..FIRST_LINES {
        plan.add_line(0, LOOPS + 1, SHORT);
    }
    let end = add_steep_road(&mut plan, LOOPS + 1, STEPS);
    add_hub(&mut plan, [end, end + 1], EACH_WAY);
    loops_case(
        "loops of 8 classes, steep road to a hub",
        plan,
        first,
        lines,
    )
}

/// The loops, and a steep road from a hub to their node.
fn loops_after_a_steep_hub() -> WorstCase {
    const STEPS: u32 = 150;
    const EACH_WAY: u32 = 330;
    let mut plan = row_of_nodes(LOOPS + STEPS + 2);
    let lines = add_loops(&mut plan);
    let end = add_steep_road_back(&mut plan, 0, LOOPS + 1, STEPS);
    add_hub(&mut plan, [end, end + 1], EACH_WAY);
    let first = plan.lines.len() as u32 - 1;
    loops_case(
        "loops of 8 classes, steep road from a hub",
        plan,
        first,
        lines,
    )
}
