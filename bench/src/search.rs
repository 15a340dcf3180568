//! The least-length search over lines: from a first line, under a class and a limit on length.
//!
//! A way is a list of lines, each ending where the next starts and none banned after the one before
//! it; its length counts all of them, the first and the last too. For each line that some way
//! within the limit ends with, the search gives the least length of such a way, and the line before
//! the last one if that way is the only one of least length. All methods give the same answers.
//!
//! A search back from a last line gives the same for each line that such a way starts with, and the
//! line behind it. It may also go back from a node, whatever line the ways arrive there by.
//!
//! A search onward may go step by step, up to one length after another, and be left unfinished.

use std::cmp::Reverse;
use std::collections::{BinaryHeap, VecDeque};

use crate::depot_map::{DepotMap, Direction, LineAtNode, View};
use crate::fields::LONGEST_LINE;

/// Of a map.
const MOST_NODES: usize = 512;
const MOST_LINES: usize = 1024;

const NOT_REACHED: u32 = u32::MAX;
const NO_LINE: u32 = u32::MAX;

/// With a line's length added to one below it, a number still has 32 bits.
const HIGHEST_BASE: u32 = NOT_REACHED - LONGEST_LINE;

/// In a key of the heap the numbers from here on are nodes, so that of equal lengths lines come first.
const FIRST_NODE: u32 = MOST_LINES as u32;

#[derive(Clone, Copy, Debug, PartialEq, Eq)]
pub enum Method {
    /// First in, first out; a line's length may be corrected. Ties are counted afterwards.
    LineQueue,
    /// Dijkstra's over lines, with ties on the way.
    LineHeap,
    /// Dijkstra's over lines with bans of their own, and over nodes for all other lines that arrive
    /// there: of those only the nearest goes on.
    NodeAndLineHeap,
}

/// What stands before a line on the least way to it.
#[derive(Clone, Copy, Debug, PartialEq, Eq)]
pub enum Before {
    /// Nothing: it is the first line.
    First,
    /// This line, and the least way is the only one.
    Line(u32),
    /// There are several least ways.
    Several,
}

/// As a search keeps it: the number of a line, or one of these two.
const FIRST: u32 = u32::MAX;
const SEVERAL: u32 = u32::MAX - 1;

/// The answers of the last search, and buffers that are used again by the next.
///
/// A length stands there with `base` added. The next search has a base so much lower that all
/// lengths of this one are over its limit, as if nothing were reached: few searches have to reset.
pub struct Search {
    method: Method,
    /// Of the last search.
    direction: Direction,
    base: u32,
    /// The limit of the last search, with the base added.
    top: u32,
    /// The greatest length with which the last search goes on from a line, with the base added.
    last_left: u32,
    /// The least length of the ways that end with a line.
    least: Box<[u32; MOST_LINES]>,
    before: Box<[u32; MOST_LINES]>,
    /// The line that a line was last found banned after.
    banned_after: Box<[u32; MOST_LINES]>,
    queue: VecDeque<u32>,
    waiting: Vec<bool>,
    reached: Vec<u32>,
    several: Vec<u32>,
    heap: BinaryHeap<Reverse<u64>>,
    /// The least length with which a node is left by every line that can be reached there, as far as
    /// is known. Nothing longer that arrives has anything to do.
    closed_at: Box<[u32; MOST_NODES]>,
    /// What that way arrives by, if it is one of a line without bans.
    arrival: Box<[u32; MOST_NODES]>,
    /// The length with which a line with bans left the node first, and that line.
    opened_at: Box<[u32; MOST_NODES]>,
    opened_by: Box<[u32; MOST_NODES]>,
}

/// A line with bans that arrived at a node, or the nearest without, by its number in the heap.
#[derive(Clone, Copy)]
struct Arrived {
    number: u32,
    length: u32,
    /// What stands before the lines that it goes on to.
    before: u32,
}

/// Under this class (FRC at most) and up to this length, from this line on or back.
#[derive(Clone, Copy, Debug)]
pub struct Bounds {
    pub first: u32,
    pub class: u8,
    pub limit: u32,
}

/// Where that arrives which has this key in the heap.
#[inline(always)]
fn node_of(view: View, key: u64) -> u32 {
    let number = key as u32;
    if number >= FIRST_NODE {
        number - FIRST_NODE
    } else {
        view.far_node(number)
    }
}

impl Search {
    pub fn new(map: &DepotMap, method: Method) -> Search {
        let count = map.lines.len();
        Search {
            method,
            direction: Direction::Onward,
            base: HIGHEST_BASE,
            top: 0,
            last_left: 0,
            least: Box::new([NOT_REACHED; MOST_LINES]),
            before: Box::new([FIRST; MOST_LINES]),
            banned_after: Box::new([NO_LINE; MOST_LINES]),
            queue: VecDeque::new(),
            waiting: vec![false; count],
            reached: Vec::with_capacity(count),
            several: Vec::new(),
            heap: BinaryHeap::with_capacity(count),
            closed_at: Box::new([NOT_REACHED; MOST_NODES]),
            arrival: Box::new([FIRST; MOST_NODES]),
            opened_at: Box::new([NOT_REACHED; MOST_NODES]),
            opened_by: Box::new([NO_LINE; MOST_NODES]),
        }
    }

    /// Searches the map that the buffers were made for.
    pub fn run(&mut self, map: &DepotMap, bounds: Bounds) {
        self.run_for(map, Direction::Onward, bounds, 1);
    }

    /// Searches in one direction. Back from a last line, what stands "before" a line is the line
    /// behind it. Afterwards only lines of at least the shortest length are asked for.
    pub fn run_for(&mut self, map: &DepotMap, direction: Direction, bounds: Bounds, shortest: u32) {
        self.turn(direction);
        self.lower_base(bounds.limit, shortest);
        self.run_from_line(map.view(direction), bounds);
    }

    /// Begins a search onward, as "heap of nodes and lines".
    pub fn begin(&mut self, map: &DepotMap, bounds: Bounds) {
        self.turn(Direction::Onward);
        self.lower_base(bounds.limit, 1);
        let first = map.view(Direction::Onward).line(bounds.first);
        if first.frc() <= bounds.class && first.length() <= bounds.limit {
            let length = self.reach_first(first);
            self.arrive(first, length);
        }
    }

    /// Goes on with the search that was begun. Afterwards what it says of lines is right where their
    /// least ways are of this length at most. It stops sooner, and says so, when a shorter way arrives
    /// at a node that is watched.
    #[inline]
    pub fn advance(
        &mut self,
        map: &DepotMap,
        bounds: Bounds,
        length: u32,
        watched: Option<u32>,
    ) -> bool {
        let view = map.view(Direction::Onward);
        let end = self.base + length;
        while let Some(&Reverse(key)) = self.heap.peek() {
            if (key >> 32) as u32 >= end {
                break;
            }
            if watched == Some(node_of(view, key)) {
                return true;
            }
            self.heap.pop();
            self.leave(view, bounds, key);
        }
        false
    }

    /// Searches back from all lines that arrive at the node, as "heap of nodes and lines".
    pub fn run_back_from_node(
        &mut self,
        map: &DepotMap,
        node: u32,
        class: u8,
        limit: u32,
        shortest: u32,
    ) {
        let view = map.view(Direction::Back);
        let bounds = Bounds {
            first: NO_LINE,
            class,
            limit,
        };
        self.turn(Direction::Back);
        self.lower_base(limit, shortest);
        self.closed_at[node as usize] = self.base;
        for &line in view.lines_at(node) {
            let total = self.base + line.length();
            if total <= self.top && line.frc() <= class {
                self.least[line.line() as usize] = total;
                self.before[line.line() as usize] = FIRST;
                self.arrive(line, total);
            }
        }
        self.run_heap(view, bounds);
    }

    fn run_from_line(&mut self, view: View, bounds: Bounds) {
        let first = view.line(bounds.first);
        if first.frc() > bounds.class || first.length() > bounds.limit {
            return;
        }
        let length = self.reach_first(first);
        match self.method {
            Method::LineQueue => self.run_line_queue(view, bounds),
            Method::LineHeap => self.run_line_heap(view, bounds),
            Method::NodeAndLineHeap => {
                self.arrive(first, length);
                self.run_heap(view, bounds);
            }
        }
    }

    /// Gives the length to its end, with the base added.
    fn reach_first(&mut self, first: LineAtNode) -> u32 {
        let length = self.base + first.length();
        self.least[first.line() as usize] = length;
        self.before[first.line() as usize] = FIRST;
        length
    }

    /// What is banned after a line stays so from search to search, but not in the other direction.
    fn turn(&mut self, direction: Direction) {
        if self.direction != direction {
            self.direction = direction;
            self.banned_after.fill(NO_LINE);
        }
    }

    /// A way of a length from which on a line of the shortest length is over the limit need not go
    /// on.
    fn lower_base(&mut self, limit: u32, shortest: u32) {
        if self.base <= limit {
            self.base = HIGHEST_BASE;
            self.least.fill(NOT_REACHED);
            self.closed_at.fill(NOT_REACHED);
            self.opened_at.fill(NOT_REACHED);
        }
        self.heap.clear();
        self.base -= limit + 1;
        self.top = self.base + limit;
        self.last_left = self.base + limit.saturating_sub(shortest);
    }

    /// The least length of the ways that end with this line.
    #[inline]
    pub fn least(&self, line: u32) -> Option<u32> {
        let least = self.least[line as usize];
        (least <= self.top).then(|| least - self.base)
    }

    /// Asked of a reached line only.
    #[inline]
    pub fn before(&self, line: u32) -> Before {
        match self.before[line as usize] {
            FIRST => Before::First,
            SEVERAL => Before::Several,
            before => Before::Line(before),
        }
    }

    /// Whether some way of this length at most ends with this line.
    #[inline]
    pub fn is_within(&self, line: u32, length: u32) -> bool {
        self.least[line as usize] <= self.base + length
    }

    /// After a search onward: a line before this one on a least way to it. Asked of a reached line
    /// only; the first has none.
    pub fn some_before(&self, map: &DepotMap, line: u32) -> Option<u32> {
        match self.before[line as usize] {
            FIRST => None,
            SEVERAL => {
                let length = self.least[line as usize] - map.line(line).length;
                let mut arriving = map.lines_to(map.line(line).start);
                arriving.find(|&before| {
                    self.least[before as usize] == length && !map.is_banned(before, line)
                })
            }
            before => Some(before),
        }
    }

    /// Puts the only least way that ends with this line behind the list.
    pub fn append_way(&self, last: u32, list: &mut Vec<u32>) {
        let start = list.len();
        list.push(last);
        let mut line = last;
        while let Before::Line(before) = self.before(line) {
            list.push(before);
            line = before;
        }
        list[start..].reverse();
    }

    /// After a search back: puts the only least way that starts with this line behind the list.
    pub fn append_way_onward(&self, first: u32, list: &mut Vec<u32>) {
        list.push(first);
        let mut line = first;
        while let Before::Line(next) = self.before(line) {
            list.push(next);
            line = next;
        }
    }

    /// Marks the lines that may not follow this one, until the next is marked. Gives whether there
    /// are any.
    #[inline]
    fn mark_banned(&mut self, view: View, line: u32) -> bool {
        let banned = view.banned_next(line);
        for &next in banned {
            self.banned_after[next as usize] = line;
        }
        !banned.is_empty()
    }

    /// What stands before the lines that this one goes on to.
    #[inline]
    fn before_next(&self, line: u32) -> u32 {
        match self.before[line as usize] {
            SEVERAL => SEVERAL,
            _ => line,
        }
    }

    fn run_line_queue(&mut self, view: View, bounds: Bounds) {
        self.reached.clear();
        self.reached.push(bounds.first);
        self.queue.push_back(bounds.first);
        while let Some(line) = self.queue.pop_front() {
            self.waiting[line as usize] = false;
            self.shorten_next(view, bounds, line);
        }
        self.count_ties(view);
    }

    #[inline]
    fn shorten_next(&mut self, view: View, bounds: Bounds, line: u32) {
        let length = self.least[line as usize];
        let has_bans = self.mark_banned(view, line);
        for next in view.lines_at(view.far_node(line)) {
            let total = length + next.length();
            let number = next.line() as usize;
            let least = &mut self.least[number];
            if total >= *least || total > self.top || next.frc() > bounds.class {
                continue;
            }
            if has_bans && self.banned_after[number] == line {
                continue;
            }
            if *least > self.top {
                self.reached.push(number as u32);
                self.before[number] = FIRST;
            }
            *least = total;
            if !std::mem::replace(&mut self.waiting[number], true) {
                self.queue.push_back(number as u32);
            }
        }
    }

    /// A line has several least ways if two lines may stand before it, or one with several itself.
    /// `FIRST` stands for "none found yet"; only the first line keeps it.
    fn count_ties(&mut self, view: View) {
        self.several.clear();
        for at in 0..self.reached.len() {
            let line = self.reached[at];
            let length = self.least[line as usize];
            let has_bans = self.mark_banned(view, line);
            for next in view.lines_at(view.far_node(line)) {
                let number = next.line() as usize;
                let tight = self.least[number] == length + next.length();
                if !tight || has_bans && self.banned_after[number] == line {
                    continue;
                }
                let before = &mut self.before[number];
                match *before {
                    FIRST => *before = line,
                    SEVERAL => {}
                    _ => {
                        *before = SEVERAL;
                        self.several.push(number as u32);
                    }
                }
            }
        }
        self.spread_ties(view);
    }

    fn spread_ties(&mut self, view: View) {
        while let Some(line) = self.several.pop() {
            let length = self.least[line as usize];
            let has_bans = self.mark_banned(view, line);
            for next in view.lines_at(view.far_node(line)) {
                let number = next.line() as usize;
                let tight = self.least[number] == length + next.length();
                let banned = has_bans && self.banned_after[number] == line;
                if tight && !banned && self.before[number] != SEVERAL {
                    self.before[number] = SEVERAL;
                    self.several.push(number as u32);
                }
            }
        }
    }

    /// Lines leave the heap by the least length to them. Lengths are at least 1, so that by then
    /// every line before them that ties has left it.
    fn run_line_heap(&mut self, view: View, bounds: Bounds) {
        self.push(self.least[bounds.first as usize], bounds.first);
        while let Some(Reverse(key)) = self.heap.pop() {
            let (length, line) = ((key >> 32) as u32, key as u32);
            if length == self.least[line as usize] {
                self.leave_line(view, bounds, line);
            }
        }
    }

    #[inline]
    fn push(&mut self, length: u32, number: u32) {
        let key = u64::from(length) << 32 | u64::from(number);
        self.heap.push(Reverse(key));
    }

    #[inline]
    fn leave_line(&mut self, view: View, bounds: Bounds, line: u32) {
        let length = self.least[line as usize];
        let before = self.before_next(line);
        let has_bans = self.mark_banned(view, line);
        for next in view.lines_at(view.far_node(line)) {
            let total = length + next.length();
            let number = next.line() as usize;
            let least = &mut self.least[number];
            if total > *least || total > self.top || next.frc() > bounds.class {
                continue;
            }
            if has_bans && self.banned_after[number] == line {
                continue;
            }
            if total == *least {
                self.before[number] = SEVERAL;
                continue;
            }
            *least = total;
            self.before[number] = before;
            self.push(total, number as u32);
        }
    }

    /// What arrives at a node goes on in the order of its length, lines with bans of their own
    /// before others of the same length. So the first that may goes on to a line with the least
    /// length to it, and others only mark ties. Lengths are at least 1, so that by then all that
    /// arrive with that length are known, and so are the ties of each.
    fn run_heap(&mut self, view: View, bounds: Bounds) {
        while let Some(Reverse(key)) = self.heap.pop() {
            self.leave(view, bounds, key);
        }
    }

    /// The nearest in the heap goes on.
    #[inline(always)]
    fn leave(&mut self, view: View, bounds: Bounds, key: u64) {
        let (length, number) = ((key >> 32) as u32, key as u32);
        if number >= FIRST_NODE {
            if length == self.closed_at[(number - FIRST_NODE) as usize] {
                self.leave_node(view, bounds, number - FIRST_NODE, length);
            }
        } else if length <= self.closed_at[view.far_node(number) as usize] {
            self.leave_by_line(view, bounds, number, length);
        }
    }

    /// A line arrives at its end node, by ways of this least length.
    #[inline(always)]
    fn arrive(&mut self, line: LineAtNode, length: u32) {
        let node = line.far_node() as usize;
        let closed_at = &mut self.closed_at[node];
        if length > *closed_at || length > self.last_left {
            return;
        }
        if line.has_bans() {
            self.push(length, line.line());
        } else if length < *closed_at {
            *closed_at = length;
            self.arrival[node] = line.line();
            self.push(length, FIRST_NODE + line.far_node());
        } else {
            self.arrival[node] = SEVERAL;
        }
    }

    /// What arrived without bans of its own goes on to every line that leaves the node. If none did
    /// before it, none of them is reached yet but the first line, which keeps its own length: a way
    /// that comes back to it is longer.
    #[inline]
    fn leave_node(&mut self, view: View, bounds: Bounds, node: u32, length: u32) {
        let before = match self.arrival[node as usize] {
            SEVERAL => SEVERAL,
            line => self.before_next(line),
        };
        if self.opened_at[node as usize] <= length {
            return self.leave_open_node(view, bounds, node, length, before);
        }
        for &next in view.lines_at(node) {
            let total = length + next.length();
            if total > self.top || next.frc() > bounds.class || next.line() == bounds.first {
                continue;
            }
            self.least[next.line() as usize] = total;
            self.before[next.line() as usize] = before;
            self.arrive(next, total);
        }
    }

    /// The same where a line with bans has gone on before.
    #[inline(never)]
    fn leave_open_node(&mut self, view: View, bounds: Bounds, node: u32, length: u32, before: u32) {
        let arrived = Arrived {
            number: FIRST_NODE + node,
            length,
            before,
        };
        self.go_on(view, bounds, node, arrived);
    }

    /// A line with bans of its own goes on. If every line that can be reached then is, the node is
    /// closed.
    #[inline(never)]
    fn leave_by_line(&mut self, view: View, bounds: Bounds, line: u32, length: u32) {
        let node = view.far_node(line);
        self.mark_banned(view, line);
        let arrived = Arrived {
            number: line,
            length,
            before: self.before_next(line),
        };
        let stays_open = self.go_on(view, bounds, node, arrived);
        if self.opened_at[node as usize] > length {
            self.opened_at[node as usize] = length;
            self.opened_by[node as usize] = line;
        }
        if !stays_open {
            self.closed_at[node as usize] = length;
        }
    }

    /// Goes on to the lines that leave the node; after a shorter line with bans only to those banned
    /// after it, since it went on to the others. Gives whether one is not reached yet.
    #[inline]
    fn go_on(&mut self, view: View, bounds: Bounds, node: u32, arrived: Arrived) -> bool {
        if self.opened_at[node as usize] < arrived.length {
            let banned = view.banned_next(self.opened_by[node as usize]).iter();
            self.go_on_to(bounds, arrived, banned.map(|&next| view.line(next)))
        } else {
            self.go_on_to(bounds, arrived, view.lines_at(node).iter().copied())
        }
    }

    /// A line that stands twice in the list is met twice with the same line before it, which is no
    /// tie.
    #[inline]
    fn go_on_to(
        &mut self,
        bounds: Bounds,
        arrived: Arrived,
        lines: impl Iterator<Item = LineAtNode>,
    ) -> bool {
        let mut stays_open = false;
        for next in lines {
            let total = arrived.length + next.length();
            if total > self.top || next.frc() > bounds.class {
                continue;
            }
            let number = next.line() as usize;
            let least = &mut self.least[number];
            if self.banned_after[number] == arrived.number {
                stays_open |= *least > self.top;
            } else if total < *least {
                *least = total;
                self.before[number] = arrived.before;
                self.arrive(next, total);
            } else if total == *least && self.before[number] != arrived.before {
                self.before[number] = SEVERAL;
            }
        }
        stays_open
    }
}
