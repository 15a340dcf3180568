//! The depot map: from its bytes to nodes, lines, the lines at each node and the banned turns
//! ("The depot map", "Banned turns").

use crate::fields::{brought_round, coordinate_code, Marks, Steps, LONGEST_LINE, LONGEST_STEP};
use crate::outcome::{Outcome, Refusal};

/// Coordinates in hundred-thousandths of a degree.
#[derive(Clone, Copy, Debug, PartialEq, Eq)]
pub struct Node {
    pub longitude: i32,
    pub latitude: i32,
}

impl Node {
    /// The differences of longitude and latitude to another node, whether they fit 16 bits or not.
    /// Longitudes go round at the 180th meridian; latitudes end at the poles.
    #[inline]
    pub fn differences_to(self, other: Node) -> [i32; 2] {
        let longitude = brought_round(other.longitude - self.longitude);
        [longitude, other.latitude - self.latitude]
    }

    /// Whether they fit 16 bits.
    pub fn differences_fit(self, other: Node) -> bool {
        let differences = self.differences_to(other);
        differences.map(i16::try_from).iter().all(Result::is_ok)
    }

    /// The place at these differences of 16 bits. No node need stand there: the longitude may be
    /// 17,999,999, and the latitude beyond a pole.
    #[inline]
    pub fn place_at(self, differences: [i32; 2]) -> Node {
        let [longitude, latitude] = differences;
        Node {
            longitude: brought_round(self.longitude + longitude),
            latitude: self.latitude + latitude,
        }
    }
}

/// A line runs one way, from its start node to its end node. Length in centimetres. Of its steps the
/// sectors alone are kept: out as seen from the start node, back as seen from the end node.
#[derive(Clone, Copy, Debug, PartialEq, Eq)]
pub struct Line {
    pub start: u32,
    pub end: u32,
    pub length: u32,
    pub frc: u8,
    pub fow: u8,
    pub sector_out: u8,
    pub sector_back: u8,
}

impl Line {
    /// The marks that a point gives of the line leaving it.
    pub fn leaving_marks(&self) -> Marks {
        self.marks(self.sector_out)
    }

    /// The marks that the last point gives of the line arriving.
    pub fn arriving_marks(&self) -> Marks {
        self.marks(self.sector_back)
    }

    fn marks(&self, sector: u8) -> Marks {
        Marks {
            frc: self.frc,
            fow: self.fow,
            sector,
        }
    }
}

/// A banned turn: the next line is not allowed straight after the line.
#[derive(Clone, Copy, Debug, PartialEq, Eq)]
pub struct Ban {
    pub line: u32,
    pub next: u32,
}

/// The way that a search goes along the lines.
#[derive(Clone, Copy, Debug, PartialEq, Eq)]
pub enum Direction {
    Onward,
    Back,
}

/// A line at one of its nodes, with what a search asks of it that comes there: in one number, so
/// that a list of them is quickly made.
#[derive(Clone, Copy, Debug, Default, PartialEq, Eq)]
pub struct LineAtNode(u64);

impl LineAtNode {
    /// A line that leads to this node in the direction of the search. A map has up to 1,024 lines
    /// and 512 nodes, and there are eight classes.
    #[inline]
    fn new(number: usize, line: &Line, far_node: u32, has_bans: bool) -> LineAtNode {
        let high = u32::from(has_bans) << 31 | u32::from(line.frc) << 24;
        let low = high | far_node << 12 | number as u32;
        LineAtNode(u64::from(line.length) << 32 | u64::from(low))
    }

    #[inline(always)]
    pub fn line(self) -> u32 {
        self.0 as u32 & 0x3FF
    }

    #[inline(always)]
    pub fn far_node(self) -> u32 {
        self.0 as u32 >> 12 & 0x1FF
    }

    #[inline(always)]
    pub fn frc(self) -> u8 {
        (self.0 as u32 >> 24 & 7) as u8
    }

    /// Whether the search may not go on from it to some line at the far node.
    #[inline(always)]
    pub fn has_bans(self) -> bool {
        self.0 as u32 >> 31 != 0
    }

    #[inline(always)]
    pub fn length(self) -> u32 {
        (self.0 >> 32) as u32
    }
}

/// Entries in groups, by a node or by a line, in one list.
#[derive(Clone, Debug, Default)]
pub struct Grouped<Entry> {
    first: Vec<u32>,
    entries: Vec<Entry>,
}

impl<Entry: Clone + Default> Grouped<Entry> {
    /// An entry for each item, in the order of the items within a group.
    fn new<Item>(
        group_count: usize,
        items: &[Item],
        group_of: impl Fn(&Item) -> u32,
        entry_of: impl Fn(usize, &Item) -> Entry,
    ) -> Grouped<Entry> {
        let mut first = vec![0; group_count + 1];
        for item in items {
            first[group_of(item) as usize] += 1;
        }
        let mut end = 0;
        for place in &mut first {
            end += *place;
            *place = end;
        }
        // Each place is now the end of its group. Filling from behind makes it the start.
        let mut entries = vec![Entry::default(); items.len()];
        for (number, item) in items.iter().enumerate().rev() {
            let place = &mut first[group_of(item) as usize];
            *place -= 1;
            entries[*place as usize] = entry_of(number, item);
        }
        Grouped { first, entries }
    }

    #[inline]
    fn has_entries(&self, group: usize) -> bool {
        !self.entries.is_empty() && self.first[group] != self.first[group + 1]
    }

    #[inline]
    pub fn of(&self, group: u32) -> &[Entry] {
        let group = group as usize;
        &self.entries[self.first[group] as usize..self.first[group + 1] as usize]
    }
}

/// The nodes by their pairs of codes: a table twice as long as a map has nodes, where the place of a
/// pair, or the next free one behind it, has its node. Even pairs chosen to collide cost little.
#[derive(Clone, Debug)]
struct NodeOfCodes {
    nodes: [u16; 1024],
    codes: Vec<u64>,
}

const FREE: u16 = u16::MAX;

impl NodeOfCodes {
    /// Refusal 6: two nodes with the same pair of codes.
    fn new(nodes: &[Node]) -> Outcome<NodeOfCodes> {
        let code = |node: &Node| {
            let (longitude, latitude) = (node.longitude, node.latitude);
            pack(coordinate_code(longitude), coordinate_code(latitude))
        };
        let mut table = NodeOfCodes {
            nodes: [FREE; 1024],
            codes: nodes.iter().map(code).collect(),
        };
        for node in 0..nodes.len() {
            let place = table.place(table.codes[node]);
            if table.nodes[place] != FREE {
                return Err(Refusal::SameCodes);
            }
            table.nodes[place] = node as u16;
        }
        Ok(table)
    }

    /// Where the pair stands, or would stand.
    #[inline]
    fn place(&self, codes: u64) -> usize {
        let mut place = (codes.wrapping_mul(0x9E37_79B9_7F4A_7C15) >> 54) as usize;
        while self.nodes[place] != FREE && self.codes[usize::from(self.nodes[place])] != codes {
            place = (place + 1) % 1024;
        }
        place
    }

    fn get(&self, codes: u64) -> Option<u32> {
        let node = self.nodes[self.place(codes)];
        (node != FREE).then_some(u32::from(node))
    }
}

/// What the bytes of a map list, which refusals 2 to 6, 23 and 24 let pass.
struct Listed {
    nodes: Vec<Node>,
    lines: Vec<Line>,
    bans: Vec<Ban>,
    node_of_codes: NodeOfCodes,
}

impl Listed {
    #[inline]
    fn new(map_bytes: &[u8]) -> Outcome<Listed> {
        let mut numbers = Numbers { rest: map_bytes };
        let node_count = numbers.within(2, 512, Refusal::Count)?;
        let mut nodes = Vec::with_capacity(node_count as usize);
        for _ in 0..node_count {
            nodes.push(numbers.node()?);
        }
        let line_count = numbers.within(1, 1024, Refusal::Count)?;
        let mut lines = Vec::with_capacity(line_count as usize);
        for _ in 0..line_count {
            lines.push(numbers.line(node_count)?);
        }
        let ban_count = numbers.within(0, 512, Refusal::Count)?;
        let mut bans = Vec::with_capacity(ban_count as usize);
        for _ in 0..ban_count {
            bans.push(numbers.ban()?);
        }
        if !numbers.rest.is_empty() {
            return Err(Refusal::MapBytes);
        }
        let node_of_codes = NodeOfCodes::new(&nodes)?;
        check_turns(&lines, &bans)?;
        Ok(Listed {
            nodes,
            lines,
            bans,
            node_of_codes,
        })
    }
}

#[derive(Clone, Debug)]
pub struct DepotMap {
    pub nodes: Vec<Node>,
    pub lines: Vec<Line>,
    /// As listed: a pair may stand there twice.
    pub bans: Vec<Ban>,
    outgoing: Grouped<LineAtNode>,
    incoming: Grouped<LineAtNode>,
    /// By line; no groups where there are no bans.
    banned_after: Grouped<u32>,
    banned_before: Grouped<u32>,
    node_of_codes: NodeOfCodes,
}

impl DepotMap {
    /// The map that the bytes hold, or refusal 2 to 6, 23 or 24.
    pub fn decode(map_bytes: &[u8]) -> Outcome<DepotMap> {
        let Listed {
            nodes,
            lines,
            bans,
            node_of_codes,
        } = Listed::new(map_bytes)?;
        let banned_after = by_line(&lines, &bans, |ban| (ban.line, ban.next));
        let banned_before = by_line(&lines, &bans, |ban| (ban.next, ban.line));
        let outgoing = Grouped::new(
            nodes.len(),
            &lines,
            |line| line.start,
            |number, line| {
                LineAtNode::new(number, line, line.end, banned_after.has_entries(number))
            },
        );
        let incoming = Grouped::new(
            nodes.len(),
            &lines,
            |line| line.end,
            |number, line| {
                LineAtNode::new(number, line, line.start, banned_before.has_entries(number))
            },
        );
        Ok(DepotMap {
            outgoing,
            incoming,
            nodes,
            lines,
            bans,
            banned_after,
            banned_before,
            node_of_codes,
        })
    }

    /// Refusals 2 to 6, 23 and 24, for a call that needs nothing else of the map.
    pub fn check(map_bytes: &[u8]) -> Outcome<()> {
        Listed::new(map_bytes).map(drop)
    }

    /// The map as a search in this direction sees it.
    #[inline]
    pub fn view(&self, direction: Direction) -> View<'_> {
        let (at_nodes, banned) = match direction {
            Direction::Onward => (&self.outgoing, &self.banned_after),
            Direction::Back => (&self.incoming, &self.banned_before),
        };
        View {
            map: self,
            direction,
            at_nodes,
            banned,
        }
    }

    #[inline]
    pub fn line(&self, line: u32) -> &Line {
        &self.lines[line as usize]
    }

    pub fn node(&self, node: u32) -> Node {
        self.nodes[node as usize]
    }

    /// The lines that are not allowed straight after the line, each as often as it is listed.
    #[inline]
    pub fn banned_after(&self, line: u32) -> &[u32] {
        self.view(Direction::Onward).banned_next(line)
    }

    pub fn is_banned(&self, line: u32, next: u32) -> bool {
        self.banned_after(line).contains(&next)
    }

    /// The numbers of the lines that leave the node.
    pub fn lines_from(&self, node: u32) -> impl ExactSizeIterator<Item = u32> + '_ {
        self.outgoing.of(node).iter().map(|leaving| leaving.line())
    }

    /// The numbers of the lines that arrive at the node.
    pub fn lines_to(&self, node: u32) -> impl ExactSizeIterator<Item = u32> + '_ {
        self.incoming
            .of(node)
            .iter()
            .map(|arriving| arriving.line())
    }

    /// The node with this pair of codes. Refusal 6 lets at most one pass.
    pub fn node_with_codes(&self, longitude_code: i32, latitude_code: i32) -> Option<u32> {
        self.node_of_codes.get(pack(longitude_code, latitude_code))
    }

    /// The node at these coordinates. It can only be the one with their codes.
    pub fn node_at(&self, place: Node) -> Option<u32> {
        let longitude_code = coordinate_code(place.longitude);
        let latitude_code = coordinate_code(place.latitude);
        self.node_with_codes(longitude_code, latitude_code)
            .filter(|&node| self.node(node) == place)
    }
}

/// A map as a search in one direction sees it.
#[derive(Clone, Copy)]
pub struct View<'a> {
    map: &'a DepotMap,
    direction: Direction,
    at_nodes: &'a Grouped<LineAtNode>,
    banned: &'a Grouped<u32>,
}

impl<'a> View<'a> {
    /// The lines that a search goes on to from the node.
    #[inline]
    pub fn lines_at(self, node: u32) -> &'a [LineAtNode] {
        self.at_nodes.of(node)
    }

    /// The node that the line leads to.
    #[inline]
    pub fn far_node(self, line: u32) -> u32 {
        let line = self.map.line(line);
        match self.direction {
            Direction::Onward => line.end,
            Direction::Back => line.start,
        }
    }

    #[inline]
    pub fn line(self, line: u32) -> LineAtNode {
        let has_bans = !self.banned_next(line).is_empty();
        let far_node = self.far_node(line);
        LineAtNode::new(line as usize, self.map.line(line), far_node, has_bans)
    }

    /// The lines that a search may not go on to from the line, each as often as it is listed.
    #[inline]
    pub fn banned_next(self, line: u32) -> &'a [u32] {
        if self.map.bans.is_empty() {
            return &[];
        }
        self.banned.of(line)
    }
}

/// The second lines of these pairs, by the first; no groups where there are no bans.
fn by_line(lines: &[Line], bans: &[Ban], pair: impl Fn(&Ban) -> (u32, u32)) -> Grouped<u32> {
    if bans.is_empty() {
        return Grouped::default();
    }
    Grouped::new(lines.len(), bans, |ban| pair(ban).0, |_, ban| pair(ban).1)
}

/// Refusal 23: a pair names no line, or its second line does not start where its first ends.
fn check_turns(lines: &[Line], bans: &[Ban]) -> Outcome<()> {
    let line = |number: u32| lines.get(number as usize);
    let is_turn = |ban: &Ban| match (line(ban.line), line(ban.next)) {
        (Some(line), Some(next)) => line.end == next.start,
        _ => false,
    };
    match bans.iter().all(is_turn) {
        true => Ok(()),
        false => Err(Refusal::NoSuchTurn),
    }
}

fn pack(longitude_code: i32, latitude_code: i32) -> u64 {
    u64::from(longitude_code as u32) << 32 | u64::from(latitude_code as u32)
}

/// The numbers of a map, in byte order. The first faulty one decides the refusal.
struct Numbers<'a> {
    rest: &'a [u8],
}

impl Numbers<'_> {
    /// Groups of seven bits, lowest first. Five groups hold 32 bits, so the fifth is at most 15.
    #[inline(always)]
    fn number(&mut self) -> Outcome<u32> {
        let mut number = 0;
        for shift in [0, 7, 14, 21, 28] {
            let Some((&byte, rest)) = self.rest.split_first() else {
                return Err(Refusal::MapBytes);
            };
            self.rest = rest;
            let group = u32::from(byte & 0x7F);
            if shift == 28 && group > 15 {
                return Err(Refusal::MapBytes);
            }
            number |= group << shift;
            if byte < 0x80 {
                let shortest = group != 0 || shift == 0;
                return if shortest {
                    Ok(number)
                } else {
                    Err(Refusal::MapBytes)
                };
            }
        }
        Err(Refusal::MapBytes)
    }

    #[inline(always)]
    fn within(&mut self, least: u32, greatest: u32, refusal: Refusal) -> Outcome<u32> {
        let number = self.number()?;
        if number < least || number > greatest {
            return Err(refusal);
        }
        Ok(number)
    }

    fn node(&mut self) -> Outcome<Node> {
        let longitude = self.within(0, 35_999_998, Refusal::Coordinate)?;
        let latitude = self.within(0, 18_000_000, Refusal::Coordinate)?;
        Ok(Node {
            longitude: longitude as i32 - 18_000_000,
            latitude: latitude as i32 - 9_000_000,
        })
    }

    fn line(&mut self, node_count: u32) -> Outcome<Line> {
        let fault = Refusal::LineField;
        let start = self.within(0, node_count - 1, fault)?;
        let end = self.within(0, node_count - 1, fault)?;
        if start == end {
            return Err(fault);
        }
        Ok(Line {
            start,
            end,
            length: self.within(1, LONGEST_LINE, fault)?,
            frc: self.within(0, 7, fault)? as u8,
            fow: self.within(0, 7, fault)? as u8,
            sector_out: self.sector()?,
            sector_back: self.sector()?,
        })
    }

    /// The sector of a pair of steps. That both are 0 is a fault of the north step.
    #[inline(always)]
    fn sector(&mut self) -> Outcome<u8> {
        let steps = Steps {
            east: self.step()?,
            north: self.step()?,
        };
        if steps.east == 0 && steps.north == 0 {
            return Err(Refusal::Step);
        }
        Ok(steps.sector())
    }

    #[inline(always)]
    fn step(&mut self) -> Outcome<i32> {
        let stored = self.within(0, 2 * LONGEST_STEP as u32, Refusal::Step)?;
        Ok(stored as i32 - LONGEST_STEP)
    }

    /// Any two numbers: what they name is asked when the whole map is read.
    fn ban(&mut self) -> Outcome<Ban> {
        Ok(Ban {
            line: self.number()?,
            next: self.number()?,
        })
    }
}
