//! What a call answers: its result, or a refusal with its number in the papers.

use std::fmt;

/// A refusal of "Refused, by place". Three of them carry a point or a leg, counted from 0.
#[derive(Clone, Copy, Debug, PartialEq, Eq)]
pub enum Refusal {
    WorkArea,
    MapBytes,
    Count,
    Coordinate,
    LineField,
    SameCodes,
    NoSuchLines,
    LinesNotJoined,
    OffsetsReachTotal,
    NoUsablePoints,
    ByteRoom,
    ReferenceLength,
    StatusByte,
    ZeroBit,
    FlagCount,
    PointWithoutNode(u32),
    LegWithoutReading(u32),
    LegWithSeveralReadings(u32),
    OffsetByte,
    LineRoom,
    BannedInStretch,
    BannedWhereLegsMeet,
    NoSuchTurn,
    Step,
    OrientationOrSide,
    TooFewTests,
    MessageOrder,
    MessageFull,
    OtherMap,
}

pub type Outcome<T> = Result<T, Refusal>;

/// The least and the greatest offset that give an offset byte; 0 and 0 if the offset is unflagged.
#[derive(Clone, Copy, Debug, Default, PartialEq, Eq)]
pub struct Span {
    pub least: u32,
    pub greatest: u32,
}

/// What the reader hands back when it accepts.
#[derive(Clone, Debug, PartialEq, Eq)]
pub struct Reading {
    pub lines: Vec<u32>,
    pub positive: Span,
    pub negative: Span,
}

/// What the reader of points hands back when it accepts: the lines between the two points, how far
/// along them the thing is, and the white paper's numbers for its orientation and its side of road.
#[derive(Clone, Debug, PartialEq, Eq)]
pub struct PointReading {
    pub lines: Vec<u32>,
    pub offset: Span,
    pub orientation: u32,
    pub side: u32,
}

/// What the writer hands back when it accepts: the reference, the leg tests made, and by how many points
/// at most it exceeds the fewest.
#[derive(Clone, Debug, PartialEq, Eq)]
pub struct Written {
    pub reference: Vec<u8>,
    pub tests: u32,
    pub excess: u32,
}

/// "Every call": the least work area, in numbers of 32 bits.
pub const WORK_AREA: usize = 14_336;

pub fn check_work_area(work_length: usize) -> Outcome<()> {
    if work_length < WORK_AREA {
        return Err(Refusal::WorkArea);
    }
    Ok(())
}

impl Refusal {
    pub fn number(self) -> u32 {
        match self {
            Refusal::WorkArea => 1,
            Refusal::MapBytes => 2,
            Refusal::Count => 3,
            Refusal::Coordinate => 4,
            Refusal::LineField => 5,
            Refusal::SameCodes => 6,
            Refusal::NoSuchLines => 7,
            Refusal::LinesNotJoined => 8,
            Refusal::OffsetsReachTotal => 9,
            Refusal::NoUsablePoints => 10,
            Refusal::ByteRoom => 11,
            Refusal::ReferenceLength => 12,
            Refusal::StatusByte => 13,
            Refusal::ZeroBit => 14,
            Refusal::FlagCount => 15,
            Refusal::PointWithoutNode(_) => 16,
            Refusal::LegWithoutReading(_) => 17,
            Refusal::LegWithSeveralReadings(_) => 18,
            Refusal::OffsetByte => 19,
            Refusal::LineRoom => 20,
            Refusal::BannedInStretch => 21,
            Refusal::BannedWhereLegsMeet => 22,
            Refusal::NoSuchTurn => 23,
            Refusal::Step => 24,
            Refusal::OrientationOrSide => 25,
            Refusal::TooFewTests => 26,
            Refusal::MessageOrder => 27,
            Refusal::MessageFull => 28,
            Refusal::OtherMap => 30,
        }
    }

    pub fn place(self) -> Option<u32> {
        match self {
            Refusal::PointWithoutNode(place)
            | Refusal::LegWithoutReading(place)
            | Refusal::LegWithSeveralReadings(place) => Some(place),
            _ => None,
        }
    }
}

/// As the printing program does it ("The tie at the ridge").
impl fmt::Display for Refusal {
    fn fmt(&self, out: &mut fmt::Formatter<'_>) -> fmt::Result {
        write!(out, "refused {}", self.number())?;
        match self.place() {
            Some(place) => write!(out, " {place}"),
            None => Ok(()),
        }
    }
}

impl fmt::Display for Reading {
    fn fmt(&self, out: &mut fmt::Formatter<'_>) -> fmt::Result {
        let (positive, negative) = (self.positive, self.negative);
        write!(
            out,
            "lines {} pos {} {}",
            self.lines.len(),
            positive.least,
            positive.greatest
        )?;
        write!(out, " neg {} {}", negative.least, negative.greatest)?;
        write_lines(out, &self.lines)
    }
}

impl fmt::Display for PointReading {
    fn fmt(&self, out: &mut fmt::Formatter<'_>) -> fmt::Result {
        let Span { least, greatest } = self.offset;
        write!(out, "lines {} offset {least} {greatest}", self.lines.len())?;
        write!(out, " orientation {} side {}", self.orientation, self.side)?;
        write_lines(out, &self.lines)
    }
}

fn write_lines(out: &mut fmt::Formatter<'_>, lines: &[u32]) -> fmt::Result {
    lines.iter().try_for_each(|line| write!(out, "\n{line}"))
}
