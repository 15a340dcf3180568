//! Points along a line: the white paper's example, hydrants on the ridge, and each refusal.

mod forward;
mod ridge;

use plain::depot_map::{DepotMap, Line, Node};
use plain::fields::{distance_byte, Steps, DISTANCE_STEP};
use plain::hexadecimal::bytes;
use plain::legs::{matching_first_lines, Leg, LegEnd, Verdict};
use plain::maps::{small_map, steps_at, MapPlan, PlannedLine, Xorshift};
use plain::outcome::{Outcome, PointReading, Refusal, Span, WORK_AREA};
use plain::point::{read_point, read_point_on_map, write_point, write_point_on_map, Point};
use plain::reader::read;
use plain::writer::{write_on_map, ALL_TESTS};

use ridge::{refusal_of, ridge};

const ROOM: usize = 17;

/// Line 1 of the ridge: from (1000, 0), whose longitude code is 466, to (2000, 0); FRC 3, FOW 3, 10,000
/// long, sectors 8 and 24.
const HYDRANT: &str = "2B0001D20000005B680103E800009B5880";
const WITHOUT_OFFSET: &str = "2B0001D20000001B680103E800001B18";

/// From node 0 to node 3 of the ridge, with sectors 8 and 24 and the D of 20,000.
const OVER_THE_RIDGE: &str = "2B000000000000DB680307D000005B5880";

fn hydrant() -> Point {
    Point {
        line: 1,
        offset: 5_000,
        orientation: 1,
        side: 2,
    }
}

fn hydrant_on(line: u32) -> Point {
    Point { line, ..hydrant() }
}

fn at_start(line: u32) -> Point {
    Point {
        line,
        offset: 0,
        orientation: 0,
        side: 0,
    }
}

fn write_on(plan: &MapPlan, point: Point) -> Outcome<Vec<u8>> {
    write_point(&plan.encode(), point, WORK_AREA, ROOM)
}

fn read_on(plan: &MapPlan, reference: &str) -> Outcome<PointReading> {
    read_point(&plan.encode(), &bytes(reference).unwrap(), WORK_AREA, 64)
}

fn refusal_on(plan: &MapPlan, reference: &str) -> Option<Refusal> {
    read_on(plan, reference).err()
}

fn reading(line: u32, span: (u32, u32), orientation: u32, side: u32) -> PointReading {
    let (least, greatest) = span;
    PointReading {
        lines: vec![line],
        offset: Span { least, greatest },
        orientation,
        side,
    }
}

/// Nodes 5, 7 and 10 of the white paper, with its line between the first two each way: of class 2, a
/// multiple carriageway, 92 m, with bearings 202 and 42. The longitude code in its bytes is that of
/// 6.12831 and 6.12832; the 6.12829 that it prints is what the code is decoded to, and has another.
fn white_paper_map() -> MapPlan {
    let nodes = [
        (612_831, 4_960_597),
        (612_781, 4_960_521),
        (612_838, 4_960_398),
    ];
    let line = |start, end, length, out, back| PlannedLine {
        start,
        end,
        length,
        frc: 2,
        fow: 2,
        out: steps_at(out),
        back: steps_at(back),
    };
    MapPlan {
        nodes: nodes.map(node).to_vec(),
        lines: vec![
            line(1, 0, 9_200, 42, 202),
            line(0, 1, 9_200, 202, 42),
            line(1, 2, 14_000, 154, 334),
        ],
        bans: Vec::new(),
    }
}

fn node((longitude, latitude): (i32, i32)) -> Node {
    Node {
        longitude,
        latitude,
    }
}

/// 28 m along the line, on its left side (13.2.3). That is 256 * 2,800 / 9,200 = 77.91 parts. The paper rounds
/// them down and has 4D as its offset byte; the nearest is 78, which is 4E. Halves are odd 512ths: 4E
/// begins at 155 * 9,200 / 512 = 2785.2 and ends before 157 * 9,200 / 512 = 2821.1. The paper's own byte begins
/// at 153 * 9,200 / 512 = 2749.2: it is 27.50 to 27.85 m, and the paper says 27.8.
#[test]
fn the_white_papers_example() {
    let plan = white_paper_map();
    let point = Point {
        line: 1,
        offset: 2_800,
        orientation: 0,
        side: 2,
    };
    let written = "2B045BA023467E125101FFCEFFB492434E";
    let papers_own = "2B045BA023467E125101FFCEFFB492434D";
    assert_eq!(write_on(&plan, point), Ok(bytes(written).unwrap()));
    for (reference, span) in [(written, (2_786, 2_821)), (papers_own, (2_750, 2_785))] {
        assert_eq!(read_on(&plan, reference), Ok(reading(1, span, 0, 2)));
    }
}

/// Byte 80 on a leg of 10,000 begins at 255 * 10,000 / 512 = 4980.47 and ends before
/// 257 * 10,000 / 512 = 5019.53.
#[test]
fn a_hydrant_on_the_ridge() {
    let plan = ridge(&[]);
    assert_eq!(write_on(&plan, hydrant()), Ok(bytes(HYDRANT).unwrap()));
    let read = read_on(&plan, HYDRANT).unwrap();
    assert_eq!(read, reading(1, (4_981, 5_019), 1, 2));
    let printed = "lines 1 offset 4981 5019 orientation 1 side 2\n1";
    assert_eq!(read.to_string(), printed);
    // Line 3, from (1000, 1000) to (2000, 0), with sectors 12 and 24 and a D of 0.
    let on_slope = "2B0001D20001D21B6C0003E8FC181B18";
    assert_eq!(write_on(&plan, at_start(3)), Ok(bytes(on_slope).unwrap()));
    assert_eq!(read_on(&plan, on_slope), Ok(reading(3, (0, 0), 0, 0)));
}

/// The flag looks at the offset, and not at its byte. An offset has 0.0256 parts a centimetre: 19 has 0.486 and
/// 20 has 0.512, 58 has 1.485 and 59 has 1.510, 97 has 2.483 and 98 has 2.509; 9,902 has 253.491 and 9,903 has
/// 253.517, 9,941 has 254.490 and 9,942 has 254.515; 9,980 has 255.488 and 9,981 has 255.514, which would be
/// 256.
#[test]
fn offsets_of_a_hydrant() {
    let plan = ridge(&[]);
    for (offset, rest, span) in [
        (0, "18", (0, 0)),
        (1, "5800", (1, 19)),
        (19, "5800", (1, 19)),
        (20, "5801", (20, 58)),
        (58, "5801", (20, 58)),
        (59, "5802", (59, 97)),
        (9_941, "58FE", (9_903, 9_941)),
        (9_942, "58FF", (9_942, 9_999)),
        (9_980, "58FF", (9_942, 9_999)),
        (9_981, "58FF", (9_942, 9_999)),
        (9_999, "58FF", (9_942, 9_999)),
    ] {
        let point = Point {
            offset,
            ..at_start(1)
        };
        let reference = format!("2B0001D20000001B680103E800001B{rest}");
        assert_eq!(write_on(&plan, point), Ok(bytes(&reference).unwrap()));
        assert_eq!(read_on(&plan, &reference), Ok(reading(1, span, 0, 0)));
    }
}

/// In bits 7 and 6 of the first and of the last P. The class beside them is read as ever.
#[test]
fn every_orientation_and_side() {
    let plan = ridge(&[]);
    let ps = ["1B", "5B", "9B", "DB"];
    for (orientation, first_p) in (0..).zip(ps) {
        for (side, last_p) in (0..).zip(ps) {
            let point = Point {
                orientation,
                side,
                ..at_start(1)
            };
            let reference = format!("2B0001D2000000{first_p}680103E80000{last_p}18");
            assert_eq!(write_on(&plan, point), Ok(bytes(&reference).unwrap()));
            let expected = reading(1, (0, 0), orientation, side);
            assert_eq!(read_on(&plan, &reference), Ok(expected));
        }
    }
}

/// The leg is a last leg of 20,000: byte 80 begins at 255 * 20,000 / 512 = 9960.9 and ends before
/// 257 * 20,000 / 512 = 10,039.1 along all of the lines.
#[test]
fn a_received_point_along_several_lines() {
    for (bans, lines) in [([(2, 3)], vec![0, 1]), ([(0, 1)], vec![0, 2, 3])] {
        let plan = ridge(&bans);
        let expected = PointReading {
            lines,
            ..reading(0, (9_961, 10_039), 3, 1)
        };
        assert_eq!(read_on(&plan, OVER_THE_RIDGE), Ok(expected.clone()));
        let reference = bytes(OVER_THE_RIDGE).unwrap();
        let enough = expected.lines.len();
        for (room, outcome) in [(enough - 1, Err(Refusal::LineRoom)), (enough, Ok(expected))] {
            let read = read_point(&plan.encode(), &reference, WORK_AREA, room);
            assert_eq!(read, outcome);
        }
    }
}

/// From the first refusal to the last, each while the conditions of all later ones hold.
#[test]
fn refusals_of_the_writer_in_order() {
    let mut plan = ridge(&[]);
    plan.lines.push(plan.lines[1]);
    let whole = plan.encode();
    let mut damaged = whole.clone();
    damaged.push(0);
    let mut point = Point {
        line: 5,
        offset: u32::MAX,
        orientation: 4,
        side: 4,
    };
    let write = |map: &[u8], point, work, room| write_point(map, point, work, room).err();
    let refused = |point| write(&whole, point, WORK_AREA, 0);
    let without_work = write(&damaged, point, WORK_AREA - 1, 0);
    assert_eq!(without_work, Some(Refusal::WorkArea));
    let without_map = write(&damaged, point, WORK_AREA, 0);
    assert_eq!(without_map, Some(Refusal::MapBytes));
    assert_eq!(refused(point), Some(Refusal::NoSuchLines));
    point.line = 1;
    assert_eq!(refused(point), Some(Refusal::OffsetsReachTotal));
    point.offset = 10_000;
    assert_eq!(refused(point), Some(Refusal::OffsetsReachTotal));
    point.offset = 9_999;
    assert_eq!(refused(point), Some(Refusal::OrientationOrSide));
    (point.orientation, point.side) = (3, 3);
    assert_eq!(refused(point), Some(Refusal::NoUsablePoints));
    point.line = 0;
    assert_eq!(refused(point), Some(Refusal::ByteRoom));
    for (offset, bytes) in [(0, 16), (1, 17)] {
        point.offset = offset;
        let short = write(&whole, point, WORK_AREA, bytes - 1);
        assert_eq!(short, Some(Refusal::ByteRoom));
        let written = write_point(&whole, point, WORK_AREA, bytes);
        assert_eq!(written.map(|reference| reference.len()), Ok(bytes));
    }
}

#[test]
fn lines_that_there_are_not() {
    for line in [4, 5, 1023, 1024, u32::MAX] {
        let written = write_on(&ridge(&[]), at_start(line));
        assert_eq!(written, Err(Refusal::NoSuchLines), "{line}");
    }
}

#[test]
fn orientations_and_sides_over_3() {
    for number in [4, 5, 255, 256, 259, 0x4000_0000, u32::MAX] {
        for (orientation, side) in [(number, 0), (0, number), (number, number)] {
            let point = Point {
                orientation,
                side,
                ..at_start(1)
            };
            let written = write_on(&ridge(&[]), point);
            assert_eq!(written, Err(Refusal::OrientationOrSide));
        }
    }
    assert_eq!(Refusal::OrientationOrSide.to_string(), "refused 25");
}

/// A line beside line 1 of the ridge that is like it but for its length and its steps.
fn with_line_beside(length: u32, out: Steps, back: Steps) -> MapPlan {
    let mut plan = ridge(&[]);
    let beside = PlannedLine {
        length,
        out,
        back,
        ..plan.lines[1]
    };
    plan.lines.push(beside);
    plan
}

/// Lines beside each other are told apart by D or by a sector at either end. Lengths of D 1 are 5,860 to
/// 11,719.
#[test]
fn lines_beside_each_other() {
    let PlannedLine { out, back, .. } = ridge(&[]).lines[1];
    let south = Steps {
        east: 0,
        north: -200,
    };
    for (length, out, back, is_told) in [
        (10_000, out, back, false),
        (5_860, out, back, false),
        (11_719, out, back, false),
        (5_859, out, back, true),
        (11_720, out, back, true),
        (10_000, south, back, true),
        (10_000, out, south, true),
    ] {
        let plan = with_line_beside(length, out, back);
        for line in [1, 4] {
            let written = write_on(&plan, at_start(line));
            assert_eq!(written.is_ok(), is_told, "{length} {out:?} {back:?}");
            if !is_told {
                assert_eq!(written, Err(Refusal::NoUsablePoints));
            }
        }
    }
}

/// Lines 2 and 3 of the ridge, which lead from node 1 to node 3 as line 1 does, with steps so that the
/// way begins and ends with the marks of line 1.
fn with_way_around(bans: &[(u32, u32)]) -> MapPlan {
    let mut plan = ridge(bans);
    plan.lines[2].out = plan.lines[1].out;
    plan.lines[3].back = plan.lines[1].back;
    plan
}

#[test]
fn a_way_around() {
    let refused = Err(Refusal::NoUsablePoints);
    let accepted = Ok(bytes(WITHOUT_OFFSET).unwrap());
    let written = |plan: &MapPlan| write_on(plan, at_start(1));
    assert_eq!(written(&with_way_around(&[])), refused);
    assert_eq!(written(&with_way_around(&[(2, 3)])), accepted);
    // With line 2 they are 11,719 and 11,720 long.
    let mut plan = with_way_around(&[]);
    for (length, expected) in [(6_719, &refused), (6_720, &accepted)] {
        plan.lines[3].length = length;
        assert_eq!(&written(&plan), expected, "{length}");
    }
}

/// The line is of class 3, and so the way around may be of no lower class.
#[test]
fn classes_of_a_way_around() {
    let mut plan = with_way_around(&[]);
    plan.nodes.push(node((1500, 500)));
    let between = PlannedLine {
        end: 4,
        length: 1_000,
        ..plan.lines[3]
    };
    plan.lines[3].start = 4;
    plan.lines.push(between);
    for (frc, is_told) in [(2, false), (3, false), (4, true), (7, true)] {
        plan.lines[4].frc = frc;
        assert_eq!(write_on(&plan, at_start(1)).is_ok(), is_told, "{frc}");
    }
}

/// Least is among the lists with the same first and last line. A line between nodes 2 and 3, shorter than
/// line 3 and of its marks, is another last line, and so there are two more readings.
#[test]
fn every_last_line_counts() {
    let mut plan = with_way_around(&[]);
    plan.lines[3].length = 6_720;
    let mut shorter = plan.lines[3];
    shorter.length = 1_000;
    plan.lines.push(shorter);
    let refused = Err(Refusal::NoUsablePoints);
    assert_eq!(write_on(&plan, at_start(1)), refused);
    // The ways are then 5,859 and 11,720 long, and line 1 alone gives its D.
    plan.lines[4].length = 859;
    assert!(write_on(&plan, at_start(1)).is_ok());
    plan.lines[4].length = 860;
    assert_eq!(write_on(&plan, at_start(1)), refused);
}

#[test]
fn differences_fit_16_bits() {
    for (from, to, fits) in [
        ((0, 0), (32_767, -32_768), true),
        ((0, 0), (32_768, 0), false),
        ((0, 0), (0, -32_769), false),
        ((17_999_998, 0), (-18_000_000, 0), true),
        ((17_999_998, 0), (-17_967_235, 0), true),
        ((17_999_998, 0), (-17_967_234, 0), false),
        ((-18_000_000, 0), (17_967_232, 0), true),
        ((-18_000_000, 0), (17_967_231, 0), false),
    ] {
        let mut plan = ridge(&[]);
        plan.nodes = [from, to].map(node).to_vec();
        plan.lines.truncate(1);
        let written = write_on(&plan, hydrant_on(0));
        let read = written.map(|reference| {
            let read = read_point(&plan.encode(), &reference, WORK_AREA, 1);
            read.expect("what is written is read")
        });
        let expected = match fits {
            true => Ok(reading(0, (4_981, 5_019), 1, 2)),
            false => Err(Refusal::NoUsablePoints),
        };
        assert_eq!(read, expected, "{from:?} {to:?}");
    }
}

#[test]
fn lengths_and_status_of_a_point() {
    let plan = ridge(&[]);
    let mut longest = bytes(HYDRANT).unwrap();
    longest.extend([0; 460]);
    for length in (0..16).chain([18, 19, 20, 23, 24, 459, 460]) {
        for status in [0x2B, 0x0B, 0xAB] {
            longest[0] = status;
            let read = read_point(&plan.encode(), &longest[..length], WORK_AREA, 64);
            assert_eq!(read, Err(Refusal::ReferenceLength), "{length}");
        }
    }
    for reference in [HYDRANT, WITHOUT_OFFSET] {
        let mut reference = bytes(reference).unwrap();
        for status in (0..=255).filter(|&status| status != 0x2B) {
            reference[0] = status;
            let read = read_point(&plan.encode(), &reference, WORK_AREA, 64);
            assert_eq!(read, Err(Refusal::StatusByte), "{status}");
        }
    }
}

/// All values of R with 16 and with 17 bytes: bit 7 and the negative flag before the count of bytes.
#[test]
fn bits_and_flags_of_r() {
    let plan = ridge(&[]);
    let mut reference = bytes(HYDRANT).unwrap();
    for r in 0..=255 {
        reference[15] = r;
        for length in [16, 17] {
            let read = read_point(&plan.encode(), &reference[..length], WORK_AREA, 64);
            let expected = match (r & 0xA0, r & 0x40, length) {
                (0, 0, 16) | (0, 0x40, 17) => None,
                (0, _, _) => Some(Refusal::FlagCount),
                _ => Some(Refusal::ZeroBit),
            };
            // Of the sectors line 1 has but one.
            let expected = expected.or((r & 0x1F != 24).then_some(Refusal::LegWithoutReading(0)));
            assert_eq!(read.err(), expected, "{r:02X} {length}");
        }
    }
}

#[test]
fn points_without_a_node() {
    for (reference, point) in [
        ("2B0001D30000001B680103E800001B18", 0),
        ("2B0001D20000011B680103E900001B18", 0),
        ("2B0001D20000001B680103E900001B18", 1),
        ("2B0001D20000001B680103E8FFFF1B18", 1),
    ] {
        let refusal = refusal_on(&ridge(&[]), reference);
        assert_eq!(
            refusal,
            Some(Refusal::PointWithoutNode(point)),
            "{reference}"
        );
    }
}

#[test]
fn legs_without_one_reading() {
    let none = Some(Refusal::LegWithoutReading(0));
    let several = Some(Refusal::LegWithSeveralReadings(0));
    let plan = ridge(&[]);
    // Another sector, form of way, class or D; a lowest class above the line's; the way back.
    for reference in [
        "2B0001D20000001B690103E800001B18",
        "2B0001D20000001A680103E800001B18",
        "2B0001D200000013680103E800001B18",
        "2B0001D20000001B680203E800001B18",
        "2B0001D20000001B480103E800001B18",
        "2B0003A40000001B6801FC1800001B18",
    ] {
        assert_eq!(refusal_on(&plan, reference), none, "{reference}");
    }
    assert_eq!(refusal_on(&plan, OVER_THE_RIDGE), several);
    assert_eq!(refusal_on(&with_way_around(&[]), WITHOUT_OFFSET), several);
    assert_eq!(refusal_on(&ridge(&[(0, 1), (2, 3)]), OVER_THE_RIDGE), none);
}

/// Also where the line buffer is too short. Offset 1 of 100 gives 3, since 256 / 100 is 2.56, and 2 gives 5.
/// The least leg with an offset of byte 0 is 513 long: 256 / 512 is exactly a half, and goes up. The least
/// with one of byte 255 is 171 long: 256 * 169 / 170 is 254.494 and 256 * 170 / 171 is 254.503. Of 5,859, the
/// longest of D 0, it begins at 509 * 5,859 / 512 = 5824.7, and byte 0 ends before 5,859 / 512 = 11.4.
#[test]
fn bytes_that_no_offset_gives() {
    for (length, byte, span) in [
        (100, 1, None),
        (100, 2, None),
        (100, 3, Some((1, 1))),
        (100, 4, None),
        (100, 5, Some((2, 2))),
        (1, 0, None),
        (1, 255, None),
        (2, 128, Some((1, 1))),
        (2, 127, None),
        (512, 0, None),
        (512, 1, Some((1, 2))),
        (513, 0, Some((1, 1))),
        (170, 254, Some((169, 169))),
        (170, 255, None),
        (171, 255, Some((170, 170))),
        (DISTANCE_STEP - 1, 255, Some((5_825, 5_858))),
        (DISTANCE_STEP - 1, 0, Some((1, 11))),
    ] {
        let mut plan = ridge(&[]);
        plan.lines[1].length = length;
        let reference = format!("2B0001D20000001B680003E800001B58{byte:02X}");
        let expected = span.map(|span| reading(1, span, 0, 0));
        let expected = expected.ok_or(Refusal::OffsetByte);
        assert_eq!(read_on(&plan, &reference), expected, "{length} {byte}");
        let reference = bytes(&reference).unwrap();
        let without_room = read_point(&plan.encode(), &reference, WORK_AREA, 0);
        let refusal = expected.err().unwrap_or(Refusal::LineRoom);
        assert_eq!(without_room, Err(refusal), "{length} {byte}");
    }
}

/// Whatever else is wrong.
#[test]
fn work_area_and_map_come_first() {
    let mut plan = ridge(&[(0, 3)]);
    let check = |plan: &MapPlan, refusal| {
        let map = plan.encode();
        assert_eq!(refusal_of(&map), Some(refusal));
        for (work_length, refusal) in [(WORK_AREA - 1, Refusal::WorkArea), (WORK_AREA, refusal)] {
            assert_eq!(read_point(&map, &[], work_length, 0), Err(refusal));
            let written = write_point(&map, at_start(4), work_length, 0);
            assert_eq!(written, Err(refusal));
        }
    };
    check(&plan, Refusal::NoSuchTurn);
    plan.nodes[3] = plan.nodes[2];
    check(&plan, Refusal::SameCodes);
    plan.lines[3].back = Steps { east: 0, north: 0 };
    check(&plan, Refusal::Step);
    plan.lines[3].fow = 8;
    check(&plan, Refusal::LineField);
    plan.nodes[0].latitude = 9_000_001;
    check(&plan, Refusal::Coordinate);
    plan.nodes.truncate(1);
    check(&plan, Refusal::Count);
}

/// The reader of lines does not read points, nor the reader of points lines.
#[test]
fn two_readers() {
    let map = ridge(&[]).encode();
    for reference in [HYDRANT, WITHOUT_OFFSET, OVER_THE_RIDGE] {
        let mut reference = bytes(reference).unwrap();
        let as_lines = read(&map, &reference, WORK_AREA, 64);
        assert_eq!(as_lines, Err(Refusal::StatusByte));
        reference[0] = 0x0B;
        let as_point = read_point(&map, &reference, WORK_AREA, 64);
        assert_eq!(as_point, Err(Refusal::StatusByte));
    }
    let three_points = bytes("0B0000000000001B680103E800001B680103E800001B18").unwrap();
    assert!(read(&map, &three_points, WORK_AREA, 64).is_ok());
    let as_point = read_point(&map, &three_points, WORK_AREA, 64);
    assert_eq!(as_point, Err(Refusal::ReferenceLength));
}

/// The leg that the two ends of the line alone describe.
fn leg_of(line: &Line) -> Leg {
    Leg {
        start: line.start,
        first_marks: line.leaving_marks(),
        lowest_class: line.frc,
        distance: distance_byte(line.length),
        end: LegEnd {
            node: line.end,
            last_marks: Some(line.arriving_marks()),
        },
    }
}

fn some_bans(rng: &mut Xorshift, plan: &mut MapPlan) {
    let mut bans = plan.turns();
    rng.shuffle(&mut bans);
    bans.truncate(rng.below(1 + bans.len().min(512) as u32 / 2) as usize);
    plan.bans = bans;
}

/// What the writer of lines gives for the line alone, with the hydrant's status, orientation and side.
fn as_stretch(map: &DepotMap, line: u32, offset: u32) -> Outcome<Vec<u8>> {
    let written = write_on_map(map, &[line], offset, 0, ALL_TESTS, 459)?;
    let mut bytes = written.reference;
    for (place, bits) in [(0, 0x20), (7, 0x40), (14, 0x80)] {
        bytes[place] |= bits;
    }
    Ok(bytes)
}

fn has_other_first_line(map: &DepotMap, number: u32) -> bool {
    let line = map.line(number);
    matching_first_lines(map, line.start, line.leaving_marks()).count() > 1
}

/// A line is accepted just if a search onward from each first line finds it alone.
#[test]
fn the_writer_against_searches_onward_and_the_writer_of_lines() {
    let (mut accepted, mut accepted_by_search, mut refused) = (0, 0, 0);
    for seed in 0..1500 {
        let rng = &mut Xorshift::new(seed);
        let mut plan = small_map(seed);
        some_bans(rng, &mut plan);
        let map = DepotMap::decode(&plan.encode()).unwrap();
        for (number, line) in (0..).zip(&map.lines) {
            let offset = rng.below(line.length);
            let point = Point {
                offset,
                ..hydrant_on(number)
            };
            let written = write_point_on_map(&map, point, ROOM);
            assert_eq!(written, as_stretch(&map, number, offset), "seed {seed}");
            if !map.node(line.start).differences_fit(map.node(line.end)) {
                continue;
            }
            let is_told = forward::verdict(&map, &leg_of(line)) == (Verdict::One, vec![number]);
            assert_eq!(written.is_ok(), is_told, "seed {seed} line {number}");
            accepted += u32::from(is_told);
            accepted_by_search += u32::from(is_told && has_other_first_line(&map, number));
            refused += u32::from(!is_told);
        }
    }
    assert!(
        accepted > 1000 && accepted_by_search > 100 && refused > 1000,
        "{accepted} {accepted_by_search} {refused}"
    );
}

/// With a line buffer of one number, at every offset of some lines.
#[test]
fn what_is_written_is_read_back() {
    let mut read_back = 0;
    for seed in 0..200 {
        let rng = &mut Xorshift::new(seed);
        let mut plan = small_map(seed);
        some_bans(rng, &mut plan);
        let map = DepotMap::decode(&plan.encode()).unwrap();
        let line = rng.below(map.lines.len() as u32);
        for offset in 0..map.line(line).length.min(1500) {
            let point = Point {
                line,
                offset,
                orientation: rng.below(4),
                side: rng.below(4),
            };
            let Ok(reference) = write_point_on_map(&map, point, ROOM) else {
                break;
            };
            let read = read_point_on_map(&map, &reference, 1).unwrap();
            let Span { least, greatest } = read.offset;
            assert!((least..=greatest).contains(&offset), "seed {seed} {offset}");
            assert_eq!(
                read,
                reading(line, (least, greatest), point.orientation, point.side)
            );
            read_back += 1;
        }
    }
    assert!(read_back > 10_000, "{read_back}");
}
