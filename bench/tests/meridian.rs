//! Stretches across the 180th meridian: the differences that they are written with, and the sums
//! that they are read by.

use plain::depot_map::{DepotMap, Node};
use plain::fields::brought_round;
use plain::hexadecimal::{bytes, digits};
use plain::maps::{random_walk, small_map, steps_at, MapPlan, PlannedLine, Turns, Xorshift};
use plain::outcome::{Outcome, Refusal, Written, WORK_AREA};
use plain::reader::{read, read_on_map};
use plain::writer::{write, write_on_map, ALL_TESTS};

const EASTERNMOST: i32 = 17_999_998;
const WESTERNMOST: i32 = -18_000_000;

/// The bytes of the first point's longitude code.
const LONGITUDE_CODE: std::ops::Range<usize> = 1..4;

/// Nodes in a row, each with a line to the next, 100 m long and eastward by its steps.
fn row(places: &[(i32, i32)]) -> MapPlan {
    let node = |&(longitude, latitude): &(i32, i32)| Node {
        longitude,
        latitude,
    };
    let line = |start: u32| PlannedLine {
        start,
        end: start + 1,
        length: 10_000,
        frc: 3,
        fow: 3,
        out: steps_at(90),
        back: steps_at(270),
    };
    MapPlan {
        nodes: places.iter().map(node).collect(),
        lines: (0..places.len() as u32 - 1).map(line).collect(),
        bans: Vec::new(),
    }
}

fn at_equator(longitudes: &[i32]) -> MapPlan {
    let places: Vec<(i32, i32)> = longitudes.iter().map(|&longitude| (longitude, 0)).collect();
    row(&places)
}

/// All lines of the map as a stretch.
fn written(plan: &MapPlan) -> Outcome<String> {
    let stretch: Vec<u32> = (0..plan.lines.len() as u32).collect();
    let map = plan.encode();
    let written = write(&map, &stretch, 0, 0, ALL_TESTS, WORK_AREA, 459);
    written.map(|written| digits(&written.reference))
}

fn lines_read(plan: &MapPlan, reference: &str) -> Outcome<Vec<u32>> {
    let reading = read(&plan.encode(), &bytes(reference).unwrap(), WORK_AREA, 64);
    reading.map(|reading| reading.lines)
}

/// A reference of two points with the marks of the row's lines.
fn two_points(longitude_code: &str, difference: i16) -> String {
    format!("0B{longitude_code}0000001B6801{difference:04X}00001B18")
}

fn longitude_difference(from: i32, to: i32) -> i32 {
    let node = |longitude| Node {
        longitude,
        latitude: 0,
    };
    let [longitude, latitude] = node(from).differences_to(node(to));
    assert_eq!(latitude, 0);
    longitude
}

#[test]
fn differences_are_brought_round() {
    for (from, to, difference) in [
        (EASTERNMOST, WESTERNMOST, 2),
        (WESTERNMOST, EASTERNMOST, -2),
        // Half a circle, and beside it.
        (-9_000_000, 9_000_000, -18_000_000),
        (9_000_000, -9_000_000, -18_000_000),
        (WESTERNMOST, 0, -18_000_000),
        (0, WESTERNMOST, -18_000_000),
        (-9_000_000, 8_999_999, 17_999_999),
        (8_999_999, -9_000_000, -17_999_999),
        (-9_000_001, 9_000_000, -17_999_999),
        (9_000_000, -9_000_001, 17_999_999),
    ] {
        assert_eq!(longitude_difference(from, to), difference, "{from} {to}");
    }
}

/// A node and the differences from it lead to the node that they were taken to.
#[test]
fn sums_are_brought_back() {
    let rng = &mut Xorshift::new(1);
    for _ in 0..10_000 {
        let mut near_meridian = || brought_round(18_000_000 + rng.below(65_000) as i32 - 32_500);
        let [from, to] = [(); 2].map(|()| Node {
            longitude: near_meridian(),
            latitude: 5_000_000,
        });
        let differences = from.differences_to(to);
        assert_eq!(from.place_at(differences), to, "{from:?}");
        let round = differences[0] - (to.longitude - from.longitude);
        assert!([0, 36_000_000, -36_000_000].contains(&round), "{from:?}");
    }
}

#[test]
fn a_stretch_across_it_is_written_and_read() {
    for (longitudes, reference) in [
        ([EASTERNMOST, WESTERNMOST], two_points("7FFFFF", 2)),
        ([WESTERNMOST, EASTERNMOST], two_points("800000", -2)),
    ] {
        let plan = at_equator(&longitudes);
        assert_eq!(written(&plan), Ok(reference.clone()));
        assert_eq!(lines_read(&plan, &reference), Ok(vec![0]));
    }
}

/// The latitudes of the two ends do not fit one leg.
#[test]
fn a_stretch_that_crosses_and_comes_back() {
    let plan = row(&[(17_990_000, 0), (-17_980_000, 20_000), (17_995_000, 40_000)]);
    let reference = "0B7FEDCC0000001B680175304E201B68019E584E201B18";
    assert_eq!(written(&plan).as_deref(), Ok(reference));
    assert_eq!(lines_read(&plan, reference), Ok(vec![0, 1]));
}

#[test]
fn differences_fit_16_bits_across_it() {
    for (from, to, difference) in [
        (17_990_000, -17_977_233, Some(32_767)),
        (17_990_000, -17_977_232, None),
        (EASTERNMOST, -17_967_235, Some(32_767)),
        (EASTERNMOST, -17_967_234, None),
        (17_967_233, WESTERNMOST, Some(32_767)),
        (17_967_232, WESTERNMOST, None),
        (-17_990_000, 17_977_232, Some(-32_768)),
        (-17_990_000, 17_977_231, None),
        (WESTERNMOST, 17_967_232, Some(-32_768)),
        (WESTERNMOST, 17_967_231, None),
        // Half a circle is no way round.
        (WESTERNMOST, 0, None),
        (0, WESTERNMOST, None),
        (9_000_000, -9_000_000, None),
    ] {
        let plan = at_equator(&[from, to]);
        let differences = written(&plan).map(|reference| reference[20..28].to_string());
        let expected = difference.map(|difference: i16| format!("{difference:04X}0000"));
        let expected = expected.ok_or(Refusal::NoUsablePoints);
        assert_eq!(differences, expected, "{from} {to}");
        if let Ok(reference) = written(&plan) {
            assert_eq!(lines_read(&plan, &reference), Ok(vec![0]), "{from} {to}");
        }
    }
}

/// Between the easternmost longitude of a map and its westernmost one there is room for one more.
#[test]
fn no_node_is_at_the_sum_17_999_999() {
    let east = at_equator(&[EASTERNMOST, WESTERNMOST]);
    let west = at_equator(&[WESTERNMOST, EASTERNMOST]);
    let no_node = Err(Refusal::PointWithoutNode(1));
    for (plan, code, way) in [(&east, "7FFFFF", 1), (&west, "800000", -1)] {
        for (steps, expected) in [
            (1, no_node.clone()),
            (2, Ok(vec![0])),
            (3, no_node.clone()),
            (-1, no_node.clone()),
            // The first node again, where no line leads.
            (0, Err(Refusal::LegWithoutReading(0))),
        ] {
            let reference = two_points(code, steps * way);
            assert_eq!(lines_read(plan, &reference), expected, "{reference}");
        }
    }
}

#[test]
fn the_first_point_without_a_node_across_it() {
    let plan = at_equator(&[EASTERNMOST - 10, WESTERNMOST + 10, WESTERNMOST + 20]);
    let reference = |second: i16, third: i16| {
        format!("0B7FFFFA0000001B6801{second:04X}00001B6801{third:04X}00001B18")
    };
    assert_eq!(lines_read(&plan, &reference(22, 10)), Ok(vec![0, 1]));
    for (second, third, point) in [(21, 11, 1), (23, 9, 1), (22, 11, 2), (22, -21, 2)] {
        let read = lines_read(&plan, &reference(second, third));
        assert_eq!(read, Err(Refusal::PointWithoutNode(point)));
    }
}

/// No way leads over a pole, and latitudes are not brought round.
#[test]
fn latitudes_are_plain() {
    let poles = row(&[(0, 9_000_000), (0, -9_000_000)]);
    assert_eq!(written(&poles), Err(Refusal::NoUsablePoints));
    let near = row(&[(WESTERNMOST, 8_999_990), (0, 8_999_990)]);
    assert_eq!(written(&near), Err(Refusal::NoUsablePoints));
    // At the north pole and beyond: 18,000,000 less would be at the south pole and beside it.
    for latitude in [-9_000_000, -8_999_999, -8_999_998] {
        let plan = row(&[(0, 9_000_000), (0, latitude)]);
        for step in [0, 1, 2] {
            let north = format!("0B0000004000001B68010000{step:04X}1B18");
            let read = lines_read(&plan, &north);
            let expected = match step {
                0 => Refusal::LegWithoutReading(0),
                _ => Refusal::PointWithoutNode(1),
            };
            assert_eq!(read, Err(expected), "{latitude} {step}");
        }
    }
}

/// The map with its nodes so far east, where all of them have longitudes there.
fn moved(plan: &MapPlan, east: i32) -> Option<MapPlan> {
    let mut moved = plan.clone();
    for node in &mut moved.nodes {
        node.longitude = brought_round(node.longitude + east);
    }
    let has_longitude = |node: &Node| node.longitude <= EASTERNMOST;
    moved.nodes.iter().all(has_longitude).then_some(moved)
}

fn has_nodes_on_both_sides(map: &DepotMap, stretch: &[u32]) -> bool {
    let is_east = |node: u32| map.node(node).longitude > 0;
    let mut lines = stretch.iter().map(|&line| map.line(line));
    lines.any(|line| is_east(line.start) != is_east(line.end))
}

/// Wherever a map lies, its stretches have the same answers and, but for the first point's longitude
/// code, the same bytes.
#[test]
fn the_meridian_is_no_other_place() {
    let (mut compared, mut accepted_across) = (0, 0);
    for seed in 0..2000 {
        let rng = &mut Xorshift::new(seed);
        let plan = small_map(seed);
        let east = 18_000_000 - rng.below(200) as i32;
        let other = moved(&plan, east).and_then(|plan| DepotMap::decode(&plan.encode()).ok());
        let Some(other) = other else {
            continue;
        };
        let map = DepotMap::decode(&plan.encode()).unwrap();
        let count = rng.within(1, 10) as usize;
        let Some(stretch) = random_walk(rng, &map, count, Turns::Allowed) else {
            continue;
        };
        let some_tests = rng.below(56);
        let tests = *rng.pick(&[some_tests, ALL_TESTS]);
        let near = write_on_map(&map, &stretch, 0, 0, tests, 459);
        let far = write_on_map(&other, &stretch, 0, 0, tests, 459);
        let without_code = |mut written: Written| {
            written.reference[LONGITUDE_CODE].fill(0);
            written
        };
        assert_eq!(far.clone().map(without_code), near.map(without_code));
        if let Ok(written) = far {
            accepted_across += u32::from(has_nodes_on_both_sides(&other, &stretch));
            let read = read_on_map(&other, &written.reference, 64);
            assert_eq!(read.map(|reading| reading.lines), Ok(stretch));
        }
        compared += 1;
    }
    assert!(
        compared > 1000 && accepted_across > 200,
        "{compared} {accepted_across}"
    );
}
