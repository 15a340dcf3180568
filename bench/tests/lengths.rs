//! Lengths in centimetres: D and its edges, the longest line, the longest leg and the longest stretch.

mod ridge;

use plain::depot_map::DepotMap;
use plain::fields::{distance_byte, lengths_of_distance_byte, LONGEST_LEG, LONGEST_LINE};
use plain::hexadecimal::{bytes, digits};
use plain::maps::MapPlan;
use plain::outcome::{Outcome, Reading, Refusal, Span};
use plain::reader::read_on_map;
use plain::writer::{write_on_map, ALL_TESTS};

use ridge::{refusal_of, ridge};

#[test]
fn the_papers_cases_of_distances() {
    for (length, distance) in [
        (5_850, 0),
        (5_859, 0),
        (5_860, 1),
        (5_861, 1),
        (11_719, 1),
        (11_720, 2),
        (1_500_000, 255),
    ] {
        assert_eq!(distance_byte(length), distance, "{length}");
    }
}

/// 255 * 5,860 is 1,494,300. What is beyond the longest leg is no length of a D.
#[test]
fn lengths_at_the_edges_of_distances() {
    for (distance, lengths) in [
        (0, (0, 5_859)),
        (1, (5_860, 11_719)),
        (2, (11_720, 17_579)),
        (254, (1_488_440, 1_494_299)),
        (255, (1_494_300, 1_500_000)),
    ] {
        assert_eq!(lengths_of_distance_byte(distance), lengths, "{distance}");
    }
}

#[test]
fn every_length_is_among_those_of_its_distance() {
    let mut counts = [0; 256];
    for length in 1..=LONGEST_LEG {
        let distance = distance_byte(length);
        let (least, greatest) = lengths_of_distance_byte(distance);
        assert!((least..=greatest).contains(&length), "{length}");
        counts[usize::from(distance)] += 1;
    }
    // Length 0 is left out of the first, and the last would go on to 1,500,159.
    let [first, between @ .., last] = counts;
    assert_eq!((first, last), (5_859, 5_701));
    assert_eq!(between, [5_860; 254]);
}

#[test]
fn lengths_of_lines() {
    let refused = Some(Refusal::LineField);
    for (length, refusal) in [
        (0, refused),
        (1, None),
        (150_001, None),
        (1_499_999, None),
        (1_500_000, None),
        (1_500_001, refused),
        (15_000_000, refused),
        (u32::MAX, refused),
    ] {
        for line in 0..4 {
            let mut plan = ridge(&[]);
            plan.lines[line].length = length;
            assert_eq!(refusal_of(&plan.encode()), refusal, "{line} {length}");
        }
    }
}

fn write_on(plan: &MapPlan, stretch: &[u32], pos: u32, neg: u32) -> Outcome<String> {
    let map = DepotMap::decode(&plan.encode())?;
    let written = write_on_map(&map, stretch, pos, neg, ALL_TESTS, 459);
    written.map(|written| digits(&written.reference))
}

fn read_on(plan: &MapPlan, reference: &str) -> Outcome<Reading> {
    let map = DepotMap::decode(&plan.encode())?;
    read_on_map(&map, &bytes(reference).unwrap(), 64)
}

/// Lines 0 and 1 of the ridge alone, of these lengths.
fn road_of(lengths: [u32; 2]) -> MapPlan {
    let mut plan = ridge(&[]);
    plan.lines.truncate(2);
    for (line, length) in plan.lines.iter_mut().zip(lengths) {
        line.length = length;
    }
    plan
}

/// 750,000 and 750,001 are 127.98 times 5,860, and 749,999 too: 7F is 127.
#[test]
fn the_longest_leg() {
    let one_leg = "0B0000000000001B68FF07D000001B18";
    let two_legs = "0B0000000000001B687F03E800001B687F03E800001B18";
    for (lengths, reference) in [
        ([750_000, 749_999], one_leg),
        ([750_000, 750_000], one_leg),
        ([750_000, 750_001], two_legs),
        ([750_001, 750_000], two_legs),
    ] {
        let plan = road_of(lengths);
        assert_eq!(write_on(&plan, &[0, 1], 0, 0).as_deref(), Ok(reference));
        let read = read_on(&plan, reference).map(|reading| reading.lines);
        assert_eq!(read, Ok(vec![0, 1]));
    }
}

/// FF begins at 1,494,300.
#[test]
fn readings_of_the_greatest_distance() {
    let reference = "0B0000000000001B68FF07D000001B18";
    for (length, is_read) in [
        (1_494_299, false),
        (1_494_300, true),
        (1_500_000, true),
        (1_500_001, false),
    ] {
        let read = read_on(&road_of([1, length - 1]), reference);
        let expected = match is_read {
            true => Ok(vec![0, 1]),
            false => Err(Refusal::LegWithoutReading(0)),
        };
        assert_eq!(read.map(|reading| reading.lines), expected, "{length}");
    }
}

/// Line 0 of the ridge and a line back, as long as lines are, 32 times each: 96,000,000 together.
fn longest_stretch() -> (MapPlan, Vec<u32>) {
    let mut plan = road_of([LONGEST_LINE; 2]);
    (plan.lines[1].start, plan.lines[1].end) = (1, 0);
    (plan, [0, 1].repeat(32))
}

/// A 512th of a leg of 1,500,000 is 2929.7, so that byte 0 is 1 to 2,929. 509 of them are 1,491,210.9.
#[test]
fn offsets_of_the_longest_stretch() {
    let (plan, stretch) = longest_stretch();
    let short = Span {
        least: 1,
        greatest: 2_929,
    };
    let written = write_on(&plan, &stretch, 1, 1).unwrap();
    assert_eq!(written.len(), 2 * 459);
    assert!(written.ends_with("1B780000"));
    let reading = read_on(&plan, &written).unwrap();
    assert_eq!(reading.lines, stretch);
    assert_eq!([reading.positive, reading.negative], [short; 2]);
    // 31 lines are 46,500,000 long, and 32 are 48,000,000. One centimetre is left, of line 31 of the stretch.
    let rest = "0B0001D20000001B68FFFC1800001B58FF";
    let written = write_on(&plan, &stretch, 47_999_999, 48_000_000);
    assert_eq!(written.as_deref(), Ok(rest));
    let reading = read_on(&plan, rest).unwrap();
    let long = Span {
        least: 1_491_211,
        greatest: 1_499_999,
    };
    assert_eq!((reading.lines, reading.positive), (vec![1], long));
    let nothing_left = write_on(&plan, &stretch, 47_999_999, 48_000_001);
    assert_eq!(nothing_left, Err(Refusal::OffsetsReachTotal));
}

/// In 32 bits their sums are 0, 1, 0, 9,999, 19,999 and 4,294,967,294: below the total of 20,000 but for the last.
#[test]
fn offsets_whose_sum_has_33_bits() {
    for (one, other) in [
        (u32::MAX, 1),
        (u32::MAX, 2),
        (1 << 31, 1 << 31),
        (u32::MAX - 1, 10_001),
        (3_000_000_000, 1_294_987_295),
        (u32::MAX, u32::MAX),
    ] {
        for (pos, neg) in [(one, other), (other, one)] {
            let written = write_on(&ridge(&[]), &[0, 1], pos, neg);
            assert_eq!(written, Err(Refusal::OffsetsReachTotal), "{pos} {neg}");
        }
    }
}
