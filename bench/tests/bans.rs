//! Banned turns on the ridge's map: what is refused, in which order, and what is read instead.

mod ridge;

use plain::hexadecimal::bytes;
use plain::maps::{push_number, MapPlan};
use plain::outcome::{Outcome, Refusal, WORK_AREA};
use plain::reader::read;
use plain::writer::{write, ALL_TESTS};

use ridge::{refusal_of, ridge};

const TWO_POINTS: &str = "0B0000000000001B680307D000001B18";
const THREE_POINTS: &str = "0B0000000000001B680103E800001B680103E800001B18";

fn write_on(plan: &MapPlan, stretch: &[u32], pos: u32, neg: u32) -> Outcome<Vec<u8>> {
    let map = plan.encode();
    let written = write(&map, stretch, pos, neg, ALL_TESTS, WORK_AREA, 459);
    written.map(|written| written.reference)
}

fn read_on(plan: &MapPlan, reference: &str) -> Outcome<Vec<u32>> {
    let reading = read(&plan.encode(), &bytes(reference).unwrap(), WORK_AREA, 64);
    reading.map(|reading| reading.lines)
}

#[test]
fn every_map_has_a_count_of_bans() {
    let mut bytes = ridge(&[]).encode();
    assert_eq!(refusal_of(&bytes), None);
    assert_eq!(bytes.pop(), Some(0));
    assert_eq!(refusal_of(&bytes), Some(Refusal::MapBytes));
    for (count, refusal) in [(512, None), (513, Some(Refusal::Count))] {
        let mut bytes = bytes.clone();
        push_number(&mut bytes, count);
        bytes.extend([0, 1].repeat(count as usize));
        assert_eq!(refusal_of(&bytes), refusal);
    }
}

#[test]
fn faults_of_bans_in_byte_order() {
    let whole = ridge(&[(0, 4)]).encode();
    assert_eq!(refusal_of(&whole), Some(Refusal::NoSuchTurn));
    for rest in [[].as_slice(), &[0], &[0, 0x84], &[0, 0x84, 0], &[0, 4, 0]] {
        let bytes = [&whole[..whole.len() - 2], rest].concat();
        assert_eq!(refusal_of(&bytes), Some(Refusal::MapBytes), "{rest:?}");
    }
}

#[test]
fn bans_of_no_turn() {
    for ban in [
        (1, 0),
        (0, 0),
        (0, 3),
        (0, 4),
        (4, 1),
        (u32::MAX, 1),
        (0, u32::MAX),
    ] {
        let mut plan = ridge(&[(0, 1), ban]);
        assert_eq!(
            refusal_of(&plan.encode()),
            Some(Refusal::NoSuchTurn),
            "{ban:?}"
        );
        plan.nodes[3] = plan.nodes[2];
        assert_eq!(
            refusal_of(&plan.encode()),
            Some(Refusal::SameCodes),
            "{ban:?}"
        );
    }
    assert_eq!(refusal_of(&ridge(&[(0, 1), (0, 2), (0, 1)]).encode()), None);
}

/// Between refusals 8 and 9, and in lines skipped whole too.
#[test]
fn stretches_with_a_banned_turn() {
    let plan = ridge(&[(2, 3)]);
    let banned = Err(Refusal::BannedInStretch);
    assert_eq!(write_on(&plan, &[0, 2, 3], 0, 0), banned);
    assert_eq!(write_on(&plan, &[0, 2, 3], 20_000, 0), banned);
    assert_eq!(write_on(&plan, &[0, 2, 3], 15_000, 0), banned);
    assert_eq!(write_on(&plan, &[0, 2, 3], 0, 10_000), banned);
    assert_eq!(
        write_on(&plan, &[2, 3, 0], 0, 0),
        Err(Refusal::LinesNotJoined)
    );
    let written = write_on(&plan, &[0, 1], 0, 0);
    assert_eq!(written, Ok(bytes(TWO_POINTS).unwrap()));
}

#[test]
fn a_ban_leaves_the_other_way() {
    for (bans, lines) in [([(0, 1)], vec![0, 2, 3]), ([(2, 3)], vec![0, 1])] {
        assert_eq!(read_on(&ridge(&bans), TWO_POINTS), Ok(lines));
    }
    let both = ridge(&[(0, 1), (2, 3)]);
    assert_eq!(
        read_on(&both, TWO_POINTS),
        Err(Refusal::LegWithoutReading(0))
    );
    let none = ridge(&[]);
    assert_eq!(
        read_on(&none, TWO_POINTS),
        Err(Refusal::LegWithSeveralReadings(0))
    );
}

/// Each leg is read as if it stood alone. The refusal is between 18 and 19.
#[test]
fn a_banned_turn_where_legs_meet() {
    let plan = ridge(&[(0, 1)]);
    assert_eq!(read_on(&ridge(&[]), THREE_POINTS), Ok(vec![0, 1]));
    let read = read_on(&plan, THREE_POINTS);
    assert_eq!(read, Err(Refusal::BannedWhereLegsMeet));
    // Byte 1 on a leg of 100: offset 1 is 2.56 parts and gives 3.
    let no_offset = "0B0000000000001B680003E800001B680103E800001B5801";
    for (bans, refusal) in [
        ([].as_slice(), Refusal::OffsetByte),
        (&[(0, 1)], Refusal::BannedWhereLegsMeet),
    ] {
        let mut plan = ridge(bans);
        plan.lines[0].length = 100;
        assert_eq!(read_on(&plan, no_offset), Err(refusal));
    }
    // A third leg back to node 1, where no line leads.
    let mut further = THREE_POINTS[..THREE_POINTS.len() - 4].to_string();
    further.push_str("1B6801FC1800001B18");
    assert_eq!(read_on(&plan, &further), Err(Refusal::LegWithoutReading(2)));
}
