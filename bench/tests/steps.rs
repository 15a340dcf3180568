//! Steps in the bytes of a map: the ridge's map with them, refusal 24 among the other refusals, and lines
//! that are told apart by their sectors alone.

mod ridge;

use plain::depot_map::{Ban, DepotMap, Node};
use plain::fields::{Steps, LONGEST_LINE};
use plain::hexadecimal::{bytes, digits};
use plain::maps::{number_parts, push_number, MapPlan, PlannedLine, LINE_NUMBERS};
use plain::outcome::{Outcome, Refusal, WORK_AREA};
use plain::reader::read;
use plain::writer::{write, ALL_TESTS};

use ridge::{refusal_of, ridge};

const THREE_POINTS: &str = "0B0000000000001B680103E800001B680103E800001B18";

/// The stored form of a step of 0, and the greatest one.
const NO_STEP: u32 = 250;
const GREATEST: u32 = 500;

/// Numbers that are not whole, not shortest or too large.
const BAD_FORMS: [&[u8]; 5] = [
    &[0x80, 0],
    &[0xFA, 0x81, 0],
    &[0x80, 0x80, 0x80, 0x80, 0x10],
    &[0xFF, 0xFF, 0xFF, 0xFF, 0x8F, 0x01],
    &[0x80, 0x80, 0x80, 0x80, 0x80],
];

/// The numbers of the ridge's map, each in its bytes.
struct Numbers(Vec<Vec<u8>>);

/// Where a number of a line of the ridge stands among them.
fn place(line: usize, number: usize) -> usize {
    2 + 2 * 4 + LINE_NUMBERS * line + number
}

const START: usize = 0;
const FOW: usize = 4;
/// The east steps out and back. The north step is next.
const EASTS: [usize; 2] = [5, 7];

impl Numbers {
    fn of(plan: &MapPlan) -> Numbers {
        Numbers(number_parts(&plan.encode()).map(<[u8]>::to_vec).collect())
    }

    fn ridge() -> Numbers {
        Numbers::of(&ridge(&[]))
    }

    fn with(mut self, place: usize, number: u32) -> Numbers {
        self.0[place].clear();
        push_number(&mut self.0[place], number);
        self
    }

    fn with_form(mut self, place: usize, form: &[u8]) -> Numbers {
        self.0[place] = form.to_vec();
        self
    }

    fn refusal(&self) -> Option<Refusal> {
        refusal_of(&self.0.concat())
    }

    /// Of the map that ends before this number.
    fn refusal_before(&self, place: usize) -> Option<Refusal> {
        refusal_of(&self.0[..place].concat())
    }
}

/// The places of every pair of steps of the ridge.
fn pairs() -> impl Iterator<Item = (usize, usize)> {
    let lines = (0..4).flat_map(|line| EASTS.map(|east| place(line, east)));
    lines.map(|east| (east, east + 1))
}

/// Its lengths are 10,000 = 78 * 128 + 16, and 5,000 = 39 * 128 + 8.
#[test]
fn the_bytes_of_the_ridge() {
    let lines = [
        "0001904E0303C203FA0132FA01",
        "0103904E0303C203FA0132FA01",
        "010288270303FA01C203FA0132",
        "02038827030387036D328102",
    ];
    let numbers = Numbers::ridge();
    for (number, line) in lines.into_iter().enumerate() {
        let own = &numbers.0[place(number, 0)..place(number + 1, 0)];
        assert_eq!(digits(&own.concat()), line);
    }
}

/// Offset 5,000 of 10,000 is 128 parts, and byte 80 is what has 127.5 to below 128.5: 4980.47 to below
/// 5019.53.
#[test]
fn the_tie_at_the_ridge() {
    let map = ridge(&[]).encode();
    let written = |pos| {
        let written = write(&map, &[0, 1], pos, 0, ALL_TESTS, WORK_AREA, 459);
        written.map(|written| written.reference)
    };
    assert_eq!(written(0), Ok(bytes(THREE_POINTS).unwrap()));
    let with_offset = "0B0000000000001B680103E800001B680103E800001B5880";
    assert_eq!(written(5_000), Ok(bytes(with_offset).unwrap()));
    let printed = read(&map, &bytes(with_offset).unwrap(), WORK_AREA, 1024).unwrap();
    assert_eq!(printed.to_string(), "lines 2 pos 4981 5019 neg 0 0\n0\n1");
}

#[test]
fn plans_are_read_as_they_are_written() {
    let plan = ridge(&[(0, 1), (2, 3)]);
    assert_eq!(MapPlan::of_bytes(&plan.encode()), plan);
    let kept: Vec<_> = plan.lines.iter().map(PlannedLine::kept).collect();
    let map = DepotMap::decode(&plan.encode()).unwrap();
    assert_eq!(
        (map.nodes, map.lines, map.bans),
        (plan.nodes, kept, plan.bans)
    );
}

/// A step never gives refusal 5.
#[test]
fn a_step_out_of_range() {
    for (east, north) in pairs() {
        for place in [east, north] {
            let other = east + north - place;
            for step in [0, 1, 249, NO_STEP, 251, GREATEST] {
                let map = Numbers::ridge().with(place, step).with(other, 1);
                assert_eq!(map.refusal(), None, "{place} {step}");
            }
            for step in [GREATEST + 1, 511, 512, 16_384, u32::MAX] {
                let map = Numbers::ridge().with(place, step);
                assert_eq!(map.refusal(), Some(Refusal::Step), "{place} {step}");
            }
        }
    }
    assert_eq!(Refusal::Step.number(), 24);
    assert_eq!(Refusal::Step.to_string(), "refused 24");
}

#[test]
fn both_steps_zero() {
    for (east, north) in pairs() {
        let map = Numbers::ridge().with(east, NO_STEP).with(north, NO_STEP);
        assert_eq!(map.refusal(), Some(Refusal::Step), "{east}");
        // The north step is the faulty one: nothing behind it is needed, and before it there is no fault.
        assert_eq!(map.refusal_before(north + 1), Some(Refusal::Step));
        assert_eq!(map.refusal_before(north), Some(Refusal::MapBytes));
        for (place, beside) in [(east, 249), (east, 251), (north, 249), (north, 251)] {
            let both = Numbers::ridge().with(east, NO_STEP).with(north, NO_STEP);
            assert_eq!(both.with(place, beside).refusal(), None, "{place}");
        }
    }
}

/// A number's own form comes before what it stands for.
#[test]
fn steps_in_no_right_form() {
    for (east, north) in pairs() {
        for place in [east, north] {
            for form in BAD_FORMS {
                let map = Numbers::ridge().with(east, NO_STEP).with_form(place, form);
                assert_eq!(map.refusal(), Some(Refusal::MapBytes), "{place} {form:?}");
            }
            assert_eq!(
                Numbers::ridge().refusal_before(place),
                Some(Refusal::MapBytes)
            );
        }
    }
}

/// It decides whatever the north step is, or if there is none.
#[test]
fn an_east_step_out_of_range_before_its_north_step() {
    for (east, north) in pairs() {
        let map = || Numbers::ridge().with(east, GREATEST + 1);
        assert_eq!(map().refusal_before(north), Some(Refusal::Step));
        for form in BAD_FORMS {
            let map = map().with_form(north, form);
            assert_eq!(map.refusal(), Some(Refusal::Step), "{form:?}");
        }
        for step in [0, NO_STEP, GREATEST, GREATEST + 1, u32::MAX] {
            assert_eq!(map().with(north, step).refusal(), Some(Refusal::Step));
        }
    }
}

/// A map in which the steps out of line 1 are both 0.
fn without_direction(plan: &MapPlan) -> Numbers {
    let east = place(1, EASTS[0]);
    Numbers::of(plan)
        .with(east, NO_STEP)
        .with(east + 1, NO_STEP)
}

#[test]
fn the_first_faulty_number_decides() {
    let faulty = || without_direction(&ridge(&[]));
    let longitude_of_last_node = 1 + 2 * 3;
    let count_of_lines = 1 + 2 * 4;
    let count_of_bans = place(4, 0);
    for (place, number, refusal) in [
        (0, 513, Refusal::Count),
        (longitude_of_last_node, 35_999_999, Refusal::Coordinate),
        (count_of_lines, 1025, Refusal::Count),
        (place(0, FOW), 8, Refusal::LineField),
        (place(1, FOW), 8, Refusal::LineField),
        // These stand behind the faulty step.
        (place(1, EASTS[1]), GREATEST + 1, Refusal::Step),
        (place(2, START), 4, Refusal::Step),
        (place(2, FOW), 8, Refusal::Step),
        (count_of_bans, 513, Refusal::Step),
    ] {
        assert_eq!(
            faulty().with(place, number).refusal(),
            Some(refusal),
            "{place} {number}"
        );
    }
    for (place, refusal) in [
        (place(0, FOW), Refusal::MapBytes),
        (place(1, FOW), Refusal::MapBytes),
        (place(1, EASTS[1]), Refusal::Step),
        (count_of_bans, Refusal::Step),
    ] {
        let map = faulty().with_form(place, &[0x80, 0]);
        assert_eq!(map.refusal(), Some(refusal), "{place}");
    }
}

/// Left-over bytes, equal codes and bans of no turn come after it.
#[test]
fn faults_of_the_whole_map_come_later() {
    let mut plan = ridge(&[(0, 4)]);
    plan.nodes[3] = plan.nodes[2];
    let left_over = |mut map: Numbers| {
        map.0.push(vec![0]);
        map.refusal()
    };
    assert_eq!(left_over(without_direction(&plan)), Some(Refusal::Step));
    assert_eq!(left_over(Numbers::of(&plan)), Some(Refusal::MapBytes));
    assert_eq!(without_direction(&plan).refusal(), Some(Refusal::Step));
    assert_eq!(Numbers::of(&plan).refusal(), Some(Refusal::SameCodes));
    plan.nodes = ridge(&[]).nodes;
    assert_eq!(without_direction(&plan).refusal(), Some(Refusal::Step));
    assert_eq!(Numbers::of(&plan).refusal(), Some(Refusal::NoSuchTurn));
}

#[test]
fn both_functions_refuse_the_map() {
    let map = without_direction(&ridge(&[])).0.concat();
    for (work_length, refusal) in [
        (WORK_AREA - 1, Refusal::WorkArea),
        (WORK_AREA, Refusal::Step),
    ] {
        assert_eq!(write(&map, &[], 0, 0, 0, work_length, 0), Err(refusal));
        assert_eq!(read(&map, &[], work_length, 0), Err(refusal));
    }
}

/// Two lines beside each other, which differ in their steps out alone.
fn read_with_steps(first: (i32, i32), second: (i32, i32)) -> Outcome<Vec<u32>> {
    let mut plan = ridge(&[]);
    plan.lines.truncate(2);
    plan.lines[1] = plan.lines[0];
    for (line, (east, north)) in plan.lines.iter_mut().zip([first, second]) {
        line.out = Steps { east, north };
    }
    let reference = bytes("0B0000000000001B680103E800001B18").unwrap();
    read(&plan.encode(), &reference, WORK_AREA, 64).map(|reading| reading.lines)
}

/// Sector 8 goes from (1, 0) to just before (250, -50).
#[test]
fn lines_are_told_apart_by_their_sectors_alone() {
    let several = Err(Refusal::LegWithSeveralReadings(0));
    for (first, second, expected) in [
        ((1, 0), (250, 0), several.clone()),
        ((1, 0), (250, -1), several.clone()),
        ((200, 0), (250, -49), several),
        ((200, 0), (250, 1), Ok(vec![0])),
        ((250, 1), (200, 0), Ok(vec![1])),
        ((200, 0), (250, -50), Ok(vec![0])),
        ((250, -50), (250, 1), Err(Refusal::LegWithoutReading(0))),
    ] {
        assert_eq!(
            read_with_steps(first, second),
            expected,
            "{first:?} {second:?}"
        );
    }
}

/// Every number of it as long as it can be.
#[test]
fn the_longest_map() {
    let node = |number: i32| Node {
        longitude: 17_000_000 - 50 * number,
        latitude: 8_000_000,
    };
    let steps = Steps {
        east: 250,
        north: -122,
    };
    let line = |number: u32| PlannedLine {
        start: 128 + number % 2,
        end: 129 - number % 2,
        length: LONGEST_LINE,
        frc: 7,
        fow: 7,
        out: steps,
        back: steps,
    };
    let ban = |number: u32| Ban {
        line: 128 + number % 2,
        next: 129 - number % 2,
    };
    let plan = MapPlan {
        nodes: (0..512).map(node).collect(),
        lines: (0..1024).map(line).collect(),
        bans: (0..512).map(ban).collect(),
    };
    let map = plan.encode();
    assert_eq!(map.len(), 23_558);
    assert_eq!(refusal_of(&map), None);
}
