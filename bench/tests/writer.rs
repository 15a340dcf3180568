//! The writer against testing every leg by itself, on small maps with bans, with every number of leg
//! tests.

mod forward;
mod ridge;

use std::cmp::Reverse;

use plain::depot_map::{Ban, DepotMap};
use plain::fields::{distance_byte, DISTANCE_STEP, LONGEST_LEG};
use plain::hexadecimal::digits;
use plain::legs::{Leg, LegEnd, Verdict};
use plain::maps::{random_walk, small_map, MapPlan, Turns, Xorshift};
use plain::outcome::{Outcome, Refusal, Written};
use plain::writer::{reference_bytes, write_on_map, Stretch, ALL_TESTS};

use ridge::{refusal_of, ridge};

fn leg_of(map: &DepotMap, lines: &[u32], is_last: bool) -> Option<Leg> {
    let (first, last) = (map.line(lines[0]), map.line(lines[lines.len() - 1]));
    let each = || lines.iter().map(|&line| map.line(line));
    let length: u32 = each().map(|line| line.length).sum();
    let (from, to) = (map.node(first.start), map.node(last.end));
    for difference in from.differences_to(to) {
        i16::try_from(difference).ok()?;
    }
    (length <= LONGEST_LEG).then(|| Leg {
        start: first.start,
        first_marks: first.leaving_marks(),
        lowest_class: each().map(|line| line.frc).max().unwrap_or(0),
        distance: distance_byte(length),
        end: LegEnd {
            node: last.end,
            last_marks: is_last.then(|| last.arriving_marks()),
        },
    })
}

fn is_good(map: &DepotMap, lines: &[u32], is_last: bool) -> bool {
    let Some(leg) = leg_of(map, lines, is_last) else {
        return false;
    };
    forward::verdict(map, &leg) == (Verdict::One, lines.to_vec())
}

/// A leg with its ends, in the order of the tests, and whether it tests good.
struct TestedLeg {
    from: usize,
    to: usize,
    is_good: bool,
}

fn all_legs(map: &DepotMap, lines: &[u32]) -> Vec<TestedLeg> {
    let count = lines.len();
    let ends = (0..count).flat_map(|from| (from + 1..=count).map(move |to| (from, to)));
    let leg = |(from, to)| TestedLeg {
        from,
        to,
        is_good: is_good(map, &lines[from..to], to == count),
    };
    ends.map(leg).collect()
}

fn made(legs: &[TestedLeg], tests: u32) -> usize {
    legs.len().min(tests as usize)
}

/// Counts its points, and then prefers those with most lines first.
fn rank(places: &[usize]) -> (usize, Reverse<Vec<usize>>) {
    (places.len(), Reverse(places.to_vec()))
}

/// The best places of points over these legs.
fn best_places<'a>(count: usize, legs: impl Iterator<Item = &'a TestedLeg>) -> Option<Vec<usize>> {
    let mut legs: Vec<&TestedLeg> = legs.collect();
    legs.sort_by_key(|leg| Reverse(leg.from));
    let mut best: Vec<Option<Vec<usize>>> = vec![None; count];
    best.push(Some(vec![count]));
    for leg in legs {
        let Some(rest) = &best[leg.to] else {
            continue;
        };
        let places = [&[leg.from], rest.as_slice()].concat();
        let known = &mut best[leg.from];
        if known
            .as_ref()
            .is_none_or(|known| rank(&places) < rank(known))
        {
            *known = Some(places);
        }
    }
    best.swap_remove(0)
}

/// What the writer answers by the places found, and by the points when untested legs count as good.
fn answer(
    map: &DepotMap,
    lines: &[u32],
    tests: usize,
    found: Option<&[usize]>,
    fewest: Option<usize>,
) -> Outcome<Written> {
    let fewest = fewest.ok_or(Refusal::NoUsablePoints)?;
    let places = found.ok_or(Refusal::TooFewTests)?;
    let stretch = Stretch {
        lines,
        positive: 0,
        negative: 0,
    };
    Ok(Written {
        reference: reference_bytes(map, &stretch, places),
        tests: tests as u32,
        excess: (places.len() - fewest) as u32,
    })
}

fn expected(map: &DepotMap, lines: &[u32], legs: &[TestedLeg], tests: u32) -> Outcome<Written> {
    let count = lines.len();
    let (tested, untested) = legs.split_at(made(legs, tests));
    let good = || tested.iter().filter(|leg| leg.is_good);
    let found = best_places(count, good());
    let at_best = best_places(count, good().chain(untested));
    let fewest = at_best.map(|places| places.len());
    answer(map, lines, tested.len(), found.as_deref(), fewest)
}

/// A choice of points: its places, how many tests it takes until all of its legs are tested, and how many
/// leave every leg that is not good untested.
struct ChoiceOfPoints {
    places: Vec<usize>,
    is_usable: bool,
    enough_tests: usize,
    tests_before_bad: usize,
}

fn choice_of(legs: &[TestedLeg], places: Vec<usize>) -> ChoiceOfPoints {
    let is_in = |leg: &TestedLeg| places.windows(2).any(|ends| ends == [leg.from, leg.to]);
    let own: Vec<(usize, bool)> = legs
        .iter()
        .enumerate()
        .filter(|(_, leg)| is_in(leg))
        .map(|(number, leg)| (number, leg.is_good))
        .collect();
    let bad = own.iter().find(|(_, is_good)| !is_good);
    ChoiceOfPoints {
        is_usable: bad.is_none(),
        enough_tests: own.last().map_or(0, |(number, _)| number + 1),
        tests_before_bad: bad.map_or(usize::MAX, |&(number, _)| number),
        places,
    }
}

/// The best first.
fn all_choices(count: usize, legs: &[TestedLeg]) -> Vec<ChoiceOfPoints> {
    let choices = (0..1_usize << (count - 1)).map(|inner| {
        let inner = (1..count).filter(|place| inner >> (place - 1) & 1 != 0);
        let places: Vec<usize> = std::iter::once(0).chain(inner).chain([count]).collect();
        choice_of(legs, places)
    });
    let mut choices: Vec<ChoiceOfPoints> = choices.collect();
    choices.sort_by_cached_key(|choice| rank(&choice.places));
    choices
}

/// The same by going through all choices.
fn expected_of_choices(
    map: &DepotMap,
    lines: &[u32],
    choices: &[ChoiceOfPoints],
    tests: usize,
) -> Outcome<Written> {
    let found = choices
        .iter()
        .find(|choice| choice.is_usable && choice.enough_tests <= tests);
    let at_best = choices
        .iter()
        .find(|choice| choice.tests_before_bad >= tests);
    let found = found.map(|choice| choice.places.as_slice());
    let fewest = at_best.map(|choice| choice.places.len());
    answer(map, lines, tests, found, fewest)
}

fn some_turns(plan: &MapPlan, rng: &mut Xorshift) -> Vec<Ban> {
    let mut bans = plan.turns();
    rng.shuffle(&mut bans);
    bans.truncate(rng.below(1 + bans.len().min(256) as u32 / 2) as usize);
    bans
}

/// A small map with bans, and a walk of so many lines at most, if there is one.
fn map_and_walk(seed: u64, most: u32) -> Option<(DepotMap, Vec<u32>)> {
    let rng = &mut Xorshift::new(seed);
    let mut plan = small_map(seed);
    plan.bans = some_turns(&plan, rng);
    let map = DepotMap::decode(&plan.encode()).unwrap();
    let count = rng.within(1, most) as usize;
    let walk = random_walk(rng, &map, count, Turns::Allowed)?;
    Some((map, walk))
}

#[test]
fn the_writer_takes_the_best_of_all_choices() {
    let mut accepted = 0;
    let mut with_inner_points = 0;
    for seed in 0..3000 {
        let most = if seed % 16 == 0 { 64 } else { 10 };
        let Some((map, lines)) = map_and_walk(seed, most) else {
            continue;
        };
        let legs = all_legs(&map, &lines);
        let written = write_on_map(&map, &lines, 0, 0, ALL_TESTS, 459);
        let wanted = expected(&map, &lines, &legs, ALL_TESTS);
        assert_eq!(written, wanted, "seed {seed}");
        if let Ok(written) = written {
            accepted += 1;
            with_inner_points += u32::from(written.reference.len() > 16);
        }
    }
    assert!(
        accepted > 500 && with_inner_points > 100,
        "{accepted} {with_inner_points}"
    );
}

/// How often things happened that only fewer tests than all make happen.
#[derive(Debug, Default)]
struct Counts {
    too_few: u32,
    refused_anyway: u32,
    with_excess: u32,
    with_more_points: u32,
    with_other_places: u32,
}

impl Counts {
    fn count(&mut self, written: &Outcome<Written>, with_all: &Outcome<Written>) {
        match (written, with_all) {
            (Err(Refusal::TooFewTests), _) => self.too_few += 1,
            (Err(_), _) => self.refused_anyway += 1,
            (Ok(written), Ok(all)) => {
                let (bytes, fewest) = (&written.reference, &all.reference);
                self.with_excess += u32::from(written.excess > 0);
                self.with_more_points += u32::from(bytes.len() > fewest.len());
                self.with_other_places += u32::from(bytes.len() == fewest.len() && bytes != fewest);
            }
            (Ok(_), Err(_)) => panic!("refused with more tests"),
        }
    }
}

/// With more tests there are no more points and no greater excess.
fn check_order(fewer: &Outcome<Written>, more: &Outcome<Written>) {
    match (fewer, more) {
        (Ok(fewer), Ok(more)) => {
            assert!(more.reference.len() <= fewer.reference.len());
            assert!(more.excess <= fewer.excess);
        }
        (Ok(_), Err(refusal)) => panic!("{refusal} with more tests"),
        (Err(Refusal::NoUsablePoints), more) => assert_eq!(fewer, more),
        (Err(_), _) => {}
    }
}

#[test]
fn every_number_of_tests_takes_the_best_of_all_choices() {
    let mut counts = Counts::default();
    for seed in 0..6000 {
        let Some((map, lines)) = map_and_walk(seed, 9) else {
            continue;
        };
        let legs = all_legs(&map, &lines);
        let choices = all_choices(lines.len(), &legs);
        let with_all = write_on_map(&map, &lines, 0, 0, ALL_TESTS, 459);
        let mut before = Err(Refusal::TooFewTests);
        for tests in 0..=legs.len() {
            let written = write_on_map(&map, &lines, 0, 0, tests as u32, 459);
            let wanted = expected_of_choices(&map, &lines, &choices, tests);
            assert_eq!(written, wanted, "seed {seed} tests {tests}");
            assert_eq!(written, expected(&map, &lines, &legs, tests as u32));
            check_order(&before, &written);
            if tests < legs.len() {
                counts.count(&written, &with_all);
            }
            before = written;
        }
        assert_eq!(before, with_all);
    }
    let Counts {
        too_few,
        refused_anyway,
        with_excess,
        with_more_points,
        with_other_places,
    } = counts;
    let rare = [with_excess, with_more_points, with_other_places];
    assert!(
        too_few > 5000 && refused_anyway > 1000 && rare.iter().all(|&count| count > 20),
        "{counts:?}"
    );
}

#[test]
fn some_numbers_of_tests_on_long_stretches() {
    let mut counts = Counts::default();
    for seed in 0..400 {
        let Some((map, lines)) = map_and_walk(seed, 64) else {
            continue;
        };
        let legs = all_legs(&map, &lines);
        let with_all = write_on_map(&map, &lines, 0, 0, ALL_TESTS, 459);
        let rng = &mut Xorshift::new(seed);
        for _ in 0..20 {
            let tests = rng.below(legs.len() as u32);
            let written = write_on_map(&map, &lines, 0, 0, tests, 459);
            let wanted = expected(&map, &lines, &legs, tests);
            assert_eq!(written, wanted, "seed {seed} tests {tests}");
            counts.count(&written, &with_all);
        }
    }
    assert!(counts.too_few > 1000, "{counts:?}");
}

/// Legs 0, 0 1 and 1 are tested in this order. That of two lines is no reading of its own, since line 1 and
/// lines 2, 3 are equally long.
#[test]
fn every_number_of_tests_on_the_ridge() {
    let map = DepotMap::decode(&ridge(&[]).encode()).unwrap();
    let three_points = "0B0000000000001B680103E800001B680103E800001B18";
    let write = |stretch: &[u32], tests| {
        let written = write_on_map(&map, stretch, 0, 0, tests, 459)?;
        Ok((digits(&written.reference), written.tests, written.excess))
    };
    for tests in 0..3 {
        assert_eq!(write(&[0, 1], tests), Err(Refusal::TooFewTests));
    }
    for tests in [3, 4, 2080, ALL_TESTS] {
        assert_eq!(write(&[0, 1], tests), Ok((three_points.to_string(), 3, 0)));
    }
    let line_1 = "0B0001D20000001B680103E800001B18";
    assert_eq!(write(&[1], 0), Err(Refusal::TooFewTests));
    for tests in [1, 2, ALL_TESTS] {
        assert_eq!(write(&[1], tests), Ok((line_1.to_string(), 1, 0)));
    }
    for tests in [0, ALL_TESTS] {
        assert_eq!(write(&[], tests), Err(Refusal::NoSuchLines));
        assert_eq!(write(&[1, 0], tests), Err(Refusal::LinesNotJoined));
    }
}

/// Line 2 runs beside line 0 and leaves with its marks. So to its own end it is a reading, as long by D as
/// lines 0, 1 and 2.
#[test]
fn a_last_line_that_is_a_first_line_too() {
    let mut plan = ridge(&[]);
    let lines = [(0, 1, 1), (1, 0, 1), (0, 1, DISTANCE_STEP + 1)];
    for (line, (start, end, length)) in lines.into_iter().enumerate() {
        plan.lines[line].start = start;
        plan.lines[line].end = end;
        plan.lines[line].length = length;
    }
    plan.lines[2].out = plan.lines[0].out;
    assert_eq!(refusal_of(&plan.encode()), None);
    let map = DepotMap::decode(&plan.encode()).unwrap();
    let lines = [0, 1, 2];
    let legs = all_legs(&map, &lines);
    assert!(!legs[2].is_good, "0 to 3");
    for tests in 0..=6 {
        let written = write_on_map(&map, &lines, 0, 0, tests, 459);
        assert_eq!(written, expected(&map, &lines, &legs, tests));
    }
}

/// The tests of lines that remain alone count, and the reference found with these tests is measured.
#[test]
fn tests_of_what_remains_and_room_for_what_is_found() {
    let map = DepotMap::decode(&ridge(&[]).encode()).unwrap();
    let write = |pos, neg, tests, room| write_on_map(&map, &[0, 1], pos, neg, tests, room);
    for (pos, neg) in [(10_000, 0), (0, 10_000)] {
        assert_eq!(write(pos, neg, 0, 459), Err(Refusal::TooFewTests));
        let written = write(pos, neg, 9, 16).unwrap();
        assert_eq!((written.tests, written.excess), (1, 0));
        assert_eq!(write(pos, neg, 1, 15), Err(Refusal::ByteRoom));
        assert_eq!(write(pos, neg, 0, 15), Err(Refusal::TooFewTests));
    }
    let all_skipped = write(10_000, 10_000, 0, 459);
    assert_eq!(all_skipped, Err(Refusal::OffsetsReachTotal));
    assert_eq!(write(0, 0, 3, 22), Err(Refusal::ByteRoom));
    assert_eq!(write(0, 0, 2, 22), Err(Refusal::TooFewTests));
}
