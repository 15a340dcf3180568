//! The sectors of steps: the papers' cases, and all steps that there are.

use std::f64::consts::TAU;

use plain::fields::Steps;
use plain::maps::{random_graph, steps_at};

fn sector(east: i32, north: i32) -> u8 {
    Steps { east, north }.sector()
}

/// Every pair but (0, 0).
fn all_steps() -> impl Iterator<Item = (i32, i32)> {
    let pairs = (-250..=250).flat_map(|east| (-250..=250).map(move |north| (east, north)));
    pairs.filter(|&pair| pair != (0, 0))
}

#[test]
fn the_papers_cases() {
    assert_eq!(sector(0, 5), 0);
    assert_eq!(sector(5, 5), 4);
    assert_eq!(sector(-5, 0), 24);
}

/// At the multiples of 45 degrees, the only edges that are met exactly.
fn sector_on_edge(east: i32, north: i32) -> Option<u8> {
    match (east.signum(), north.signum()) {
        (0, 1) => Some(0),
        (1, 0) => Some(8),
        (0, -1) => Some(16),
        (-1, 0) => Some(24),
        _ if east.abs() != north.abs() => None,
        (1, 1) => Some(4),
        (1, -1) => Some(12),
        (-1, -1) => Some(20),
        _ => Some(28),
    }
}

/// Off those edges a pair that is squared twice has parts that are not 0 and not of one size, and is at
/// most 15,625,000,000 long: so it is 5e-11 sectors from an edge at least, and angles are right to 1e-13.
fn sector_by_angle(east: i32, north: i32) -> u8 {
    let angle = f64::from(east).atan2(f64::from(north)).rem_euclid(TAU);
    (angle / TAU * 32.0) as u8
}

#[test]
fn all_steps_have_the_sectors_of_their_angles() {
    let mut counts = [0; 32];
    for (east, north) in all_steps() {
        let on_edge = sector_on_edge(east, north);
        let expected = on_edge.unwrap_or_else(|| sector_by_angle(east, north));
        assert_eq!(sector(east, north), expected, "({east}, {north})");
        counts[usize::from(expected)] += 1;
    }
    assert_eq!(counts.iter().sum::<u32>(), 251_000);
    assert!(counts.iter().all(|&count| count > 6_000), "{counts:?}");
}

#[test]
fn a_quarter_turn_is_eight_sectors() {
    for (east, north) in all_steps() {
        let turned = sector(north, -east);
        assert_eq!(turned, (sector(east, north) + 8) % 32, "({east}, {north})");
    }
}

/// An edge belongs to the sector that starts there, so that it has no mirror image.
#[test]
fn a_mirrored_direction_has_the_mirrored_sector() {
    for (east, north) in all_steps() {
        let mirrored = 31 - sector(-east, north);
        let expected = match sector_on_edge(east, north) {
            Some(sector) => (sector + 31) % 32,
            None => sector(east, north),
        };
        assert_eq!(mirrored, expected, "({east}, {north})");
    }
}

#[test]
fn longer_steps_in_one_direction_have_one_sector() {
    for (east, north) in all_steps() {
        for times in 2..=250 / east.abs().max(north.abs()) {
            let longer = sector(times * east, times * north);
            assert_eq!(longer, sector(east, north), "({east}, {north}) {times}");
        }
    }
}

/// Steps made from whole degrees have the sectors that the degrees have.
#[test]
fn steps_at_whole_degrees() {
    for bearing in 0..360 {
        let Steps { east, north } = steps_at(bearing);
        assert_eq!(
            u16::from(sector(east, north)),
            bearing * 4 / 45,
            "{bearing}"
        );
    }
    for (bearing, east, north) in [
        (90, 200, 0),
        (270, -200, 0),
        (135, 141, -141),
        (272, -200, 7),
    ] {
        assert_eq!(steps_at(bearing), Steps { east, north });
    }
}

/// As the benchmark decodes them.
#[test]
fn random_steps_are_of_all_sectors_and_no_two_alike() {
    let plan = random_graph(3).with_random_steps(9);
    let mut steps: Vec<Steps> = plan
        .lines
        .iter()
        .flat_map(|line| [line.out, line.back])
        .collect();
    let has_sector = |sector: u8| steps.iter().any(|steps| steps.sector() == sector);
    assert!((0..32).all(has_sector));
    steps.sort_unstable_by_key(|steps| (steps.east, steps.north));
    steps.dedup();
    assert_eq!(steps.len(), 2 * plan.lines.len());
}
