//! The rows of points: writings on any line and on lines that are not alone, and readings along one line
//! and along several.

use plain::fields::LONGEST_POINT;
use plain::maps::{reference_with_legs, Xorshift};
use plain::outcome::{Outcome, WORK_AREA};
use plain::point::{is_alone, point_bytes, read_point, write_point, write_point_on_map, Point};
use plain::writer::Stretch;

use crate::{
    check_proved_reading, check_proved_writing, proved, reading_row, writing_row, Sample, INPUTS,
};

/// Of the points along several lines.
const LEG_LENGTH: u32 = 120_000;

pub fn print_rows(sample: &Sample) {
    let accepted = accepted_points(sample);
    for references in reading_references(sample) {
        reading_row_of(sample, references);
    }
    writing_row_of(sample, "", accepted);
    let not_alone = points(sample, |point| !is_alone(&sample.map, point.line));
    writing_row_of(sample, ", others alike", not_alone);
}

fn accepted_points(sample: &Sample) -> Vec<Point> {
    points(sample, |point| written(sample, point).is_ok())
}

/// Of points along one line and of points along several.
pub fn reading_references(sample: &Sample) -> [Vec<Reference>; 2] {
    let along_one_line = references(sample, &accepted_points(sample));
    [along_one_line, along_several_lines(sample)]
}

/// Some of the map's lines, at any offset.
fn points(sample: &Sample, wanted: impl Fn(&Point) -> bool) -> Vec<Point> {
    let mut rng = Xorshift::new(8);
    let any_point = |_| {
        let line = rng.below(sample.map.lines.len() as u32);
        Point {
            line,
            offset: rng.below(sample.map.line(line).length),
            orientation: rng.below(4),
            side: rng.below(4),
        }
    };
    let points = (0..10_000).map(any_point);
    points.filter(wanted).take(INPUTS).collect()
}

fn written(sample: &Sample, point: &Point) -> Outcome<Vec<u8>> {
    write_point_on_map(&sample.map, *point, LONGEST_POINT)
}

/// A reference, and the lines that it stands for.
pub type Reference = (Vec<u8>, Vec<u32>);

fn references(sample: &Sample, accepted: &[Point]) -> Vec<Reference> {
    let reference = |point: &Point| Some((written(sample, point).ok()?, vec![point.line]));
    accepted.iter().filter_map(reference).collect()
}

fn along_several_lines(sample: &Sample) -> Vec<Reference> {
    let mut rng = Xorshift::new(7);
    let mut next = || {
        let (_, lines) = reference_with_legs(&mut rng, &sample.map, 1, LEG_LENGTH)?;
        let stretch = Stretch {
            lines: &lines,
            positive: rng.below(LEG_LENGTH / 2),
            negative: 0,
        };
        let reference = point_bytes(&sample.map, &stretch, rng.below(4), rng.below(4));
        Some((reference, lines))
    };
    (0..INPUTS).map_while(|_| next()).collect()
}

fn reading_row_of(sample: &Sample, references: Vec<Reference>) {
    if references.is_empty() {
        return;
    }
    for (reference, lines) in &references {
        check_proved_reading(sample, reference, lines, proved::read_point);
    }
    let lines: usize = references.iter().map(|(_, lines)| lines.len()).sum();
    let lines = lines / references.len();
    let references = references.into_iter().map(|(bytes, _)| bytes).collect();
    let what = format!("read point, {}, lines {lines}", sample.name);
    reading_row(what, sample, references, proved::read_point, read_point).print();
}

fn writing_row_of(sample: &Sample, kind: &str, points: Vec<Point>) {
    if points.is_empty() {
        return;
    }
    for point in &points {
        check_proved_writing(sample, point, &written(sample, point), proved::write_point);
    }
    let refused = points
        .iter()
        .filter(|point| written(sample, point).is_err());
    let what = match refused.count() {
        0 => format!("write point, {}{kind}", sample.name),
        count => format!(
            "write point, {}{kind}, {count} of {} refused",
            sample.name,
            points.len()
        ),
    };
    let write = |map: &[u8], point: &Point| write_point(map, *point, WORK_AREA, LONGEST_POINT);
    writing_row(what, sample, points, proved::write_point, write).print();
}
