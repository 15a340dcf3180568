//! The rows of numbers of leg tests: writings of long stretches with one test, with those of one place,
//! with a tenth of all and with more. Many are refused, as too few tests are made.

use crate::{accepted_stretches, stretch_row, with_tests, Sample};

const LINES: usize = 64;
const ALL: u32 = 2_080;
const TENTH: u32 = ALL / 10;
const NUMBERS: [u32; 5] = [1, 64, TENTH, 500, ALL];

/// What a tenth of the tests takes of the time that all take, both less what no tests take: that is
/// reading the map and the checks.
pub struct Tenth {
    name: &'static str,
    proved: f64,
    plain: f64,
}

impl Tenth {
    pub fn print(&self) {
        let Tenth {
            name,
            proved,
            plain,
        } = self;
        println!("a tenth of the tests, {name}: proved {proved:.2}, plain {plain:.2} of the time for all");
    }
}

/// Of the map's stretches, if there are any of so many lines.
pub fn print_rows(sample: &Sample) -> Option<Tenth> {
    let stretches = accepted_stretches(sample, LINES);
    if stretches.is_empty() {
        return None;
    }
    let row = |tests: u32| {
        let what = format!("write, {}, lines {LINES}, tests {tests}", sample.name);
        stretch_row(what, sample, with_tests(&stretches, tests))
    };
    let none = row(0).times();
    let (mut tenth, mut all) = (none, none);
    for tests in NUMBERS {
        let times = row(tests).print_times();
        match tests {
            TENTH => tenth = times,
            ALL => all = times,
            _ => {}
        }
    }
    let part = |of: usize| (tenth[of] - none[of]) / (all[of] - none[of]);
    Some(Tenth {
        name: sample.name,
        proved: part(0),
        plain: part(1),
    })
}
