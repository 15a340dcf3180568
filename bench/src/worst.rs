//! The rows of the worst calls: a search, a reading of 64 legs and a writing of 64 lines, and a reading and
//! a writing of a point, on each map made against the reader and the writer.

use std::hint::black_box;
use std::time::{Duration, Instant};

use plain::depot_map::{DepotMap, Direction};
use plain::fields::{LONGEST_LEG, LONGEST_POINT};
use plain::outcome::{Outcome, WORK_AREA};
use plain::point::{point_bytes, read_point, write_point, Point};
use plain::reader::read;
use plain::search::{Bounds, Method, Search};
use plain::worst_maps::{worst_cases, WorstCase};
use plain::writer::{reference_bytes, Stretch, ALL_TESTS};

use crate::proved::{self, TestedStretch};
use crate::{
    check_written, plain_write, time_in_turn, ProvedRead, ProvedWrite, BYTE_ROOM, LINE_ROOM,
    SEARCHES,
};

/// A call that takes longer is timed once.
const SLOW_CALL: Duration = Duration::from_millis(200);

/// Of a call that would take much longer only some of the 64 legs or lines are timed. What all take is
/// then guessed from these, too low where a longer stretch has legs of more classes.
const LONGEST_CALL: Duration = Duration::from_secs(60);

/// A worst case with its map.
struct Sample {
    case: WorstCase,
    bytes: Vec<u8>,
    map: DepotMap,
}

/// Prints the rows of the maps with this text in their names, and then the longest calls of ours.
pub fn print_rows(text: &str) {
    let [mut reading, mut writing, mut point_reading, mut point_writing] =
        [(); 4].map(|()| Longest::default());
    let wanted = |case: &WorstCase| case.name.contains(text);
    for case in worst_cases().into_iter().filter(wanted) {
        let bytes = case.plan.encode();
        let map = DepotMap::decode(&bytes).expect("a maker makes maps");
        let sample = Sample { case, bytes, map };
        print_search_row(&sample);
        reading.take(print_reading_row(&sample));
        writing.take(print_writing_row(&sample));
        point_reading.take(print_point_reading_row(&sample));
        point_writing.take(print_point_writing_row(&sample));
    }
    println!("longest reading of ours: {}", reading.text());
    println!("longest writing of ours: {}", writing.text());
    println!("longest reading of a point: {}", point_reading.text());
    println!("longest writing of a point: {}", point_writing.text());
}

/// A row, what it says of ours in microseconds, and how many times its legs or lines there are.
struct Printed {
    what: String,
    ours: f64,
    parts: f64,
}

#[derive(Default)]
struct Longest(Option<Printed>);

impl Longest {
    fn take(&mut self, printed: Printed) {
        let whole = |row: &Printed| row.ours * row.parts;
        if self
            .0
            .as_ref()
            .is_none_or(|row| whole(&printed) > whole(row))
        {
            self.0 = Some(printed);
        }
    }

    fn text(&self) -> String {
        let Some(Printed { what, ours, parts }) = &self.0 else {
            return "none".to_string();
        };
        let milliseconds = ours * parts / 1e3;
        if *parts == 1.0 {
            format!("{milliseconds:.2} ms ({what})")
        } else {
            format!("about {milliseconds:.0} ms or more, {parts:.1} times that of ({what})")
        }
    }
}

fn print_row(what: &str, [ours, plain]: [f64; 2]) {
    println!("{what} | {ours:.2} | {plain:.2} | {:.2}", ours / plain);
}

fn time_once(call: &mut dyn FnMut()) -> Duration {
    let start = Instant::now();
    call();
    start.elapsed()
}

/// The time of one call of each function in microseconds, after its first call: that counts alone
/// where it is slow.
fn times_after(first: [Duration; 2], ours: &mut dyn FnMut(), plain: &mut dyn FnMut()) -> [f64; 2] {
    let once = first.map(|time| time.as_secs_f64() * 1e6);
    let slow = first.map(|time| time > SLOW_CALL);
    match slow {
        [true, true] => once,
        [true, false] => [once[0], time_in_turn([&mut |_| plain()], 1)[0]],
        [false, true] => [time_in_turn([&mut |_| ours()], 1)[0], once[1]],
        [false, false] => time_in_turn([&mut |_| ours(), &mut |_| plain()], 1),
    }
}

/// Both search back from a line. The proved function decodes the map before its search. That is timed by itself and taken off.
fn print_search_row(sample: &Sample) {
    let bounds = Bounds {
        first: sample.case.first,
        class: 7,
        limit: LONGEST_LEG,
    };
    let mut search = Search::new(&sample.map, Method::NodeAndLineHeap);
    let mut plain = || {
        search.run_for(&sample.map, Direction::Back, black_box(bounds), 1);
        black_box(&search);
    };
    let mut work_area = vec![0; WORK_AREA];
    let mut run = |times: u32| {
        let (first, limit) = black_box((bounds.first, bounds.limit));
        proved::search(
            &sample.bytes,
            &mut work_area,
            first,
            bounds.class,
            limit,
            times,
        );
        black_box(&mut work_area);
    };
    let [none] = time_in_turn([&mut |_| run(0)], 1);
    let quick = time_once(&mut || run(1)) * SEARCHES < SLOW_CALL;
    let searches = if quick { SEARCHES } else { 1 };
    let mut ours = || run(searches);
    let first = [time_once(&mut ours), time_once(&mut plain)];
    let [ours, plain] = times_after(first, &mut ours, &mut plain);
    let what = format!("search, {}", sample.case.name);
    print_row(&what, [(ours - none) / f64::from(searches), plain]);
}

/// Legs or lines that are timed to see how many there is time for: a way there and one back.
const PART: usize = 2;

/// How many of these legs or lines a call has that does not take too long, by the time of a part.
fn count_in_time(all: usize, part: Duration) -> usize {
    let parts = all / PART;
    if part.mul_f64(parts as f64) <= LONGEST_CALL {
        return all;
    }
    let some = LONGEST_CALL.as_secs_f64() / 8.0 / part.as_secs_f64();
    PART * (some as usize).max(1)
}

fn outcome_text<T>(outcome: &Outcome<T>) -> String {
    match outcome {
        Ok(_) => "accepted".to_string(),
        Err(refusal) => refusal.to_string(),
    }
}

/// A call of a proved reader.
struct ProvedReading<'a> {
    sample: &'a Sample,
    reference: &'a [u8],
    read: ProvedRead,
    work_area: Vec<u32>,
    line_buffer: Vec<u32>,
    refusal: u32,
}

impl ProvedReading<'_> {
    fn new<'a>(sample: &'a Sample, reference: &'a [u8], read: ProvedRead) -> ProvedReading<'a> {
        ProvedReading {
            sample,
            reference,
            read,
            work_area: vec![0; WORK_AREA],
            line_buffer: vec![u32::MAX; LINE_ROOM],
            refusal: 0,
        }
    }

    fn run(&mut self) {
        let (map_bytes, reference) = black_box((&self.sample.bytes, self.reference));
        let lines = &mut self.line_buffer;
        self.refusal = (self.read)(map_bytes, reference, &mut self.work_area, lines);
    }

    /// The plain reader answers the same.
    fn check(&self, lines: &Outcome<Vec<u32>>) {
        match lines {
            Ok(lines) => {
                let (found, rest) = self.line_buffer.split_at(lines.len());
                assert_eq!((self.refusal, found), (0, lines.as_slice()));
                assert!(rest.iter().all(|&line| line == u32::MAX));
            }
            Err(refusal) => assert_eq!(self.refusal, refusal.number()),
        }
    }

    /// Times it against the plain reader and prints the row.
    fn print_row(&mut self, what: &str, read: impl Fn() -> Outcome<Vec<u32>>) -> (String, f64) {
        let mut outcome = None;
        let first = [
            time_once(&mut || self.run()),
            time_once(&mut || outcome = Some(read())),
        ];
        let outcome = outcome.expect("it is read");
        self.check(&outcome);
        let lines = outcome.as_ref().map_or(0, Vec::len);
        let what = format!("{what}, lines {lines}, {}", outcome_text(&outcome));
        let times = times_after(first, &mut || self.run(), &mut || drop(read()));
        print_row(&what, times);
        (what, times[0])
    }
}

/// The last legs, as many as there is time for.
fn print_reading_row(sample: &Sample) -> Printed {
    let all = sample.case.legs.len();
    let part = reference_of_last_legs(sample, PART);
    let mut part = ProvedReading::new(sample, &part, proved::read);
    let count = count_in_time(all, time_once(&mut || part.run()));
    let reference = reference_of_last_legs(sample, count);
    let mut ours = ProvedReading::new(sample, &reference, proved::read);
    let what = format!("read, {}, legs {count}", sample.case.name);
    let (what, ours) = ours.print_row(&what, || {
        let reading = black_box(read(&sample.bytes, &reference, WORK_AREA, LINE_ROOM));
        reading.map(|reading| reading.lines)
    });
    Printed {
        what,
        ours,
        parts: all as f64 / count as f64,
    }
}

/// A point along the last leg.
fn print_point_reading_row(sample: &Sample) -> Printed {
    let lines = sample.case.legs.last().expect("there are legs");
    let stretch = Stretch {
        lines,
        positive: 0,
        negative: 0,
    };
    let reference = point_bytes(&sample.map, &stretch, 0, 0);
    let mut ours = ProvedReading::new(sample, &reference, proved::read_point);
    let what = format!("read point, {}", sample.case.name);
    let (what, ours) = ours.print_row(&what, || {
        let reading = black_box(read_point(&sample.bytes, &reference, WORK_AREA, LINE_ROOM));
        reading.map(|reading| reading.lines)
    });
    Printed {
        what,
        ours,
        parts: 1.0,
    }
}

fn reference_of_last_legs(sample: &Sample, count: usize) -> Vec<u8> {
    let legs = &sample.case.legs;
    let legs = &legs[legs.len() - count..];
    let mut places = vec![0];
    for leg in legs {
        places.push(places[places.len() - 1] + leg.len());
    }
    let stretch = Stretch {
        lines: &legs.concat(),
        positive: 0,
        negative: 0,
    };
    reference_bytes(&sample.map, &stretch, &places)
}

/// A call of a proved writer.
struct ProvedWriting<'a, Given> {
    sample: &'a Sample,
    given: &'a Given,
    write: ProvedWrite<Given>,
    work_area: Vec<u32>,
    byte_buffer: Vec<u8>,
    answer: usize,
}

impl<'a, Given> ProvedWriting<'a, Given> {
    fn new(sample: &'a Sample, given: &'a Given, write: ProvedWrite<Given>) -> Self {
        ProvedWriting {
            sample,
            given,
            write,
            work_area: vec![0; WORK_AREA],
            byte_buffer: vec![0; BYTE_ROOM],
            answer: 0,
        }
    }

    fn run(&mut self) {
        let (map_bytes, given) = black_box((&self.sample.bytes, self.given));
        let bytes = &mut self.byte_buffer;
        self.answer = (self.write)(map_bytes, given, &mut self.work_area, bytes);
    }

    /// Times it against the plain writer and prints the row.
    fn print_row(
        &mut self,
        what: impl Fn(&Outcome<Vec<u8>>) -> String,
        write: impl Fn() -> Outcome<Vec<u8>>,
    ) -> (String, f64) {
        let mut outcome = None;
        let first = [
            time_once(&mut || self.run()),
            time_once(&mut || outcome = Some(write())),
        ];
        let outcome = outcome.expect("it is written");
        check_written(self.answer, &self.byte_buffer, &outcome);
        let what = format!("{}, {}", what(&outcome), outcome_text(&outcome));
        let times = times_after(first, &mut || self.run(), &mut || drop(write()));
        print_row(&what, times);
        (what, times[0])
    }
}

/// The last lines of the stretch, as many as there is time for.
fn print_writing_row(sample: &Sample) -> Printed {
    let lines = &sample.case.stretch;
    let all = lines.len();
    let last_lines = |count: usize| TestedStretch {
        lines: lines[all - count..].to_vec(),
        tests: ALL_TESTS,
    };
    let part = last_lines(PART);
    let mut part = ProvedWriting::new(sample, &part, proved::write);
    let count = count_in_time(all, time_once(&mut || part.run()));
    let stretch = last_lines(count);
    let what = |outcome: &Outcome<Vec<u8>>| {
        let legs = outcome.as_ref().map_or(0, |bytes| (bytes.len() - 9) / 7);
        format!("write, {}, lines {count}, legs {legs}", sample.case.name)
    };
    let mut ours = ProvedWriting::new(sample, &stretch, proved::write);
    let (what, ours) = ours.print_row(what, || {
        let written = black_box(plain_write(&sample.bytes, &stretch));
        written.map(|written| written.reference)
    });
    Printed {
        what,
        ours,
        parts: all as f64 / count as f64,
    }
}

/// A point on the last line of the stretch.
fn print_point_writing_row(sample: &Sample) -> Printed {
    let point = Point {
        line: *sample.case.stretch.last().expect("there are lines"),
        offset: 0,
        orientation: 0,
        side: 0,
    };
    let what = |_: &Outcome<Vec<u8>>| format!("write point, {}", sample.case.name);
    let mut ours = ProvedWriting::new(sample, &point, proved::write_point);
    let (what, ours) = ours.print_row(what, || {
        black_box(write_point(&sample.bytes, point, WORK_AREA, LONGEST_POINT))
    });
    Printed {
        what,
        ours,
        parts: 1.0,
    }
}
