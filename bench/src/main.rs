//! The benchmark: each row times the proved function and the plain Rust one in turn, in one
//! process, and prints `what | ours µs | plain Rust µs | ratio`.

mod message_rows;
mod of_message_rows;
mod offset_rows;
mod point_rows;
mod proved;
mod test_rows;
mod worst;

use std::hint::black_box;
use std::time::{Duration, Instant};

use plain::depot_map::{DepotMap, Direction};
use plain::fields::LONGEST_LEG;
use plain::maps::{
    chain, grid, hub, random_graph, random_roads, random_walk, reference_with_legs, steep, Bans,
    Lengths, MapPlan, Turns, Xorshift,
};
use plain::outcome::{Outcome, Written, WORK_AREA};
use plain::reader::read;
use plain::search::{Bounds, Method, Search};
use plain::writer::{effort, write, write_on_map, ALL_TESTS};

use proved::TestedStretch;

/// The best of many short rounds: a round that something else disturbs does not count.
const ROUNDS: usize = 400;
const ROUND_TIME: Duration = Duration::from_micros(60);
/// No further round starts after this time on one input, but for the first few: one round that is
/// disturbed for that long must not be the only one.
const INPUT_TIME: Duration = Duration::from_millis(100);
const LEAST_ROUNDS: usize = 3;

/// Different inputs in one row, so that it does not hang on one of them.
const INPUTS: usize = 8;

const BYTE_ROOM: usize = 459;
const LINE_ROOM: usize = 65_536;

/// The proved reader keeps so many lines until every refusal is asked, and makes a longer reading twice. A C host's lists
/// have 1,024 lines at most and never get there, so such a row is left out of the aim.
const KEPT_LINES: usize = 2_304;

/// A function to time, on the input with this number.
type Call<'a> = Box<dyn FnMut(usize) + 'a>;

/// What a row times.
struct Row<'a> {
    what: String,
    inputs: usize,
    ours: Call<'a>,
    plain: Call<'a>,
}

impl Row<'_> {
    fn print(self) {
        self.print_times();
    }

    /// Gives the times of ours and of the plain Rust.
    fn print_times(mut self) -> [f64; 2] {
        let [ours, plain] = self.times();
        let ratio = ours / plain;
        println!("{} | {ours:.2} | {plain:.2} | {ratio:.2}", self.what);
        [ours, plain]
    }

    fn times(&mut self) -> [f64; 2] {
        time_in_turn([&mut *self.ours, &mut *self.plain], self.inputs)
    }
}

/// The time of one call of each function in microseconds: the best for each input, and the mean
/// of these. The rounds of the functions take turns.
fn time_in_turn<const COUNT: usize>(
    mut calls: [&mut dyn FnMut(usize); COUNT],
    inputs: usize,
) -> [f64; COUNT] {
    let mut sums = [0.0; COUNT];
    for input in 0..inputs {
        let repeats = calls
            .each_mut()
            .map(|call| repeats_for_a_round(call, input));
        let mut best = [f64::INFINITY; COUNT];
        let start = Instant::now();
        for round in 0..ROUNDS {
            if round >= LEAST_ROUNDS && start.elapsed() > INPUT_TIME {
                break;
            }
            for (number, call) in calls.iter_mut().enumerate() {
                let time = time_of(call, input, repeats[number]).as_secs_f64() * 1e6;
                best[number] = best[number].min(time / f64::from(repeats[number]));
            }
        }
        for (sum, best) in sums.iter_mut().zip(best) {
            *sum += best;
        }
    }
    sums.map(|sum| sum / inputs as f64)
}

fn repeats_for_a_round(call: &mut dyn FnMut(usize), input: usize) -> u32 {
    let mut repeats = 1;
    while time_of(call, input, repeats) < ROUND_TIME {
        repeats *= 2;
    }
    repeats
}

fn time_of(call: &mut dyn FnMut(usize), input: usize, repeats: u32) -> Duration {
    let start = Instant::now();
    for _ in 0..repeats {
        call(input);
    }
    start.elapsed()
}

/// A full-size map with its bytes.
struct Sample {
    name: &'static str,
    bytes: Vec<u8>,
    map: DepotMap,
}

const BANS: usize = 512;

fn samples() -> Vec<Sample> {
    let grid_equal = || grid(1, Lengths::Equal).shuffled(5);
    let grid = || grid(2, Lengths::SlightlyDifferent).shuffled(5);
    let random = || random_graph(3).shuffled(5);
    let chain = || chain(4, Lengths::SlightlyDifferent).shuffled(5);
    let spread = |plan: MapPlan| plan.with_bans(9, BANS, Bans::Spread);
    let at_one = |plan: MapPlan| plan.with_bans(9, BANS, Bans::AtOneJunction);
    vec![
        sample("grid, equal lengths", grid_equal()),
        sample("grid", grid()),
        sample("random", random()),
        sample("random roads", random_roads(3).shuffled(5)),
        sample("chain", chain()),
        sample("grid, 512 bans", spread(grid())),
        sample("grid, 512 bans at one junction", at_one(grid())),
        sample("random, 512 bans", spread(random())),
        sample("random, 512 bans at one junction", at_one(random())),
    ]
}

/// In the other maps all steps are about 20 m long. Here they are of the whole range and of all
/// sectors, and no two pairs are alike.
fn random_steps(seed: u64) -> Sample {
    let plan = random_graph(seed).shuffled(5);
    let plan = plan.with_bans(9, BANS, Bans::Spread);
    sample("random steps, 512 bans", plan.with_random_steps(9 + seed))
}

/// So many that the processor cannot learn their numbers.
const MAPS_IN_TURN: u64 = 100;

/// Maps made against the search.
fn hostile_samples() -> Vec<Sample> {
    vec![
        sample("hub", hub()),
        sample("hub, 512 bans", hub().with_bans(9, BANS, Bans::Spread)),
        sample("steep", steep()),
    ]
}

fn sample(name: &'static str, plan: MapPlan) -> Sample {
    let bytes = plan.encode();
    let map = DepotMap::decode(&bytes).expect("a maker makes maps");
    Sample { name, bytes, map }
}

/// Prints the rows of every kind but worst, or of the kind that the argument names: decode, search, read, write, point, offsets,
/// message, of_message or worst.
/// `worst TEXT` prints those of the maps with this text in their names; they may take minutes.
/// `once ROW` times nothing, for counting calls.
fn main() {
    let kind = std::env::args().nth(1);
    if kind.as_deref() == Some("once") {
        return write_once();
    }
    println!("what | ours µs | plain Rust µs | ratio");
    if kind.as_deref() == Some("worst") {
        let text = std::env::args().nth(2);
        return worst::print_rows(&text.unwrap_or_default());
    }
    let wanted = |name: &str| kind.as_deref().is_none_or(|kind| kind == name);
    let samples = samples();
    let said_last: Vec<_> = samples
        .iter()
        .map(|sample| print_rows_of(sample, wanted))
        .collect();
    if wanted("decode") {
        decode_row(&random_steps(3)).print();
        let maps: Vec<Sample> = (0..MAPS_IN_TURN).map(random_steps).collect();
        decode_in_turn_row(&maps).print();
    }
    if wanted("search") {
        for sample in &hostile_samples() {
            search_rows(sample);
        }
    }
    if wanted("offsets") {
        offset_rows::print_rows();
    }
    if wanted("message") {
        message_rows::print_rows();
    }
    for SaidLast { tenth, shares } in &said_last {
        tenth.iter().for_each(test_rows::Tenth::print);
        shares.iter().for_each(of_message_rows::Share::print);
    }
}

/// What is said last of a map: of its writings with a tenth of the tests, and of its readings out of a message.
#[derive(Default)]
struct SaidLast {
    tenth: Option<test_rows::Tenth>,
    shares: Vec<of_message_rows::Share>,
}

/// The rows of one map.
fn print_rows_of(sample: &Sample, wanted: impl Fn(&str) -> bool) -> SaidLast {
    if wanted("decode") {
        decode_row(sample).print();
    }
    if wanted("search") {
        search_rows(sample);
    }
    if wanted("read") {
        reading_rows(sample);
    }
    let mut said_last = SaidLast::default();
    if wanted("write") {
        writing_rows(sample);
        said_last.tenth = test_rows::print_rows(sample);
    }
    if wanted("point") {
        point_rows::print_rows(sample);
    }
    if wanted("message") {
        message_rows::print_start_row(sample);
    }
    if wanted("of_message") {
        said_last.shares = of_message_rows::print_rows(sample);
    }
    said_last
}

fn decode_row(sample: &Sample) -> Row<'_> {
    let mut work_area = vec![0; WORK_AREA];
    let ours = move |_| {
        black_box(proved::decode(black_box(&sample.bytes), &mut work_area));
    };
    let plain = |_| {
        let _ = black_box(DepotMap::decode(black_box(&sample.bytes)));
    };
    Row {
        what: format!("decode, {}, {} bytes", sample.name, sample.bytes.len()),
        inputs: 1,
        ours: Box::new(ours),
        plain: Box::new(plain),
    }
}

/// One call decodes all of them.
fn decode_in_turn_row(samples: &[Sample]) -> Row<'_> {
    let mut work_area = vec![0; WORK_AREA];
    let ours = move |_| {
        for sample in samples {
            black_box(proved::decode(black_box(&sample.bytes), &mut work_area));
        }
    };
    let plain = move |_| {
        for sample in samples {
            let _ = black_box(DepotMap::decode(black_box(&sample.bytes)));
        }
    };
    Row {
        what: format!(
            "decode, {} maps in turn, {}",
            samples.len(),
            samples[0].name
        ),
        inputs: 1,
        ours: Box::new(ours),
        plain: Box::new(plain),
    }
}

const LIMITS: [u32; 3] = [50_000, 150_000, LONGEST_LEG];

const METHODS: [(Method, &str); 3] = [
    (Method::LineQueue, "queue of lines"),
    (Method::LineHeap, "heap of lines"),
    (Method::NodeAndLineHeap, "heap of nodes and lines"),
];

fn search_rows(sample: &Sample) {
    for (method, method_name) in METHODS {
        for limit in LIMITS {
            let bounds = first_lines(sample).map(|first| Bounds {
                first,
                class: 7,
                limit,
            });
            let what = format!("search, {}, limit {limit}, {method_name}", sample.name);
            print_search_row(sample, bounds, method, &what);
        }
    }
}

fn first_lines(sample: &Sample) -> [u32; INPUTS] {
    let mut rng = Xorshift::new(6);
    [(); INPUTS].map(|()| rng.below(sample.map.lines.len() as u32))
}

/// Searches in one call of the proved function, so that the map's decoding weighs little.
const SEARCHES: u32 = 100;

/// Both search back from a line. The proved search is timed by the difference between `SEARCHES`
/// searches and none, each with a decoding of the map before it.
fn print_search_row(sample: &Sample, bounds: [Bounds; INPUTS], method: Method, what: &str) {
    let mut plain_search = Search::new(&sample.map, method);
    let mut plain = |input: usize| {
        for _ in 0..SEARCHES {
            let bounds = black_box(bounds[input]);
            plain_search.run_for(&sample.map, Direction::Back, bounds, 1);
            black_box(&plain_search);
        }
    };
    let mut work_area = vec![0; WORK_AREA];
    let mut other_area = vec![0; WORK_AREA];
    let run = |area: &mut [u32], input: usize, times: u32| {
        let Bounds {
            first,
            class,
            limit,
        } = black_box(bounds[input]);
        proved::search(&sample.bytes, area, first, class, limit, times);
        black_box(area);
    };
    let mut none = |input: usize| run(&mut work_area, input, 0);
    let mut many = |input: usize| run(&mut other_area, input, SEARCHES);
    let [none, many, plain] = time_in_turn([&mut none, &mut many, &mut plain], INPUTS);
    let ours = (many - none) / f64::from(SEARCHES);
    let plain = plain / f64::from(SEARCHES);
    println!("{what} | {ours:.2} | {plain:.2} | {:.2}", ours / plain);
}

/// Legs and their lengths. 64 long legs are nearly the most work that a reference can ask for.
const REFERENCES: [(usize, u32); 5] = [
    (1, 120_000),
    (3, 120_000),
    (64, 15_000),
    (64, 120_000),
    (64, 500_000),
];

fn reading_rows(sample: &Sample) {
    for (legs, leg_length) in REFERENCES {
        let references = reading_references(sample, legs, leg_length);
        if references.is_empty() {
            continue;
        }
        for (reference, lines) in &references {
            check_proved_reading(sample, reference, lines, proved::read);
        }
        let lines: usize = references.iter().map(|(_, lines)| lines.len()).sum();
        let lines = lines / references.len();
        let references = references.into_iter().map(|(bytes, _)| bytes).collect();
        let mut what = format!("read, {}, legs {legs}, lines {lines}", sample.name);
        if lines > KEPT_LINES {
            what += " (made twice, no aim)";
        }
        reading_row(what, sample, references, proved::read, read).print();
    }
}

/// References with so many legs of about this length, and the lines that they stand for.
fn reading_references(sample: &Sample, legs: usize, leg_length: u32) -> Vec<(Vec<u8>, Vec<u32>)> {
    let mut rng = Xorshift::new(7);
    let mut next = || reference_with_legs(&mut rng, &sample.map, legs, leg_length);
    (0..INPUTS).map_while(|_| next()).collect()
}

/// A proved reader: of a map and a reference, with a work area and a line buffer. The answer is the
/// number of the refusal, or 0.
type ProvedRead = fn(&[u8], &[u8], &mut [u32], &mut [u32]) -> u32;

/// What is timed is a reading of these lines.
fn check_proved_reading(sample: &Sample, reference: &[u8], lines: &[u32], ours: ProvedRead) {
    let mut work_area = vec![0; WORK_AREA];
    let mut line_buffer = vec![u32::MAX; LINE_ROOM];
    let refusal = ours(&sample.bytes, reference, &mut work_area, &mut line_buffer);
    assert_eq!(refusal, 0, "the plain reader accepts the reference");
    assert_eq!(&line_buffer[..lines.len()], lines);
}

fn reading_row<'a, Read>(
    what: String,
    sample: &'a Sample,
    references: Vec<Vec<u8>>,
    ours: ProvedRead,
    plain: impl Fn(&[u8], &[u8], usize, usize) -> Outcome<Read> + 'a,
) -> Row<'a> {
    let inputs = references.len();
    let ours = proved_reading(sample, references.clone(), ours);
    let plain = move |input: usize| {
        let (map_bytes, reference) = black_box((&sample.bytes, &references[input]));
        let _ = black_box(plain(map_bytes, reference, WORK_AREA, LINE_ROOM));
    };
    Row {
        what,
        inputs,
        ours,
        plain: Box::new(plain),
    }
}

fn proved_reading(sample: &Sample, references: Vec<Vec<u8>>, ours: ProvedRead) -> Call<'_> {
    let mut work_area = vec![0; WORK_AREA];
    let mut line_buffer = vec![0; LINE_ROOM];
    Box::new(move |input| {
        let (map_bytes, reference) = black_box((&sample.bytes, &references[input]));
        let refusal = ours(map_bytes, reference, &mut work_area, &mut line_buffer);
        black_box(refusal);
    })
}

const STRETCH_LINES: [usize; 3] = [4, 16, 64];

fn writing_rows(sample: &Sample) {
    for count in STRETCH_LINES {
        let stretches = accepted_stretches(sample, count);
        if stretches.is_empty() {
            continue;
        }
        let what = format!("write, {}, lines {count}", sample.name);
        let effort = mean_effort(sample, &stretches);
        stretch_row(what.clone(), sample, with_tests(&stretches, ALL_TESTS)).print();
        println!("{what}, plain Rust: {effort}");
    }
}

fn with_tests(stretches: &[Vec<u32>], tests: u32) -> Vec<TestedStretch> {
    let with_tests = |lines: &Vec<u32>| TestedStretch {
        lines: lines.clone(),
        tests,
    };
    stretches.iter().map(with_tests).collect()
}

fn plain_write(map_bytes: &[u8], stretch: &TestedStretch) -> Outcome<Written> {
    let TestedStretch { lines, tests } = stretch;
    write(map_bytes, lines, 0, 0, *tests, WORK_AREA, BYTE_ROOM)
}

fn stretch_row(what: String, sample: &Sample, stretches: Vec<TestedStretch>) -> Row<'_> {
    for stretch in &stretches {
        let outcome = plain_write(&sample.bytes, stretch);
        let outcome = outcome.map(|written| written.reference);
        check_proved_writing(sample, stretch, &outcome, proved::write);
    }
    writing_row(what, sample, stretches, proved::write, plain_write)
}

/// A proved writer: of a map and a stretch or a point, with a work area and a byte buffer. The answer is
/// the count of bytes, or the number of the refusal.
type ProvedWrite<Given> = fn(&[u8], &Given, &mut [u32], &mut [u8]) -> usize;

/// What is timed is a writing of the same bytes, or the same refusal.
fn check_proved_writing<Given>(
    sample: &Sample,
    given: &Given,
    outcome: &Outcome<Vec<u8>>,
    ours: ProvedWrite<Given>,
) {
    let mut work_area = vec![0; WORK_AREA];
    let mut byte_buffer = vec![0; BYTE_ROOM];
    let answer = ours(&sample.bytes, given, &mut work_area, &mut byte_buffer);
    check_written(answer, &byte_buffer, outcome);
}

/// The plain writer answers the same.
fn check_written(answer: usize, byte_buffer: &[u8], outcome: &Outcome<Vec<u8>>) {
    match outcome {
        Ok(reference) => assert_eq!(byte_buffer.get(..answer), Some(reference.as_slice())),
        Err(refusal) => assert_eq!(answer, refusal.number() as usize),
    }
}

/// Of one stretch.
fn mean_effort(sample: &Sample, stretches: &[Vec<u32>]) -> String {
    let efforts = stretches
        .iter()
        .map(|stretch| effort(&sample.map, stretch, 0, 0, ALL_TESTS));
    let efforts: Vec<_> = efforts
        .map(|effort| effort.expect("it is accepted"))
        .collect();
    let mean = |numbers: u32| f64::from(numbers) / efforts.len() as f64;
    let searches = mean(efforts.iter().map(|effort| effort.searches).sum());
    let leg_tests = mean(efforts.iter().map(|effort| effort.leg_tests).sum());
    format!("{searches:.1} searches, {leg_tests:.1} leg tests")
}

/// Writes each stretch of one writing row with the proved function.
fn write_once() {
    let row = std::env::args().nth(2).and_then(|row| row.parse().ok());
    let row: usize = row.expect("the number of a writing row");
    let samples = samples();
    let sample = &samples[row / STRETCH_LINES.len()];
    let count = STRETCH_LINES[row % STRETCH_LINES.len()];
    let stretches = accepted_stretches(sample, count);
    let inputs = 0..stretches.len();
    println!(
        "write, {}, lines {count}, stretches {}",
        sample.name,
        stretches.len()
    );
    let stretches = with_tests(&stretches, ALL_TESTS);
    inputs.for_each(proved_writing(sample, stretches, proved::write));
}

fn accepted_stretches(sample: &Sample, count: usize) -> Vec<Vec<u32>> {
    let mut rng = Xorshift::new(8);
    let walks =
        (0..10_000).filter_map(|_| random_walk(&mut rng, &sample.map, count, Turns::Allowed));
    let accepted =
        |walk: &Vec<u32>| write_on_map(&sample.map, walk, 0, 0, ALL_TESTS, BYTE_ROOM).is_ok();
    walks.filter(accepted).take(INPUTS).collect()
}

fn writing_row<'a, Given: Clone + 'a, Answer>(
    what: String,
    sample: &'a Sample,
    given: Vec<Given>,
    ours: ProvedWrite<Given>,
    plain: impl Fn(&[u8], &Given) -> Outcome<Answer> + 'a,
) -> Row<'a> {
    let inputs = given.len();
    let ours = proved_writing(sample, given.clone(), ours);
    let plain = move |input: usize| {
        let (map_bytes, given) = black_box((&sample.bytes, &given[input]));
        let _ = black_box(plain(map_bytes, given));
    };
    Row {
        what,
        inputs,
        ours,
        plain: Box::new(plain),
    }
}

fn proved_writing<'a, Given: 'a>(
    sample: &'a Sample,
    given: Vec<Given>,
    ours: ProvedWrite<Given>,
) -> Call<'a> {
    let mut work_area = vec![0; WORK_AREA];
    let mut byte_buffer = vec![0; BYTE_ROOM];
    Box::new(move |input| {
        let (map_bytes, given) = black_box((&sample.bytes, &given[input]));
        let written = ours(map_bytes, given, &mut work_area, &mut byte_buffer);
        black_box(written);
    })
}
