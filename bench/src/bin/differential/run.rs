//! The calls on one map after another, and how many had each answer.

use std::mem::take;

use plain::depot_map::DepotMap;
use plain::maps::{chain, Lengths, MapPlan, Xorshift};
use plain::outcome::{Outcome, Reading, Refusal, Span, Written, WORK_AREA};
use plain::writer::{write, Stretch, ALL_TESTS};

use crate::calls::{line_numbers, ReadCall, WriteCall, MOST_LINES_READ};
use crate::counts::{count, print_answers, Answers};
use crate::damages::{damaged_map, damaged_reference};
use crate::inputs::{
    any_offsets, any_reference, any_small_plan, any_stretch, any_tests, full_size_plan, more_tests,
    move_over_meridian, random_bytes, reference_along_chain, room_at_the_edge,
};
use crate::length_counts::LengthCounts;
use crate::meridian::Meridian;
use crate::message_run::MessageRun;
use crate::of_message_run::OfMessageRun;
use crate::offset_counts::StretchOffsets;
use crate::point_inputs::any_point_reference;
use crate::point_run::PointRun;
use crate::points::end_legs;
use crate::step_counts::{self, StepCounts};
use crate::test_counts::{check_tests_made, check_with_more_tests, TestCounts};

/// Of so many maps one is of full size, and one is for long lists.
const FULL_SIZE_EVERY: u64 = 10;

/// Of so many maps one is for a message of what was written on it.
const MESSAGE_EVERY: u32 = 24;

pub const ENOUGH_FOR_LINES: usize = 4 * MOST_LINES_READ;

/// A byte buffer of so many bytes has room for every reference.
const ENOUGH_FOR_BYTES: usize = 459;

const OF_WRITER: [usize; 14] = [2, 3, 4, 5, 24, 6, 23, 7, 8, 21, 9, 26, 10, 11];
const OF_READER: [usize; 17] = [
    2, 3, 4, 5, 24, 6, 23, 12, 13, 14, 15, 16, 17, 18, 22, 19, 20,
];

#[derive(Default)]
pub struct Run {
    /// Of stretches.
    calls: u64,
    writes: Answers,
    reads: Answers,
    longest_reference: usize,
    most_lines: usize,
    /// Calls with refusal 21 in which all banned turns are in lines skipped whole.
    banned_where_skipped: u64,
    offsets: StretchOffsets,
    tests: TestCounts,
    meridian: Meridian,
    steps: StepCounts,
    lengths: LengthCounts,
    points: PointRun,
    messages: MessageRun,
    of_message: OfMessageRun,
    /// References to stretches of the map.
    written: Vec<Vec<u8>>,
}

/// How many stretches, points and references of both a map begins with. Most lead to more calls.
#[derive(Clone, Copy)]
struct Inputs {
    stretches: u32,
    references: u32,
    points: u32,
    point_references: u32,
}

const ON_FULL_SIZE: Inputs = Inputs {
    stretches: 6,
    references: 4,
    points: 3,
    point_references: 2,
};

const ON_SMALL: Inputs = Inputs {
    stretches: 10,
    references: 6,
    points: 5,
    point_references: 4,
};

const ON_DAMAGED: Inputs = Inputs {
    stretches: 1,
    references: 1,
    points: 1,
    point_references: 1,
};

/// A map with its bytes and its plan, which has the steps of its lines.
pub struct Sample {
    pub bytes: Vec<u8>,
    pub map: DepotMap,
    pub plan: MapPlan,
}

impl Sample {
    fn new(bytes: Vec<u8>, map: DepotMap) -> Sample {
        let plan = MapPlan::of_bytes(&bytes);
        Sample { bytes, map, plan }
    }
}

impl Run {
    pub fn calls(&self) -> u64 {
        let of_message = self.of_message.calls + self.points.of_message.calls;
        self.calls + self.points.calls + self.messages.calls + of_message
    }

    pub fn turn(&mut self, rng: &mut Xorshift, turn: u64) -> Result<(), String> {
        match turn % FULL_SIZE_EVERY {
            0 => {
                let plan = full_size_plan(rng, turn / FULL_SIZE_EVERY);
                self.on_plan(rng, &plan, ON_FULL_SIZE)?;
            }
            1 => self.long_lists(rng)?,
            _ => {
                let plan = any_small_plan(rng);
                self.on_plan(rng, &plan, ON_SMALL)?;
            }
        }
        self.messages.turn(rng, turn)
    }

    /// So many inputs on the map, and a few on maps that differ from it.
    fn on_plan(
        &mut self,
        rng: &mut Xorshift,
        plan: &MapPlan,
        inputs: Inputs,
    ) -> Result<(), String> {
        self.on_map(rng, plan.encode(), inputs)?;
        for _ in 0..2 {
            let bytes = damaged_map(rng, plan);
            self.on_map(rng, bytes, ON_DAMAGED)?;
        }
        Ok(())
    }

    /// So many inputs on these bytes, if they are a map.
    fn on_map(&mut self, rng: &mut Xorshift, bytes: Vec<u8>, inputs: Inputs) -> Result<(), String> {
        let Ok(map) = DepotMap::decode(&bytes) else {
            self.on_no_map(rng, &bytes)?;
            return self.points.on_no_map(rng, &bytes);
        };
        let sample = Sample::new(bytes, map);
        for _ in 0..inputs.stretches {
            self.stretch(rng, &sample)?;
        }
        for _ in 0..inputs.references {
            let reference = match rng.below(16) {
                0 => any_point_reference(rng, &sample.map),
                _ => any_reference(rng, &sample.map),
            };
            self.reference(rng, &sample, &reference)?;
        }
        for _ in 0..inputs.points {
            self.points.point(rng, &sample)?;
        }
        for _ in 0..inputs.point_references {
            self.points.reference(rng, &sample)?;
        }
        let written = [take(&mut self.written), take(&mut self.points.written)].concat();
        match rng.below(MESSAGE_EVERY) {
            0 => self.messages.written(rng, &sample.bytes, written),
            _ => Ok(()),
        }
    }

    /// The map is refused, whatever stands beside it.
    fn on_no_map(&mut self, rng: &mut Xorshift, map: &[u8]) -> Result<(), String> {
        let given = &random_bytes(rng, &[0, 4, 8, 15, 16, 17]);
        let write = WriteCall {
            map,
            stretch: given,
            pos: rng.below(2),
            neg: rng.below(2),
            tests: rng.below(2) * ALL_TESTS,
            room: rng.below(500) as usize,
        };
        let _ = self.write(write)?;
        let read = ReadCall {
            map,
            reference: given,
            room: rng.below(500) as usize,
        };
        self.read(read).map(drop)
    }

    /// A stretch with some leg tests, in a buffer of some length, and often with more tests; where it is
    /// written, then also in a buffer that is just long enough or too short, and its reference with
    /// changes.
    fn stretch(&mut self, rng: &mut Xorshift, sample: &Sample) -> Result<(), String> {
        let stretch = &any_stretch(rng, &sample.map);
        let lines = line_numbers(stretch);
        let (pos, neg) = any_offsets(rng, &sample.map, &lines);
        let tests = any_tests(rng, &sample.map, &lines, (pos, neg));
        let rooms = [459, 459, 459, 460, 500, rng.below(40)];
        let call = WriteCall {
            map: &sample.bytes,
            stretch,
            pos,
            neg,
            tests,
            room: *rng.pick(&rooms) as usize,
        };
        let (call, outcome) = self.write_with_more_tests(rng, sample, call)?;
        let Ok(Written { reference, .. }) = outcome else {
            return Ok(());
        };
        let length = reference.len() as u32;
        let rooms = [length, length, length - 1, rng.below(length)];
        let room = *rng.pick(&rooms) as usize;
        let _ = self.write_on(sample, WriteCall { room, ..call })?;
        for _ in 0..3 {
            let damaged = damaged_reference(rng, &sample.map, &reference);
            self.reference(rng, sample, &damaged)?;
        }
        self.written.push(reference);
        Ok(())
    }

    /// The call, and where its tests were too few or may be, and at times else, the same with more: the
    /// last of both.
    fn write_with_more_tests<'a>(
        &mut self,
        rng: &mut Xorshift,
        sample: &Sample,
        call: WriteCall<'a>,
    ) -> Result<(WriteCall<'a>, Outcome<Written>), String> {
        let outcome = self.write_on(sample, call)?;
        let are_too_few = match &outcome {
            Ok(written) => written.excess > 0,
            Err(refusal) => *refusal == Refusal::TooFewTests,
        };
        if call.room < ENOUGH_FOR_BYTES || !are_too_few && rng.below(3) != 0 {
            return Ok((call, outcome));
        }
        let tests = more_tests(rng, call.tests, line_numbers(call.stretch).len());
        let more = WriteCall { tests, ..call };
        let with_more = self.write_on(sample, more)?;
        self.tests.count_with_more(&outcome, &with_more);
        check_with_more_tests(&outcome, &with_more)
            .map_err(|difference| format!("{call}\n{more}\n{difference}"))?;
        Ok((more, with_more))
    }

    /// A reference in a buffer of some length; where it is read, then also in one that is just
    /// long enough or too short.
    fn reference(
        &mut self,
        rng: &mut Xorshift,
        sample: &Sample,
        reference: &[u8],
    ) -> Result<(), String> {
        let rooms = [ENOUGH_FOR_LINES, 5_000, rng.below(300) as usize];
        let call = ReadCall {
            map: &sample.bytes,
            reference,
            room: *rng.pick(&rooms),
        };
        let Ok(reading) = self.read_on(sample, call)? else {
            return Ok(());
        };
        let room = room_at_the_edge(rng, &reading.lines);
        let call = ReadCall { room, ..call };
        self.read_on(sample, call).map(drop)
    }

    /// References of about 1,024 lines and of many more.
    fn long_lists(&mut self, rng: &mut Xorshift) -> Result<(), String> {
        let mut plan = chain(rng.draw(), Lengths::SlightlyDifferent);
        if rng.below(4) == 0 {
            move_over_meridian(rng, &mut plan);
        }
        let bytes = plan.encode();
        let map = DepotMap::decode(&bytes).map_err(|refusal| refusal.to_string())?;
        let sample = Sample::new(bytes, map);
        for lines in [
            MOST_LINES_READ - 1,
            MOST_LINES_READ,
            MOST_LINES_READ + 1,
            10_000,
        ] {
            let call = ReadCall {
                map: &sample.bytes,
                reference: &reference_along_chain(&sample.map, lines),
                room: *rng.pick(&[ENOUGH_FOR_LINES, ENOUGH_FOR_LINES - 1, 8 * lines]),
            };
            let _ = self.read_on(&sample, call)?;
        }
        self.points.long_lists(rng, &sample)
    }

    fn read_on(&mut self, sample: &Sample, call: ReadCall) -> Result<Outcome<Reading>, String> {
        let outcome = self.read(call)?;
        self.offsets
            .count_read(&sample.map, call.reference, &outcome);
        self.meridian
            .count_read(&sample.map, call.reference, &outcome);
        if let Ok(reading) = &outcome {
            self.steps.count_read(&sample.plan, &reading.lines);
        }
        Ok(outcome)
    }

    fn read(&mut self, call: ReadCall) -> Result<Outcome<Reading>, String> {
        self.calls += 1;
        let compared = call.compare();
        let outcome = compared.map_err(|difference| format!("{call}\n{difference}"))?;
        count(&mut self.reads, &outcome);
        self.count_refused(&outcome, call.map, step_counts::READER);
        let ReadCall {
            map,
            reference,
            room,
        } = call;
        self.of_message.also(false, map, reference, room)?;
        let lines = outcome.as_ref().map_or(0, |reading| reading.lines.len());
        self.most_lines = self.most_lines.max(lines);
        Ok(outcome)
    }

    /// What is written is read back.
    fn write_on(&mut self, sample: &Sample, call: WriteCall) -> Result<Outcome<Written>, String> {
        let outcome = self.write(call)?;
        let map = &sample.map;
        let lines = line_numbers(call.stretch);
        let given = Stretch {
            lines: &lines,
            positive: call.pos,
            negative: call.neg,
        };
        self.tests.count(map, &given, call.tests, &outcome);
        match &outcome {
            Ok(written) => {
                let reference = &written.reference;
                self.meridian.count_written(map, reference);
                let left = given.without_skipped_lines(map);
                check_tests_made(left.lines.len(), call.tests, written)
                    .map_err(|difference| format!("{call}\n{difference}"))?;
                self.offsets.count_written(map, &left, reference);
                let leg_lengths = end_legs(map, reference, left.lines);
                self.lengths.count_written(map, left.lines, leg_lengths);
                self.read_back(sample, call, reference, &left)?;
            }
            Err(Refusal::NoUsablePoints) => {
                let left = given.without_skipped_lines(map);
                let (pos, neg) = (left.positive, left.negative);
                let is_written = |map: &[u8]| {
                    let room = ENOUGH_FOR_BYTES;
                    write(map, left.lines, pos, neg, ALL_TESTS, WORK_AREA, room).is_ok()
                };
                self.meridian
                    .count_too_far(map, &sample.plan, left.lines, is_written);
            }
            Err(Refusal::OffsetsReachTotal) => self.offsets.count_reaching_total(map, &given),
            Err(Refusal::BannedInStretch) => {
                let is_skipped = is_banned_where_skipped(map, &given);
                self.banned_where_skipped += u64::from(is_skipped);
            }
            Err(_) => {}
        }
        Ok(outcome)
    }

    fn write(&mut self, call: WriteCall) -> Result<Outcome<Written>, String> {
        self.calls += 1;
        let compared = call.compare();
        let outcome = compared.map_err(|difference| format!("{call}\n{difference}"))?;
        count(&mut self.writes, &outcome);
        self.count_refused(&outcome, call.map, step_counts::WRITER);
        let length = outcome
            .as_ref()
            .map_or(0, |written| written.reference.len());
        self.longest_reference = self.longest_reference.max(length);
        Ok(outcome)
    }

    /// Of a map that is refused for a step or a length.
    fn count_refused<T>(&mut self, outcome: &Outcome<T>, map: &[u8], function: usize) {
        match outcome {
            Err(Refusal::Step) => self.steps.count_refused(map, function),
            Err(Refusal::LineField) => self.lengths.count_refused(map, function),
            _ => {}
        }
    }

    /// The lines handed back are those left, and each span holds what is left of its offset. The
    /// line buffer is just long enough.
    fn read_back(
        &mut self,
        sample: &Sample,
        written: WriteCall,
        reference: &[u8],
        left: &Stretch,
    ) -> Result<(), String> {
        let call = ReadCall {
            map: written.map,
            reference,
            room: 4 * left.lines.len(),
        };
        let read = self.read_on(sample, call)?;
        if !read.as_ref().is_ok_and(|reading| stands_for(reading, left)) {
            return Err(format!("{written}\n{call}\n{read:?} for {left:?}"));
        }
        Ok(())
    }

    /// Prints how many calls had each answer. Each that there is must have been given.
    pub fn report(&self) -> Result<(), String> {
        let (bytes, lines) = (self.longest_reference, self.most_lines);
        println!("longest reference written {bytes} bytes, most lines read {lines}");
        let skipped = self.banned_where_skipped;
        println!("banned turns in lines skipped whole alone {skipped}");
        if skipped == 0 {
            return Err("no banned turn was in lines skipped whole alone".to_string());
        }
        self.tests.report()?;
        self.offsets.report()?;
        self.meridian.report("stretches")?;
        self.steps.report("stretches")?;
        self.lengths.report("stretches")?;
        print_answers("write", &self.writes, &OF_WRITER)?;
        print_answers("read", &self.reads, &OF_READER)?;
        self.points.report()?;
        self.messages.report()?;
        self.of_message.report("read", &OF_READER)?;
        self.points.report_of_message()
    }
}

/// Of a stretch with a banned turn.
fn is_banned_where_skipped(map: &DepotMap, given: &Stretch) -> bool {
    let left = given.without_skipped_lines(map).lines;
    let banned = |pair: &[u32]| map.is_banned(pair[0], pair[1]);
    !left.is_empty() && !left.windows(2).any(banned)
}

fn stands_for(reading: &Reading, left: &Stretch) -> bool {
    let holds = |span: Span, offset: u32| (span.least..=span.greatest).contains(&offset);
    reading.lines == left.lines
        && holds(reading.positive, left.positive)
        && holds(reading.negative, left.negative)
}
