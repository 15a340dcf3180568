//! The calls for points on one map after another, and how many had each answer.

use plain::fields::LONGEST_POINT;
use plain::maps::Xorshift;
use plain::outcome::{Outcome, PointReading, Refusal, Span, WORK_AREA};
use plain::point::{write_point, Point};

use crate::counts::{count, print_answers, Answers};
use crate::inputs::{any_reference, random_bytes, room_at_the_edge};
use crate::length_counts::LengthCounts;
use crate::meridian::Meridian;
use crate::of_message_run::OfMessageRun;
use crate::offset_counts::PointOffsets;
use crate::point_calls::{ReadPointCall, WritePointCall};
use crate::point_counts::PointCounts;
use crate::point_inputs::{any_point, any_point_reference, damaged_point, point_along_chain};
use crate::run::{Sample, ENOUGH_FOR_LINES};
use crate::step_counts::{self, StepCounts};

const OF_WRITER: [usize; 12] = [2, 3, 4, 5, 24, 6, 23, 7, 9, 25, 10, 11];
const OF_READER: [usize; 16] = [2, 3, 4, 5, 24, 6, 23, 12, 13, 14, 15, 16, 17, 18, 19, 20];

#[derive(Default)]
pub struct PointRun {
    pub calls: u64,
    writes: Answers,
    reads: Answers,
    offsets: PointOffsets,
    meridian: Meridian,
    steps: StepCounts,
    lengths: LengthCounts,
    counts: PointCounts,
    pub of_message: OfMessageRun,
    /// References to points on the map.
    pub written: Vec<Vec<u8>>,
}

impl PointRun {
    /// The map is refused, whatever stands beside it.
    pub fn on_no_map(&mut self, rng: &mut Xorshift, map: &[u8]) -> Result<(), String> {
        let [line, offset, orientation, side] = [(); 4].map(|()| rng.below(6));
        let write = WritePointCall {
            map,
            point: Point {
                line,
                offset,
                orientation,
                side,
            },
            room: rng.below(20) as usize,
        };
        let _ = self.write(write)?;
        let read = ReadPointCall {
            map,
            reference: &random_bytes(rng, &[0, 15, 16, 17, 18]),
            room: rng.below(20) as usize,
        };
        self.read(read).map(drop)
    }

    /// A point in a buffer of some length; where it is written, then also in one that is just long
    /// enough or too short, and its reference with changes.
    pub fn point(&mut self, rng: &mut Xorshift, sample: &Sample) -> Result<(), String> {
        let short = rng.below(20) as usize;
        let rooms = [LONGEST_POINT, LONGEST_POINT, LONGEST_POINT + 1, 100, short];
        let call = WritePointCall {
            map: &sample.bytes,
            point: any_point(rng, &sample.map),
            room: *rng.pick(&rooms),
        };
        let Ok(reference) = self.write_on(sample, call)? else {
            return Ok(());
        };
        let length = reference.len() as u32;
        let rooms = [length, length, length - 1, rng.below(length)];
        let room = *rng.pick(&rooms) as usize;
        let _ = self.write_on(sample, WritePointCall { room, ..call })?;
        for _ in 0..3 {
            let damaged = damaged_point(rng, &sample.map, &reference);
            self.read_in_rooms(rng, sample, &damaged)?;
        }
        self.written.push(reference);
        Ok(())
    }

    /// Mostly the reference of a point, at times that of a stretch.
    pub fn reference(&mut self, rng: &mut Xorshift, sample: &Sample) -> Result<(), String> {
        if rng.below(8) == 0 {
            let call = ReadPointCall {
                map: &sample.bytes,
                reference: &any_reference(rng, &sample.map),
                room: ENOUGH_FOR_LINES,
            };
            let outcome = self.read_on(sample, call)?;
            self.counts.count_stretch(&outcome);
            return Ok(());
        }
        let reference = any_point_reference(rng, &sample.map);
        self.read_in_rooms(rng, sample, &reference)
    }

    /// Points along many lines of a chain, and along all.
    pub fn long_lists(&mut self, rng: &mut Xorshift, sample: &Sample) -> Result<(), String> {
        let longest = sample.map.nodes.len() as u32 - 1;
        for count in [1, rng.within(2, longest), longest] {
            let reference = point_along_chain(rng, &sample.map, count);
            self.read_in_rooms(rng, sample, &reference)?;
        }
        Ok(())
    }

    /// In a buffer of some length; where the reference is read, then also in one that is just long
    /// enough or too short.
    fn read_in_rooms(
        &mut self,
        rng: &mut Xorshift,
        sample: &Sample,
        reference: &[u8],
    ) -> Result<(), String> {
        let rooms = [ENOUGH_FOR_LINES, 5_000, rng.below(60) as usize];
        let call = ReadPointCall {
            map: &sample.bytes,
            reference,
            room: *rng.pick(&rooms),
        };
        let Ok(reading) = self.read_on(sample, call)? else {
            return Ok(());
        };
        let room = room_at_the_edge(rng, &reading.lines);
        let call = ReadPointCall { room, ..call };
        self.read_on(sample, call).map(drop)
    }

    fn read_on(
        &mut self,
        sample: &Sample,
        call: ReadPointCall,
    ) -> Result<Outcome<PointReading>, String> {
        let outcome = self.read(call)?;
        self.counts.count_read(call.reference, &outcome);
        self.offsets.count_read(call.reference, &outcome);
        self.meridian
            .count_read(&sample.map, call.reference, &outcome);
        if let Ok(reading) = &outcome {
            self.steps.count_read(&sample.plan, &reading.lines);
        }
        Ok(outcome)
    }

    fn read(&mut self, call: ReadPointCall) -> Result<Outcome<PointReading>, String> {
        self.calls += 1;
        let compared = call.compare();
        let outcome = compared.map_err(|difference| format!("{call}\n{difference}"))?;
        count(&mut self.reads, &outcome);
        self.count_refused(&outcome, call.map, step_counts::READER);
        let ReadPointCall {
            map,
            reference,
            room,
        } = call;
        self.of_message.also(true, map, reference, room)?;
        Ok(outcome)
    }

    /// What is written is read back.
    fn write_on(
        &mut self,
        sample: &Sample,
        call: WritePointCall,
    ) -> Result<Outcome<Vec<u8>>, String> {
        let outcome = self.write(call)?;
        self.counts.count_written(&sample.map, call.point, &outcome);
        match &outcome {
            Ok(reference) => {
                self.meridian.count_written(&sample.map, reference);
                self.offsets
                    .count_written(&sample.map, call.point, reference);
                let length = sample.map.line(call.point.line).length;
                self.lengths
                    .count_written(&sample.map, &[call.point.line], [length; 2]);
                self.read_back(sample, call, reference)?;
            }
            Err(Refusal::NoUsablePoints) => {
                let lines = [call.point.line];
                let is_written =
                    |map: &[u8]| write_point(map, call.point, WORK_AREA, LONGEST_POINT).is_ok();
                self.meridian
                    .count_too_far(&sample.map, &sample.plan, &lines, is_written);
            }
            Err(_) => {}
        }
        Ok(outcome)
    }

    fn write(&mut self, call: WritePointCall) -> Result<Outcome<Vec<u8>>, String> {
        self.calls += 1;
        let compared = call.compare();
        let outcome = compared.map_err(|difference| format!("{call}\n{difference}"))?;
        count(&mut self.writes, &outcome);
        self.count_refused(&outcome, call.map, step_counts::WRITER);
        Ok(outcome)
    }

    /// Of a map that is refused for a step or a length.
    fn count_refused<T>(&mut self, outcome: &Outcome<T>, map: &[u8], function: usize) {
        match outcome {
            Err(Refusal::Step) => self.steps.count_refused(map, function),
            Err(Refusal::LineField) => self.lengths.count_refused(map, function),
            _ => {}
        }
    }

    /// The line handed back is the one given, and so are orientation and side; the span holds the
    /// offset. The line buffer has room for one line.
    fn read_back(
        &mut self,
        sample: &Sample,
        written: WritePointCall,
        reference: &[u8],
    ) -> Result<(), String> {
        let call = ReadPointCall {
            map: written.map,
            reference,
            room: 4,
        };
        let read = self.read_on(sample, call)?;
        let point = written.point;
        if !read
            .as_ref()
            .is_ok_and(|reading| stands_for(reading, point))
        {
            return Err(format!("{written}\n{call}\n{read:?}"));
        }
        Ok(())
    }

    /// Prints how many calls had each answer. Each that there is must have been given.
    pub fn report(&self) -> Result<(), String> {
        println!(
            "points: {} calls, most lines read {}",
            self.calls, self.counts.most_lines
        );
        self.offsets.report()?;
        self.meridian.report("points")?;
        self.steps.report("points")?;
        self.lengths.report("points")?;
        self.counts.report()?;
        print_answers("write point", &self.writes, &OF_WRITER)?;
        print_answers("read point", &self.reads, &OF_READER)
    }

    pub fn report_of_message(&self) -> Result<(), String> {
        self.of_message.report("read point", &OF_READER)
    }
}

fn stands_for(reading: &PointReading, point: Point) -> bool {
    let Span { least, greatest } = reading.offset;
    reading.lines == [point.line]
        && (least..=greatest).contains(&point.offset)
        && (reading.orientation, reading.side) == (point.orientation, point.side)
}
