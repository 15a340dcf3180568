//! Readings out of messages: with each of many references that is read by itself too, on its map or on one like it, and
//! with a front for that map or for another; and how many had each answer.

use plain::depot_map::DepotMap;
use plain::maps::{push_number, Xorshift};
use plain::message_list::{list, FrontFault, Stop, FRONT_FAULTS};
use plain::outcome::{Outcome, Refusal, WORK_AREA};
use plain::point::read_point;
use plain::reader::read;

use crate::calls::line_room;
use crate::counts::{count, print_answers, print_rows, Answers};
use crate::fronts::{
    any_written, front_of, front_past_modulus, front_written, map_with_small_sum, of_that_length,
    sum_of, with_one_other_byte, Written, MODULUS, WRITTEN,
};
use crate::inputs::random_bytes;
use crate::of_message_calls::{Place, ReadOfMessageCall};

/// Of so many readings by itself one is made out of a message too.
const EVERY: u64 = 6;

/// Of so many of these one is on a map that differs from that of the message, and one on a map with a small sum.
const ON_ANOTHER_EVERY: u32 = 8;
const SMALL_SUM_EVERY: u32 = 50;

pub struct OfMessageRun {
    pub calls: u64,
    readings: u64,
    rng: Xorshift,
    answers: Answers,
    counts: OfMessageCounts,
}

impl Default for OfMessageRun {
    fn default() -> OfMessageRun {
        OfMessageRun {
            calls: 0,
            readings: 0,
            rng: Xorshift::new(1),
            answers: Answers::default(),
            counts: OfMessageCounts::default(),
        }
    }
}

/// How many calls had what.
#[derive(Default)]
struct OfMessageCounts {
    /// By what the front was written for: accepted, a refusal of the map, 30, and another one.
    written: [[u64; 4]; WRITTEN.len()],
    /// By what the box has, beside the map of the message: a refusal of the map, and 30.
    one_other_byte: [u64; 2],
    one_of_that_length: [u64; 2],
    /// Refusal 30, for the count alone, for the sum alone, for both, and for a sum that no map has.
    other_numbers: [u64; 4],
    no_bytes: u64,
    modulus_added: u64,
    faults: [u64; FRONT_FAULTS.len()],
    /// Refusal 30 of what is accepted by itself, and of what is refused with 12 and so on.
    before_the_reference: [u64; 2],
    /// A refusal of the map, with a front for these bytes and with another.
    map_refused: [u64; 2],
    /// A reference in the message, behind it, and lent beside it.
    places: [u64; 3],
}

impl OfMessageRun {
    /// Makes one of several readings out of a message too.
    pub fn also(
        &mut self,
        is_point: bool,
        map: &[u8],
        reference: &[u8],
        room: usize,
    ) -> Result<(), String> {
        self.readings += 1;
        if !self.readings.is_multiple_of(EVERY) {
            return Ok(());
        }
        if self.rng.below(ON_ANOTHER_EVERY) == 0 {
            return self.on_another(is_point, map, reference, room);
        }
        if self.rng.below(SMALL_SUM_EVERY) == 0 {
            return self.with_small_sum(is_point, reference, room);
        }
        let written = any_written(&mut self.rng);
        let front = front_written(&mut self.rng, map, written);
        let outcome = self.read(is_point, map, front, reference, room)?;
        let answer = match &outcome {
            Ok(_) => 0,
            Err(refusal) if is_of_map(*refusal) => 1,
            Err(Refusal::OtherMap) => 2,
            Err(_) => 3,
        };
        self.counts.written[written as usize][answer] += 1;
        let is_told_right = match written {
            Written::ForTheMap => answer != 2,
            Written::ForOneOtherByte | Written::ForSumPastModulus => matches!(answer, 1 | 2),
            _ => true,
        };
        match is_told_right {
            true => Ok(()),
            false => Err(format!("{outcome:?} to a front {written:?} on {map:02X?}")),
        }
    }

    /// The box has another map than the office. One that differs in one byte is always told apart.
    fn on_another(
        &mut self,
        is_point: bool,
        map: &[u8],
        reference: &[u8],
        room: usize,
    ) -> Result<(), String> {
        let rng = &mut self.rng;
        let (counts, other) = match rng.below(2) {
            0 => (
                &mut self.counts.one_other_byte,
                with_one_other_byte(rng, map),
            ),
            _ => (
                &mut self.counts.one_of_that_length,
                of_that_length(rng, map),
            ),
        };
        if other == map {
            return Ok(());
        }
        match DepotMap::check(&other) {
            Err(_) => counts[0] += 1,
            Ok(()) => counts[1] += 1,
        }
        let is_told_apart = match self.read(is_point, &other, front_of(map), reference, room)? {
            Ok(_) => false,
            Err(refusal) => is_of_map(refusal) || refusal == Refusal::OtherMap,
        };
        match is_told_apart {
            true => Ok(()),
            false => Err(format!(
                "maps not told apart:\n{map:02X?}\n{other:02X?}\nreference {reference:02X?}"
            )),
        }
    }

    /// A sum with the modulus added to it is another sum.
    fn with_small_sum(
        &mut self,
        is_point: bool,
        reference: &[u8],
        room: usize,
    ) -> Result<(), String> {
        let map = map_with_small_sum(&mut self.rng);
        let front = front_past_modulus(&map);
        match self.read(is_point, &map, front, reference, room)? {
            Err(Refusal::OtherMap) => {
                self.counts.modulus_added += 1;
                Ok(())
            }
            outcome => Err(format!("{outcome:?} to the modulus added on {map:02X?}")),
        }
    }

    /// With the reference behind the front, in the message or not, or elsewhere.
    fn read(
        &mut self,
        is_point: bool,
        map: &[u8],
        front: Vec<u8>,
        reference: &[u8],
        room: usize,
    ) -> Result<Outcome<usize>, String> {
        let rng = &mut self.rng;
        let mut lent = front;
        let front_len = lent.len();
        let (place, message_len) = match rng.below(3) {
            0 => {
                if rng.below(2) == 0 {
                    push_number(&mut lent, 3);
                    lent.extend(random_bytes(rng, &[3]));
                }
                push_number(&mut lent, reference.len() as u32);
                let from = lent.len();
                lent.extend(reference);
                lent.extend(random_bytes(rng, &[0, 1, 7]));
                let message_len = *rng.pick(&[front_len, lent.len(), lent.len()]);
                (Place::Within(from..from + reference.len()), message_len)
            }
            1 => {
                lent.extend(random_bytes(rng, &[1, 20, 20_000]));
                (Place::Beside(reference), lent.len())
            }
            _ => (Place::Beside(reference), front_len),
        };
        let call = ReadOfMessageCall {
            is_point,
            map,
            lent: &lent,
            message_len,
            reference: place,
            room,
        };
        self.compare(&call)
    }

    pub fn compare(&mut self, call: &ReadOfMessageCall) -> Result<Outcome<usize>, String> {
        self.calls += 1;
        let compared = call.compare();
        let outcome = compared.map_err(|difference| format!("{call}\n{difference}"))?;
        count(&mut self.answers, &outcome);
        self.counts.count(call, &outcome);
        Ok(outcome)
    }

    /// Prints how many calls had each answer. Each that there is must have been given.
    pub fn report(&self, name: &str, of_reader: &[usize]) -> Result<(), String> {
        let refusals = [of_reader, &[30]].concat();
        print_answers(
            &format!("{name} out of a message"),
            &self.answers,
            &refusals,
        )?;
        self.counts.report(name)
    }
}

fn is_of_map(refusal: Refusal) -> bool {
    matches!(refusal.number(), 2..=6 | 23 | 24)
}

impl OfMessageCounts {
    fn count(&mut self, call: &ReadOfMessageCall, outcome: &Outcome<usize>) {
        let place = match &call.reference {
            Place::Within(part) if part.end <= call.message_len => 0,
            Place::Within(_) => 1,
            Place::Beside(_) => 2,
        };
        self.places[place] += 1;
        match outcome {
            Err(refusal) if is_of_map(*refusal) => {
                let is_for_map = call.message().starts_with(&front_of(call.map));
                self.map_refused[usize::from(!is_for_map)] += 1;
            }
            Err(Refusal::OtherMap) => {
                self.count_other_map(call);
                self.before_the_reference[usize::from(!is_read_by_itself(call))] += 1;
            }
            _ => {}
        }
    }

    fn count_other_map(&mut self, call: &ReadOfMessageCall) {
        let listed = list(call.message());
        let [count, sum] = match (listed.front, listed.stop) {
            (Some(front), _) => front,
            (None, Stop::Front(FrontFault::EndInCount)) if call.message_len == 0 => {
                self.no_bytes += 1;
                return;
            }
            (None, Stop::Front(fault)) => {
                self.faults[fault as usize] += 1;
                return;
            }
            (None, _) => return,
        };
        let differ = (
            count as usize != call.map.len(),
            sum != sum_of(call.map),
            sum >= MODULUS,
        );
        match differ {
            (true, false, _) => self.other_numbers[0] += 1,
            (false, true, false) => self.other_numbers[1] += 1,
            (true, true, false) => self.other_numbers[2] += 1,
            (_, true, true) => self.other_numbers[3] += 1,
            (false, false, _) => {}
        }
    }

    fn report(&self, name: &str) -> Result<(), String> {
        let written = |written: Written| self.written[written as usize];
        let [accepted, refused, _, other] = written(Written::ForTheMap);
        let others = WRITTEN.map(|of| {
            let [_, refused, other_map, _] = written(of);
            (format!("{of:?}"), [refused, other_map])
        });
        let others = others.each_ref().map(|(of, counts)| (of.as_str(), *counts));
        let title = format!("{name} out of a message for the map: accepted, 2 to 24, 12 to 22");
        print_rows(&title, &[("with its front", [accepted, refused, other])])?;
        let title = format!("{name} out of a message: 2 to 24, 30, by what its front is");
        print_rows(&title, &others[1..])?;
        let boxes = [
            ("one other byte", self.one_other_byte),
            ("the lines in another order", self.one_of_that_length),
        ];
        let title = format!("{name} out of a message for another map: 2 to 24, 30");
        print_rows(&title, &boxes)?;
        let [count_alone, sum_alone, both, no_sum] = self.other_numbers;
        let reasons = [
            ("the count alone", [count_alone]),
            ("the sum alone", [sum_alone]),
            ("both", [both]),
            ("a sum that no map has", [no_sum]),
            ("the modulus added to the sum", [self.modulus_added]),
            ("no bytes", [self.no_bytes]),
        ];
        print_rows(&format!("{name} refused with 30 for"), &reasons)?;
        let faults =
            FRONT_FAULTS.map(|fault| (format!("{fault:?}"), [self.faults[fault as usize]]));
        let faults = faults
            .each_ref()
            .map(|(fault, counts)| (fault.as_str(), *counts));
        print_rows(&format!("{name} refused with 30 for a front with"), &faults)?;
        let pairs = [
            (
                "30 of what is read, not read by itself",
                self.before_the_reference,
            ),
            (
                "2 to 24 with a front of the bytes, of others",
                self.map_refused,
            ),
        ];
        print_rows(&format!("{name} out of a message, refused first"), &pairs)?;
        let places = [("in the message, behind it, beside it", self.places)];
        print_rows(&format!("{name} out of a message, the reference"), &places)
    }
}

fn is_read_by_itself(call: &ReadOfMessageCall) -> bool {
    let (map, reference, room) = (call.map, call.reference(), line_room(call.room));
    match call.is_point {
        true => read_point(map, reference, WORK_AREA, room).is_ok(),
        false => read(map, reference, WORK_AREA, room).is_ok(),
    }
}
