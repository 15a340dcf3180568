//! The calls for messages: histories of one message after another, received messages, states that no history
//! made, and messages of what the writers wrote.

use plain::fields::POINT_STATUS_BYTE;
use plain::maps::Xorshift;
use plain::message::{Part, LONGEST_MESSAGE};
use plain::message_calls::{Answer, Call};
use plain::message_list::list;

use crate::calls::ReadCall;
use crate::counts::print_rows;
use crate::fronts::front_of;
use crate::inputs::random_bytes;
use crate::message_calls::{History, ReceivedCall};
use crate::message_counts::{Before, MessageCounts};
use crate::message_inputs::{
    any_call, any_large_room, any_made_up, any_maps, any_number, any_received, any_room,
    any_tight_maps, any_tight_room, portions, quick_portion,
};
use crate::of_message_calls::{Place, ReadOfMessageCall};
use crate::point_calls::ReadPointCall;
use crate::run::ENOUGH_FOR_LINES;

/// One in so many turns has a message of about 16,384 bytes.
const LARGE_EVERY: u64 = 60;

#[derive(Default)]
pub struct MessageRun {
    pub calls: u64,
    counts: MessageCounts,
    /// References of stretches and of points that were read where they stand in a message, by themselves and out of
    /// it.
    read_within: [u64; 2],
    read_of_message: [u64; 2],
}

impl MessageRun {
    pub fn turn(&mut self, rng: &mut Xorshift, turn: u64) -> Result<(), String> {
        match turn % LARGE_EVERY {
            0 => self.large_history(rng)?,
            place if place % 4 == 1 => self.small_history(rng)?,
            _ => {}
        }
        self.received(rng)?;
        self.made_up(rng)
    }

    fn small_history(&mut self, rng: &mut Xorshift) -> Result<(), String> {
        if rng.below(4) == 0 {
            return self.tight_history(rng);
        }
        let maps = any_maps(rng);
        // So long behind a front.
        let front = front_of(rng.pick::<Vec<u8>>(&maps)).len();
        let room = front + any_room(rng);
        self.any_calls(rng, &mut History::new(room), &maps, 20)
    }

    /// In a buffer about as long as a front. Most of them have a short front, and what fits behind it, before a start
    /// with a long one.
    fn tight_history(&mut self, rng: &mut Xorshift) -> Result<(), String> {
        let (room, maps) = (any_tight_room(rng), any_tight_maps(rng));
        let mut history = History::new(room);
        let [short, long] = [&maps[0], &maps[1]].map(|map| Call::start(map));
        let calls = [short, Call::Open, Call::Add(vec![0xAA]), Call::Close];
        for call in &calls[..rng.below(5) as usize] {
            if history.is_started() || *call == calls[0] {
                let _ = self.make(&mut history, call.clone())?;
            }
        }
        let _ = self.make(&mut history, long)?;
        self.any_calls(rng, &mut history, &maps, 12)
    }

    /// References of about 459 bytes until the message is nearly full, and then any calls.
    fn large_history(&mut self, rng: &mut Xorshift) -> Result<(), String> {
        let mut history = History::new(any_large_room(rng));
        let mut maps = any_maps(rng);
        while !history.is_started() {
            let map: &Vec<u8> = rng.pick(&maps);
            let _ = self.make(&mut history, Call::start(map))?;
            maps = any_maps(rng);
        }
        while let Some(portion) = quick_portion(rng, &history) {
            self.put(&mut history, [portion])?;
        }
        // Another start would begin anew.
        maps.truncate(rng.below(2) as usize);
        self.any_calls(rng, &mut history, &maps, 40)
    }

    fn any_calls(
        &mut self,
        rng: &mut Xorshift,
        history: &mut History,
        maps: &[Vec<u8>],
        count: u32,
    ) -> Result<(), String> {
        for _ in 0..count {
            let call = any_call(rng, history, maps);
            let _ = self.make(history, call)?;
        }
        Ok(())
    }

    /// Puts a reference of these portions behind the last.
    fn put(
        &mut self,
        history: &mut History,
        portions: impl IntoIterator<Item = Vec<u8>>,
    ) -> Result<(), String> {
        let _ = self.make(history, Call::Open)?;
        for portion in portions {
            let _ = self.make(history, Call::Add(portion))?;
        }
        self.make(history, Call::Close).map(drop)
    }

    fn make(&mut self, history: &mut History, call: Call) -> Result<Answer, String> {
        self.calls += 1;
        let before = Before {
            room: history.room(),
            message: history.message(),
            map: history.map().map(<[u8]>::to_vec),
            references: history.references(),
        };
        let made = history.make(call.clone());
        let answer = made.map_err(|difference| format!("{history}\n{difference}"))?;
        self.counts.count(&before, &call, answer);
        Ok(answer)
    }

    fn received(&mut self, rng: &mut Xorshift) -> Result<(), String> {
        let message = &any_received(rng);
        let list = list(message);
        let number = any_number(rng, list.parts.len() as u32);
        let call = ReceivedCall { message, number };
        self.calls += 1;
        let compared = call.compare();
        let part = compared.map_err(|difference| format!("{call}\n{difference}"))?;
        self.counts.count_received(&list, number, part);
        Ok(())
    }

    fn made_up(&mut self, rng: &mut Xorshift) -> Result<(), String> {
        let call = any_made_up(rng);
        self.calls += 1;
        self.counts.count_made_up(&call);
        let checked = call.check();
        checked.map_err(|difference| format!("{call}\n{difference}"))
    }

    /// What was written on a map, in one message for it with other bytes between, is there and is read there as by
    /// itself.
    pub fn written(
        &mut self,
        rng: &mut Xorshift,
        map: &[u8],
        mut references: Vec<Vec<u8>>,
    ) -> Result<(), String> {
        rng.shuffle(&mut references);
        let mut history = History::new(LONGEST_MESSAGE);
        let _ = self.make(&mut history, Call::start(map))?;
        let mut numbers = Vec::new();
        for reference in &references {
            if rng.below(4) == 0 {
                let length = rng.within(1, 200);
                let other = random_bytes(rng, &[length]);
                self.put(&mut history, [other])?;
            }
            numbers.push(history.references());
            self.put(&mut history, portions(rng, reference))?;
        }
        for (number, reference) in numbers.into_iter().zip(&references) {
            let answer = self.make(&mut history, Call::Ask(number))?;
            let read = self.read_within(&mut history, answer, map, reference);
            read.map_err(|difference| format!("{history}\n{difference}"))?;
        }
        Ok(())
    }

    /// The part asked for has the reference's bytes, and is read there.
    fn read_within(
        &mut self,
        history: &mut History,
        answer: Answer,
        map: &[u8],
        reference: &[u8],
    ) -> Result<(), String> {
        self.calls += 1;
        self.read_within[usize::from(is_point(reference))] += 1;
        let message = history.bytes();
        match answer {
            Answer::Part(Part { from, byte_count })
                if message[from as usize..][..byte_count as usize] == *reference =>
            {
                compare_within(map, reference, message, from as usize)?;
                self.calls += 1;
                self.read_of_message[usize::from(is_point(reference))] += 1;
                compare_of_message(map, reference, history, from as usize)
            }
            _ => Err(format!("{answer:?} is not {reference:02X?}")),
        }
    }

    /// Prints how many calls had what. Nothing must be missing.
    pub fn report(&self) -> Result<(), String> {
        println!("messages: {} calls", self.calls);
        self.counts.report()?;
        let read = [
            ("as by themselves", self.read_within),
            ("out of the message", self.read_of_message),
        ];
        print_rows("messages with stretches and points, read there", &read)
    }
}

fn is_point(reference: &[u8]) -> bool {
    reference[0] == POINT_STATUS_BYTE
}

/// The C reader, given the part and the message, accepts what was written.
fn compare_of_message(
    map: &[u8],
    reference: &[u8],
    history: &mut History,
    from: usize,
) -> Result<(), String> {
    let message_len = history.message().byte_count as usize;
    let call = ReadOfMessageCall {
        is_point: is_point(reference),
        map,
        lent: history.bytes(),
        message_len,
        reference: Place::Within(from..from + reference.len()),
        room: ENOUGH_FOR_LINES,
    };
    match call.compare() {
        Ok(Ok(_)) => Ok(()),
        Ok(Err(refusal)) => Err(format!("{call}\n{refusal} of what was written")),
        Err(difference) => Err(format!("{call}\n{difference}")),
    }
}

/// The C reader, given the part as it stands in the message, answers what the plain one answers to the
/// reference by itself.
fn compare_within(map: &[u8], reference: &[u8], message: &[u8], from: usize) -> Result<(), String> {
    let room = ENOUGH_FOR_LINES;
    if is_point(reference) {
        let call = ReadPointCall {
            map,
            reference,
            room,
        };
        let compared = call.compare_within(message, from).map(drop);
        return compared.map_err(|difference| format!("{call}\n{difference}"));
    }
    let call = ReadCall {
        map,
        reference,
        room,
    };
    let compared = call.compare_within(message, from).map(drop);
    compared.map_err(|difference| format!("{call}\n{difference}"))
}
