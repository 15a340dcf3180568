//! How many calls on messages had what: each call in each state of a message, the edges of lengths, buffers
//! and messages, starts of each kind, and each reason why a list stops.

use plain::fields::LONGEST_REFERENCE;
use plain::message::{bytes_of_length, usable, Message, Part, LONGEST_MESSAGE};
use plain::message_calls::{Answer, Call};
use plain::message_list::{List, Stop, FRONT_FAULTS, STOPS};
use plain::outcome::{Outcome, Refusal};

use crate::counts::{count, print_answers, print_rows, Answers};
use crate::fronts::front_of;
use crate::message_calls::MadeUpCall;

/// What a start is refused with.
const OF_START: [usize; 8] = [2, 3, 4, 5, 24, 6, 23, 28];

/// With none open, with one to which nothing was added, and with one that has bytes.
type States = [u64; 3];

fn state_of(message: Message) -> usize {
    match message.added {
        None => 0,
        Some(0) => 1,
        Some(_) => 2,
    }
}

/// A message and its buffer before a call.
#[derive(Clone)]
pub struct Before {
    pub room: usize,
    pub message: Message,
    /// That it is for, if one is started.
    pub map: Option<Vec<u8>>,
    /// How many are finished.
    pub references: u32,
}

impl Before {
    /// How many bytes the message would have if the open reference had so many.
    fn end_with(&self, length: usize) -> usize {
        self.message.byte_count as usize + bytes_of_length(length) + length
    }

    /// Whether not even one byte more would be accepted for want of room.
    fn is_full(&self) -> bool {
        let added = self.message.added.unwrap_or(0) as usize;
        self.end_with(added + 1) > usable(self.room)
    }
}

#[derive(Default)]
pub struct MessageCounts {
    starts: StartCounts,
    opened: States,
    closed: States,
    added: States,
    added_nothing: States,
    /// Refusal 28, by the state, for the buffer alone, for 16,384 alone and for 459 alone.
    full: [[u64; 3]; 3],
    /// Additions of no bytes where there is room for none.
    nothing_to_full: States,
    /// Additions to a length of 127, 128 and 129.
    lengths: [u64; 3],
    /// Additions to 128 or more: of one byte to 127, of others to bytes that move, and at once.
    over_127: [u64; 3],
    /// Refusal 28 of one byte to 127, for which there is room but for the longer length.
    longer_length: u64,
    /// Messages of 16,383 bytes, of 16,384, and refusal 28 at 16,385 in a buffer that is longer.
    longest: [u64; 3],
    /// By the state: for a finished reference, for the next after these, and for a later one.
    asked: [[u64; 3]; 3],
    /// By why the list stops: for a reference of it, and for one behind it.
    received: [[u64; 2]; STOPS.len()],
    /// By why the front cannot be read: for the first reference, and for another.
    no_front: [[u64; 2]; FRONT_FAULTS.len()],
    made_up: MadeUp,
}

#[derive(Default)]
struct StartCounts {
    answers: Answers,
    /// Where none is started, and by the state of one that is: accepted, a refusal of the map, and 28.
    states: [[u64; 3]; 4],
    /// Accepted again for the map that it was for, for another of the same length, and for one of another.
    again: [u64; 3],
    /// In a buffer that lacks one byte, that is just long enough, and that has one byte more.
    edges: [u64; 3],
    /// Fronts of 2 bytes, of 6, of 7, and of 8.
    lengths: [u64; 4],
}

impl StartCounts {
    fn count(&mut self, before: &Before, map: &[u8], outcome: &Outcome<Message>) {
        count(&mut self.answers, outcome);
        let state = match before.map {
            None => 0,
            Some(_) => 1 + state_of(before.message),
        };
        let front = front_of(map).len();
        match outcome {
            Ok(_) => {
                self.states[state][0] += 1;
                self.count_again(before, map);
                let place = [2, 6, 7, 8].iter().position(|&length| length == front);
                if let Some(place) = place {
                    self.lengths[place] += 1;
                }
            }
            Err(Refusal::MessageFull) => self.states[state][2] += 1,
            Err(_) => {
                self.states[state][1] += 1;
                return;
            }
        }
        if let Some(edge @ 0..=2) = (before.room + 1).checked_sub(front) {
            self.edges[edge] += 1;
        }
    }

    fn count_again(&mut self, before: &Before, map: &[u8]) {
        match &before.map {
            None => {}
            Some(same) if same == map => self.again[0] += 1,
            Some(other) if other.len() == map.len() => self.again[1] += 1,
            Some(_) => self.again[2] += 1,
        }
    }

    fn report(&self) -> Result<(), String> {
        print_answers("start", &self.answers, &OF_START)?;
        let states = [
            ("none started", self.states[0]),
            ("none open", self.states[1]),
            ("nothing added", self.states[2]),
            ("with bytes", self.states[3]),
        ];
        print_rows("messages started: accepted, 2 to 24, 28", &states)?;
        let [same, same_length, other] = self.again;
        let [lacks_one, just, one_more] = self.edges;
        let [two, six, seven, eight] = self.lengths;
        let others = [
            ("again for the same map", [same]),
            ("again for another map of its length", [same_length]),
            ("again for a map of another length", [other]),
            ("in a buffer that lacks one byte", [lacks_one]),
            ("in one that is just long enough", [just]),
            ("in one that has a byte more", [one_more]),
            ("front of 2 bytes", [two]),
            ("front of 6 bytes", [six]),
            ("front of 7 bytes", [seven]),
            ("front of 8 bytes", [eight]),
        ];
        print_rows("messages started, at the edges", &others)
    }
}

/// By the call: opening, adding and closing.
#[derive(Default)]
struct MadeUp {
    past_the_buffer: [u64; 3],
    over_459: [u64; 3],
    other_numbers_for_open: [u64; 3],
    inside: [u64; 3],
}

impl MessageCounts {
    pub fn count(&mut self, before: &Before, call: &Call, answer: Answer) {
        let state = state_of(before.message);
        match (call, answer) {
            (Call::Start { map, .. }, Answer::Message(outcome)) => {
                self.starts.count(before, map, &outcome);
            }
            (Call::Start { .. }, Answer::Part(_)) => {}
            (Call::Open, _) => self.opened[state] += 1,
            (Call::Close, _) => self.closed[state] += 1,
            (Call::Ask(number), _) => {
                let which = match number.checked_sub(before.references) {
                    None => 0,
                    Some(0) => 1,
                    Some(_) => 2,
                };
                self.asked[state][which] += 1;
            }
            (Call::Add(portion), _) if portion.is_empty() => {
                self.added_nothing[state] += 1;
                self.nothing_to_full[state] += u64::from(before.is_full());
            }
            (Call::Add(portion), Answer::Message(Err(Refusal::MessageFull))) => {
                self.count_full(before, portion.len());
            }
            (Call::Add(portion), _) => {
                self.added[state] += 1;
                if let Some(added) = before.message.added {
                    self.count_added(before, added as usize, portion.len());
                }
            }
        }
    }

    fn count_full(&mut self, before: &Before, portion: usize) {
        let added = before.message.added.unwrap_or(0) as usize;
        let length = added + portion;
        let end = before.end_with(length);
        let reasons = [
            end > before.room,
            end > LONGEST_MESSAGE,
            length > LONGEST_REFERENCE,
        ];
        if let [reason] = all_that_hold(reasons)[..] {
            self.full[state_of(before.message)][reason] += 1;
        }
        let lacks_one = end == before.room + 1 && reasons == [true, false, false];
        self.longer_length += u64::from((added, portion) == (127, 1) && lacks_one);
        let is_over_longest = end == LONGEST_MESSAGE + 1 && reasons == [false, true, false];
        self.longest[2] += u64::from(is_over_longest);
    }

    fn count_added(&mut self, before: &Before, added: usize, portion: usize) {
        let length = added + portion;
        if let 127..=129 = length {
            self.lengths[length - 127] += 1;
        }
        match (added, portion) {
            (127, 1) => self.over_127[0] += 1,
            (1..=127, _) if length > 127 => self.over_127[1] += 1,
            (0, _) if length > 127 => self.over_127[2] += 1,
            _ => {}
        }
        match before.end_with(length) {
            16_383 => self.longest[0] += 1,
            16_384 => self.longest[1] += 1,
            _ => {}
        }
    }

    pub fn count_received(&mut self, list: &List, number: u32, part: Part) {
        let is_behind = usize::from(part.byte_count == 0);
        match list.stop {
            Stop::Front(fault) => self.no_front[fault as usize][usize::from(number != 0)] += 1,
            stop => self.received[place_of(stop)][is_behind] += 1,
        }
    }

    pub fn count_made_up(&mut self, made_up: &MadeUpCall) {
        let MadeUpCall { room, state, call } = made_up;
        let call = match call {
            Call::Open => 0,
            Call::Add(_) => 1,
            _ => 2,
        };
        let end = u64::from(state.byte_count) + u64::from(state.added);
        let is_past = end > *room as u64;
        let counts = &mut self.made_up;
        counts.past_the_buffer[call] += u64::from(is_past);
        counts.over_459[call] += u64::from(state.added > 459);
        counts.other_numbers_for_open[call] += u64::from(state.open > 1);
        counts.inside[call] += u64::from(!is_past && end > 0);
    }

    /// Prints the counts. Nothing must be missing.
    pub fn report(&self) -> Result<(), String> {
        self.starts.report()?;
        let calls = [
            ("open: accepted, 27, 27", self.opened),
            ("add: 27, accepted, accepted", self.added),
            ("add no bytes: 27, accepted, accepted", self.added_nothing),
            ("close: 27, 27, accepted", self.closed),
        ];
        print_rows(
            "messages with none open, with nothing added, with bytes",
            &calls,
        )?;
        let asked = [
            ("none open", self.asked[0]),
            ("nothing added", self.asked[1]),
            ("with bytes", self.asked[2]),
        ];
        let title = "messages asked for a finished reference, the next, a later one";
        print_rows(title, &asked)?;
        self.report_additions()?;
        let received = STOPS.map(|stop| (format!("{stop:?}"), self.received[place_of(stop)]));
        let received = received
            .each_ref()
            .map(|(stop, counts)| (stop.as_str(), *counts));
        let title = "messages received, a reference of the list and one behind it, by its stop";
        print_rows(title, &received)?;
        let no_front =
            FRONT_FAULTS.map(|fault| (format!("{fault:?}"), self.no_front[fault as usize]));
        let no_front = no_front
            .each_ref()
            .map(|(fault, counts)| (fault.as_str(), *counts));
        let title =
            "messages received with no front, the first reference and another, by its fault";
        print_rows(title, &no_front)?;
        let MadeUp {
            past_the_buffer,
            over_459,
            other_numbers_for_open,
            inside,
        } = self.made_up;
        let made_up = [
            ("past the buffer", past_the_buffer),
            ("over 459 added", over_459),
            ("open is over 1", other_numbers_for_open),
            ("inside the buffer", inside),
        ];
        print_rows("messages made up, open, add, close", &made_up)
    }

    fn report_additions(&self) -> Result<(), String> {
        let full = [
            ("nothing added", self.full[1]),
            ("with bytes", self.full[2]),
        ];
        let title = "messages refused 28, for the buffer, 16,384 and 459 alone";
        print_rows(title, &full)?;
        let [_, nothing, bytes] = self.nothing_to_full;
        let edges = [
            ("no bytes to a full buffer, nothing added", [nothing]),
            ("no bytes to a full buffer, with bytes", [bytes]),
            ("to 127 bytes", [self.lengths[0]]),
            ("to 128 bytes", [self.lengths[1]]),
            ("to 129 bytes", [self.lengths[2]]),
            ("one byte to 127", [self.over_127[0]]),
            ("others that move bytes", [self.over_127[1]]),
            ("128 bytes or more at once", [self.over_127[2]]),
            ("28 for the longer length alone", [self.longer_length]),
            ("to a message of 16,383 bytes", [self.longest[0]]),
            ("to a message of 16,384 bytes", [self.longest[1]]),
            ("28 at 16,385 bytes in a longer buffer", [self.longest[2]]),
        ];
        print_rows("messages added to, at the edges", &edges)
    }
}

/// Among those of lists behind a front.
fn place_of(stop: Stop) -> usize {
    let place = STOPS.iter().position(|&other| other == stop);
    place.expect("the list is behind a front")
}

fn all_that_hold(reasons: [bool; 3]) -> Vec<usize> {
    (0..3).filter(|&reason| reasons[reason]).collect()
}
