//! Calls of the C functions for messages, and what the plain Rust says that they give: histories of one
//! message, received messages, and calls with a state that no history made.

use std::fmt;

use plain::hexadecimal::{bytes, digits};
use plain::message::{self, Message, Part, State};
use plain::message_calls::{bytes_before, Answer, Call};

use crate::calls::check_answer;
use crate::memory::Lent;
use crate::message_functions::{self, given_beside, MessageAnswer};

/// Each says that a reference is open.
const OPEN_NUMBERS: [u32; 5] = [1, 2, 1, u32::MAX, 1 << 31];

/// A buffer from the first call on: what the C functions made of it, and beside it plain Rust. Calls but starts are
/// made once a message is started.
pub struct History {
    calls: Vec<Call>,
    /// That of the last start which was not refused.
    map: Option<Vec<u8>>,
    returned: State,
    buffer: Lent,
    message: Message,
    expected: Lent,
    references: u32,
}

impl History {
    pub fn new(room: usize) -> History {
        let buffer = Lent::of(&bytes_before(room));
        History {
            calls: Vec::new(),
            map: None,
            returned: State::default(),
            expected: buffer.clone(),
            buffer,
            message: Message::default(),
            references: 0,
        }
    }

    pub fn room(&self) -> usize {
        self.buffer.len()
    }

    pub fn message(&self) -> Message {
        self.message
    }

    pub fn is_started(&self) -> bool {
        self.map.is_some()
    }

    /// That the message is for.
    pub fn map(&self) -> Option<&[u8]> {
        self.map.as_deref()
    }

    /// How many are finished.
    pub fn references(&self) -> u32 {
        self.references
    }

    /// All of the buffer, as both have it.
    pub fn bytes(&mut self) -> &[u8] {
        self.expected.bytes_mut()
    }

    /// The answer that both agree on, or how they differ.
    pub fn make(&mut self, call: Call) -> Result<Answer, String> {
        // A start is given no message.
        let given = match call {
            Call::Start { .. } => State::default(),
            _ => self.given(),
        };
        let answer = call.make(self.message, self.expected.bytes_mut());
        let expected = match answer {
            Answer::Message(outcome) => MessageAnswer::State(given.answered(outcome)),
            Answer::Part(part) => MessageAnswer::Part(part),
        };
        let mut beside = given_beside(&call);
        let beside_before = beside.clone();
        let found = message_functions::make(&call, given, &mut self.buffer, &mut beside);
        self.calls.push(call.clone());
        check_answer(found, expected)?;
        beside.check("map or portion", &beside_before)?;
        self.buffer.check("buffer", &self.expected)?;
        self.go_on(call, answer, found);
        Ok(answer)
    }

    /// With what the call answered, but for a start that was refused: then with what there was before.
    fn go_on(&mut self, call: Call, answer: Answer, found: MessageAnswer) {
        let is_accepted = matches!(answer, Answer::Message(Ok(_)));
        match (found, &call) {
            (MessageAnswer::State(_), Call::Start { .. }) if !is_accepted => {}
            (MessageAnswer::State(state), _) => self.returned = state,
            (MessageAnswer::Part(_), _) => {}
        }
        if let Answer::Message(Ok(message)) = answer {
            self.message = message;
        }
        match call {
            Call::Start { map, .. } if is_accepted => {
                self.map = Some(map);
                self.references = 0;
            }
            Call::Close if is_accepted => self.references += 1,
            _ => {}
        }
    }

    /// What is handed to the next call: what the last one returned, but for the number that says that one is
    /// open. It follows from how many calls were made.
    fn given(&self) -> State {
        let open = match self.returned.open {
            0 => 0,
            _ => OPEN_NUMBERS[self.calls.len() % OPEN_NUMBERS.len()],
        };
        State {
            open,
            ..self.returned
        }
    }

    /// Of a row as it is displayed.
    pub fn compare_row(row: &str) -> Option<Result<(), String>> {
        let mut words = row.strip_prefix("message ")?.split_ascii_whitespace();
        let mut history = History::new(words.next()?.parse().ok()?);
        let calls: Option<Vec<Call>> = words.map(Call::of_word).collect();
        let compared = calls?
            .into_iter()
            .try_for_each(|call| history.make(call).map(drop));
        Some(compared)
    }
}

/// As tests/answer.c takes it, and `differential replay`.
impl fmt::Display for History {
    fn fmt(&self, out: &mut fmt::Formatter<'_>) -> fmt::Result {
        write!(out, "message {}", self.room())?;
        self.calls
            .iter()
            .try_for_each(|call| write!(out, " {call}"))
    }
}

/// A reference asked for of a received message.
#[derive(Clone, Copy)]
pub struct ReceivedCall<'a> {
    pub message: &'a [u8],
    pub number: u32,
}

impl ReceivedCall<'_> {
    /// The part that both agree on, or how they differ.
    pub fn compare(&self) -> Result<Part, String> {
        let part = message::reference(self.message, self.number);
        let mut lent = Lent::of(self.message);
        let before = lent.clone();
        let byte_count = lent.len();
        let found = message_functions::reference(&mut lent, byte_count, self.number);
        check_answer(found, part)?;
        lent.check("message", &before)?;
        Ok(part)
    }

    /// Of a row as it is displayed.
    pub fn compare_row(row: &str) -> Option<Result<(), String>> {
        let mut words = row.strip_prefix("received ")?.split_ascii_whitespace();
        let message = bytes(words.next()?)?;
        let call = ReceivedCall {
            message: &message,
            number: words.next()?.parse().ok()?,
        };
        Some(call.compare().map(drop))
    }
}

impl fmt::Display for ReceivedCall<'_> {
    fn fmt(&self, out: &mut fmt::Formatter<'_>) -> fmt::Result {
        write!(out, "received {} {}", digits(self.message), self.number)
    }
}

/// A call that is given a message and changes it, with a state of any numbers.
pub struct MadeUpCall {
    pub room: usize,
    pub state: State,
    pub call: Call,
}

impl MadeUpCall {
    /// Whatever it answers: it returns, writes in the buffer alone, and leaves the finished bytes that the state
    /// speaks of.
    pub fn check(&self) -> Result<(), String> {
        let mut buffer = Lent::of(&bytes_before(self.room));
        let mut expected = buffer.clone();
        let mut portion = given_beside(&self.call);
        let portion_before = portion.clone();
        message_functions::make(&self.call, self.state, &mut buffer, &mut portion);
        let kept = self.room.min(self.state.byte_count as usize);
        expected.bytes_mut()[kept..].copy_from_slice(&buffer.bytes_mut()[kept..]);
        portion.check("portion", &portion_before)?;
        buffer.check("buffer", &expected)
    }

    /// Of a row as it is displayed.
    pub fn compare_row(row: &str) -> Option<Result<(), String>> {
        let mut words = row.strip_prefix("made_up ")?.split_ascii_whitespace();
        let mut number = || words.next()?.parse().ok();
        let room = number()? as usize;
        let state = State {
            refusal: number()?,
            byte_count: number()?,
            open: number()?,
            added: number()?,
        };
        let call = Call::of_word(words.next()?)?;
        let changes = !matches!(call, Call::Start { .. } | Call::Ask(_));
        changes.then(|| MadeUpCall { room, state, call }.check())
    }
}

/// As `differential replay` takes it.
impl fmt::Display for MadeUpCall {
    fn fmt(&self, out: &mut fmt::Formatter<'_>) -> fmt::Result {
        let State {
            refusal,
            byte_count,
            open,
            added,
        } = self.state;
        let (room, call) = (self.room, &self.call);
        write!(
            out,
            "made_up {room} {refusal} {byte_count} {open} {added} {call}"
        )
    }
}
