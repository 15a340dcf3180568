//! The calls that are made one after another on a message, as words: `start:MAP`, `open`, `add:BYTES`, `close` and
//! `ask:NUMBER`. A start with a work area that is not of the least length has it before the map: `start:LENGTH:MAP`.

use std::fmt;

use crate::hexadecimal::{bytes, digits};
use crate::message::{reference, Message, Part};
use crate::outcome::{Outcome, WORK_AREA};

#[derive(Clone, Debug, PartialEq, Eq)]
pub enum Call {
    Start {
        work_length: usize,
        map: Vec<u8>,
    },
    Open,
    Add(Vec<u8>),
    Close,
    /// For a reference of what is finished.
    Ask(u32),
}

impl Call {
    pub fn of_word(word: &str) -> Option<Call> {
        match word.split_once(':') {
            None if word == "open" => Some(Call::Open),
            None if word == "close" => Some(Call::Close),
            Some(("start", given)) => Call::start_of_word(given),
            Some(("add", portion)) => Some(Call::Add(bytes(portion)?)),
            Some(("ask", number)) => Some(Call::Ask(number.parse().ok()?)),
            _ => None,
        }
    }

    fn start_of_word(given: &str) -> Option<Call> {
        let (work_length, map) = match given.split_once(':') {
            Some((work_length, map)) => (work_length.parse().ok()?, map),
            None => (WORK_AREA, given),
        };
        Some(Call::Start {
            work_length,
            map: bytes(map)?,
        })
    }

    /// With a work area that is long enough.
    pub fn start(map: &[u8]) -> Call {
        Call::Start {
            work_length: WORK_AREA,
            map: map.to_vec(),
        }
    }

    /// Makes the call on a message in this buffer.
    pub fn make(&self, message: Message, buffer: &mut [u8]) -> Answer {
        match self {
            Call::Start { work_length, map } => {
                Answer::Message(Message::start(map, *work_length, buffer))
            }
            Call::Open => Answer::Message(message.open()),
            Call::Add(portion) => Answer::Message(message.add(buffer, portion)),
            Call::Close => Answer::Message(message.close()),
            Call::Ask(number) => {
                let finished = &buffer[..message.byte_count as usize];
                Answer::Part(reference(finished, *number))
            }
        }
    }
}

/// What a call answers: the message after it or a refusal, or the part asked for.
#[derive(Clone, Copy, Debug, PartialEq, Eq)]
pub enum Answer {
    Message(Outcome<Message>),
    Part(Part),
}

impl fmt::Display for Call {
    fn fmt(&self, out: &mut fmt::Formatter<'_>) -> fmt::Result {
        match self {
            Call::Start {
                work_length: WORK_AREA,
                map,
            } => write!(out, "start:{}", digits(map)),
            Call::Start { work_length, map } => write!(out, "start:{work_length}:{}", digits(map)),
            Call::Open => write!(out, "open"),
            Call::Add(portion) => write!(out, "add:{}", digits(portion)),
            Call::Close => write!(out, "close"),
            Call::Ask(number) => write!(out, "ask:{number}"),
        }
    }
}

/// What a buffer holds before the first call. Bytes next to each other differ.
pub fn bytes_before(room: usize) -> Vec<u8> {
    (0..room).map(|place| (place % 251) as u8).collect()
}
