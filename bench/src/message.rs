//! Messages: in a lent buffer a front that tells of the map, and behind it references one after another, each behind
//! its length ("Many stretches in one message", "The wrong map").

use crate::depot_map::DepotMap;
use crate::fields::LONGEST_REFERENCE;
use crate::front::{front_length, Front};
use crate::outcome::{check_work_area, Outcome, Refusal};

/// Of a longer buffer, or of a longer message that was received, no more bytes are used.
pub const LONGEST_MESSAGE: usize = 16_384;

/// From here on a length takes two bytes.
const TWO_BYTE_LENGTH: usize = 128;

/// What is known of a message beside its buffer. The default is one that is not started yet.
#[derive(Clone, Copy, Debug, Default, PartialEq, Eq)]
pub struct Message {
    /// How many bytes the front and the finished references have, lengths counted. They are the first of
    /// the buffer.
    pub byte_count: u32,
    /// How many bytes the open reference has so far, if one is open.
    pub added: Option<u32>,
}

impl Message {
    /// Starts a message for a map: refusals 1 to 6, 23, 24, and 28.
    #[inline]
    pub fn start(map_bytes: &[u8], work_length: usize, buffer: &mut [u8]) -> Outcome<Message> {
        check_work_area(work_length)?;
        DepotMap::check(map_bytes)?;
        let front = Front::of_map(map_bytes);
        let front = front.bytes();
        let place = buffer.get_mut(..front.len());
        place.ok_or(Refusal::MessageFull)?.copy_from_slice(front);
        Ok(Message {
            byte_count: front.len() as u32,
            added: None,
        })
    }

    /// Opens a reference: refusal 27.
    #[inline]
    pub fn open(self) -> Outcome<Message> {
        if self.added.is_some() {
            return Err(Refusal::MessageOrder);
        }
        Ok(Message {
            added: Some(0),
            ..self
        })
    }

    /// Adds a portion to the open reference: refusals 27 and 28. The length stands in its shortest form,
    /// and so the bytes already there move by one where it becomes a number of two bytes.
    #[inline]
    pub fn add(self, buffer: &mut [u8], portion: &[u8]) -> Outcome<Message> {
        let added = self.added.ok_or(Refusal::MessageOrder)? as usize;
        if portion.is_empty() {
            return Ok(self);
        }
        let length = added + portion.len();
        let start = self.byte_count as usize;
        let end = start + bytes_of_length(length) + length;
        if length > LONGEST_REFERENCE || end > usable(buffer.len()) {
            return Err(Refusal::MessageFull);
        }
        let open = &mut buffer[start..end];
        if added < TWO_BYTE_LENGTH && length >= TWO_BYTE_LENGTH {
            open.copy_within(1..1 + added, 2);
        }
        let at = open.len() - portion.len();
        open[at..].copy_from_slice(portion);
        put_length(open, length);
        Ok(Message {
            added: Some(length as u32),
            ..self
        })
    }

    /// Closes the open reference: refusal 27.
    #[inline]
    pub fn close(self) -> Outcome<Message> {
        match self.added {
            None | Some(0) => Err(Refusal::MessageOrder),
            Some(added) => Ok(Message {
                byte_count: self.byte_count + bytes_of_length(added as usize) as u32 + added,
                added: None,
            }),
        }
    }
}

/// How many bytes of a buffer or of a received message are used.
#[inline]
pub fn usable(byte_count: usize) -> usize {
    byte_count.min(LONGEST_MESSAGE)
}

/// How many bytes the number has that says the length of a reference.
#[inline]
pub fn bytes_of_length(length: usize) -> usize {
    1 + usize::from(length >= TWO_BYTE_LENGTH)
}

#[inline]
fn put_length(open: &mut [u8], length: usize) {
    if length < TWO_BYTE_LENGTH {
        open[0] = length as u8;
    } else {
        open[0] = length as u8 | 0x80;
        open[1] = (length >> 7) as u8;
    }
}

/// Where a reference stands in a message, without its length. `struct openlr_part` of include/openlr.h.
#[repr(C)]
#[derive(Clone, Copy, Debug, PartialEq, Eq)]
pub struct Part {
    pub from: u32,
    /// 0 where there is no such reference: then the list stops at `from`.
    pub byte_count: u32,
}

/// Asks for a reference of a message that was received, or of the finished bytes of one that is being
/// written. They count from 0. Where the front cannot be read there is none.
#[inline]
pub fn reference(message: &[u8], number: u32) -> Part {
    let message = &message[..usable(message.len())];
    let Some(mut stop) = front_length(message) else {
        return Part {
            from: 0,
            byte_count: 0,
        };
    };
    for _ in 0..number {
        match part_at(message, stop) {
            Some(part) => stop = (part.from + part.byte_count) as usize,
            None => break,
        }
    }
    part_at(message, stop).unwrap_or(Part {
        from: stop as u32,
        byte_count: 0,
    })
}

/// The reference whose length stands at this place, if the list goes on there. A length of more than two
/// bytes is over 459 or faulty.
#[inline]
fn part_at(message: &[u8], at: usize) -> Option<Part> {
    let (from, byte_count) = match message[at..] {
        [length @ 1..=0x7F, ..] => (at + 1, usize::from(length)),
        [low @ 0x80..=0xFF, high @ 1..=3, ..] => {
            (at + 2, usize::from(high) << 7 | usize::from(low & 0x7F))
        }
        _ => return None,
    };
    if byte_count > LONGEST_REFERENCE || byte_count > message.len() - from {
        return None;
    }
    Some(Part {
        from: from as u32,
        byte_count: byte_count as u32,
    })
}

/// A message as C has it: `struct openlr_message` of include/openlr.h.
#[repr(C)]
#[derive(Clone, Copy, Debug, Default, PartialEq, Eq)]
pub struct State {
    pub refusal: u32,
    pub byte_count: u32,
    /// Any number but 0 says that a reference is open.
    pub open: u32,
    pub added: u32,
}

impl State {
    #[inline]
    pub fn message(self) -> Message {
        Message {
            byte_count: self.byte_count,
            added: (self.open != 0).then_some(self.added),
        }
    }

    /// What a call answers that was given this state. A start is given none: for it this is the default.
    #[inline]
    pub fn answered(self, outcome: Outcome<Message>) -> State {
        match outcome {
            Ok(message) => State {
                refusal: 0,
                byte_count: message.byte_count,
                open: u32::from(message.added.is_some()),
                added: message.added.unwrap_or(0),
            },
            Err(refusal) => State {
                refusal: refusal.number(),
                ..self
            },
        }
    }
}
