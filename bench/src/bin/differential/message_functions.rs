//! Calls of the C functions for messages on lent memory.

use plain::message::{Part, State};
use plain::message_calls::Call;
use plain::openlr::{
    openlr_message_add, openlr_message_close, openlr_message_open, openlr_message_reference,
    openlr_message_start, openlr_read_of_message, openlr_read_point_of_message, PointAnswer,
    ReadingAnswer,
};

use crate::memory::Lent;

/// What a C function answers to a call, given this state: the state after it, or the part asked for.
#[derive(Clone, Copy, Debug, PartialEq, Eq)]
pub enum MessageAnswer {
    State(State),
    Part(Part),
}

/// What a call is given beside the message: the map of a start, or the portion of an addition.
pub fn given_beside(call: &Call) -> Lent {
    match call {
        Call::Start { map: given, .. } | Call::Add(given) => Lent::of(given),
        _ => Lent::of(&[]),
    }
}

/// Makes a call on the message in the buffer, with what it is given beside it. What is asked for is a reference of
/// the first bytes, which must be inside the buffer. A start is not given the state.
pub fn make(call: &Call, state: State, buffer: &mut Lent, beside: &mut Lent) -> MessageAnswer {
    // Each pointer is valid for the length beside it, and the two do not overlap.
    let state = match call {
        Call::Start { .. } => unsafe {
            openlr_message_start(
                beside.as_mut_ptr(),
                beside.len(),
                buffer.as_mut_ptr(),
                buffer.len(),
            )
        },
        Call::Open => unsafe { openlr_message_open(state) },
        Call::Add(_) => unsafe {
            openlr_message_add(
                state,
                buffer.as_mut_ptr(),
                buffer.len(),
                beside.as_mut_ptr(),
                beside.len(),
            )
        },
        Call::Close => unsafe { openlr_message_close(state) },
        Call::Ask(number) => {
            let byte_count = state.byte_count as usize;
            return MessageAnswer::Part(reference(buffer, byte_count, *number));
        }
    };
    MessageAnswer::State(state)
}

/// Asks for a reference of the first bytes of what is lent.
pub fn reference(message: &mut Lent, byte_count: usize, number: u32) -> Part {
    assert!(byte_count <= message.len());
    unsafe { openlr_message_reference(message.as_mut_ptr(), byte_count, number) }
}

/// What a reading out of a message is lent.
#[derive(Clone)]
pub struct ReadingMemory {
    pub map: Lent,
    /// The message with what stands behind it, and how many bytes it has.
    pub message: Lent,
    pub message_len: usize,
    /// The reference, unless it stands in what is lent with the message: then from this byte on, and so many.
    pub reference: Lent,
    pub within: Option<(usize, usize)>,
    pub buffer: Lent,
}

impl ReadingMemory {
    fn reference(&mut self) -> (*const u8, usize) {
        match self.within {
            Some((from, byte_count)) => {
                let reference = &self.message.bytes_mut()[from..from + byte_count];
                (reference.as_ptr(), byte_count)
            }
            None => (self.reference.as_mut_ptr(), self.reference.len()),
        }
    }

    pub fn check(&self, expected: &ReadingMemory) -> Result<(), String> {
        self.map.check("map", &expected.map)?;
        self.message.check("message", &expected.message)?;
        self.reference.check("reference", &expected.reference)?;
        self.buffer.check("buffer", &expected.buffer)
    }
}

pub fn read_of_message(memory: &mut ReadingMemory) -> ReadingAnswer {
    let (reference, reference_len) = memory.reference();
    unsafe {
        openlr_read_of_message(
            memory.map.as_mut_ptr(),
            memory.map.len(),
            memory.message.as_mut_ptr(),
            memory.message_len,
            reference,
            reference_len,
            memory.buffer.as_mut_ptr(),
            memory.buffer.len(),
        )
    }
}

pub fn read_point_of_message(memory: &mut ReadingMemory) -> PointAnswer {
    let (reference, reference_len) = memory.reference();
    unsafe {
        openlr_read_point_of_message(
            memory.map.as_mut_ptr(),
            memory.map.len(),
            memory.message.as_mut_ptr(),
            memory.message_len,
            reference,
            reference_len,
            memory.buffer.as_mut_ptr(),
            memory.buffer.len(),
        )
    }
}
