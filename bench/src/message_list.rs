//! The list of references in a message, with why it stops: each number is read to its end, whatever it is.
//! For counting and comparing.

use std::ops::Range;

use crate::fields::LONGEST_REFERENCE;
use crate::message::{usable, LONGEST_MESSAGE};

#[derive(Clone, Copy, Debug, PartialEq, Eq)]
pub enum Stop {
    /// All is read.
    Whole,
    /// All that is used is read, and more bytes stand behind it.
    WholeUpToLongest,
    LengthZero,
    LengthOver459,
    LengthNotShortest,
    /// Over 4,294,967,295.
    LengthTooLarge,
    /// The last byte has its bit 7 set.
    EndInLength,
    EndInReference,
    /// Here it would go on behind byte 16,384.
    CutInLength,
    CutInReference,
    /// The front cannot be read.
    Front(FrontFault),
}

/// The first number of a front that cannot be read, the map's byte count or its sum.
#[derive(Clone, Copy, Debug, PartialEq, Eq)]
pub enum FrontFault {
    EndInCount,
    CountNotShortest,
    CountTooLarge,
    EndInSum,
    SumNotShortest,
    SumTooLarge,
}

/// Of lists behind a front that can be read.
pub const STOPS: [Stop; 10] = [
    Stop::Whole,
    Stop::WholeUpToLongest,
    Stop::LengthZero,
    Stop::LengthOver459,
    Stop::LengthNotShortest,
    Stop::LengthTooLarge,
    Stop::EndInLength,
    Stop::EndInReference,
    Stop::CutInLength,
    Stop::CutInReference,
];

pub const FRONT_FAULTS: [FrontFault; 6] = [
    FrontFault::EndInCount,
    FrontFault::CountNotShortest,
    FrontFault::CountTooLarge,
    FrontFault::EndInSum,
    FrontFault::SumNotShortest,
    FrontFault::SumTooLarge,
];

/// The numbers of the front, if they can be read; the references without their lengths, where the list stops, and
/// why.
pub struct List {
    pub front: Option<[u32; 2]>,
    pub parts: Vec<Range<usize>>,
    pub at: usize,
    pub stop: Stop,
}

pub fn list(message: &[u8]) -> List {
    let (front, start) = match front(message) {
        Ok(front) => front,
        Err(fault) => {
            return List {
                front: None,
                parts: Vec::new(),
                at: 0,
                stop: Stop::Front(fault),
            }
        }
    };
    let mut parts: Vec<Range<usize>> = Vec::new();
    let mut at = start;
    let stop = loop {
        match next(message, at) {
            Ok(part) => {
                at = part.end;
                parts.push(part);
            }
            Err(stop) => break stop,
        }
    };
    List {
        front: Some(front),
        parts,
        at,
        stop,
    }
}

/// Why a number cannot be read.
enum Fault {
    End,
    NotShortest,
    TooLarge,
}

/// The two numbers at the start, and where they end.
fn front(message: &[u8]) -> Result<([u32; 2], usize), FrontFault> {
    let used = &message[..usable(message.len())];
    let count = number(used, 0).map_err(|fault| match fault {
        Fault::End => FrontFault::EndInCount,
        Fault::NotShortest => FrontFault::CountNotShortest,
        Fault::TooLarge => FrontFault::CountTooLarge,
    });
    let (count, middle) = count?;
    let sum = number(used, middle).map_err(|fault| match fault {
        Fault::End => FrontFault::EndInSum,
        Fault::NotShortest => FrontFault::SumNotShortest,
        Fault::TooLarge => FrontFault::SumTooLarge,
    });
    let (sum, end) = sum?;
    Ok(([count, sum], end))
}

/// The reference behind the length at this place.
fn next(message: &[u8], at: usize) -> Result<Range<usize>, Stop> {
    let used = &message[..usable(message.len())];
    let is_cut = message.len() > LONGEST_MESSAGE;
    let or_cut = |end: Stop, cut: Stop| if is_cut { cut } else { end };
    if at == used.len() {
        return Err(or_cut(Stop::Whole, Stop::WholeUpToLongest));
    }
    let length = number(used, at).map_err(|fault| match fault {
        Fault::End => or_cut(Stop::EndInLength, Stop::CutInLength),
        Fault::NotShortest => Stop::LengthNotShortest,
        Fault::TooLarge => Stop::LengthTooLarge,
    });
    let (length, start) = length?;
    let length = match length as usize {
        0 => return Err(Stop::LengthZero),
        length @ 1..=LONGEST_REFERENCE => length,
        _ => return Err(Stop::LengthOver459),
    };
    let part = start..start + length;
    match part.end > used.len() {
        true if part.end <= message.len() => Err(Stop::CutInReference),
        true => Err(Stop::EndInReference),
        false => Ok(part),
    }
}

/// The number at this place, of any count of bytes, and where it ends.
fn number(bytes: &[u8], at: usize) -> Result<(u32, usize), Fault> {
    let last = bytes[at..].iter().position(|&byte| byte < 0x80);
    let end = at + 1 + last.ok_or(Fault::End)?;
    let number = &bytes[at..end];
    if number.len() > 1 && number.ends_with(&[0]) {
        return Err(Fault::NotShortest);
    }
    // A sixth byte is worth 2 to the 35th at least.
    if number.len() > 5 {
        return Err(Fault::TooLarge);
    }
    let groups = number.iter().rev().map(|byte| u64::from(byte & 0x7F));
    let value = groups.fold(0, |value, group| value * 128 + group);
    let value = u32::try_from(value).map_err(|_| Fault::TooLarge)?;
    Ok((value, end))
}
