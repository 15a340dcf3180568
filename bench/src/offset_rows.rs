//! The rows of offsets: the spans of all bytes on some legs, and the bytes of offsets on one leg.
//! Each span and each byte is a call of its own, on both sides: the caller is compiled with neither.

use std::hint::black_box;

use plain::fields::{offset_byte, offset_span, LONGEST_LEG};

use crate::{proved, Row};

/// So many legs to a row, each one centimetre longer than the one before.
const LEGS: u32 = 100;

/// Of the shortest ones most bytes have no span. Of those from 513 on every byte has one.
const FIRST_LEGS: [u32; 3] = [1, 513, LONGEST_LEG + 1 - LEGS];

const BYTE_LEGS: [u32; 3] = [512, 10_000, LONGEST_LEG];

pub fn print_rows() {
    for first in FIRST_LEGS {
        let last = first + LEGS - 1;
        row(
            format!("offsets, spans of all bytes, legs of {first} to {last}"),
            move || sum_of_spans(first, proved::span),
            move || sum_of_spans(first, plain_span),
        );
    }
    for leg_length in BYTE_LEGS {
        row(
            format!("offsets, bytes of all offsets, leg of {leg_length}"),
            move || sum_of_bytes(leg_length, proved::offset_byte),
            move || sum_of_bytes(leg_length, plain_byte),
        );
    }
}

/// What is timed finds the same.
fn row(what: String, ours: impl Fn() -> u64, plain: impl Fn() -> u64) {
    assert_eq!(ours(), plain(), "{what}");
    let row = Row {
        what,
        inputs: 1,
        ours: Box::new(move |_| {
            black_box(ours());
        }),
        plain: Box::new(move |_| {
            black_box(plain());
        }),
    };
    row.print();
}

fn sum_of_spans(first: u32, span: impl Fn(u8, u32) -> u64) -> u64 {
    let sum_on = |leg_length| (0..=255).map(|byte| span(byte, leg_length)).sum::<u64>();
    (first..first + LEGS).map(sum_on).sum()
}

fn sum_of_bytes(leg_length: u32, byte: impl Fn(u32, u32) -> u32) -> u64 {
    let bytes = (1..leg_length).map(|offset| byte(offset, leg_length));
    bytes.map(u64::from).sum()
}

#[inline(never)]
fn plain_span(byte: u8, leg_length: u32) -> u64 {
    let span = offset_span(byte, leg_length);
    span.map_or(0, |span| u64::from(span.least) + u64::from(span.greatest))
}

#[inline(never)]
fn plain_byte(offset: u32, leg_length: u32) -> u32 {
    u32::from(offset_byte(offset, leg_length))
}
