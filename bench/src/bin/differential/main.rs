//! Compares the C functions with the plain writers and readers and the plain messages on random calls.
//!
//! `differential COUNT SEED` makes that many calls or a few more. It stops at the first difference
//! and shows the call. `differential replay` makes the calls in the rows of the standard input,
//! which have the form in which a call is shown.

mod c_functions;
mod calls;
mod counts;
mod damages;
mod fronts;
mod inputs;
mod length_counts;
mod memory;
mod meridian;
mod message_calls;
mod message_counts;
mod message_functions;
mod message_inputs;
mod message_run;
mod of_message_calls;
mod of_message_run;
mod offset_counts;
mod point_calls;
mod point_counts;
mod point_inputs;
mod point_run;
mod points;
mod run;
mod step_counts;
mod test_counts;

use std::io;
use std::process::ExitCode;

use plain::maps::Xorshift;

use calls::{ReadCall, WriteCall};
use message_calls::{History, MadeUpCall, ReceivedCall};
use of_message_calls::ReadOfMessageCall;
use point_calls::{ReadPointCall, WritePointCall};
use run::Run;

fn main() -> ExitCode {
    let arguments: Vec<String> = std::env::args().skip(1).collect();
    let words: Vec<&str> = arguments.iter().map(String::as_str).collect();
    let done = match words[..] {
        ["replay"] => replay(),
        [count, seed] => compare(count, seed),
        _ => Err("usage: differential COUNT SEED, or differential replay".to_string()),
    };
    if let Err(message) = done {
        println!("{message}");
        return ExitCode::FAILURE;
    }
    ExitCode::SUCCESS
}

fn replay() -> Result<(), String> {
    for row in io::stdin().lines() {
        let row = row.map_err(|error| error.to_string())?;
        let compared = compare_row(&row).ok_or_else(|| format!("not a call: {row}"))?;
        compared.map_err(|difference| format!("{row}\n{difference}"))?;
    }
    Ok(())
}

fn compare_row(row: &str) -> Option<Result<(), String>> {
    let of_lines = ReadCall::compare_row(row).or_else(|| WriteCall::compare_row(row));
    let of_points = || ReadPointCall::compare_row(row).or_else(|| WritePointCall::compare_row(row));
    let of_messages = || {
        History::compare_row(row)
            .or_else(|| ReceivedCall::compare_row(row))
            .or_else(|| MadeUpCall::compare_row(row))
            .or_else(|| ReadOfMessageCall::compare_row(row))
    };
    of_lines.or_else(of_points).or_else(of_messages)
}

fn compare(count: &str, seed: &str) -> Result<(), String> {
    let number = |word: &str| word.parse().map_err(|_| format!("not a number: {word}"));
    let (count, seed): (u64, u64) = (number(count)?, number(seed)?);
    let mut run = Run::default();
    let mut turn = 0;
    while run.calls() < count {
        let rng = &mut Xorshift::new(seed.wrapping_mul(1_000_003).wrapping_add(turn));
        let compared = run.turn(rng, turn);
        compared.map_err(|difference| format!("seed {seed} call {}\n{difference}", run.calls()))?;
        turn += 1;
    }
    println!("seed {seed}, {} calls, maps {turn}", run.calls());
    run.report()
}
