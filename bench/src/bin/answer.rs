//! Answers calls given one a line on the standard input, for comparing with other programs.
//!
//! - `map MAP`
//! - `leg MAP START END FRC FOW SECTOR CLASS D`, on a last leg with the last line's `FRC FOW SECTOR`
//! - `read MAP REFERENCE WORK_LENGTH LINE_ROOM`
//! - `write MAP POS NEG TESTS WORK_LENGTH BYTE_ROOM LINE...`
//! - `read_point MAP REFERENCE WORK_LENGTH LINE_ROOM`
//! - `write_point MAP LINE OFFSET ORIENTATION SIDE WORK_LENGTH BYTE_ROOM`
//! - `message ROOM CALL...`, calls on one buffer: `start:WORK_LENGTH:MAP`, `open`, `add:BYTES`, `close` or `ask:NUMBER`
//! - `received MESSAGE NUMBER`
//! - `read_of_message MAP MESSAGE REFERENCE WORK_LENGTH LINE_ROOM`
//! - `read_point_of_message MAP MESSAGE REFERENCE WORK_LENGTH LINE_ROOM`
//!
//! Bytes are hexadecimal, with `-` for none. Each answer is one line. That of a message has an item for each
//! call: `done:BYTES:OPEN:ADDED` or `refused:NUMBER`, and `@FROM=BYTES` behind it for what changed in the
//! buffer; or `part:FROM:COUNT`, which is also the answer of a received message.

use std::fmt::Display;
use std::io::{self, BufRead, BufWriter, Write};

use plain::depot_map::DepotMap;
use plain::fields::Marks;
use plain::hexadecimal::{bytes, digits};
use plain::legs::{verdict, Leg, LegEnd, Verdict};
use plain::maps::{MapPlan, PlannedLine};
use plain::message::{reference, Message, Part, State};
use plain::message_calls::{bytes_before, Answer, Call};
use plain::outcome::{Outcome, Written};
use plain::point::{read_point, read_point_of_message, write_point, Point};
use plain::reader::{read, read_of_message};
use plain::search::{Method, Search};
use plain::writer::write;

fn main() -> io::Result<()> {
    let mut out = BufWriter::new(io::stdout().lock());
    for call in io::stdin().lock().lines() {
        let answer = answer(&call?).unwrap_or_else(|| "not a call".to_string());
        writeln!(out, "{}", answer.replace('\n', " "))?;
    }
    Ok(())
}

fn answer(call: &str) -> Option<String> {
    let mut words = call.split_ascii_whitespace();
    match words.next()? {
        "message" => message_answer(words),
        "received" => received_answer(words),
        kind => answer_on_map(kind, words),
    }
}

fn answer_on_map<'a>(kind: &str, mut words: impl Iterator<Item = &'a str>) -> Option<String> {
    let map_bytes = bytes(words.next()?)?;
    match kind {
        "read" => return read_answer(&map_bytes, words, read),
        "read_point" => return read_answer(&map_bytes, words, read_point),
        "read_of_message" => return read_of_message_answer(&map_bytes, words, read_of_message),
        "read_point_of_message" => {
            return read_of_message_answer(&map_bytes, words, read_point_of_message)
        }
        _ => {}
    }
    let numbers = numbers(words)?;
    match kind {
        "map" => Some(text(
            DepotMap::decode(&map_bytes).map(|map| map_text(&map, &map_bytes)),
        )),
        "leg" => leg_answer(&DepotMap::decode(&map_bytes).ok()?, &numbers),
        "write" => write_answer(&map_bytes, &numbers),
        "write_point" => write_point_answer(&map_bytes, &numbers),
        _ => None,
    }
}

fn read_answer<'a, Read: Display>(
    map_bytes: &[u8],
    mut words: impl Iterator<Item = &'a str>,
    read: fn(&[u8], &[u8], usize, usize) -> Outcome<Read>,
) -> Option<String> {
    let reference = bytes(words.next()?)?;
    let rooms = numbers(words)?;
    let [work_length, line_room] = rooms[..] else {
        return None;
    };
    let (work_length, line_room) = (work_length as usize, line_room as usize);
    Some(text(read(map_bytes, &reference, work_length, line_room)))
}

/// A reader of a map, a message and a reference, with the length of the work area and the room for lines.
type OfMessage<Read> = fn(&[u8], &[u8], &[u8], usize, usize) -> Outcome<Read>;

fn read_of_message_answer<'a, Read: Display>(
    map_bytes: &[u8],
    mut words: impl Iterator<Item = &'a str>,
    read: OfMessage<Read>,
) -> Option<String> {
    let message = bytes(words.next()?)?;
    let reference = bytes(words.next()?)?;
    let rooms = numbers(words)?;
    let [work_length, line_room] = rooms[..] else {
        return None;
    };
    let (work_length, line_room) = (work_length as usize, line_room as usize);
    let outcome = read(map_bytes, &message, &reference, work_length, line_room);
    Some(text(outcome))
}

fn write_answer(map_bytes: &[u8], numbers: &[u32]) -> Option<String> {
    let [pos, neg, tests, work_length, byte_room, ref stretch @ ..] = *numbers else {
        return None;
    };
    let (work_length, byte_room) = (work_length as usize, byte_room as usize);
    let written = write(map_bytes, stretch, pos, neg, tests, work_length, byte_room);
    Some(text(written.map(|written| written_text(&written))))
}

fn write_point_answer(map_bytes: &[u8], numbers: &[u32]) -> Option<String> {
    let [line, offset, orientation, side, work_length, byte_room] = *numbers else {
        return None;
    };
    let point = Point {
        line,
        offset,
        orientation,
        side,
    };
    let (work_length, byte_room) = (work_length as usize, byte_room as usize);
    let written = write_point(map_bytes, point, work_length, byte_room);
    Some(text(written.map(|reference| reference_text(&reference))))
}

fn text<T: Display>(outcome: Outcome<T>) -> String {
    match outcome {
        Ok(result) => result.to_string(),
        Err(refusal) => refusal.to_string(),
    }
}

/// The plan holds all numbers of the map: a number has one form only, so a plan that is put into bytes
/// again gives the same bytes. The map is what the plan says, sectors in place of steps.
fn is_read_as_it_stands(map: &DepotMap, map_bytes: &[u8]) -> bool {
    let plan = MapPlan::of_bytes(map_bytes);
    let lines = plan.lines.iter().map(PlannedLine::kept);
    plan.encode() == map_bytes
        && plan.nodes == map.nodes
        && lines.eq(map.lines.iter().copied())
        && plan.bans == map.bans
}

fn map_text(map: &DepotMap, map_bytes: &[u8]) -> String {
    if !is_read_as_it_stands(map, map_bytes) {
        return "map not read as it stands".to_string();
    }
    format!(
        "map of {} nodes and {} lines",
        map.nodes.len(),
        map.lines.len()
    )
}

fn reference_text(reference: &[u8]) -> String {
    format!("bytes {} {}", reference.len(), digits(reference))
}

fn written_text(written: &Written) -> String {
    let Written {
        reference,
        tests,
        excess,
    } = written;
    format!(
        "bytes {} tests {tests} excess {excess} {}",
        reference.len(),
        digits(reference)
    )
}

fn leg_answer(map: &DepotMap, numbers: &[u32]) -> Option<String> {
    let [start, end, frc, fow, sector, class, distance, ref last @ ..] = *numbers else {
        return None;
    };
    let marks = |frc: u32, fow: u32, sector: u32| Marks {
        frc: frc as u8,
        fow: fow as u8,
        sector: sector as u8,
    };
    let last_marks = match *last {
        [frc, fow, sector] => Some(marks(frc, fow, sector)),
        _ => None,
    };
    let leg = Leg {
        start,
        first_marks: marks(frc, fow, sector),
        lowest_class: class as u8,
        distance: distance as u8,
        end: LegEnd {
            node: end,
            last_marks,
        },
    };
    let mut lines = Vec::new();
    let name = match verdict(
        map,
        &mut Search::new(map, Method::NodeAndLineHeap),
        &leg,
        &mut lines,
    ) {
        Verdict::None => "none",
        Verdict::One => "one",
        Verdict::Several => "several",
    };
    let words = lines.iter().map(|line| format!(" {line}"));
    Some(std::iter::once(name.to_string()).chain(words).collect())
}

fn message_answer<'a>(mut words: impl Iterator<Item = &'a str>) -> Option<String> {
    let mut buffer = bytes_before(words.next()?.parse().ok()?);
    let mut message = Message::default();
    let items: Option<Vec<String>> = words
        .map(|word| Some(item(&mut message, &mut buffer, Call::of_word(word)?)))
        .collect();
    Some(items?.join(" "))
}

/// What a call of a history answers.
fn item(message: &mut Message, buffer: &mut [u8], call: Call) -> String {
    let before = buffer.to_vec();
    let outcome = match call.make(*message, buffer) {
        Answer::Message(outcome) => outcome,
        Answer::Part(part) => return part_text(part),
    };
    let changed = changed_text(&before, buffer);
    match outcome {
        Ok(after) => {
            *message = after;
            let State {
                byte_count,
                open,
                added,
                ..
            } = State::default().answered(outcome);
            format!("done:{byte_count}:{open}:{added}{changed}")
        }
        Err(refusal) => format!("refused:{}{changed}", refusal.number()),
    }
}

/// From the first place that changed to the last, if any did.
fn changed_text(before: &[u8], after: &[u8]) -> String {
    let differs = |place: &usize| before[*place] != after[*place];
    let first = (0..after.len()).find(differs);
    let last = (0..after.len()).rfind(differs);
    match (first, last) {
        (Some(first), Some(last)) => format!("@{first}={}", digits(&after[first..=last])),
        _ => String::new(),
    }
}

fn received_answer<'a>(mut words: impl Iterator<Item = &'a str>) -> Option<String> {
    let message = bytes(words.next()?)?;
    let numbers = numbers(words)?;
    let [number] = numbers[..] else {
        return None;
    };
    Some(part_text(reference(&message, number)))
}

fn part_text(part: Part) -> String {
    format!("part:{}:{}", part.from, part.byte_count)
}

fn numbers<'a>(words: impl Iterator<Item = &'a str>) -> Option<Vec<u32>> {
    words.map(|word| word.parse().ok()).collect()
}
