//! Messages: worked figures, and random histories and received bytes held to lists of references. tests/front.rs has
//! what is of fronts alone.

mod by_definition;
mod ridge;

use plain::hexadecimal::bytes;
use plain::maps::{grid, push_number, Lengths, Xorshift};
use plain::message::{reference, Message, Part, State};
use plain::message_calls::{bytes_before, Answer, Call};
use plain::message_list::{list, FrontFault, Stop, FRONT_FAULTS, STOPS};
use plain::outcome::{Outcome, Refusal, WORK_AREA};

use by_definition::front_of;
use ridge::{refusal_of, ridge};

/// A front for a map of 35 bytes with a sum of 2 to the 30th: six bytes.
const FRONT: [u8; 6] = [35, 0x80, 0x80, 0x80, 0x80, 4];

const ORDER: Outcome<Message> = Err(Refusal::MessageOrder);
const FULL: Outcome<Message> = Err(Refusal::MessageFull);

/// So many finished bytes, and an open reference of so many.
fn open(byte_count: u32, added: u32) -> Message {
    Message {
        byte_count,
        added: Some(added),
    }
}

fn closed(byte_count: u32) -> Message {
    Message {
        byte_count,
        added: None,
    }
}

fn part(from: u32, byte_count: u32) -> Part {
    Part { from, byte_count }
}

/// A message of references with these lengths behind the front, all of the same byte, each added at once.
fn filled(buffer: &mut [u8], lengths: impl IntoIterator<Item = usize>) -> Message {
    buffer[..6].copy_from_slice(&FRONT);
    lengths.into_iter().fold(closed(6), |message, length| {
        let opened = message.open().unwrap();
        let added = opened.add(buffer, &vec![0xAA; length]).unwrap();
        added.close().unwrap()
    })
}

#[test]
fn a_history_by_hand() {
    let mut buffer = [0xEE; 14];
    let message = filled(&mut buffer, []).open();
    assert_eq!(message, Ok(open(6, 0)));
    assert_eq!(buffer[..], *bytes("238080808004EEEEEEEEEEEEEEEE").unwrap());
    let message = message.unwrap().add(&mut buffer, &[0x0B]).unwrap();
    assert_eq!(message, open(6, 1));
    assert_eq!(buffer[..], *bytes("238080808004010BEEEEEEEEEEEE").unwrap());
    let message = message.add(&mut buffer, &[1, 2]).unwrap();
    assert_eq!(message, open(6, 3));
    assert_eq!(buffer[..], *bytes("238080808004030B0102EEEEEEEE").unwrap());
    let message = message.close().unwrap();
    assert_eq!(message, closed(10));
    let message = message.open().unwrap();
    let message = message.add(&mut buffer, &[7, 8, 9]).unwrap();
    assert_eq!(buffer[..], *bytes("238080808004030B010203070809").unwrap());
    assert_eq!(message.add(&mut buffer, &[10]), FULL);
    assert_eq!(message.close(), Ok(closed(14)));
    assert_eq!(buffer[..], *bytes("238080808004030B010203070809").unwrap());
    assert_eq!(reference(&buffer[..6], 0), part(6, 0));
    assert_eq!(reference(&buffer[..10], 0), part(7, 3));
    assert_eq!(reference(&buffer[..10], 1), part(10, 0));
    assert_eq!(reference(&buffer, 1), part(11, 3));
    assert_eq!(reference(&buffer, 2), part(14, 0));
    assert_eq!(reference(&buffer, u32::MAX), part(14, 0));
}

/// 27 is before 28.
#[test]
fn calls_out_of_order() {
    let too_long = [0; 460];
    for byte_count in [0, 5, 16_384] {
        let (none, nothing, some) = (
            closed(byte_count),
            open(byte_count, 0),
            open(byte_count, 129),
        );
        assert_eq!(nothing.open(), ORDER);
        assert_eq!(some.open(), ORDER);
        assert_eq!(none.close(), ORDER);
        assert_eq!(nothing.close(), ORDER);
        for portion in [&too_long[..], &too_long[..1], &[]] {
            assert_eq!(none.add(&mut [], portion), ORDER);
        }
        assert_eq!(nothing.add(&mut [], &too_long), FULL);
        assert_eq!(some.add(&mut [], &too_long[..1]), FULL);
    }
}

/// Nothing changes, however full the buffer is.
#[test]
fn additions_of_no_bytes() {
    for message in [open(0, 0), open(8, 0), open(2, 5), open(16_384, 0)] {
        let mut buffer = [0xEE; 8];
        assert_eq!(message.add(&mut buffer, &[]), Ok(message));
        assert_eq!(message.add(&mut [], &[]), Ok(message));
        assert_eq!(buffer, [0xEE; 8]);
    }
}

/// 127 is 7F, 128 is 80 01, 129 is 81 01, and 459 is 3 * 128 + 75: CB 03. From 128 on the bytes stand one
/// place further on.
#[test]
fn lengths_of_two_bytes() {
    let reference: Vec<u8> = (0..459).map(|place| (place % 251) as u8).collect();
    for (length, number) in [
        (1, "01"),
        (126, "7E"),
        (127, "7F"),
        (128, "8001"),
        (129, "8101"),
        (255, "FF01"),
        (256, "8002"),
        (458, "CA03"),
        (459, "CB03"),
    ] {
        let expected = [bytes(number).unwrap(), reference[..length].to_vec()].concat();
        for first in [0, 1, 126, 127, 128, 129, 458] {
            let mut buffer = vec![0xEE; 3 + expected.len() + 5];
            let (first, second) = reference[..length].split_at(first.min(length));
            let message = open(3, 0).add(&mut buffer, first).unwrap();
            let message = message.add(&mut buffer, second).unwrap();
            assert_eq!(message, open(3, length as u32));
            let (before, rest) = buffer.split_at(3);
            assert_eq!(before, [0xEE; 3], "{length}");
            assert_eq!(rest[..expected.len()], expected, "{length}");
            assert_eq!(rest[expected.len()..], [0xEE; 5], "{length}");
            assert_eq!(message.close().unwrap(), closed(3 + expected.len() as u32));
        }
    }
}

/// Behind 3 finished bytes 127 bytes need 128 more, and 128 need 130: with 129 there is room for the byte, but
/// not for its length too.
#[test]
fn buffers_that_are_too_short() {
    for (room, added, portion, expected) in [
        (3, 0, 1, FULL),
        (4, 0, 1, FULL),
        (5, 0, 1, Ok(open(3, 1))),
        (130, 0, 127, FULL),
        (131, 0, 127, Ok(open(3, 127))),
        (132, 127, 1, FULL),
        (133, 127, 1, Ok(open(3, 128))),
        (132, 0, 128, FULL),
        (133, 0, 128, Ok(open(3, 128))),
        (463, 458, 1, FULL),
        (464, 458, 1, Ok(open(3, 459))),
        (1000, 459, 1, FULL),
        (1000, 0, 460, FULL),
        (1000, 459, 0, Ok(open(3, 459))),
        (2, 0, 1, FULL),
    ] {
        let mut buffer = vec![0xEE; room];
        let answer = open(3, added).add(&mut buffer, &vec![0xAA; portion]);
        assert_eq!(answer, expected, "{room} {added} {portion}");
        if answer == FULL {
            assert_eq!(buffer, vec![0xEE; room], "{room} {added} {portion}");
        }
    }
}

/// 35 references of 459 bytes have 35 * 461 = 16,135 with their lengths, and 16,141 with the front. 243 are left: 241
/// with a length of two bytes.
#[test]
fn messages_of_16384_bytes() {
    for room in [16_384, 16_385, 20_000] {
        let mut buffer = vec![0; room];
        let message = filled(&mut buffer, [459; 35]).open().unwrap();
        assert_eq!(message, open(16_141, 0));
        assert_eq!(message.add(&mut buffer, &[0xAA; 242]), FULL);
        let message = message.add(&mut buffer, &[0xAA; 240]).unwrap();
        assert_eq!(message.close(), Ok(closed(16_383)));
        assert_eq!(message.add(&mut buffer, &[0xAA; 2]), FULL);
        let message = message.add(&mut buffer, &[0xAA; 1]).unwrap();
        assert_eq!(message.add(&mut buffer, &[0xAA; 1]), FULL);
        assert_eq!(message.close(), Ok(closed(16_384)));
        assert_eq!(reference(&buffer, 34), part(6 + 34 * 461 + 2, 459));
        assert_eq!(reference(&buffer, 35), part(16_143, 241));
        assert_eq!(reference(&buffer, 36), part(16_384, 0));
        let message = message.close().unwrap().open().unwrap();
        assert_eq!(message.add(&mut buffer, &[0xAA]), FULL);
        assert_eq!(message.add(&mut buffer, &[]), Ok(message));
    }
    let mut buffer = vec![0; 16_383];
    let message = filled(&mut buffer, [459; 35]).open().unwrap();
    assert_eq!(message.add(&mut buffer, &[0xAA; 241]), FULL);
    assert!(message.add(&mut buffer, &[0xAA; 240]).is_ok());
}

/// References of one byte take two: 8,189 of them behind the front.
#[test]
fn the_most_references() {
    let mut buffer = vec![0; 17_000];
    let message = filled(&mut buffer, [1; 8_189]);
    assert_eq!(message, closed(16_384));
    assert_eq!(message.open().unwrap().add(&mut buffer, &[0xAA]), FULL);
    assert_eq!(reference(&buffer, 0), part(7, 1));
    assert_eq!(reference(&buffer, 8_188), part(16_383, 1));
    assert_eq!(reference(&buffer, 8_189), part(16_384, 0));
}

/// AA is in the list, and what follows stops it at byte 8. Behind each stands what could be a reference.
#[test]
fn lists_that_stop() {
    for (rest, stop) in [
        ("", Stop::Whole),
        ("00", Stop::LengthZero),
        ("0001BB", Stop::LengthZero),
        ("8000", Stop::LengthNotShortest),
        ("8100BB", Stop::LengthNotShortest),
        ("818000BB", Stop::LengthNotShortest),
        ("FF80808000", Stop::LengthNotShortest),
        ("81808080808000BB", Stop::LengthNotShortest),
        ("FFFFFFFF10", Stop::LengthTooLarge),
        ("8180808010BB", Stop::LengthTooLarge),
        ("818080808001BB", Stop::LengthTooLarge),
        ("8180808080808080808002BB", Stop::LengthTooLarge),
        ("FFFFFFFF0F", Stop::LengthOver459),
        ("81808008BB", Stop::LengthOver459),
        ("818004BB", Stop::LengthOver459),
        ("80", Stop::EndInLength),
        ("FFFF", Stop::EndInLength),
        ("01", Stop::EndInReference),
        ("02BB", Stop::EndInReference),
        ("8101BB", Stop::EndInReference),
        ("CB03", Stop::EndInReference),
    ] {
        let message = [&FRONT[..], &[1, 0xAA], &bytes(rest).unwrap()].concat();
        let listed = list(&message);
        assert_eq!((listed.at, listed.stop), (8, stop), "{rest}");
        assert_eq!(listed.front, Some([35, 1 << 30]), "{rest}");
        assert_eq!(listed.parts, vec![7..8; 1], "{rest}");
        assert_eq!(reference(&message, 0), part(7, 1), "{rest}");
        for number in [1, 2, 3, u32::MAX] {
            assert_eq!(reference(&message, number), part(8, 0), "{rest}");
        }
    }
}

/// Behind each of them stands what could be a reference, but for those that end early.
#[test]
fn fronts_with_a_fault() {
    for (message, fault) in [
        ("-", FrontFault::EndInCount),
        ("80", FrontFault::EndInCount),
        ("FFFFFFFFFFFFFF", FrontFault::EndInCount),
        ("23", FrontFault::EndInSum),
        ("2380808080", FrontFault::EndInSum),
        ("8000230101AA", FrontFault::CountNotShortest),
        ("A380808080000101AA", FrontFault::CountNotShortest),
        ("23A38000010101AA", FrontFault::SumNotShortest),
        ("80808080100101AA", FrontFault::CountTooLarge),
        ("A380808080010101AA", FrontFault::CountTooLarge),
        ("238080808010010101AA", FrontFault::SumTooLarge),
        ("23A3808080800101AA", FrontFault::SumTooLarge),
    ] {
        let listed = list(&bytes(message).unwrap());
        assert_eq!(
            (listed.at, listed.stop),
            (0, Stop::Front(fault)),
            "{message}"
        );
        assert_eq!((listed.front, listed.parts), (None, vec![]), "{message}");
        for number in [0, 1, u32::MAX] {
            let found = reference(&bytes(message).unwrap(), number);
            assert_eq!(found, part(0, 0), "{message}");
        }
    }
}

/// With all of its bytes there, and more.
#[test]
fn lengths_up_to_459() {
    let of_length = |number: &str| [&FRONT[..], &bytes(number).unwrap(), &[0xAA; 1_000]].concat();
    assert_eq!(reference(&of_length("CB03"), 0), part(8, 459));
    for number in ["CC03", "FF03", "8004", "CB07", "CB8301"] {
        let message = of_length(number);
        assert_eq!(list(&message).stop, Stop::LengthOver459, "{number}");
        assert_eq!(reference(&message, 0), part(6, 0), "{number}");
    }
}

/// The front, 35 references of 459 bytes and then one of 239 bytes leave 2 of the 16,384, and with one of 240 there is 1.
#[test]
fn messages_longer_than_16384() {
    for (last, rest, stop, at) in [
        (239, "", Stop::Whole, 16_382),
        (239, "01BB", Stop::Whole, 16_384),
        (239, "01BB00", Stop::WholeUpToLongest, 16_384),
        (239, "01BB01BB", Stop::WholeUpToLongest, 16_384),
        (239, "02BBBB", Stop::CutInReference, 16_382),
        (239, "02BB", Stop::EndInReference, 16_382),
        (240, "01BB", Stop::CutInReference, 16_383),
        (240, "01", Stop::EndInReference, 16_383),
        (240, "8001", Stop::CutInLength, 16_383),
        (240, "80", Stop::EndInLength, 16_383),
        (240, "00BB", Stop::LengthZero, 16_383),
    ] {
        let mut message = vec![0; 16_384];
        let byte_count = filled(&mut message, [459; 35].into_iter().chain([last])).byte_count;
        message.truncate(byte_count as usize);
        message.extend(bytes(rest).unwrap());
        let listed = list(&message);
        assert_eq!((listed.stop, listed.at), (stop, at), "{last} {rest}");
        check_list(&message);
    }
}

/// Every reference of the list is given, and none behind it. Gives why it stops.
fn check_list(message: &[u8]) -> Stop {
    let listed = list(message);
    for (number, range) in (0..).zip(&listed.parts) {
        let expected = part(range.start as u32, range.len() as u32);
        assert_eq!(reference(message, number), expected, "{message:02X?}");
    }
    let count = listed.parts.len() as u32;
    for number in [count, count + 1, u32::MAX] {
        let expected = part(listed.at as u32, 0);
        assert_eq!(reference(message, number), expected, "{message:02X?}");
    }
    listed.stop
}

/// Bytes that are often small lengths or parts of longer numbers.
fn any_bytes(rng: &mut Xorshift, count: u32) -> Vec<u8> {
    let any_byte = |_| match rng.below(4) {
        0 => rng.below(256) as u8,
        1 => *rng.pick(&[0, 1, 0x7F, 0x80, 0x81, 0xFF]),
        _ => rng.below(6) as u8,
    };
    (0..count).map(any_byte).collect()
}

#[test]
fn received_bytes_against_the_list() {
    let rng = &mut Xorshift::new(1);
    let mut counts = [0; STOPS.len()];
    let mut faults = [0; FRONT_FAULTS.len()];
    for _ in 0..100_000 {
        let count = rng.below(24);
        let mut message = any_bytes(rng, count);
        if rng.below(4) != 0 {
            message.splice(..0, FRONT);
        }
        match check_list(&message) {
            Stop::Front(fault) => faults[fault as usize] += 1,
            stop => counts[STOPS.iter().position(|&other| other == stop).unwrap()] += 1,
        }
    }
    assert!(faults.iter().all(|&count| count > 0), "{faults:?}");
    let is_of_longest = |stop: &Stop| {
        matches!(
            stop,
            Stop::WholeUpToLongest | Stop::CutInLength | Stop::CutInReference
        )
    };
    for (stop, count) in STOPS.into_iter().zip(counts) {
        assert_eq!(count == 0, is_of_longest(&stop), "{stop:?}: {count}");
    }
}

/// What a message holds, as lists: every call makes its bytes anew. Once it is started anew, what stood in the buffer
/// stands behind its front.
struct Lists {
    before: Vec<u8>,
    /// None where nothing is started yet.
    front: Option<Vec<u8>>,
    finished: Vec<Vec<u8>>,
    open: Option<Vec<u8>>,
}

impl Lists {
    fn new(room: usize) -> Lists {
        Lists {
            before: bytes_before(room),
            front: None,
            finished: Vec::new(),
            open: None,
        }
    }

    /// The bytes of the front and of the finished references, and of the open one if it has any.
    fn message(&self) -> Vec<u8> {
        let mut message = self.front.clone().unwrap_or_default();
        let open = self.open.iter().filter(|open| !open.is_empty());
        for reference in self.finished.iter().chain(open) {
            push_number(&mut message, reference.len() as u32);
            message.extend(reference);
        }
        message
    }

    /// The message, and behind it what stood there before.
    fn buffer(&self) -> Vec<u8> {
        let mut buffer = self.message();
        buffer.extend(&self.before[buffer.len()..]);
        buffer
    }

    /// The number of the refusal, or 0.
    fn start(&mut self, work_length: usize, map: &[u8]) -> u32 {
        let front = front_of(map);
        if work_length < WORK_AREA {
            return 1;
        }
        if let Some(refusal) = refusal_of(map) {
            return refusal.number();
        }
        if front.len() > self.before.len() {
            return 28;
        }
        *self = Lists {
            before: self.buffer(),
            front: Some(front),
            finished: Vec::new(),
            open: None,
        };
        0
    }

    /// The number of the refusal, or 0.
    fn call(&mut self, call: &Call) -> u32 {
        if let Call::Start { work_length, map } = call {
            return self.start(*work_length, map);
        }
        match (call, &mut self.open) {
            (Call::Open, None) => self.open = Some(Vec::new()),
            (Call::Close, Some(open)) if !open.is_empty() => self.finished.extend(self.open.take()),
            (Call::Add(portion), Some(open)) => {
                let kept = open.clone();
                open.extend(portion);
                let is_too_long = open.len() > 459;
                let most = self.before.len().min(16_384);
                if !portion.is_empty() && (is_too_long || self.message().len() > most) {
                    self.open = Some(kept);
                    return 28;
                }
            }
            _ => return 27,
        }
        0
    }

    fn state(&self, refusal: u32) -> State {
        let mut finished = Lists::new(0);
        finished.front.clone_from(&self.front);
        finished.finished.clone_from(&self.finished);
        State {
            refusal,
            byte_count: finished.message().len() as u32,
            open: u32::from(self.open.is_some()),
            added: self.open.as_ref().map_or(0, |open| open.len() as u32),
        }
    }
}

/// Two of the ridge, one of full size with a longer front, and three that are refused.
fn maps() -> [Vec<u8>; 6] {
    [
        ridge(&[]).encode(),
        ridge(&[(0, 1)]).encode(),
        grid(1, Lengths::Equal).encode(),
        ridge(&[(0, 3)]).encode(),
        [ridge(&[]).encode(), vec![0]].concat(),
        Vec::new(),
    ]
}

fn any_start(rng: &mut Xorshift, maps: &[Vec<u8>]) -> Call {
    Call::Start {
        work_length: WORK_AREA - usize::from(rng.below(6) == 0),
        map: rng.pick::<Vec<u8>>(maps).clone(),
    }
}

/// Mostly one that goes on with the message. Nothing but starts before it is started. In a large buffer all others are
/// refused, so that the message grows.
fn any_call(rng: &mut Xorshift, lists: &Lists, maps: &[Vec<u8>]) -> Call {
    if lists.front.is_none() {
        return any_start(rng, maps);
    }
    if rng.below(40) == 0 {
        let is_large = lists.before.len() >= 16_383;
        return any_start(rng, if is_large { &maps[3..] } else { maps });
    }
    let added = lists.open.as_ref().map(|open| open.len() as u32);
    match (rng.below(8), added) {
        (0, _) => Call::Open,
        (1, _) => Call::Close,
        (2, _) => Call::Add(Vec::new()),
        (3.., None) => Call::Open,
        (3 | 4, Some(1..)) => Call::Close,
        (_, Some(added)) => {
            let left = (lists.before.len().min(16_384) - lists.message().len()) as u32;
            let to_length = [127, 128, 129, 459, 460].map(|length| length - added.min(127));
            let counts = [1, 1, left, left.saturating_sub(1), left + 1, rng.below(300)];
            let counts = [&counts[..], &to_length[..]].concat();
            let count = (*rng.pick(&counts)).min(1_000);
            Call::Add(any_bytes(rng, count))
        }
    }
}

/// Makes the same calls on both. Gives how many calls had each refusal, and how long the message became.
fn compare_histories(
    rng: &mut Xorshift,
    maps: &[Vec<u8>],
    room: usize,
    calls: u32,
) -> ([u32; 31], usize) {
    let mut counts = [0; 31];
    let mut longest = 0;
    let mut lists = Lists::new(room);
    let mut buffer = bytes_before(room);
    let mut state = State::default();
    for _ in 0..calls {
        let call = any_call(rng, &lists, maps);
        let refusal = lists.call(&call);
        let Answer::Message(outcome) = call.make(state.message(), &mut buffer) else {
            unreachable!("what is finished is asked for after every call");
        };
        match call {
            // It is given no message, and where it is refused the one at hand goes on.
            Call::Start { .. } => {
                let started = State::default().answered(outcome);
                assert_eq!(started.refusal, refusal, "{call} in {room}");
                match refusal {
                    0 => state = started,
                    _ => assert_eq!(
                        started,
                        State {
                            refusal,
                            ..State::default()
                        }
                    ),
                }
                state.refusal = refusal;
            }
            _ => state = state.answered(outcome),
        }
        assert_eq!(state, lists.state(refusal), "{call} in {room}");
        assert!(buffer == lists.buffer(), "{call} in {room}");
        let finished = &buffer[..state.byte_count as usize];
        for (number, expected) in (0..).zip(&lists.finished) {
            let Part { from, byte_count } = reference(finished, number);
            assert_eq!(buffer[from as usize..][..byte_count as usize], **expected);
        }
        let behind = reference(finished, lists.finished.len() as u32);
        assert_eq!(behind, part(state.byte_count, 0));
        counts[refusal as usize] += 1;
        longest = longest.max(lists.message().len());
    }
    (counts, longest)
}

#[test]
fn random_histories_against_lists() {
    let rng = &mut Xorshift::new(2);
    let maps = maps();
    let mut sums = [0; 31];
    let small = (0..600).map(|room| (room, 40));
    let large = [16_383, 16_384, 16_385, 20_000].map(|room| (room, 800));
    for (room, calls) in small.chain(large) {
        let (counts, longest) = compare_histories(rng, &maps, room, calls);
        assert!(room < 16_383 || longest >= 16_383, "{longest} in {room}");
        sums.iter_mut()
            .zip(counts)
            .for_each(|(sum, count)| *sum += count);
    }
    assert!([0, 1, 2, 23, 27, 28]
        .iter()
        .all(|&refusal| sums[refusal] > 100));
}

/// Any number but 0 says that one is open. A refusal gives back all but its own number as it was.
#[test]
fn states_as_c_has_them() {
    for open in [1, 2, u32::MAX] {
        let given = State {
            refusal: 28,
            byte_count: 5,
            open,
            added: 3,
        };
        let refused = given.answered(given.message().open());
        assert_eq!(
            refused,
            State {
                refusal: 27,
                ..given
            }
        );
        let closed = given.answered(given.message().close());
        let expected = State {
            byte_count: 9,
            ..State::default()
        };
        assert_eq!(closed, expected);
        let opened = closed.answered(closed.message().open());
        assert_eq!(opened, State { open: 1, ..closed });
    }
}

#[test]
fn calls_in_words() {
    for (word, call) in [
        ("start:-", Some(Call::start(&[]))),
        ("start:02FF", Some(Call::start(&[2, 0xFF]))),
        (
            "start:14335:02FF",
            Some(Call::Start {
                work_length: 14_335,
                map: vec![2, 0xFF],
            }),
        ),
        ("start", None),
        ("start:1:2:03", None),
        ("open", Some(Call::Open)),
        ("close", Some(Call::Close)),
        ("add:-", Some(Call::Add(vec![]))),
        ("add:0BFF", Some(Call::Add(vec![0x0B, 0xFF]))),
        ("ask:4294967295", Some(Call::Ask(u32::MAX))),
        ("ask:4294967296", None),
        ("add", None),
        ("add:0", None),
        ("open:1", None),
        ("ask:", None),
    ] {
        assert_eq!(Call::of_word(word), call, "{word}");
        if let Some(call) = call {
            assert_eq!(call.to_string(), word);
        }
    }
}

#[test]
fn bytes_before_the_first_call() {
    assert_eq!(bytes_before(254)[249..], [249, 250, 0, 1, 2]);
    assert_eq!(bytes_before(0), []);
}
