//! Fronts of messages: worked figures, the sum held to its definition, starts, and readings out of a message.

mod by_definition;
mod ridge;

use plain::front::{front_length, Front};
use plain::hexadecimal::bytes;
use plain::map_sum::map_sum;
use plain::maps::{grid, Lengths, MapPlan, Xorshift};
use plain::message::{reference, Message, Part};
use plain::outcome::{Outcome, Refusal, WORK_AREA};
use plain::point::{read_point, read_point_of_message, write_point, Point};
use plain::reader::{read, read_of_message};

use by_definition::{front, front_of, sum_of};
use ridge::{refusal_of, ridge};

/// Lines 0 and 1 of the ridge, in three points.
const STRETCH: &str = "0B0000000000001B680103E800001B680103E800001B18";

const MODULUS: u32 = 4_294_967_291;

/// (1 * 257 + 2) * 257 + 3 is 66,566. 257 to the third is 16,974,593, to the second 66,049.
/// 253 * 16,974,593 + 5 * 66,049 + 252 * 257 + 253 is the modulus: the remainder is 0 there, and 1 with one more.
/// Four bytes of 255 are 255 * 17,040,900 = 4,345,429,500, which is 50,462,209 over the modulus.
#[test]
fn sums_by_hand() {
    for (map, sum) in [
        (&[][..], 0),
        (&[0], 0),
        (&[255], 255),
        (&[1, 0], 257),
        (&[1, 2, 3], 66_566),
        (&[0, 0, 1, 2, 3], 66_566),
        (&[253, 5, 252, 252], 4_294_967_290),
        (&[253, 5, 252, 253], 0),
        (&[253, 5, 252, 254], 1),
        (&[253, 5, 252, 253, 1, 2], 259),
        (&[255, 255, 255, 255], 50_462_209),
    ] {
        assert_eq!(map_sum(map), sum, "{map:?}");
        assert_eq!(sum_of(map), u64::from(sum), "{map:?}");
    }
}

/// Of every length up to several blocks, of the longest map and of some longer ones.
#[test]
fn sums_against_the_definition() {
    let rng = &mut Xorshift::new(1);
    let lengths = (0..700).chain([1_024, 16_384, 19_000, 23_557, 23_558, 65_536, 100_001]);
    for length in lengths {
        let any: Vec<u8> = (0..length).map(|_| rng.below(256) as u8).collect();
        let edges: Vec<u8> = (0..length)
            .map(|_| *rng.pick(&[0, 1, 127, 128, 254, 255]))
            .collect();
        for map in [any, edges, vec![255; length], vec![0; length]] {
            assert_eq!(u64::from(map_sum(&map)), sum_of(&map), "{length}");
        }
    }
}

/// A byte at each place by itself: each weight.
#[test]
fn sums_of_one_byte() {
    for length in [1, 127, 128, 129, 255, 256, 257, 384] {
        for place in 0..length {
            for byte in [1, 128, 255] {
                let mut map = vec![0; length];
                map[place] = byte;
                let sum = u64::from(map_sum(&map));
                assert_eq!(sum, sum_of(&map), "{byte} at {place} of {length}");
                assert_ne!(sum, 0);
            }
        }
    }
}

/// 300 is AC 02. 16,384 is 128 * 128. 4,294,967,290 is FFFFFFFA: its lowest group is 7A, then three of 7F and 0F.
#[test]
fn fronts_by_hand() {
    for (count, sum, expected) in [
        (0, 0, "0000"),
        (127, 128, "7F8001"),
        (128, 127, "80017F"),
        (300, 1, "AC0201"),
        (16_383, 16_384, "FF7F808001"),
        (16_384, 4_294_967_290, "808001FAFFFFFF0F"),
        (23_558, 1 << 28, "86B8018080808001"),
        (u32::MAX, u32::MAX, "FFFFFFFF0FFFFFFFFF0F"),
    ] {
        let expected = bytes(expected).unwrap();
        assert_eq!(Front::new(count, sum).bytes(), expected, "{count} {sum}");
        assert_eq!(front(count, sum), expected, "{count} {sum}");
        assert_eq!(front_length(&expected), Some(expected.len()));
        for end in 0..expected.len() {
            assert_eq!(front_length(&expected[..end]), None, "{count} {sum} {end}");
        }
    }
}

/// The longest front of a map that is not refused has 8 bytes: 23,558 has three.
#[test]
fn fronts_of_maps() {
    let ridge = ridge(&[]).encode();
    let grid = grid(1, Lengths::Equal).encode();
    for map in [ridge, grid] {
        let front = Front::of_map(&map);
        assert_eq!(front.bytes(), front_of(&map));
        assert!(front.bytes().len() <= 8);
    }
}

#[test]
fn fronts_that_cannot_be_read() {
    for message in [
        "-",
        "80",
        "8080",
        "01",
        "0180",
        "FFFFFFFF0F",
        "800001",
        "018000",
        "A3000102",
        "01AC820002",
        "01FFFFFFFF8000",
        "FFFFFFFF1001",
        "01FFFFFFFF10",
        "01FFFFFFFF7F",
        "808080808001",
        "8080808080010101",
        "01808080808001",
        "0180808080808080808002",
    ] {
        let bytes = bytes(message).unwrap();
        assert_eq!(front_length(&bytes), None, "{message}");
        let behind = [bytes, vec![1, 0xAA]].concat();
        for number in [0, 1, u32::MAX] {
            let part = reference(&behind[..behind.len() - 2], number);
            assert_eq!((part.from, part.byte_count), (0, 0), "{message}");
        }
    }
    // What stands behind such a number does not count.
    for message in ["80000101AA", "0180000101AA", "FFFFFFFF100101AA"] {
        let part = reference(&bytes(message).unwrap(), 0);
        assert_eq!((part.from, part.byte_count), (0, 0), "{message}");
    }
}

/// Whatever map they tell of, a sum that none has too.
#[test]
fn lists_behind_any_front() {
    for (count, sum) in [
        (0, 0),
        (35, MODULUS),
        (u32::MAX, u32::MAX),
        (1, MODULUS - 1),
    ] {
        let front = front(count, sum);
        let message = [front.clone(), vec![1, 0xAA, 2, 0xBB, 0xBB]].concat();
        let at = |place: usize, byte_count| Part {
            from: (front.len() + place) as u32,
            byte_count,
        };
        assert_eq!(reference(&message, 0), at(1, 1));
        assert_eq!(reference(&message, 1), at(3, 2));
        assert_eq!(reference(&message, 2), at(5, 0));
        assert_eq!(reference(&front, 0), at(0, 0));
    }
}

fn closed(byte_count: usize) -> Outcome<Message> {
    Ok(Message {
        byte_count: byte_count as u32,
        added: None,
    })
}

/// In every buffer up to some bytes more than the front. Behind it nothing changes, and a refusal changes nothing.
#[test]
fn starts_in_buffers() {
    for map in [ridge(&[]).encode(), grid(1, Lengths::Equal).encode()] {
        let front = front_of(&map);
        for room in 0..front.len() + 4 {
            let mut buffer = vec![0xEE; room];
            let started = Message::start(&map, WORK_AREA, &mut buffer);
            if room < front.len() {
                assert_eq!(started, Err(Refusal::MessageFull), "{room}");
                assert_eq!(buffer, vec![0xEE; room], "{room}");
                continue;
            }
            assert_eq!(started, closed(front.len()), "{room}");
            let rest = vec![0xEE; room - front.len()];
            assert_eq!(buffer, [front.clone(), rest].concat(), "{room}");
        }
    }
}

/// 1, then the map's own, then 28.
#[test]
fn refusals_of_starts() {
    let map = ridge(&[]).encode();
    let short = WORK_AREA - 1;
    for (map, refusal) in refused_maps() {
        for room in [0, 5, 100] {
            let buffer = &mut vec![0xEE; room];
            assert_eq!(Message::start(&map, WORK_AREA, buffer), Err(refusal));
            assert_eq!(Message::start(&map, short, buffer), Err(Refusal::WorkArea));
            assert_eq!(*buffer, vec![0xEE; room]);
        }
    }
    let buffer = &mut [];
    assert_eq!(Message::start(&map, short, buffer), Err(Refusal::WorkArea));
    let full = Message::start(&map, WORK_AREA, buffer);
    assert_eq!(full, Err(Refusal::MessageFull));
}

/// One of each refusal of a map.
fn refused_maps() -> Vec<(Vec<u8>, Refusal)> {
    let changed = |change: fn(&mut MapPlan)| {
        let mut plan = ridge(&[]);
        change(&mut plan);
        plan.encode()
    };
    let maps = vec![
        (Vec::new(), Refusal::MapBytes),
        ([ridge(&[]).encode(), vec![0]].concat(), Refusal::MapBytes),
        (vec![1], Refusal::Count),
        (
            changed(|plan| plan.nodes[0].latitude = 9_000_001),
            Refusal::Coordinate,
        ),
        (changed(|plan| plan.lines[0].end = 0), Refusal::LineField),
        (changed(|plan| plan.lines[0].out.north = 251), Refusal::Step),
        (
            changed(|plan| plan.nodes[0].longitude = 1_000),
            Refusal::SameCodes,
        ),
        (ridge(&[(0, 3)]).encode(), Refusal::NoSuchTurn),
    ];
    for (map, refusal) in &maps {
        assert_eq!(refusal_of(map), Some(*refusal));
    }
    maps
}

/// With one open or some finished, for the same map or another.
#[test]
fn starting_again() {
    let (map, other) = (ridge(&[]).encode(), ridge(&[(0, 1)]).encode());
    let mut buffer = vec![0xEE; 40];
    let message = Message::start(&map, WORK_AREA, &mut buffer).unwrap();
    let message = message.open().unwrap();
    let message = message.add(&mut buffer, &[0xAA; 5]).unwrap();
    for (state, again) in [
        (message, &map),
        (message, &other),
        (message.close().unwrap(), &other),
        (message.close().unwrap().open().unwrap(), &map),
    ] {
        let before = buffer.clone();
        let refused = Message::start(&[], WORK_AREA, &mut buffer);
        assert_eq!(refused, Err(Refusal::MapBytes));
        assert_eq!(buffer, before);
        let front = front_of(again);
        let started = Message::start(again, WORK_AREA, &mut buffer);
        assert_eq!(started, closed(front.len()), "{state:?}");
        assert_eq!(buffer[..front.len()], front);
        assert_eq!(buffer[front.len()..], before[front.len()..]);
        let part = reference(&buffer[..front.len()], 0);
        assert_eq!((part.from as usize, part.byte_count), (front.len(), 0));
    }
}

/// A reading out of a message: of a stretch's lines, or of a point's.
type Read = fn(&[u8], &[u8], &[u8], usize) -> Outcome<Vec<u32>>;

const LINE_ROOM: usize = 10;

fn lines_of_message(map: &[u8], message: &[u8], given: &[u8], work: usize) -> Outcome<Vec<u32>> {
    read_of_message(map, message, given, work, LINE_ROOM).map(|reading| reading.lines)
}

fn point_of_message(map: &[u8], message: &[u8], given: &[u8], work: usize) -> Outcome<Vec<u32>> {
    read_point_of_message(map, message, given, work, LINE_ROOM).map(|reading| reading.lines)
}

/// Each reader with a reference that it accepts on the ridge, and its lines.
fn readers() -> [(Read, Vec<u8>, Vec<u32>); 2] {
    let point = Point {
        line: 2,
        offset: 1_200,
        orientation: 1,
        side: 2,
    };
    let written = write_point(&ridge(&[]).encode(), point, WORK_AREA, 17).unwrap();
    [
        (lines_of_message, bytes(STRETCH).unwrap(), vec![0, 1]),
        (point_of_message, written, vec![2]),
    ]
}

/// Only the front counts, and so any bytes that start with it do.
#[test]
fn readings_with_the_right_front() {
    let map = ridge(&[]).encode();
    let front = front_of(&map);
    for (read, given, lines) in readers() {
        let whole = [front.clone(), vec![given.len() as u8], given.clone()].concat();
        for message in [
            front.clone(),
            whole,
            [front.clone(), vec![0x80; 3]].concat(),
            [front.clone(), vec![0; 20_000]].concat(),
        ] {
            assert_eq!(read(&map, &message, &given, WORK_AREA), Ok(lines.clone()));
            // As by itself: the reference is refused then.
            let short = read(&map, &message, &given[..15], WORK_AREA);
            assert_eq!(short, Err(Refusal::ReferenceLength));
        }
    }
}

#[test]
fn readings_with_another_front() {
    let map = ridge(&[]).encode();
    let (count, sum) = (map.len() as u32, sum_of(&map) as u32);
    let right = front(count, sum);
    let longer = |number: usize| {
        let mut numbers = [front(count, 0), front(sum, 0)];
        for number in &mut numbers {
            number.pop();
        }
        let last = numbers[number].len() - 1;
        numbers[number][last] |= 0x80;
        numbers[number].push(0);
        numbers.concat()
    };
    let mut messages = vec![
        front(count + 1, sum),
        front(count - 1, sum),
        front(count + 128, sum),
        front(0, sum),
        front(count, sum + 1),
        front(count, sum - 1),
        front(count, sum ^ 1 << 31),
        front(count, 0),
        front(count, MODULUS),
        front(count, u32::MAX),
        front(sum, count),
        front_of(&ridge(&[(0, 1)]).encode()),
        front_of(&grid(1, Lengths::Equal).encode()),
        longer(0),
        longer(1),
        [vec![0], right.clone()].concat(),
        bytes("FFFFFFFFFFFFFFFFFF01").unwrap(),
    ];
    messages.extend((0..right.len()).map(|end| right[..end].to_vec()));
    for (read, given, _) in readers() {
        for message in &messages {
            for given in [&given[..], &given[..15], &[]] {
                let answer = read(&map, message, given, WORK_AREA);
                assert_eq!(answer, Err(Refusal::OtherMap), "{message:02X?}");
            }
        }
    }
}

/// Maps of one line, from node 0 to node 1 and 10,000 long, with sums of 0 and of 4: the modulus can be added to these in
/// 32 bits. A front with such a sum is another, and so 30 is before 12.
#[test]
fn sums_with_the_modulus_added() {
    for (map, sum) in [
        (
            "02B7BFEA0AC0A8A504DCBCCB06A8B0A504010001904E0303C203FA0132FA0100",
            0,
        ),
        (
            "02AEFBE109C0A8A504B980BE0FA8B0A504010001904E0303C203FA0132FA0100",
            4,
        ),
    ] {
        let map = bytes(map).unwrap();
        assert_eq!((refusal_of(&map), sum_of(&map)), (None, u64::from(sum)));
        assert_eq!(Front::of_map(&map).bytes(), [32, sum as u8]);
        for (read, _, _) in readers() {
            let answer = read(&map, &front(32, sum), &[], WORK_AREA);
            assert_eq!(answer, Err(Refusal::ReferenceLength));
            let answer = read(&map, &front(32, sum + MODULUS), &[], WORK_AREA);
            assert_eq!(answer, Err(Refusal::OtherMap));
        }
    }
}

/// 1 and the map's own are before 30, also where the front is that of the bytes.
#[test]
fn refusals_before_30() {
    for (read, given, _) in readers() {
        for (map, refusal) in refused_maps() {
            for message in [front_of(&map), front_of(&ridge(&[]).encode()), Vec::new()] {
                let answer = read(&map, &message, &given, WORK_AREA);
                assert_eq!(answer, Err(refusal));
                let answer = read(&map, &message, &given, WORK_AREA - 1);
                assert_eq!(answer, Err(Refusal::WorkArea));
            }
        }
        let map = ridge(&[]).encode();
        let answer = read(&map, &[], &given, WORK_AREA - 1);
        assert_eq!(answer, Err(Refusal::WorkArea));
    }
}

/// At every place of the ridge's map: bytes that are still a map are another one for the message.
#[test]
fn maps_that_differ_in_one_byte() {
    let map = ridge(&[(0, 1)]).encode();
    let message = front_of(&map);
    let mut still_maps = 0;
    for place in 0..map.len() {
        for change in 1..=255 {
            let mut other = map.clone();
            other[place] ^= change;
            assert_ne!(map_sum(&other), map_sum(&map), "{change} at {place}");
            if change.count_ones() > 1 && change % 16 != 15 {
                continue;
            }
            let expected = refusal_of(&other).unwrap_or(Refusal::OtherMap);
            still_maps += u32::from(expected == Refusal::OtherMap);
            for (read, given, _) in readers() {
                let answer = read(&other, &message, &given, WORK_AREA);
                assert_eq!(answer, Err(expected), "{change} at {place}");
            }
        }
    }
    assert!(still_maps > 100, "{still_maps}");
}

/// Refusal 30 has no place, and the readers of a reference by itself never give it.
#[test]
fn refusal_30() {
    assert_eq!(Refusal::OtherMap.number(), 30);
    assert_eq!(Refusal::OtherMap.place(), None);
    assert_eq!(Refusal::OtherMap.to_string(), "refused 30");
    let map = ridge(&[]).encode();
    let [(_, stretch, _), (_, point, _)] = readers();
    assert!(read(&map, &stretch, WORK_AREA, LINE_ROOM).is_ok());
    assert!(read_point(&map, &point, WORK_AREA, LINE_ROOM).is_ok());
}
