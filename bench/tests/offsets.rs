//! Offsets of stretches on the ridge's map: the bytes that are written and the spans that are read, on the
//! first leg for the positive and on the last for the negative.

mod ridge;

use std::collections::HashMap;

use plain::hexadecimal::bytes;
use plain::maps::MapPlan;
use plain::outcome::{Outcome, Reading, Refusal, Span, WORK_AREA};
use plain::reader::read;
use plain::writer::{write, ALL_TESTS};

use ridge::{refusal_of, ridge};

fn write_on(plan: &MapPlan, stretch: &[u32], pos: u32, neg: u32) -> Vec<u8> {
    let map = plan.encode();
    let written = write(&map, stretch, pos, neg, ALL_TESTS, WORK_AREA, 459);
    written.expect("it is written").reference
}

fn read_on(plan: &MapPlan, reference: &[u8]) -> Outcome<Reading> {
    read(&plan.encode(), reference, WORK_AREA, 64)
}

/// The positive and the negative span.
fn spans_on(plan: &MapPlan, reference: &str) -> Outcome<[(u32, u32); 2]> {
    let reading = read_on(plan, &bytes(reference).unwrap())?;
    let ends = |span: Span| (span.least, span.greatest);
    Ok([reading.positive, reading.negative].map(ends))
}

/// With lines 0 and 1 of these lengths. The way by lines 2 and 3 stays as long as line 1, so that each of the
/// two is a leg.
fn ridge_of([first, last]: [u32; 2]) -> MapPlan {
    let mut plan = ridge(&[]);
    let lengths = [first, last, last / 2, last - last / 2];
    for (line, length) in plan.lines.iter_mut().zip(lengths) {
        line.length = length;
    }
    assert_eq!(refusal_of(&plan.encode()), None);
    plan
}

/// On legs of 10,000 an offset has 0.0256 parts a centimetre: 1 has 0.0256, 19 has 0.486, 20 has 0.512, 4,980
/// has 127.488, 5,000 has 128, 9,941 has 254.49, and 9,999 has 255.97, which would be 256. Halves are 39.0625
/// apart, from 19.53 on: byte 1 ends before 58.59, 7F is 4941.41 to 4980.47, 80 to 5019.53, FE is 9902.34 to
/// 9941.41.
#[test]
fn both_offsets_on_the_ridge() {
    let plan = ridge(&[]);
    for (pos, neg, rest, spans) in [
        (0, 0, "18", [(0, 0), (0, 0)]),
        (1, 0, "5800", [(1, 19), (0, 0)]),
        (0, 1, "3800", [(0, 0), (1, 19)]),
        (1, 1, "780000", [(1, 19), (1, 19)]),
        (20, 19, "780100", [(20, 58), (1, 19)]),
        (19, 20, "780001", [(1, 19), (20, 58)]),
        (5_000, 0, "5880", [(4_981, 5_019), (0, 0)]),
        (5_000, 4_980, "78807F", [(4_981, 5_019), (4_942, 4_980)]),
        (9_941, 9_999, "78FEFF", [(9_903, 9_941), (9_942, 9_999)]),
        (9_999, 9_941, "78FFFE", [(9_942, 9_999), (9_903, 9_941)]),
    ] {
        let reference = format!("0B0000000000001B680103E800001B680103E800001B{rest}");
        let written = write_on(&plan, &[0, 1], pos, neg);
        assert_eq!(written, bytes(&reference).unwrap(), "{pos} {neg}");
        assert_eq!(spans_on(&plan, &reference), Ok(spans), "{pos} {neg}");
    }
}

/// Of 512 the offsets 1 and 511 are exactly at halves, 0.5 and 255.5, and go up, the latter to 256; of 10,000
/// they are 0.0256 and 13.08. FF begins at 509 of 512. On 10,000, 00 ends before 10,000 / 512 = 19.5, and 0D
/// begins at 25 * 10,000 / 512 = 488.3 and ends before 27 * 10,000 / 512 = 527.3.
#[test]
fn each_offset_on_its_own_leg() {
    for (lengths, offset, legs, rest, spans) in [
        ([512, 10_000], 1, ["00", "01"], "0100", [(1, 2), (1, 19)]),
        ([10_000, 512], 1, ["01", "00"], "0001", [(1, 19), (1, 2)]),
        (
            [512, 10_000],
            511,
            ["00", "01"],
            "FF0D",
            [(509, 511), (489, 527)],
        ),
        (
            [10_000, 512],
            511,
            ["01", "00"],
            "0DFF",
            [(489, 527), (509, 511)],
        ),
    ] {
        let plan = ridge_of(lengths);
        let [first, last] = legs.map(|distance| format!("1B68{distance}03E80000"));
        let reference = format!("0B000000000000{first}{last}1B78{rest}");
        let written = write_on(&plan, &[0, 1], offset, offset);
        assert_eq!(written, bytes(&reference).unwrap(), "{lengths:?} {offset}");
        let read = spans_on(&plan, &reference);
        assert_eq!(read, Ok(spans), "{lengths:?} {offset}");
    }
}

/// What is left of an offset counts, on what is left of the lines: 20 on line 1, and 20 on line 0.
#[test]
fn offsets_with_lines_skipped_whole() {
    let plan = ridge(&[]);
    let on_line_1 = "0B0001D20000001B680103E800001B5801";
    let on_line_0 = "0B0000000000001B680103E800001B3801";
    for (pos, neg, reference, line, spans) in [
        (10_020, 0, on_line_1, 1, [(20, 58), (0, 0)]),
        (0, 10_020, on_line_0, 0, [(0, 0), (20, 58)]),
    ] {
        let written = write_on(&plan, &[0, 1], pos, neg);
        assert_eq!(written, bytes(reference).unwrap());
        assert_eq!(read_on(&plan, &written).unwrap().lines, [line]);
        assert_eq!(spans_on(&plan, reference), Ok(spans));
    }
}

/// Byte 0 needs a leg of 513, since 1 of 512 is exactly a half, and byte 255 one of 171: 256 * 169 / 170 is
/// 254.494 and 256 * 170 / 171 is 254.503.
#[test]
fn bytes_that_no_offset_gives() {
    let refused = Err(Refusal::OffsetByte);
    for (lengths, rest, expected) in [
        ([512, 171], "5800", refused),
        ([513, 171], "5800", Ok([(1, 1), (0, 0)])),
        ([513, 512], "3800", refused),
        ([512, 513], "3800", Ok([(0, 0), (1, 1)])),
        ([170, 171], "58FF", refused),
        ([171, 170], "58FF", Ok([(170, 170), (0, 0)])),
        ([171, 170], "38FF", refused),
        ([170, 171], "38FF", Ok([(0, 0), (170, 170)])),
        ([171, 513], "78FF00", Ok([(170, 170), (1, 1)])),
        ([170, 513], "78FF00", refused),
        ([171, 512], "78FF00", refused),
    ] {
        let reference = format!("0B0000000000001B680003E800001B680003E800001B{rest}");
        let spans = spans_on(&ridge_of(lengths), &reference);
        assert_eq!(spans, expected, "{lengths:?} {rest}");
    }
}

/// On a leg of 10,240 a byte begins at 20 for each odd 512th: 7F at 253 * 20 = 5,060, 80 at 5,100, 81 at 5,140,
/// 82 at 5,180. On one of 10,000, 80 begins at 4,981 and 81 at 5,020, since 257 * 10,000 / 512 is 5019.53.
#[test]
fn least_offsets_that_reach_the_total() {
    let refused = Err(Refusal::OffsetByte);
    for (length, rest, expected) in [
        (10_240, "8080", Ok([(5_100, 5_139), (5_100, 5_139)])),
        (10_240, "7F81", Ok([(5_060, 5_099), (5_140, 5_179)])),
        (10_240, "8081", refused),
        (10_240, "8180", refused),
        (10_000, "8080", Ok([(4_981, 5_019), (4_981, 5_019)])),
        (10_000, "8081", refused),
    ] {
        let reference = format!("0B0000000000001B680103E800001B78{rest}");
        let spans = spans_on(&ridge_of([length, 10_000]), &reference);
        assert_eq!(spans, expected, "{length} {rest}");
    }
}

/// Byte FF begins at 509 * 10,000 / 512 = 9941.4: 9,942 and 9,999 have equal bytes. They are 57 apart, which is
/// over a 256th of the leg, 39.06, and below three 512ths of it, 58.6.
#[test]
fn stretches_with_equal_bytes() {
    let plan = ridge(&[]);
    let on_each_leg = [|offset| (offset, 0), |offset| (0, offset)];
    for offsets in on_each_leg {
        let mut spans = HashMap::new();
        for offset in 1..10_000 {
            let (pos, neg) = offsets(offset);
            let written = write_on(&plan, &[0, 1], pos, neg);
            let (least, greatest) = spans.entry(written).or_insert((offset, offset));
            (*least, *greatest) = (offset.min(*least), offset.max(*greatest));
        }
        // Every byte has an offset on this leg.
        assert_eq!(spans.len(), 256);
        let apart = spans.values().map(|(least, greatest)| greatest - least);
        assert_eq!(apart.clone().max(), Some(57));
        assert!(apart.clone().all(|apart| 512 * apart < 3 * 10_000));
        assert_eq!(apart.filter(|apart| 256 * apart >= 10_000).count(), 1);
        for (reference, (least, greatest)) in spans {
            let read = read_on(&plan, &reference).unwrap();
            let span = match offsets(1) {
                (1, _) => read.positive,
                _ => read.negative,
            };
            assert_eq!(span, Span { least, greatest });
        }
    }
}
