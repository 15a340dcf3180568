//! Offset bytes against trying every 256th of the leg, and their spans against trying every offset.

use plain::fields::{offset_byte, offset_span, LONGEST_LEG};
use plain::outcome::Span;

/// Multiples of 512, where offsets are exactly at a half, beside them, the leg of the ridge, and the longest.
const LONG_LEGS: [u32; 8] = [
    2048,
    2559,
    10_000,
    750_001,
    1_048_576,
    1_499_648,
    LONGEST_LEG - 1,
    LONGEST_LEG,
];

fn short_legs() -> impl Iterator<Item = u32> {
    1..1200
}

/// The offsets below the leg length with each byte, from the least to the greatest.
fn spans_by_trying(leg_length: u32) -> [Option<Span>; 256] {
    let mut spans = [None::<Span>; 256];
    for offset in 1..leg_length {
        let span = &mut spans[usize::from(offset_byte(offset, leg_length))];
        let least = span.map_or(offset, |span| span.least);
        *span = Some(Span {
            least,
            greatest: offset,
        });
    }
    spans
}

#[test]
fn spans_hold_just_the_offsets_that_give_the_byte() {
    for leg_length in short_legs().chain(LONG_LEGS) {
        let spans = spans_by_trying(leg_length);
        for (byte, span) in (0..=255).zip(spans) {
            assert_eq!(offset_span(byte, leg_length), span, "{byte} {leg_length}");
        }
        // A byte does not come again, so that there is nothing else between the two ends.
        let counts = spans.into_iter().flatten();
        let all: u32 = counts.map(|span| span.greatest - span.least + 1).sum();
        assert_eq!(all, leg_length - 1);
    }
}

/// Of all 256ths the one with the least distance from the offset, both taken 256 times; of two the
/// greater. The last is written as the one before it.
fn nearest_by_trying(offset: u32, leg_length: u32) -> u8 {
    let mut nearest = 0;
    let mut least = u32::MAX;
    for parts in 0..=256 {
        let distance = (256 * offset).abs_diff(parts * leg_length);
        if distance <= least {
            (nearest, least) = (parts, distance);
        }
    }
    u8::try_from(nearest).unwrap_or(255)
}

#[test]
fn bytes_are_the_nearest_256ths() {
    let check = |offset: u32, leg_length: u32| {
        let nearest = nearest_by_trying(offset, leg_length);
        let byte = offset_byte(offset, leg_length);
        assert_eq!(byte, nearest, "{offset} of {leg_length}");
    };
    for leg_length in short_legs() {
        (1..leg_length).for_each(|offset| check(offset, leg_length));
    }
    for leg_length in LONG_LEGS {
        let ends = (1..600).chain(leg_length - 600..leg_length);
        let between = (600..leg_length).step_by(97);
        // Where the leg is no multiple of 512 a half is between such an offset and the one before it.
        let edges = (1..512).step_by(2);
        let edges = edges.map(|halves| (halves * leg_length).div_ceil(512));
        let at_edges = edges.flat_map(|edge| [edge - 1, edge]);
        for offset in ends.chain(between).chain(at_edges) {
            check(offset, leg_length);
        }
    }
}

/// 256 * 1 / 512 is 0.5, 256 * 3 / 512 is 1.5, 256 * 509 / 512 is 254.5, and 256 * 511 / 512 is 255.5,
/// which goes up to 256. 256 / 513 is 0.499 and 256 / 511 is 0.501; 256 / 100 is 2.56. 256 * 499 / 1000
/// is 127.74 and 256 * 501 / 1000 is 128.26; with 498 and 502 it is 127.49 and 128.51.
///
/// On the ridge's leg of 10,000 a 512th is 19.53: 255 of them are 4980.5, and 257 are 5019.5. So offset 1
/// has byte 0, as far as 19; 9,999 is nearest to 256. The longest leg has 512ths of 2929.7.
#[test]
fn bytes_at_the_edges() {
    for (offset, leg_length, byte) in [
        (1, 512, 1),
        (2, 512, 1),
        (3, 512, 2),
        (508, 512, 254),
        (509, 512, 255),
        (511, 512, 255),
        (1, 513, 0),
        (1, 511, 1),
        (1, 100, 3),
        (1, 2, 128),
        (498, 1000, 127),
        (499, 1000, 128),
        (501, 1000, 128),
        (502, 1000, 129),
        (1, 10_000, 0),
        (19, 10_000, 0),
        (20, 10_000, 1),
        (4_980, 10_000, 127),
        (4_981, 10_000, 128),
        (5_019, 10_000, 128),
        (5_020, 10_000, 129),
        (9_999, 10_000, 255),
        (1, LONGEST_LEG, 0),
        (2_929, LONGEST_LEG, 0),
        (2_930, LONGEST_LEG, 1),
        (LONGEST_LEG - 1, LONGEST_LEG, 255),
    ] {
        assert_eq!(offset_byte(offset, leg_length), byte, "{offset}");
    }
}

/// Byte 0 is below 1 of 512 parts, and byte 255 from 509 on: 509 * 170 / 512 is 169.004 and
/// 509 * 171 / 512 is 169.998. 509 * 10,000 / 512 is 9941.4, and 509 * 1,500,000 / 512 is 1,491,210.9.
#[test]
fn spans_at_the_edges() {
    for (byte, leg_length, span) in [
        (0x80, 1000, Some((499, 501))),
        (0x80, 10_000, Some((4_981, 5_019))),
        (0, 10_000, Some((1, 19))),
        (255, 10_000, Some((9_942, 9_999))),
        (0, LONGEST_LEG, Some((1, 2_929))),
        (255, LONGEST_LEG, Some((1_491_211, LONGEST_LEG - 1))),
        (1, 100, None),
        (3, 100, Some((1, 1))),
        (0, 512, None),
        (1, 512, Some((1, 2))),
        (0, 513, Some((1, 1))),
        (255, 170, None),
        (255, 171, Some((170, 170))),
        (255, 512, Some((509, 511))),
        (128, 1, None),
    ] {
        let span = span.map(|(least, greatest)| Span { least, greatest });
        assert_eq!(offset_span(byte, leg_length), span, "{byte} {leg_length}");
    }
}

/// Where the byte is 255 they may be further apart than a 256th, which is what other bytes stay below: it
/// begins at 509 of 512 parts and goes on to the end.
#[test]
fn offsets_with_equal_bytes_are_less_than_three_512ths_apart() {
    for leg_length in short_legs().chain(LONG_LEGS) {
        for (byte, span) in spans_by_trying(leg_length).into_iter().enumerate() {
            let Span { least, greatest } = span.unwrap_or_default();
            let apart = greatest - least;
            assert!(512 * apart < 3 * leg_length, "{byte} {leg_length}");
            assert!(
                byte == 255 || 256 * apart < leg_length,
                "{byte} {leg_length}"
            );
        }
    }
    // A 256th of 1,000 is 3.9, and three 512ths are 5.9; 509 of 512 parts are 994.1. Of 1,499,648, which is
    // 512 * 2,929, they are 5,858, 8,787 and 509 * 2,929 = 1,490,861: with one offset more it would be 8,787.
    for (least, leg_length, apart) in [(995, 1000, 4), (1_490_861, 1_499_648, 8_786)] {
        let greatest = leg_length - 1;
        let bytes = [least - 1, least, greatest].map(|offset| offset_byte(offset, leg_length));
        assert_eq!(bytes, [254, 255, 255]);
        assert_eq!(greatest - least, apart);
        assert!(256 * apart > leg_length);
    }
}
