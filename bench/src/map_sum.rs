//! The sum over the bytes of a map ("The wrong map"), by 128 bytes at a time: each byte times its weight, a power
//! of 257, and one remainder for all. The products of eight bytes are made at once, with SSE2.

use std::arch::x86_64::{
    __m128i, _mm_add_epi32, _mm_cvtsi128_si32, _mm_madd_epi16, _mm_set_epi64x, _mm_setr_epi16,
    _mm_setzero_si128, _mm_shuffle_epi32, _mm_unpackhi_epi8, _mm_unpacklo_epi8,
};

const FACTOR: u64 = 257;
const MODULUS: u64 = 4_294_967_291;

const BLOCK: usize = 128;

/// What the sum of all that stands before a block is multiplied by.
const BLOCK_FACTOR: u64 = power(BLOCK);

/// Eight bytes, or their weights.
const LANES: usize = 8;

/// A weight is 65,536 times its high half and its low half, modulo the modulus. Both have 16 bits and a sign.
struct Weights {
    low: [[i16; LANES]; BLOCK / LANES],
    high: [[i16; LANES]; BLOCK / LANES],
}

static WEIGHTS: Weights = weights();

const fn power(exponent: usize) -> u64 {
    let mut power = 1;
    let mut left = exponent;
    while left > 0 {
        power = power * FACTOR % MODULUS;
        left -= 1;
    }
    power
}

const fn weights() -> Weights {
    let mut weights = Weights {
        low: [[0; LANES]; BLOCK / LANES],
        high: [[0; LANES]; BLOCK / LANES],
    };
    let mut place = 0;
    while place < BLOCK {
        let weight = power(BLOCK - 1 - place) as i64;
        // The nearest to 0, so that the high half has no more than 16 bits.
        let weight = match weight > MODULUS as i64 / 2 {
            true => weight - MODULUS as i64,
            false => weight,
        };
        let low = weight as i16;
        let high = (weight - low as i64) / 65_536;
        assert!(high == high as i16 as i64);
        weights.low[place / LANES][place % LANES] = low;
        weights.high[place / LANES][place % LANES] = high as i16;
        place += 1;
    }
    weights
}

/// Start at 0; for each byte multiply by 257, add the byte, keep the remainder by 4,294,967,291.
pub fn map_sum(map_bytes: &[u8]) -> u32 {
    // Every x86-64 has SSE2.
    unsafe { sum_by_blocks(map_bytes) }
}

#[target_feature(enable = "sse2")]
fn sum_by_blocks(map_bytes: &[u8]) -> u32 {
    // What is left over by the blocks comes first, behind zeros, which leave a sum of 0 as it is.
    let (head, blocks) = map_bytes.as_rchunks::<BLOCK>();
    let mut first = [0; BLOCK];
    first[BLOCK - head.len()..].copy_from_slice(head);
    let first = weighted(&first) % MODULUS;
    let sum = blocks.iter().fold(first, |sum, block| {
        (sum * BLOCK_FACTOR + weighted(block)) % MODULUS
    });
    sum as u32
}

/// The sum of the bytes times their weights, or a number below 2 to the 33rd with the same remainder.
#[inline]
#[target_feature(enable = "sse2")]
fn weighted(block: &[u8; BLOCK]) -> u64 {
    let zero = _mm_setzero_si128();
    // Of 128 products none is over 2 to the 23rd, and so no lane goes over 31 bits.
    let (mut low, mut high) = (zero, zero);
    let (pairs, _) = block.as_chunks::<{ 2 * LANES }>();
    for (place, bytes) in pairs.iter().enumerate() {
        let bytes = both_eights(bytes);
        let halves = [
            _mm_unpacklo_epi8(bytes, zero),
            _mm_unpackhi_epi8(bytes, zero),
        ];
        for (half, eight) in halves.into_iter().enumerate() {
            let place = 2 * place + half;
            low = _mm_add_epi32(low, _mm_madd_epi16(eight, lanes(&WEIGHTS.low[place])));
            high = _mm_add_epi32(high, _mm_madd_epi16(eight, lanes(&WEIGHTS.high[place])));
        }
    }
    let sum = 65_536 * all_lanes(high) + all_lanes(low);
    // Both are over -2 to the 30th, so this is not below 0.
    let sum = (sum + ((MODULUS as i64) << 16)) as u64;
    // 2 to the 32nd is 5 more than the modulus.
    5 * (sum >> 32) + (sum & 0xFFFF_FFFF)
}

#[inline]
#[target_feature(enable = "sse2")]
fn both_eights(bytes: &[u8; 2 * LANES]) -> __m128i {
    let ([first, second], _) = bytes.as_chunks::<LANES>() else {
        unreachable!("there are two")
    };
    _mm_set_epi64x(i64::from_le_bytes(*second), i64::from_le_bytes(*first))
}

#[inline]
#[target_feature(enable = "sse2")]
fn lanes(&[a, b, c, d, e, f, g, h]: &[i16; LANES]) -> __m128i {
    _mm_setr_epi16(a, b, c, d, e, f, g, h)
}

/// The sum of four numbers of 32 bits.
#[inline]
#[target_feature(enable = "sse2")]
fn all_lanes(numbers: __m128i) -> i64 {
    let pairs = _mm_add_epi32(numbers, _mm_shuffle_epi32(numbers, 0b01_00_11_10));
    let all = _mm_add_epi32(pairs, _mm_shuffle_epi32(pairs, 0b10_11_00_01));
    i64::from(_mm_cvtsi128_si32(all))
}
