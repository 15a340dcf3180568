//! The values of the fields of a reference ("The bytes").

use crate::outcome::Span;

/// The longest leg, in centimetres as all lengths and offsets ("Centimetres").
pub const LONGEST_LEG: u32 = 1_500_000;

/// The longest line is as long.
pub const LONGEST_LINE: u32 = LONGEST_LEG;

/// One step of D.
pub const DISTANCE_STEP: u32 = 5_860;

/// Of a stretch, and of a point along a line.
pub const STATUS_BYTE: u8 = 0x0B;
pub const POINT_STATUS_BYTE: u8 = 0x2B;

pub const SHORTEST_REFERENCE: usize = 16;
pub const LONGEST_REFERENCE: usize = 459;
pub const LONGEST_POINT: usize = 17;
pub const FIRST_POINT_BYTES: usize = 9;
pub const MIDDLE_POINT_BYTES: usize = 7;

/// Bits 7 and 6 of P are zero in the reference of a stretch. Those of a point along a line have the
/// orientation in the first P and the side of road in the last.
pub const ZERO_BITS_OF_P: u8 = 0xC0;
pub const ORIENTATION_OR_SIDE_SHIFT: u32 = 6;
pub const GREATEST_ORIENTATION_OR_SIDE: u32 = 3;

/// Bit 7 of R is zero.
pub const ZERO_BIT_OF_R: u8 = 0x80;
pub const POSITIVE_FLAG: u8 = 0x40;
pub const NEGATIVE_FLAG: u8 = 0x20;

/// Where P of a point stands among the bytes; the byte after it is Q or R, and the one after Q is D.
///
/// The first point is preceded by the status byte and has two bytes more than the others, so that
/// they are all seven bytes apart.
#[inline]
pub fn place_of_p(point: usize) -> usize {
    FIRST_POINT_BYTES - 2 + MIDDLE_POINT_BYTES * point
}

/// What a point says of its line: FRC and FOW from P, the sector from Q or R.
#[derive(Clone, Copy, Debug, PartialEq, Eq)]
pub struct Marks {
    pub frc: u8,
    pub fow: u8,
    pub sector: u8,
}

impl Marks {
    /// From P and the byte beside it. That byte is Q or R: both hold the sector in bits 4 to 0.
    pub fn from_bytes(p: u8, beside: u8) -> Marks {
        Marks {
            frc: p >> 3 & 7,
            fow: p & 7,
            sector: beside & 31,
        }
    }

    pub fn p(self) -> u8 {
        self.frc << 3 | self.fow
    }
}

/// The 24-bit code of a coordinate in hundred-thousandths of a degree. Cutting towards zero makes
/// the codes of a coordinate and of its opposite opposite, so that the size alone is divided.
/// Numerator and denominator are doubled: then the half is whole.
#[inline]
pub fn coordinate_code(coordinate: i32) -> i32 {
    let size = u64::from(coordinate.unsigned_abs());
    let code = ((size * 2 * 16_777_216 + 36_000_000) / (2 * 36_000_000)) as i32;
    if coordinate < 0 {
        -code
    } else {
        code
    }
}

/// How far a step goes at most, in decimetres. A step is stored plus this.
pub const LONGEST_STEP: i32 = 250;

/// A direction as seen from a node: the point 20 m along the line, in decimetres east and north, not
/// both 0 ("Bearings from the drawing").
#[derive(Clone, Copy, Debug, PartialEq, Eq, Hash)]
pub struct Steps {
    pub east: i32,
    pub north: i32,
}

impl Steps {
    /// The number of whole 11.25-degree steps in the angle clockwise from north.
    ///
    /// As a complex number, north real and east imaginary, a direction doubles its angle when it is
    /// squared. Squared twice, it has four times its angle: quarter turns fall away, and the eight
    /// sectors of a quarter have become the eighths of a full turn.
    #[inline]
    pub fn sector(self) -> u8 {
        let direction = Complex {
            real: i64::from(self.north),
            imaginary: i64::from(self.east),
        };
        8 * direction.quarters() + direction.squared().squared().eighths()
    }
}

/// A complex number that is not 0. Its angle goes from the real part to the imaginary one, and an edge
/// belongs to the part of a turn that starts there. Nothing is branched on: directions come in any
/// order.
#[derive(Clone, Copy)]
struct Complex {
    real: i64,
    imaginary: i64,
}

impl Complex {
    /// Of steps, a part has 17 bits after one squaring and 34 after two.
    #[inline(always)]
    fn squared(self) -> Complex {
        let Complex { real, imaginary } = self;
        Complex {
            real: real * real - imaginary * imaginary,
            imaginary: 2 * real * imaginary,
        }
    }

    /// Below the real axis, or on it to the left.
    #[inline(always)]
    fn is_past_half_turn(self) -> bool {
        self.imaginary < i64::from(self.real < 0)
    }

    /// The whole quarter turns in its angle.
    #[inline(always)]
    fn quarters(self) -> u8 {
        let half = self.is_past_half_turn();
        let quarter = if half { self.real >= 0 } else { self.real <= 0 };
        2 * u8::from(half) + u8::from(quarter)
    }

    /// The whole eighths of a turn in its angle, which is four times that of steps. Of the edges only
    /// half turns are met: the others would be at 11.25 or 22.5 degrees, whose tangents are no
    /// fractions.
    #[inline(always)]
    fn eighths(self) -> u8 {
        let half = self.is_past_half_turn();
        let quarter = half ^ (self.real < 0);
        let eighth = quarter ^ (self.real.abs() < self.imaginary.abs());
        4 * u8::from(half) + 2 * u8::from(quarter) + u8::from(eighth)
    }
}

/// D of a leg that is not over the longest.
pub fn distance_byte(leg_length: u32) -> u8 {
    (leg_length / DISTANCE_STEP) as u8
}

/// The least and the greatest leg length that give D. The greatest is also a leg's limit.
pub fn lengths_of_distance_byte(distance: u8) -> (u32, u32) {
    let least = u32::from(distance) * DISTANCE_STEP;
    (least, (least + DISTANCE_STEP - 1).min(LONGEST_LEG))
}

/// The byte of an offset below the leg length: the nearest 256th of the leg, an exact half upwards, and
/// 255 where that is 256 ("Offsets to the nearest").
///
/// The nearest is the greatest whole `k` with `k * leg_length <= 256 * offset + leg_length / 2`. All but
/// the half leg is whole in it, so the half of an odd leg may be rounded down. For an offset below the
/// longest leg there is room for it in 32 bits, on any 64 lines.
pub fn offset_byte(offset: u32, leg_length: u32) -> u8 {
    ((256 * offset + leg_length / 2) / leg_length).min(255) as u8
}

/// The whole offsets from 1 to below the leg length that give the byte, if there are any.
///
/// Halfway between 256ths are the odd 512ths: `byte` is the nearest just if
/// `(2 * byte - 1) * leg_length <= 512 * offset < (2 * byte + 1) * leg_length`. Before byte 0 there is no
/// other byte, and behind byte 255 none: it goes on where 256 is the nearest.
pub fn offset_span(byte: u8, leg_length: u32) -> Option<Span> {
    let middle = 2 * u32::from(byte) * leg_length;
    let least = match byte {
        0 => 1,
        _ => (middle + 511 - leg_length) / 512,
    };
    let greatest = match byte {
        255 => leg_length - 1,
        _ => (middle + leg_length - 1) / 512,
    };
    (least <= greatest).then_some(Span { least, greatest })
}

/// A longitude, or a difference of two, brought into -18,000,000 to 17,999,999 by adding or taking
/// a full circle ("Depots on the 180th meridian"). Once is enough: two longitudes differ by less
/// than a full circle, and a sum leaves the range by 16 bits at most.
#[inline]
pub fn brought_round(longitude: i32) -> i32 {
    match longitude {
        18_000_000.. => longitude - 36_000_000,
        -18_000_000..=17_999_999 => longitude,
        _ => longitude + 36_000_000,
    }
}
