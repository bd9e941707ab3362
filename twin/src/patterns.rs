//! Generators of floats, as patterns: chosen edges, and random ones that lie as rounding, overflow
//! and comparison need them.

use crate::float::{is_finite, EXPONENT, FRACTION, INFINITE, SIGN};
use crate::random::Random;

/// The greatest finite float.
pub const GREATEST: u32 = INFINITE - 1;
pub const MINUS_ZERO: u32 = SIGN;

/// Patterns without their sign, each of which is an edge with either sign.
const EDGES: [u32; 100] = [
    // Zero, and the subnormal ones: the least, and those about a half and the whole of their range.
    0x00000000, 0x00000001, 0x00000002, 0x00000003, 0x00000004, 0x00000005, 0x00000006, 0x00000007,
    0x00000008, 0x00000009, 0x0000000C, 0x00000014, 0x00001FFF, 0x00123456, 0x003FFFFF, 0x00400000,
    0x00400001, 0x00555555, 0x007FFFFE, 0x007FFFFF,
    // The least normal ones, whose eighths to halves are subnormal.
    0x00800000, 0x00800001, 0x00800002, 0x00800003, 0x00800007, 0x00AAAAAA, 0x00FFFFFF, 0x01000000,
    0x01000001, 0x01000003, 0x01555555, 0x017FFFFF, 0x01800000, 0x01FFFFFF, 0x02000000, 0x02000001,
    // 2^-25, 2^-24 and 2^-23: below, at and above a half of the last place of 1.
    0x33000000, 0x337FFFFF, 0x33800000, 0x33800001, 0x33C00000, 0x33FFFFFF, 0x34000000,
    // About 1; a tenth, a third, two thirds, a half; 1.5, 2, 3, pi, 5, 7, 8, 1000.
    0x3F7FFFFE, 0x3F7FFFFF, 0x3F800000, 0x3F800001, 0x3F800002, 0x3F800003, 0x3DCCCCCD, 0x3EAAAAAB,
    0x3F2AAAAB, 0x3F000000, 0x3FC00000, 0x40000000, 0x40400000, 0x40490FDB, 0x40A00000, 0x40E00000,
    0x41000000, 0x447A0000,
    // About 2^23, 2^24 and 2^25: not every whole number above 2^24 is a float; 2^31, 2^32, 2^63, 2^64.
    0x4AFFFFFF, 0x4B000000, 0x4B000001, 0x4B7FFFFF, 0x4B800000, 0x4B800001, 0x4C000000, 0x4C000001,
    0x4F000000, 0x4F800000, 0x5F000000, 0x5F800000,
    // Below, at and above 2^103, a half of the last place of the greatest; 2^104.
    0x72FFFFFF, 0x73000000, 0x73000001, 0x73800000,
    // An eighth, a quarter and a half of 2^128, about which sums of eight, four and two overflow.
    0x7DFFFFFF, 0x7E000000, 0x7E000001, 0x7E7FFFFF, 0x7E800000, 0x7EAAAAAA, 0x7EFFFFFF, 0x7F000000,
    0x7F000001, 0x7F400000, 0x7F555555, 0x7F7FFFFD, 0x7F7FFFFE, 0x7F7FFFFF,
    // Infinity; signalling NaNs; quiet ones.
    0x7F800000, 0x7F800001, 0x7F80FFFF, 0x7FA00000, 0x7FBFFFFF, 0x7FC00000, 0x7FC00001, 0x7FD55555,
    0x7FFFFFFF,
];

/// 200 patterns: the edges with both signs.
pub fn edges() -> Vec<u32> {
    let both = EDGES.iter().flat_map(|&edge| [edge, SIGN | edge]);
    both.collect()
}

/// What the values have in common that one round delivers of one message.
#[derive(Clone, Copy, Debug)]
pub enum Theme {
    Any,
    Edges,
    /// Beside this one, so that votes have winners and sums of two are often ties.
    Near(u32),
    /// Of exponents about this one's, with few bits set, so that sums of more are ties too.
    Sparse(u32),
    /// Sums overflow.
    Huge,
    /// Sums and quotients are subnormal.
    Tiny,
    Zeros,
    NotFinite,
}

impl Theme {
    pub fn any(random: &mut Random) -> Theme {
        let centre = finite(random);
        let small = random.draw() as u32 & (SIGN | 0xFF_FFFF);
        let themes = [
            Theme::Any,
            Theme::Edges,
            Theme::Near(centre),
            Theme::Near(small),
            Theme::Sparse(centre),
            Theme::Huge,
            Theme::Huge,
            Theme::Tiny,
            Theme::Zeros,
            Theme::Zeros,
            Theme::NotFinite,
        ];
        random.pick(&themes).unwrap_or(Theme::Any)
    }

    pub fn pattern(self, random: &mut Random) -> u32 {
        let any = random.draw() as u32;
        match self {
            Theme::Any => any,
            Theme::Edges => random.pick(&edges()).unwrap_or(any),
            Theme::Near(centre) => {
                // Of the other sign too, so that sums are zero.
                let sign = if random.once_in(6) { SIGN } else { 0 };
                sign ^ centre ^ (any & random.pick(&[1, 1, 3, 7]).unwrap_or(1))
            }
            Theme::Sparse(centre) => {
                // At most 254 * 7 / 8 + 26, which is finite.
                let exponent = (centre >> 23 & 0xFF) * 7 / 8 + any % 27;
                let low = 1 << (any >> 8 & 1);
                let bits = random.pick(&[0, low, 0x40_0000, 0x60_0000, 0x40_0000 | low]);
                (centre & SIGN) | exponent << 23 | bits.unwrap_or(low)
            }
            Theme::Huge => {
                let sign = if random.once_in(4) { SIGN } else { 0 };
                sign | (GREATEST - (any & 0x1FF_FFFF))
            }
            Theme::Tiny => any & (SIGN | random.pick(&[0x1FF_FFFF, FRACTION, 0xF]).unwrap_or(0xF)),
            // The mean is -0 only if all are.
            Theme::Zeros => random.pick(&[0, MINUS_ZERO, MINUS_ZERO]).unwrap_or(0),
            Theme::NotFinite => not_finite(random),
        }
    }
}

/// Any finite float, often an edge.
pub fn finite(random: &mut Random) -> u32 {
    let theme = random.pick(&[Theme::Any, Theme::Edges, Theme::Tiny, Theme::Zeros]);
    made_finite(theme.unwrap_or(Theme::Any).pattern(random))
}

/// The same, or if it is not finite a finite one with its sign and fraction.
pub fn made_finite(pattern: u32) -> u32 {
    match is_finite(pattern) {
        true => pattern,
        false => pattern & !0x0080_0000,
    }
}

/// An infinity, a quiet NaN or a signalling one, of either sign.
pub fn not_finite(random: &mut Random) -> u32 {
    let any = random.draw() as u32;
    let low = 1 << random.between(0, 21);
    let quiet = 0x40_0000;
    let fraction = random.pick(&[0, 0, quiet, quiet | low, low, any & FRACTION]);
    (any & SIGN) | EXPONENT | fraction.unwrap_or(0)
}
