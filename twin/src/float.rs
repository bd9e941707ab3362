//! 32-bit IEEE 754 floats as bit patterns. Every finite one stands for a whole multiple of 2^-149,
//! so sums, quotients and comparisons are of whole numbers. The machine's floats are not used.

use std::cmp::Ordering;

/// The sign bit, the exponent bits and the fraction bits of a pattern.
pub const SIGN: u32 = 0x8000_0000;
pub const EXPONENT: u32 = 0x7F80_0000;
pub const FRACTION: u32 = 0x007F_FFFF;

/// Without its sign: the patterns below it are finite, and in the order of their numbers.
pub const INFINITE: u32 = EXPONENT;

/// Infinities and NaNs have all exponent bits set.
pub fn is_finite(pattern: u32) -> bool {
    pattern & EXPONENT != EXPONENT
}

/// The float nearest to an exact result, and how the result lies to it.
#[derive(Clone, Copy, Debug, PartialEq)]
pub struct Rounded {
    pub pattern: u32,
    pub lies: Lies,
}

#[derive(Clone, Copy, Debug, PartialEq)]
pub enum Lies {
    /// The result is that float.
    There,
    /// Between two floats, nearer to that one.
    Nearer,
    /// In the middle of two floats, of which that one is even.
    Between,
}

/// The sum of two finite floats. It may be infinite.
pub fn sum(one: u32, other: u32) -> Rounded {
    let (a, b) = (multiple(one & !SIGN), multiple(other & !SIGN));
    if one & SIGN == other & SIGN {
        return nearest(one & SIGN, a.plus(b), 1);
    }
    match a.cmp(&b) {
        Ordering::Greater => nearest(one & SIGN, a.minus(b), 1),
        Ordering::Less => nearest(other & SIGN, b.minus(a), 1),
        // IEEE 754: a sum of two signs that is zero is +0.
        Ordering::Equal => nearest(0, Whole::ZERO, 1),
    }
}

/// A finite float divided by a count from 1 to 8. It is finite, and has the float's sign.
pub fn quotient(float: u32, count: usize) -> Rounded {
    nearest(float & SIGN, multiple(float & !SIGN), count as u64)
}

/// The mean of finite floats, of which there is at least one: added in their order from the first
/// on, and divided by their number; none if it is not finite.
pub fn mean(floats: &[u32]) -> Option<u32> {
    let mut total = floats[0];
    for &next in &floats[1..] {
        total = sum(total, next).pattern;
        // An infinite sum stays so, whatever follows.
        if !is_finite(total) {
            return None;
        }
    }
    Some(quotient(total, floats.len()).pattern)
}

/// Finite floats as numbers: -0 equals +0.
pub fn compare(one: u32, other: u32) -> Ordering {
    let (a, b) = (multiple(one & !SIGN), multiple(other & !SIGN));
    match (one & SIGN != 0, other & SIGN != 0) {
        _ if a == Whole::ZERO && b == Whole::ZERO => Ordering::Equal,
        (false, false) => a.cmp(&b),
        (true, true) => b.cmp(&a),
        (false, true) => Ordering::Greater,
        (true, false) => Ordering::Less,
    }
}

/// The multiple of 2^-149 that a finite pattern without its sign stands for. INFINITE stands for
/// 2^128 here, which would come after the greatest float.
fn multiple(pattern: u32) -> Whole {
    let (exponent, fraction) = (pattern >> 23, pattern & FRACTION);
    match exponent {
        0 => Whole::of(fraction, 0),
        _ => Whole::of(fraction | 0x80_0000, exponent - 1),
    }
}

/// IEEE 754's nearest-even rule for dividend / divisor multiples of 2^-149: of the two floats beside
/// it the nearer one, and from the middle the one whose pattern is even. What is as near to 2^128 as
/// to the greatest float, or nearer, is infinite.
fn nearest(sign: u32, dividend: Whole, divisor: u64) -> Rounded {
    // The two neighbours: the greatest float that is not above the result, and the next one.
    let (mut below, mut above) = (0, INFINITE);
    while above - below > 1 {
        let middle = below + (above - below) / 2;
        match multiple(middle).times(divisor) <= dividend {
            true => below = middle,
            false => above = middle,
        }
    }
    let middle = multiple(below).plus(multiple(above)).times(divisor);
    let (size, lies) = match dividend.times(2).cmp(&middle) {
        Ordering::Less => (below, Lies::Nearer),
        Ordering::Greater => (above, Lies::Nearer),
        Ordering::Equal if below % 2 == 0 => (below, Lies::Between),
        Ordering::Equal => (above, Lies::Between),
    };
    let there = multiple(below).times(divisor) == dividend;
    Rounded {
        pattern: sign | size,
        lies: if there { Lies::There } else { lies },
    }
}

const LIMBS: usize = 5;

/// A whole number below 2^320, the lowest 64 bits first. No result here reaches 2^282.
#[derive(Clone, Copy, PartialEq, Eq)]
struct Whole([u64; LIMBS]);

impl Whole {
    const ZERO: Whole = Whole([0; LIMBS]);

    /// number * 2^places
    fn of(number: u32, places: u32) -> Whole {
        let mut limbs = [0; LIMBS];
        let limb = (places / 64) as usize;
        let wide = u128::from(number) << (places % 64);
        limbs[limb] = wide as u64;
        limbs[limb + 1] = (wide >> 64) as u64;
        Whole(limbs)
    }

    fn plus(self, other: Whole) -> Whole {
        let mut carry = 0;
        let mut limbs = [0; LIMBS];
        for (i, limb) in limbs.iter_mut().enumerate() {
            let wide = u128::from(self.0[i]) + u128::from(other.0[i]) + carry;
            *limb = wide as u64;
            carry = wide >> 64;
        }
        assert_eq!(carry, 0);
        Whole(limbs)
    }

    /// The other is not above this one.
    fn minus(self, other: Whole) -> Whole {
        let mut borrow = 0;
        let mut limbs = [0; LIMBS];
        for (i, limb) in limbs.iter_mut().enumerate() {
            let wide = i128::from(self.0[i]) - i128::from(other.0[i]) - borrow;
            *limb = wide as u64;
            borrow = i128::from(wide < 0);
        }
        assert_eq!(borrow, 0);
        Whole(limbs)
    }

    fn times(self, factor: u64) -> Whole {
        let mut carry = 0;
        let mut limbs = [0; LIMBS];
        for (i, limb) in limbs.iter_mut().enumerate() {
            let wide = u128::from(self.0[i]) * u128::from(factor) + carry;
            *limb = wide as u64;
            carry = wide >> 64;
        }
        assert_eq!(carry, 0);
        Whole(limbs)
    }
}

impl Ord for Whole {
    fn cmp(&self, other: &Whole) -> Ordering {
        self.0.iter().rev().cmp(other.0.iter().rev())
    }
}

impl PartialOrd for Whole {
    fn partial_cmp(&self, other: &Whole) -> Option<Ordering> {
        Some(self.cmp(other))
    }
}
