//! The values of a message, their patterns, and where the bits lie.

use std::ops::RangeInclusive;

use crate::float;
use crate::layout::{Field, Frame, Layout, Message, Sign};

/// An unsigned message of w bits holds 0 to 2^w - 1; a signed one holds -2^(w-1) to 2^(w-1) - 1.
/// The values of a float are its patterns.
pub fn range(message: &Message) -> RangeInclusive<i64> {
    match message.sign {
        Sign::Signed => {
            let half = 1 << (message.width - 1);
            -half..=half - 1
        }
        Sign::Unsigned | Sign::Float => 0..=(1 << message.width) - 1,
    }
}

/// Can it be sent? Of floats, only finite ones.
pub fn holds(message: &Message, value: i64) -> bool {
    let is_float = message.sign == Sign::Float;
    range(message).contains(&value) && (!is_float || float::is_finite(pattern(value)))
}

/// The value of an extended 32-bit pattern.
pub fn value(message: &Message, pattern: u32) -> i64 {
    match message.sign {
        Sign::Signed => i64::from(pattern as i32),
        Sign::Unsigned | Sign::Float => i64::from(pattern),
    }
}

pub fn initial(message: &Message) -> i64 {
    value(message, message.initial)
}

/// The extended 32-bit pattern of a value of a message.
pub fn pattern(value: i64) -> u32 {
    value as u32
}

/// Each message bit goes to its place; all other bits of the data stay.
pub fn pack(layout: &Layout, field: &Field, value: i64, data: &mut [u8]) {
    let frame = &layout.frames[field.frame];
    for j in 0..layout.messages[field.message].width {
        set_bit(frame, data, lies_at(layout, field, j), value >> j & 1 == 1);
    }
}

pub fn unpack(layout: &Layout, field: &Field, data: &[u8]) -> i64 {
    let frame = &layout.frames[field.frame];
    let message = &layout.messages[field.message];
    let mut value = 0;
    for j in 0..message.width {
        if bit(frame, data, lies_at(layout, field, j)) {
            // Two's complement: the most significant bit of a signed message counts negative.
            let negative = message.sign == Sign::Signed && j == message.width - 1;
            value += if negative { -(1 << j) } else { 1 << j };
        }
    }
    value
}

/// The frame bit at which message bit j lies. Little order: start + j. Big order: the most
/// significant bit lies at start, the lower ones at start + 1 and on.
fn lies_at(layout: &Layout, field: &Field, j: usize) -> usize {
    let width = layout.messages[field.message].width;
    match layout.frames[field.frame].big {
        false => field.start + j,
        true => field.start + (width - 1 - j),
    }
}

/// Frame bit i.
pub fn bit(frame: &Frame, data: &[u8], i: usize) -> bool {
    data[i / 8] >> in_byte(frame, i) & 1 == 1
}

pub fn set_bit(frame: &Frame, data: &mut [u8], i: usize, set: bool) {
    let mask = 1 << in_byte(frame, i);
    match set {
        true => data[i / 8] |= mask,
        false => data[i / 8] &= !mask,
    }
}

/// Which bit of byte i div 8 frame bit i is, bit 0 least significant.
fn in_byte(frame: &Frame, i: usize) -> usize {
    match frame.big {
        false => i % 8,
        true => 7 - i % 8,
    }
}
