//! Bytes of a valid record made wrong: the places where RANGE, RESERVED, UNUSED and WIDTH can stand.

use crate::layout::{
    uses_x1, uses_x2, Fault, FIELD, FRAME, MESSAGE, RANGE, RESERVED, UNUSED, WIDTH,
};
use crate::patterns::not_finite;
use crate::plans::{is_float, put_pattern};
use crate::random::Random;

/// The bytes of a frame or a field that have no name.
const FROM_6: &[u8] = &[
    6, 7, 8, 9, 10, 11, 12, 13, 14, 15, 16, 17, 18, 19, 20, 21, 22, 23,
];

/// Beside the kinds of record: a message that is a float, where the rules of floats are broken.
pub const FLOAT: u8 = 4;

/// A kind of record, a refusal of it, and the bytes that it can give; a word is its first byte.
pub type Row = (u8, u8, &'static [u8]);

pub const PLACES: [Row; 11] = [
    (FRAME, RANGE, &[1, 2, 3, 4, 5]),
    (FRAME, RESERVED, FROM_6),
    (MESSAGE, RANGE, &[1, 2, 3, 4, 5, 6]),
    (MESSAGE, RESERVED, &[7, 20, 21, 22, 23]),
    (MESSAGE, UNUSED, &[8, 12]),
    (MESSAGE, WIDTH, &[8, 12, 16]),
    (FLOAT, RANGE, &[3, 6]),
    (FLOAT, UNUSED, &[8, 12]),
    (FLOAT, WIDTH, &[8, 12, 16]),
    (FIELD, RANGE, &[4, 5]),
    (FIELD, RESERVED, FROM_6),
];

#[derive(Clone, Copy, Debug, PartialEq)]
pub struct Place {
    pub kind: u8,
    pub number: u8,
    pub byte: u8,
}

pub fn all_places() -> Vec<Place> {
    let places = PLACES.iter().flat_map(|&(kind, number, bytes)| {
        let place = move |&byte| Place { kind, number, byte };
        bytes.iter().map(place)
    });
    places.collect()
}

impl Place {
    /// Where a record is refused.
    pub fn of(record: &[u8], Fault { byte, number }: Fault) -> Place {
        let of_float = record[0] == MESSAGE
            && record[3] == 2
            && match byte {
                3 | 8 | 12 | 16 => true,
                // A mask; else it is no filter.
                6 => record[6] <= 13,
                _ => false,
            };
        let kind = if of_float { FLOAT } else { record[0] };
        Place { kind, number, byte }
    }

    /// Byte 0 of its records.
    pub fn record(&self) -> u8 {
        match self.kind {
            FLOAT => MESSAGE,
            kind => kind,
        }
    }

    /// Can this record of the kind be made wrong here?
    pub fn fits(&self, record: &[u8]) -> bool {
        let used = match self.byte {
            8 => uses_x1(record[6]),
            12 => uses_x2(record[6]),
            _ => true,
        };
        match (self.kind, self.number, self.byte) {
            (FRAME | MESSAGE, RANGE, 1) => record[1] == 32,
            (FIELD, RANGE, 5) => record[4] == 0,
            (FLOAT, RANGE, 3) => is_float(record) || record[2] < 32,
            (FLOAT, UNUSED, _) => is_float(record) && !used,
            (FLOAT, WIDTH, _) => is_float(record) && used,
            (FLOAT, ..) => is_float(record),
            (_, UNUSED, _) => !is_float(record) && !used,
            (_, WIDTH, _) => used && record[2] < 32,
            _ => true,
        }
    }

    pub fn put(&self, random: &mut Random, record: &mut [u8]) {
        let byte = usize::from(self.byte);
        let any = random.byte(1, 255);
        let values = match (self.kind, self.number, self.byte) {
            (_, UNUSED, _) => return put_unused(random, record, byte),
            (FLOAT, WIDTH, _) => return put_not_finite(random, record, byte),
            (_, WIDTH, _) => return flip_above_width(random, record, byte),
            // A float of another width.
            (FLOAT, RANGE, 3) if is_float(record) => {
                record[2] = random.pick(&[1, 8, 16, 31]).unwrap_or(31);
                return;
            }
            (FLOAT, RANGE, 3) => [2; 4],
            // A mask.
            (FLOAT, RANGE, _) => [2, 3, 6, 7],
            // The number, which fits only where it is wrong.
            (FRAME | MESSAGE, RANGE, 1) => return,
            // The length or the width.
            (FRAME | MESSAGE, RANGE, 2) => [0, 33, 34, 255],
            (MESSAGE, RANGE, 3) => [3, 4, 128, 255],
            (MESSAGE, RANGE, 5) if record[4] == 1 => [1, 2, 3, 255],
            (MESSAGE, RANGE, 5) => [3, 4, 128, 255],
            (MESSAGE, RANGE, 6) => [14, 15, 128, 255],
            // The place of a status bit that is not there, and bytes that have no name.
            (FIELD, RANGE, 5) | (_, RESERVED, _) => [1, 128, 255, any],
            // All others are 0 or 1.
            _ => [2, 3, 128, 255],
        };
        record[byte] = random.pick(&values).unwrap_or(any);
    }
}

/// A pattern extended from the width, any word, or one of which a single byte is not zero; of a float
/// also one that is not finite.
fn put_unused(random: &mut Random, record: &mut [u8], word: usize) {
    match random.between(0, 3) {
        0 => put_pattern(random, record, word),
        1 => (word..word + 4).for_each(|byte| record[byte] = random.byte(0, 255)),
        2 if is_float(record) => put_not_finite(random, record, word),
        _ => (),
    }
    if record[word..word + 4] == [0; 4] {
        record[word + random.between(0, 3)] = random.byte(1, 255);
    }
}

fn put_not_finite(random: &mut Random, record: &mut [u8], word: usize) {
    record[word..word + 4].copy_from_slice(&not_finite(random).to_le_bytes());
}

/// Flips all the bits above the message's width in one of its words, or only one of them.
fn flip_above_width(random: &mut Random, record: &mut [u8], word: usize) {
    let width = usize::from(record[2]);
    let one = random.between(width, 31);
    let bits = if random.once_in(2) {
        width..=31
    } else {
        one..=one
    };
    for bit in bits {
        record[word + bit / 8] ^= 1 << (bit % 8);
    }
}
