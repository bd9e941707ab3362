//! Cases that play all pairs of the 200 edge patterns: one case for each pattern with all the others,
//! of comparisons with the held value one with some of them. A node shows a sum only through its
//! mean, and a comparison only through a filter.

use crate::bits;
use crate::calls::Call;
use crate::case::Case;
use crate::float::SIGN;
use crate::layout::{Layout, FIELD, FRAME, MESSAGE, RECORD};
use crate::patterns::{edges, GREATEST, MINUS_ZERO};

pub const PATTERNS: usize = 200;

/// Closings of means, with so many messages and fields of each, eight in a frame.
const MESSAGES: usize = 16;
const FIELDS: usize = 8;

/// Comparisons with the held value, by these filters and with so many new values in a case, and the
/// cases of all pairs.
const FILTERS: [u8; 6] = [4, 5, 10, 11, 12, 13];
const NEW: usize = 5;
pub const ORDERS: usize = PATTERNS * PATTERNS / NEW;

/// The mean of the pattern alone, and for each other pattern those of both, and of both with one to
/// six -0: adding -0 changes no sum, so each sum is divided by 2 to 8.
pub fn means(place: usize) -> Case {
    let frames = MESSAGES / 8 * FIELDS;
    let mut records: Vec<Vec<u8>> = (0..frames).map(|number| frame(number, 32)).collect();
    // Agreement 1, filter 0.
    records.extend((0..MESSAGES).map(|number| message(number, 1, 0, [0; 3])));
    for number in 0..MESSAGES {
        let first = number / 8 * FIELDS;
        records.extend((first..first + FIELDS).map(|frame| field(number, frame, number % 8)));
    }
    let edges = edges();
    let one = edges[place];
    Case::in_one_order(records.concat(), |layout| {
        let mut calls = Vec::new();
        for (turn, others) in edges.chunks(MESSAGES).enumerate() {
            let alone = if turn == 0 { 1 } else { 2 };
            for count in alone..=FIELDS {
                for frame in (0..frames).filter(|frame| frame % FIELDS < count) {
                    let carried = |message| match frame % FIELDS {
                        0 => one,
                        1 => others[message % others.len()],
                        _ => MINUS_ZERO,
                    };
                    calls.push(deliver(layout, frame, carried));
                }
                calls.extend(close(MESSAGES));
            }
        }
        calls
    })
}

/// Filters 4, 5 and 10 to 13: the pattern as the initial value, and so as the held one, with some as
/// the new value. Each has messages of its own: once another is held, few filters let the pattern
/// back. One that is not finite is refused. A node that compares with the initial value for ever has the
/// same outcomes; only the random closings tell it.
pub fn orders(place: usize) -> Case {
    let edges = edges();
    let held = edges[place * NEW / PATTERNS];
    let new = &edges[place * NEW % PATTERNS..][..NEW];
    let messages = NEW * FILTERS.len();
    // A frame for each new value, with a message for each filter.
    let own = |number| (number / FILTERS.len(), number % FILTERS.len());
    let mut records: Vec<Vec<u8>> = (0..NEW).map(|number| frame(number, 24)).collect();
    records.extend((0..messages).map(|number| {
        let (_, place) = own(number);
        message(number, 0, FILTERS[place], [0, 0, held])
    }));
    records.extend((0..messages).map(|number| {
        let (frame, place) = own(number);
        field(number, frame, place)
    }));
    Case::in_one_order(records.concat(), |layout| {
        let carried = (0..NEW).map(|frame| deliver(layout, frame, |_| new[frame]));
        carried.chain(close(messages)).collect()
    })
}

/// Filters 8 and 9: the pattern as the lower limit and as the upper one, with each as the new value.
/// One that is not finite is refused.
pub fn limits(place: usize) -> Case {
    let edges = edges();
    let one = edges[place];
    let (from, to) = ([one, GREATEST, 0], [SIGN | GREATEST, one, 0]);
    let messages = [(8, from), (8, to), (9, from), (9, to)];
    let mut records = vec![frame(0, 16)];
    let numbered = messages.iter().enumerate();
    records.extend(numbered.map(|(number, &(filter, words))| message(number, 0, filter, words)));
    records.extend((0..messages.len()).map(|number| field(number, 0, number)));
    Case::in_one_order(records.concat(), |layout| {
        let round = |&float: &u32| {
            let mut calls = vec![deliver(layout, 0, |_| float)];
            calls.extend(close(messages.len()));
            calls
        };
        edges.iter().flat_map(round).collect()
    })
}

/// The frame with the float that each message has in it.
fn deliver(layout: &Layout, frame: usize, float: impl Fn(usize) -> u32) -> Call {
    let mut data = vec![0; layout.frames[frame].length];
    for field in layout.fields_of_frame(frame) {
        bits::pack(layout, field, float(field.message).into(), &mut data);
    }
    Call::Deliver {
        frame: frame as u64,
        valid: 1,
        data,
    }
}

/// A closing, after which each message is received.
fn close(messages: usize) -> Vec<Call> {
    let receive = |message| Call::Receive { message, place: -1 };
    let mut calls = vec![Call::Close];
    calls.extend((0..messages as u64).map(receive));
    calls
}

/// A received frame, of little order if its number is even.
fn frame(number: usize, length: u8) -> Vec<u8> {
    record(&[FRAME, number as u8, length, number as u8 % 2])
}

/// A received float with x1, x2 and the initial value.
fn message(number: usize, agreement: u8, filter: u8, words: [u32; 3]) -> Vec<u8> {
    let mut record = record(&[MESSAGE, number as u8, 32, 2, 0, agreement, filter]);
    for (word, at) in words.into_iter().zip([8, 12, 16]) {
        record[at..at + 4].copy_from_slice(&word.to_le_bytes());
    }
    record
}

/// A field at one of the eight places that the longest frame has.
fn field(message: usize, frame: usize, place: usize) -> Vec<u8> {
    record(&[FIELD, message as u8, frame as u8, 32 * place as u8])
}

fn record(bytes: &[u8]) -> Vec<u8> {
    let mut record = bytes.to_vec();
    record.resize(RECORD, 0);
    record
}
