//! Valid layout files, each built by a plan.

use crate::layout::{is_mask, uses_x1, uses_x2, FIELD, FRAME, MESSAGE, RECORD};
use crate::patterns;
use crate::random::Random;

type Record = [u8; RECORD];

/// How large a file is to be. A message that finds no room in the frames is left out.
#[derive(Clone, Copy)]
pub struct Plan {
    pub frames: usize,
    pub messages: usize,
    /// Most fields in all, and the least and most wanted for one message.
    pub fields: usize,
    pub each: (usize, usize),
    /// The shortest frame.
    pub length: u8,
    /// One message in so many is a float.
    pub float: usize,
    /// Are some frames sent, and so some messages?
    pub sends: bool,
}

/// The largest file: 32 + 32 + 128 = 192 records.
pub const LARGEST: Plan = Plan {
    frames: 32,
    messages: 32,
    fields: 128,
    each: (4, 4),
    length: 32,
    float: 3,
    sends: true,
};

/// Sixteen messages with all the fields they may have.
pub const EIGHT_EACH: Plan = Plan {
    messages: 16,
    each: (8, 8),
    ..LARGEST
};

/// Sixteen messages with many fields.
const MANY_EACH: Plan = Plan {
    each: (5, 7),
    ..EIGHT_EACH
};

/// Floats only, all received, with one to eight fields each.
pub const FLOATS: Plan = Plan {
    frames: 16,
    messages: 16,
    each: (1, 8),
    float: 1,
    sends: false,
    ..LARGEST
};

pub fn valid(random: &mut Random) -> Vec<u8> {
    let plan = match random.between(0, 7) {
        0 => LARGEST,
        1 => EIGHT_EACH,
        2 => MANY_EACH,
        3..=5 => Plan {
            frames: random.between(0, 3),
            messages: random.between(0, 4),
            fields: 128,
            each: (1, 3),
            length: 1,
            ..LARGEST
        },
        _ => Plan {
            frames: random.between(0, 32),
            messages: random.between(0, 32),
            fields: 128,
            each: (1, 8),
            length: 1,
            ..LARGEST
        },
    };
    build(random, plan)
}

/// A file of the plan in which all is right, except that a plan may itself ask for too many.
pub fn build(random: &mut Random, plan: Plan) -> Vec<u8> {
    let frames = frame_records(random, plan);
    let mut used: Vec<Vec<bool>> = frames
        .iter()
        .map(|frame| vec![false; 8 * usize::from(frame[2])])
        .collect();
    let mut messages: Vec<Record> = Vec::new();
    let mut fields: Vec<Record> = Vec::new();
    for _ in 0..plan.messages {
        // Each message takes the direction of some frame, so that there is a frame for it.
        let Some(frame) = random.pick(&frames) else {
            break;
        };
        let is_float = random.once_in(plan.float);
        let message = message_record(random, messages.len(), frame[4], is_float);
        let wanted = random.between(plan.each.0, plan.each.1);
        let wanted = wanted.min(plan.fields - fields.len());
        let own = field_records(random, &message, &frames, &mut used, wanted);
        if !own.is_empty() {
            messages.push(message);
            fields.extend(own);
        }
    }
    [frames, messages, fields].concat().concat()
}

fn frame_records(random: &mut Random, plan: Plan) -> Vec<Record> {
    // Once in three all frames have one direction; else each has its own.
    let same = match plan.sends {
        true => random.pick(&[Some(0), Some(1), None, None, None, None]),
        false => Some(Some(0)),
    };
    let mut records = Vec::new();
    for number in 0..plan.frames {
        let mut record = [0; RECORD];
        record[0] = FRAME;
        record[1] = number as u8;
        record[2] = edge_or_any(random, plan.length, 32);
        record[3] = random.byte(0, 1);
        record[4] = same.flatten().unwrap_or(random.byte(0, 1));
        record[5] = random.byte(0, 1);
        records.push(record);
    }
    records
}

fn message_record(random: &mut Random, number: usize, direction: u8, is_float: bool) -> Record {
    let mut record = [0; RECORD];
    record[0] = MESSAGE;
    record[1] = number as u8;
    record[2] = edge_or_any(random, 1, 32);
    record[3] = random.byte(0, 1);
    record[4] = direction;
    if direction == 0 {
        // Of whole numbers, votes have the most cases.
        let agreements: &[u8] = if is_float { &[0, 1, 2] } else { &[0, 1, 2, 2] };
        record[5] = random.pick(agreements).unwrap_or(0);
    }
    record[6] = random.byte(0, 13);
    if is_float {
        record[2..4].copy_from_slice(&[32, 2]);
        let filters: Vec<u8> = (0..=13).filter(|&filter| !is_mask(filter)).collect();
        record[6] = random.pick(&filters).unwrap_or(0);
    }
    if uses_x1(record[6]) {
        put_pattern(random, &mut record, 8);
    }
    if uses_x2(record[6]) {
        put_pattern(random, &mut record, 12);
        if is_mask(record[6]) && random.once_in(2) {
            // Else mostly no value under the mask is x2.
            (12..16).for_each(|at| record[at] &= record[at - 4]);
        }
    }
    put_pattern(random, &mut record, 16);
    record
}

pub fn is_float(record: &[u8]) -> bool {
    record[2..4] == [32, 2]
}

/// Puts a pattern, extended from the message's width or of a finite float, into the word at a byte
/// of the record.
pub fn put_pattern(random: &mut Random, record: &mut [u8], at: usize) {
    if is_float(record) {
        let pattern = patterns::finite(random);
        return record[at..at + 4].copy_from_slice(&pattern.to_le_bytes());
    }
    // Other changes may have put a width out of range.
    let unused = 32 - u32::from(record[2].clamp(1, 32));
    let any = random.draw() as u32;
    let half = 1 << (31 - unused);
    let low = random
        .pick(&[0, 1, u32::MAX, half, half - 1, any, any, any])
        .unwrap_or(any);
    let high = low << unused;
    let pattern = match record[3] {
        0 => high >> unused,
        _ => (high as i32 >> unused) as u32,
    };
    record[at..at + 4].copy_from_slice(&pattern.to_le_bytes());
}

/// The fields of one message, as many as wanted or as there is room for, in order of their frames.
fn field_records(
    random: &mut Random,
    message: &Record,
    frames: &[Record],
    used: &mut [Vec<bool>],
    wanted: usize,
) -> Vec<Record> {
    let needs_status = message[4] == 1 && message[6] != 0;
    let present = needs_status || random.once_in(2);
    let mut numbers: Vec<usize> = (0..frames.len())
        .filter(|&number| frames[number][4] == message[4])
        .collect();
    random.shuffle(&mut numbers);
    let mut records = Vec::new();
    for number in numbers {
        if records.len() < wanted {
            records.extend(field_record(
                random,
                message,
                number,
                &mut used[number],
                present,
            ));
        }
    }
    records.sort();
    records
}

/// A field in free bits of its frame, which it marks as used; none if there is no room.
fn field_record(
    random: &mut Random,
    message: &Record,
    frame: usize,
    used: &mut [bool],
    present: bool,
) -> Option<Record> {
    let width = usize::from(message[2]);
    let start = free_run(random, used, width)?;
    used[start..start + width].fill(true);
    let mut record = [0; RECORD];
    record[..4].copy_from_slice(&[FIELD, message[1], frame as u8, start as u8]);
    if present {
        let Some(place) = free_run(random, used, 1) else {
            used[start..start + width].fill(false);
            return None;
        };
        used[place] = true;
        record[4] = 1;
        record[5] = place as u8;
    }
    Some(record)
}

/// Where so many free bits begin: the first such place, the last, or any.
fn free_run(random: &mut Random, used: &[bool], width: usize) -> Option<usize> {
    let starts: Vec<usize> = (0..used.len())
        .filter(|&start| start + width <= used.len())
        .filter(|&start| !used[start..start + width].contains(&true))
        .collect();
    match random.between(0, 3) {
        0 | 1 => starts.first().copied(),
        2 => starts.last().copied(),
        _ => random.pick(&starts),
    }
}

/// The least, the most, or any number between; the ends often.
fn edge_or_any(random: &mut Random, least: u8, most: u8) -> u8 {
    match random.between(0, 5) {
        0 => least,
        1 => most,
        _ => random.byte(least, most),
    }
}
