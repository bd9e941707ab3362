//! The layout file: the reader with its ten refusals, and what the listing program prints.
//! Written sentence by sentence from the paper, to be checked by eye and not to be fast.

use std::ops::RangeInclusive;

use crate::float;

pub const SIZE: u8 = 1;
pub const ORDER: u8 = 2;
pub const RANGE: u8 = 3;
pub const REF: u8 = 4;
pub const GROUP: u8 = 5;
pub const PLACE: u8 = 6;
pub const NOFIELD: u8 = 7;
pub const RESERVED: u8 = 8;
pub const UNUSED: u8 = 9;
pub const WIDTH: u8 = 10;
pub const REFUSALS: usize = 10;

/// The kinds of record (byte 0).
pub const FRAME: u8 = 1;
pub const MESSAGE: u8 = 2;
pub const FIELD: u8 = 3;

/// Bytes of one record, and of the longest file (192 records).
pub const RECORD: usize = 24;
pub const LONGEST: usize = 4608;

#[derive(Debug, PartialEq)]
pub struct Frame {
    pub length: usize,
    pub big: bool,
    pub sent: bool,
    pub event: bool,
}

/// Byte 3 of a message record.
#[derive(Clone, Copy, Debug, PartialEq)]
pub enum Sign {
    Unsigned,
    Signed,
    /// A 32-bit IEEE 754 float, whose values are bit patterns.
    Float,
}

#[derive(Debug, PartialEq)]
pub struct Message {
    pub width: usize,
    pub sign: Sign,
    pub sent: bool,
    pub agreement: u8,
    pub filter: u8,
    pub x1: u32,
    pub x2: u32,
    pub initial: u32,
}

#[derive(Debug, PartialEq)]
pub struct Field {
    pub message: usize,
    pub frame: usize,
    pub start: usize,
    /// The status bit's place, if the field has a status bit.
    pub status: Option<usize>,
}

#[derive(Debug, Default, PartialEq)]
pub struct Layout {
    pub frames: Vec<Frame>,
    pub messages: Vec<Message>,
    pub fields: Vec<Field>,
}

impl Layout {
    pub fn fields_of_message(&self, message: usize) -> impl Iterator<Item = &Field> {
        self.fields
            .iter()
            .filter(move |field| field.message == message)
    }

    pub fn fields_of_frame(&self, frame: usize) -> impl Iterator<Item = &Field> {
        self.fields.iter().filter(move |field| field.frame == frame)
    }
}

#[derive(Debug, PartialEq)]
pub enum Verdict {
    Accepted(Layout),
    /// RANGE, RESERVED, UNUSED and WIDTH give a byte of the record, the others none.
    Refused {
        number: u8,
        record: usize,
        byte: Option<u8>,
    },
}

/// What is wrong with a byte of a record, or with a word that begins there. Faults are in the order
/// in which they decide: the lower byte first, and at one byte UNUSED (9) before WIDTH (10).
#[derive(Clone, Copy, Debug, PartialEq, Eq, PartialOrd, Ord)]
pub struct Fault {
    pub byte: u8,
    pub number: u8,
}

/// SIZE, then the records in file order, then NOFIELD; the first failing test decides.
pub fn read(file: &[u8]) -> Verdict {
    if size_fails(file) {
        return Verdict::Refused {
            number: SIZE,
            record: 0,
            byte: None,
        };
    }
    let mut layout = Layout::default();
    for (place, record) in file.chunks(RECORD).enumerate() {
        if let Some((number, byte)) = refusal(&layout, record) {
            return Verdict::Refused {
                number,
                record: place,
                byte,
            };
        }
        take_up(&mut layout, record);
    }
    if let Some(message) = lowest_without_field(&layout) {
        return Verdict::Refused {
            number: NOFIELD,
            // All frames stand before the messages, so message 0 is record frames.len().
            record: layout.frames.len() + message,
            byte: None,
        };
    }
    Verdict::Accepted(layout)
}

/// What the listing program prints for the file.
pub fn listing(file: &[u8]) -> String {
    match read(file) {
        Verdict::Refused {
            number,
            record,
            byte,
        } => {
            let byte = byte.map_or(String::new(), |byte| format!(" byte {byte}"));
            format!("refused {number} record {record}{byte}\n")
        }
        Verdict::Accepted(layout) => {
            let mut text = String::from("message frame start width status\n");
            for field in &layout.fields {
                text.push_str(&line(&layout, field));
            }
            text
        }
    }
}

fn line(layout: &Layout, field: &Field) -> String {
    let width = layout.messages[field.message].width;
    let status = match field.status {
        Some(place) => place.to_string(),
        None => String::from("-"),
    };
    format!(
        "{} {} {} {} {}\n",
        field.message, field.frame, field.start, width, status
    )
}

/// The first of the tests 2 to 6 that the record fails, after the records before it, and the byte.
/// RESERVED, UNUSED and WIDTH stand at RANGE's place, and of all the faults there the least decides.
fn refusal(before: &Layout, record: &[u8]) -> Option<(u8, Option<u8>)> {
    if order_fails(before, record) {
        return Some((ORDER, None));
    }
    if let Some(fault) = faults(record).into_iter().min() {
        return Some((fault.number, Some(fault.byte)));
    }
    // REF, GROUP and PLACE speak of fields only.
    if record[0] != FIELD {
        return None;
    }
    let field = field(record);
    if ref_fails(before, &field) {
        return Some((REF, None));
    }
    if group_fails(before, &field) {
        return Some((GROUP, None));
    }
    if place_fails(before, &field) {
        return Some((PLACE, None));
    }
    None
}

/// Length not a multiple of 24, or above 4,608.
fn size_fails(file: &[u8]) -> bool {
    !file.len().is_multiple_of(RECORD) || file.len() > LONGEST
}

/// Kind not 1..3 or below the kind before; frame or message number not the next from 0;
/// field's (message, frame) pair not above the field's before it.
fn order_fails(before: &Layout, record: &[u8]) -> bool {
    let kind = record[0];
    if !(FRAME..=FIELD).contains(&kind) || kind < kind_before(before) {
        return true;
    }
    match kind {
        FRAME => usize::from(record[1]) != before.frames.len(),
        MESSAGE => usize::from(record[1]) != before.messages.len(),
        _ => pair_not_above(before, &field(record)),
    }
}

/// The kind of the record before, 0 for the first record. Kinds never fall, so it is the
/// highest kind there is so far.
fn kind_before(before: &Layout) -> u8 {
    if !before.fields.is_empty() {
        FIELD
    } else if !before.messages.is_empty() {
        MESSAGE
    } else if !before.frames.is_empty() {
        FRAME
    } else {
        0
    }
}

/// Pairs are compared by message, and by frame where the messages are the same.
fn pair_not_above(before: &Layout, field: &Field) -> bool {
    match before.fields.last() {
        None => false,
        Some(last) if field.message == last.message => field.frame <= last.frame,
        Some(last) => field.message < last.message,
    }
}

/// Every fault of a record that the four refusals at RANGE's place speak of, in no order.
pub fn faults(record: &[u8]) -> Vec<Fault> {
    let rules = match record[0] {
        FRAME => frame_rules(record),
        MESSAGE => message_rules(record),
        _ => field_rules(record),
    };
    let broken = rules.into_iter().filter(|&(_, _, holds)| !holds);
    broken
        .map(|(byte, number, _)| Fault { byte, number })
        .collect()
}

/// A byte, the refusal given at it, and whether the record keeps the rule.
type Rule = (u8, u8, bool);

fn frame_rules(record: &[u8]) -> Vec<Rule> {
    let (number, length, order, direction, trigger) =
        (record[1], record[2], record[3], record[4], record[5]);
    let mut rules = vec![
        (1, RANGE, number < 32),
        (2, RANGE, (1..=32).contains(&length)),
        (3, RANGE, order <= 1),
        (4, RANGE, direction <= 1),
        (5, RANGE, trigger <= 1),
    ];
    rules.extend(reserved(record, 6..=23));
    rules
}

fn message_rules(record: &[u8]) -> Vec<Rule> {
    let (number, width, sign, direction) = (record[1], record[2], record[3], record[4]);
    let (agreement, filter) = (record[5], record[6]);
    let message = message(record);
    let (x1, x2, initial) = (message.x1, message.x2, message.initial);
    let width_in_range = (1..=32).contains(&width);
    let is_float = message.sign == Sign::Float;
    // From a width out of range nothing can be extended; that width decides, at byte 2.
    let fits = |word: u32| match is_float {
        true => float::is_finite(word),
        false => !width_in_range || extended(word, &message),
    };
    let mut rules = vec![
        (1, RANGE, number < 32),
        (2, RANGE, width_in_range),
        (3, RANGE, sign <= 2),
        (3, RANGE, !is_float || width == 32),
        (4, RANGE, direction <= 1),
        (5, RANGE, agreement <= 2),
        (5, RANGE, direction == 0 || agreement == 0),
        (6, RANGE, filter <= 13),
        (6, RANGE, !is_float || !is_mask(filter)),
        (8, UNUSED, uses_x1(filter) || x1 == 0),
        (12, UNUSED, uses_x2(filter) || x2 == 0),
        (8, WIDTH, fits(x1)),
        (12, WIDTH, fits(x2)),
        (16, WIDTH, fits(initial)),
    ];
    rules.extend(reserved(record, 7..=7));
    rules.extend(reserved(record, 20..=23));
    rules
}

/// The message, the frame and the start bit have no range.
fn field_rules(record: &[u8]) -> Vec<Rule> {
    let (present, place) = (record[4], record[5]);
    let mut rules = vec![
        (4, RANGE, present <= 1),
        (5, RANGE, present == 1 || place == 0),
    ];
    rules.extend(reserved(record, 6..=23));
    rules
}

/// Bytes not named are zero.
fn reserved(record: &[u8], bytes: RangeInclusive<u8>) -> impl Iterator<Item = Rule> + '_ {
    bytes.map(|byte| (byte, RESERVED, record[usize::from(byte)] == 0))
}

pub fn is_mask(filter: u8) -> bool {
    [2, 3, 6, 7].contains(&filter)
}

pub fn uses_old(filter: u8) -> bool {
    matches!(filter, 4..=7 | 10..=13)
}

pub fn uses_x1(filter: u8) -> bool {
    [2, 3, 6, 7, 8, 9].contains(&filter)
}

pub fn uses_x2(filter: u8) -> bool {
    [2, 3, 8, 9].contains(&filter)
}

/// Each bit above the width is zero, or for a signed message the same as the sign bit.
fn extended(pattern: u32, message: &Message) -> bool {
    let bit = |i: usize| pattern >> i & 1 == 1;
    let above = message.sign == Sign::Signed && bit(message.width - 1);
    (message.width..32).all(|i| bit(i) == above)
}

/// A field names an absent message or frame, or their directions differ.
fn ref_fails(before: &Layout, field: &Field) -> bool {
    // All messages and frames stand before the first field, so absent now is absent in the file.
    match (
        before.messages.get(field.message),
        before.frames.get(field.frame),
    ) {
        (Some(message), Some(frame)) => message.sent != frame.sent,
        _ => true,
    }
}

/// A message's ninth field; the 129th field; status bit present here and absent in the message's
/// earlier field, or the reverse; a sent message with a filter other than 0 and no status bit.
fn group_fails(before: &Layout, field: &Field) -> bool {
    let message = &before.messages[field.message];
    let earlier: Vec<&Field> = before
        .fields
        .iter()
        .filter(|earlier| earlier.message == field.message)
        .collect();
    let ninth = earlier.len() == 8;
    let number_129 = before.fields.len() == 128;
    let mixed = earlier
        .iter()
        .any(|earlier| earlier.status.is_some() != field.status.is_some());
    let filter_without_status = message.sent && message.filter != 0 && field.status.is_none();
    ninth || number_129 || mixed || filter_without_status
}

/// A bit of the field or its status bit lies past the frame's end, or is used twice in that frame.
fn place_fails(before: &Layout, field: &Field) -> bool {
    let end = 8 * before.frames[field.frame].length;
    let mut used = vec![false; end];
    for earlier in &before.fields {
        if earlier.frame == field.frame {
            for bit in bits(before, earlier) {
                used[bit] = true;
            }
        }
    }
    for bit in bits(before, field) {
        if bit >= end || used[bit] {
            return true;
        }
        // Marked at once, so that a status bit on its own field's bit is a second use.
        used[bit] = true;
    }
    false
}

/// The frame bits that the field uses. In both orders its message bits lie at start to
/// start + width - 1; the orders differ only in which message bit lies where.
fn bits(layout: &Layout, field: &Field) -> Vec<usize> {
    let width = layout.messages[field.message].width;
    let mut bits: Vec<usize> = (field.start..field.start + width).collect();
    bits.extend(field.status);
    bits
}

/// The lowest message that has no field.
fn lowest_without_field(layout: &Layout) -> Option<usize> {
    (0..layout.messages.len())
        .find(|&message| layout.fields.iter().all(|field| field.message != message))
}

/// Adds a record that passed its tests.
fn take_up(layout: &mut Layout, record: &[u8]) {
    match record[0] {
        FRAME => layout.frames.push(frame(record)),
        MESSAGE => layout.messages.push(message(record)),
        _ => layout.fields.push(field(record)),
    }
}

fn frame(record: &[u8]) -> Frame {
    Frame {
        length: usize::from(record[2]),
        big: record[3] == 1,
        sent: record[4] == 1,
        event: record[5] == 1,
    }
}

fn message(record: &[u8]) -> Message {
    Message {
        width: usize::from(record[2]),
        sign: match record[3] {
            1 => Sign::Signed,
            2 => Sign::Float,
            _ => Sign::Unsigned,
        },
        sent: record[4] == 1,
        agreement: record[5],
        filter: record[6],
        x1: word(record, 8),
        x2: word(record, 12),
        initial: word(record, 16),
    }
}

fn field(record: &[u8]) -> Field {
    Field {
        message: usize::from(record[1]),
        frame: usize::from(record[2]),
        start: usize::from(record[3]),
        status: (record[4] == 1).then_some(usize::from(record[5])),
    }
}

/// The four-byte little-endian word that begins at a byte of the record.
fn word(record: &[u8], at: usize) -> u32 {
    (0..4).map(|i| u32::from(record[at + i]) << (8 * i)).sum()
}
