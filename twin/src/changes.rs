//! Changes that make a valid layout file wrong, each aimed at one clause of one refusal, or at any
//! byte of one that gives a byte. A change answers none if the file has no place for it.

// All changes have one type, though only some make the file longer or shorter.
#![allow(clippy::ptr_arg)]

use std::cmp::Reverse;

use crate::layout::{
    FIELD, FRAME, GROUP, LONGEST, MESSAGE, NOFIELD, ORDER, PLACE, RANGE, RECORD, REF, RESERVED,
    SIZE, UNUSED, WIDTH,
};
use crate::plans::{build, valid, Plan, EIGHT_EACH, LARGEST};
use crate::random::Random;
use crate::wrong::{all_places, Place, FLOAT, PLACES};

pub type Change = fn(&mut Random, &mut Vec<u8>) -> Option<()>;

/// The changes, each with the refusal it is aimed at.
pub const CHANGES: &[(u8, Change)] = &[
    (SIZE, cut_short),
    (SIZE, trailing_bytes),
    (SIZE, too_many_records),
    (ORDER, kind_not_1_to_3),
    (ORDER, kind_below),
    (ORDER, records_swapped),
    (ORDER, neighbours_swapped),
    (ORDER, record_repeated),
    (ORDER, number_not_next),
    (ORDER, number_left_out),
    (ORDER, same_pair),
    (ORDER, lower_frame),
    (ORDER, lower_message),
    (RANGE, byte_out_of_range),
    (RESERVED, reserved_byte),
    (UNUSED, unused_word),
    (WIDTH, word_not_extended),
    (REF, absent_message),
    (REF, absent_frame),
    (REF, last_left_out),
    (REF, frame_turned),
    (REF, message_turned),
    (GROUP, ninth_field),
    (GROUP, field_129),
    (GROUP, status_lost),
    (GROUP, status_gained),
    (GROUP, filter_without_status),
    (PLACE, field_too_far),
    (PLACE, status_too_far),
    (PLACE, status_on_own_field),
    (PLACE, field_on_other),
    (PLACE, status_on_other),
    (PLACE, frame_shorter),
    (PLACE, message_wider),
    (NOFIELD, one_without_field),
    (NOFIELD, two_without_field),
    (NOFIELD, all_without_field),
    (NOFIELD, message_added),
];

/// A valid file with one to three changes, most often one, so that the tests that come last are
/// reached too. The first is always made, the others where they can be.
pub fn changed(random: &mut Random) -> Vec<u8> {
    let first = any_change(random);
    let mut file = with_change(random, first);
    for _ in 0..random.between(0, 5).saturating_sub(3) {
        let further = any_change(random);
        further(random, &mut file);
    }
    file
}

/// Each change equally often; now and then one of no aim, so that no value is left untried.
fn any_change(random: &mut Random) -> Change {
    let (_, aimed) = CHANGES[random.between(0, CHANGES.len() - 1)];
    if random.once_in(8) {
        any_byte
    } else {
        aimed
    }
}

/// A file with wrong bytes in one record. Two turns of three go through all places, one in each file;
/// the third has several.
pub fn wrong_bytes(random: &mut Random, turn: u64) -> Vec<u8> {
    match turn % 3 {
        2 => with_change(random, several_wrong),
        part => wrong_at_one(random, turn / 3 * 2 + part),
    }
}

/// A file with one wrong place, the next at each turn.
pub fn wrong_at_one(random: &mut Random, turn: u64) -> Vec<u8> {
    let places = all_places();
    // In large steps, so that few files reach all kinds of record; 23 has no divisor in common with
    // the 66 places, so that none is left out.
    let place = places[(turn * 23) as usize % places.len()];
    with_change(random, |random, file| {
        make_wrong(random, file, vec![place]).map(|_| ())
    })
}

/// Draws valid files until one has a place for the change.
pub fn with_change(
    random: &mut Random,
    change: impl Fn(&mut Random, &mut Vec<u8>) -> Option<()>,
) -> Vec<u8> {
    loop {
        let mut file = valid(random);
        if change(random, &mut file).is_some() {
            return file;
        }
    }
}

// What the changes need to know of a file, and do to it. A record is named by its first byte.

fn records(file: &[u8]) -> Vec<usize> {
    (0..file.len() / RECORD)
        .map(|record| record * RECORD)
        .collect()
}

fn of_kind(file: &[u8], kind: u8) -> Vec<usize> {
    let mut records = records(file);
    records.retain(|&at| file[at] == kind);
    records
}

/// Any record of the kind for which the test holds.
fn any(random: &mut Random, file: &[u8], kind: u8, test: impl Fn(&[u8]) -> bool) -> Option<usize> {
    let mut records = of_kind(file, kind);
    records.retain(|&at| test(&file[at..at + RECORD]));
    random.pick(&records)
}

/// Any record but the first for which the test holds of the record before and itself.
fn any_after(
    random: &mut Random,
    file: &[u8],
    test: impl Fn(&[u8], &[u8]) -> bool,
) -> Option<usize> {
    let mut records = records(file);
    records.retain(|&at| at > 0 && test(&file[at - RECORD..at], &file[at..at + RECORD]));
    random.pick(&records)
}

/// The width of a field's message and the bits of its frame; none if other changes broke these.
fn width_and_end(file: &[u8], field: usize) -> Option<(usize, usize)> {
    let message = *of_kind(file, MESSAGE).get(usize::from(file[field + 1]))?;
    let frame = *of_kind(file, FRAME).get(usize::from(file[field + 2]))?;
    let width = usize::from(file[message + 2]);
    let end = 8 * usize::from(file[frame + 2]);
    (1..=end).contains(&width).then_some((width, end))
}

/// Two different fields in one frame.
fn two_in_one_frame(random: &mut Random, file: &[u8]) -> Option<(usize, usize)> {
    let fields = of_kind(file, FIELD);
    let mut pairs = Vec::new();
    for &one in &fields {
        for &other in &fields {
            if one != other && file[one + 2] == file[other + 2] {
                pairs.push((one, other));
            }
        }
    }
    random.pick(&pairs)
}

/// A bit that the field uses: its first, its last, any between, or its status bit.
fn bit_of(random: &mut Random, file: &[u8], field: usize) -> Option<usize> {
    let (width, _) = width_and_end(file, field)?;
    let start = usize::from(file[field + 3]);
    match random.between(0, 3) {
        0 if file[field + 4] == 1 => Some(file[field + 5].into()),
        1 => Some(start),
        2 => Some(start + width - 1),
        _ => Some(start + random.between(0, width - 1)),
    }
}

/// Does another field carry the same message?
fn has_sister(file: &[u8], message: u8) -> bool {
    let fields = of_kind(file, FIELD);
    fields.iter().filter(|&&at| file[at + 1] == message).count() > 1
}

fn set(file: &mut [u8], at: usize, value: u8) -> Option<()> {
    file[at] = value;
    Some(())
}

/// Sets a byte to one of the values.
fn set_one_of(random: &mut Random, file: &mut [u8], at: usize, values: &[u8]) -> Option<()> {
    set(file, at, random.pick(values)?)
}

/// Sets a byte if the number fits into one.
fn set_number(file: &mut [u8], at: usize, number: usize) -> Option<()> {
    set(file, at, u8::try_from(number).ok()?)
}

/// Puts a record in, if the file does not grow too long by it.
fn insert(file: &mut Vec<u8>, at: usize, record: [u8; RECORD]) -> Option<()> {
    (file.len() + RECORD <= LONGEST).then_some(())?;
    file.splice(at..at, record);
    Some(())
}

fn swap(file: &mut [u8], one: usize, other: usize) -> Option<()> {
    for byte in 0..RECORD {
        file.swap(one + byte, other + byte);
    }
    (one != other).then_some(())
}

fn any_byte(random: &mut Random, file: &mut Vec<u8>) -> Option<()> {
    let at = random.pick(&records(file))? + random.between(0, RECORD - 1);
    let any = random.byte(0, 255);
    let values = [0, 1, 2, 3, 4, 13, 14, 31, 32, 33, 254, 255, any, any];
    set_one_of(random, file, at, &values)
}

// SIZE

fn cut_short(random: &mut Random, file: &mut Vec<u8>) -> Option<()> {
    let cut = random.between(1, RECORD - 1);
    file.truncate(file.len().checked_sub(cut)?);
    Some(())
}

fn trailing_bytes(random: &mut Random, file: &mut Vec<u8>) -> Option<()> {
    let longer = file.len() + random.between(1, RECORD - 1);
    let byte = random.pick(&[0, FRAME, FIELD, 255])?;
    file.resize(longer, byte);
    Some(())
}

/// Whole records, at least one more than the 192 that a file may have.
fn too_many_records(random: &mut Random, file: &mut Vec<u8>) -> Option<()> {
    let last = file.len().checked_sub(RECORD)?;
    let more = random.pick(&[1, 1, 2, 8, 64])?;
    while file.len() < LONGEST + more * RECORD {
        file.extend_from_within(last..last + RECORD);
    }
    Some(())
}

// ORDER

fn kind_not_1_to_3(random: &mut Random, file: &mut Vec<u8>) -> Option<()> {
    let at = random.pick(&records(file))?;
    let any = random.byte(4, 255);
    set_one_of(random, file, at, &[0, 4, 5, 255, any])
}

fn kind_below(random: &mut Random, file: &mut Vec<u8>) -> Option<()> {
    let at = any_after(random, file, |before, _| before[0] > FRAME)?;
    let kind = random.byte(FRAME, file[at - RECORD] - 1);
    set(file, at, kind)
}

fn records_swapped(random: &mut Random, file: &mut Vec<u8>) -> Option<()> {
    let one = random.pick(&records(file))?;
    let other = random.pick(&records(file))?;
    swap(file, one, other)
}

fn neighbours_swapped(random: &mut Random, file: &mut Vec<u8>) -> Option<()> {
    let at = any_after(random, file, |_, _| true)?;
    swap(file, at, at - RECORD)
}

fn record_repeated(random: &mut Random, file: &mut Vec<u8>) -> Option<()> {
    let at = random.pick(&records(file))?;
    let mut again = [0; RECORD];
    again.copy_from_slice(&file[at..at + RECORD]);
    insert(file, at, again)
}

fn number_not_next(random: &mut Random, file: &mut Vec<u8>) -> Option<()> {
    let kind = random.byte(FRAME, MESSAGE);
    let at = any(random, file, kind, |_| true)?;
    let (below, above) = (file[at + 1].wrapping_sub(1), file[at + 1].wrapping_add(1));
    set_one_of(random, file, at + 1, &[below, above, 0, 31, 32, 33, 255])
}

/// A frame or message is left out, and one of its kind comes after it.
fn number_left_out(random: &mut Random, file: &mut Vec<u8>) -> Option<()> {
    let at = any_after(random, file, |before, here| {
        before[0] == here[0] && here[0] < FIELD
    })?;
    file.drain(at - RECORD..at);
    Some(())
}

fn same_pair(random: &mut Random, file: &mut Vec<u8>) -> Option<()> {
    let at = any_after(random, file, |before, _| before[0] == FIELD)?;
    file.copy_within(at - RECORD + 1..at - RECORD + 3, at + 1);
    Some(())
}

/// The message of the field before, and a lower frame.
fn lower_frame(random: &mut Random, file: &mut Vec<u8>) -> Option<()> {
    let at = any_after(random, file, |before, _| {
        before[0] == FIELD && before[2] > 0
    })?;
    file[at + 1] = file[at + 1 - RECORD];
    let frame = random.byte(0, file[at + 2 - RECORD] - 1);
    set(file, at + 2, frame)
}

/// A lower message than that of the field before, whatever the frame.
fn lower_message(random: &mut Random, file: &mut Vec<u8>) -> Option<()> {
    let at = any_after(random, file, |before, _| {
        before[0] == FIELD && before[1] > 0
    })?;
    let message = random.byte(0, file[at + 1 - RECORD] - 1);
    set(file, at + 1, message)
}

// RANGE, RESERVED, UNUSED and WIDTH

fn byte_out_of_range(random: &mut Random, file: &mut Vec<u8>) -> Option<()> {
    wrong_for(random, file, RANGE)
}

fn reserved_byte(random: &mut Random, file: &mut Vec<u8>) -> Option<()> {
    wrong_for(random, file, RESERVED)
}

fn unused_word(random: &mut Random, file: &mut Vec<u8>) -> Option<()> {
    wrong_for(random, file, UNUSED)
}

fn word_not_extended(random: &mut Random, file: &mut Vec<u8>) -> Option<()> {
    wrong_for(random, file, WIDTH)
}

/// At any place of this refusal.
fn wrong_for(random: &mut Random, file: &mut Vec<u8>, number: u8) -> Option<()> {
    let mut places = all_places();
    places.retain(|place| place.number == number);
    let place = random.pick(&places)?;
    make_wrong(random, file, vec![place])?;
    Some(())
}

/// Two to four places of one record, each refusal equally often.
fn several_wrong(random: &mut Random, file: &mut Vec<u8>) -> Option<()> {
    let kind = random.pick(&[FRAME, MESSAGE, MESSAGE, MESSAGE, FLOAT, FLOAT, FIELD])?;
    let mut rows = PLACES.to_vec();
    rows.retain(|row| match (kind, row.0, row.1) {
        // The bytes of a float are those of any message, the words its own.
        (FLOAT, MESSAGE, number) => number == RANGE || number == RESERVED,
        (_, of, _) => of == kind,
    });
    let mut places = Vec::new();
    for _ in 0..random.between(2, 4) {
        let (kind, number, bytes) = random.pick(&rows)?;
        let byte = random.pick(bytes)?;
        places.push(Place { kind, number, byte });
    }
    let at = make_wrong(random, file, places)?;
    // Once in eight ORDER decides before these, or for a field REF or PLACE would after them.
    if random.once_in(8) {
        let byte = random.between(1, if kind == FIELD { 3 } else { 1 });
        set_one_of(random, file, at + byte, &[0, 255])?;
    }
    Some(())
}

/// Makes these places wrong in any record that has room for all of them, and names it.
fn make_wrong(random: &mut Random, file: &mut Vec<u8>, mut places: Vec<Place>) -> Option<usize> {
    // From the last byte to the first: a word is made wrong for a width, which is made wrong after.
    places.sort_by_key(|place| Reverse(place.byte));
    places.dedup();
    let first = *places.last()?;
    let kind = first.record();
    if first.byte == 1 {
        *file = with_number_32(random, kind);
    }
    let at = any(random, file, kind, |record| {
        places.iter().all(|place| place.fits(record))
    })?;
    for place in places {
        place.put(random, &mut file[at..at + RECORD]);
    }
    Some(at)
}

/// A file with one frame or message too many.
fn with_number_32(random: &mut Random, kind: u8) -> Vec<u8> {
    let plan = match kind {
        FRAME => Plan {
            frames: 33,
            messages: random.between(0, 31),
            ..LARGEST
        },
        _ => Plan {
            messages: 33,
            each: (1, 3),
            ..LARGEST
        },
    };
    build(random, plan)
}

// REF

fn absent_message(random: &mut Random, file: &mut Vec<u8>) -> Option<()> {
    let at = any(random, file, FIELD, |_| true)?;
    let messages = of_kind(file, MESSAGE).len();
    let number = random.pick(&[messages, messages + 1, 31, 32, 33, 255])?;
    set_number(file, at + 1, number.max(messages))
}

fn absent_frame(random: &mut Random, file: &mut Vec<u8>) -> Option<()> {
    let at = any(random, file, FIELD, |_| true)?;
    let frames = of_kind(file, FRAME).len();
    let number = random.pick(&[frames, frames + 1, 31, 32, 33, 255])?;
    set_number(file, at + 2, number.max(frames))
}

/// The last frame or message is left out, so that its fields name an absent one.
fn last_left_out(random: &mut Random, file: &mut Vec<u8>) -> Option<()> {
    let kind = random.byte(FRAME, MESSAGE);
    let at = *of_kind(file, kind).last()?;
    file.drain(at..at + RECORD);
    Some(())
}

fn frame_turned(random: &mut Random, file: &mut Vec<u8>) -> Option<()> {
    let at = any(random, file, FRAME, |_| true)?;
    let other = file[at + 4] ^ 1;
    set(file, at + 4, other)
}

/// Only a message without agreement, since a sent one has none.
fn message_turned(random: &mut Random, file: &mut Vec<u8>) -> Option<()> {
    let at = any(random, file, MESSAGE, |message| message[5] == 0)?;
    let other = file[at + 4] ^ 1;
    set(file, at + 4, other)
}

// GROUP

fn ninth_field(random: &mut Random, file: &mut Vec<u8>) -> Option<()> {
    let plan = Plan {
        messages: random.between(1, 14),
        each: (8, 9),
        ..EIGHT_EACH
    };
    *file = build(random, plan);
    Some(())
}

fn field_129(random: &mut Random, file: &mut Vec<u8>) -> Option<()> {
    let plan = Plan {
        frames: random.between(24, 31),
        fields: 129,
        each: (5, 8),
        ..LARGEST
    };
    *file = build(random, plan);
    Some(())
}

fn status_lost(random: &mut Random, file: &mut Vec<u8>) -> Option<()> {
    let at = any(random, file, FIELD, |field| {
        field[4] == 1 && has_sister(file, field[1])
    })?;
    file[at + 4..at + 6].fill(0);
    Some(())
}

fn status_gained(random: &mut Random, file: &mut Vec<u8>) -> Option<()> {
    let at = any(random, file, FIELD, |field| {
        field[4] == 0 && has_sister(file, field[1])
    })?;
    file[at + 4] = 1;
    let place = random.byte(0, 255);
    set(file, at + 5, place)
}

/// A sent message whose filter is 0 gets another one; it has no status bit as often as not.
fn filter_without_status(random: &mut Random, file: &mut Vec<u8>) -> Option<()> {
    let at = any(random, file, MESSAGE, |message| {
        message[4] == 1 && message[6] == 0
    })?;
    let filter = random.byte(1, 13);
    set(file, at + 6, filter)
}

// PLACE

/// One bit too far, or as much as the byte allows.
fn field_too_far(random: &mut Random, file: &mut Vec<u8>) -> Option<()> {
    let at = any(random, file, FIELD, |_| true)?;
    let (width, end) = width_and_end(file, at)?;
    let start = random.pick(&[end - width + 1, end - width + 1, end, 255])?;
    set_number(file, at + 3, start)
}

/// Just past the end, or as much as the byte allows.
fn status_too_far(random: &mut Random, file: &mut Vec<u8>) -> Option<()> {
    let at = any(random, file, FIELD, |field| field[4] == 1)?;
    let (_, end) = width_and_end(file, at)?;
    let place = random.pick(&[end, end, 255])?;
    set_number(file, at + 5, place)
}

fn status_on_own_field(random: &mut Random, file: &mut Vec<u8>) -> Option<()> {
    let at = any(random, file, FIELD, |field| field[4] == 1)?;
    let (width, _) = width_and_end(file, at)?;
    let any = random.between(0, width - 1);
    let start = usize::from(file[at + 3]);
    let place = start + random.pick(&[0, width - 1, any])?;
    set_number(file, at + 5, place)
}

/// The field's first or last bit lies on a bit of another field, often no other bit of it does.
fn field_on_other(random: &mut Random, file: &mut Vec<u8>) -> Option<()> {
    let (one, other) = two_in_one_frame(random, file)?;
    let (width, _) = width_and_end(file, one)?;
    let bit = bit_of(random, file, other)?;
    let own = random.pick(&[0, width - 1])?;
    set_number(file, one + 3, bit.checked_sub(own)?)
}

fn status_on_other(random: &mut Random, file: &mut Vec<u8>) -> Option<()> {
    let (one, other) = two_in_one_frame(random, file)?;
    let bit = bit_of(random, file, other)?;
    // Without a status bit the byte must be zero, which is another refusal.
    (file[one + 4] == 1).then_some(())?;
    set_number(file, one + 5, bit)
}

fn frame_shorter(random: &mut Random, file: &mut Vec<u8>) -> Option<()> {
    let at = any(random, file, FRAME, |frame| frame[2] > 1)?;
    file[at + 2] -= 1;
    Some(())
}

fn message_wider(random: &mut Random, file: &mut Vec<u8>) -> Option<()> {
    let at = any(random, file, MESSAGE, |message| message[2] < 32)?;
    file[at + 2] += 1;
    Some(())
}

// NOFIELD

/// A message loses all its fields.
fn one_without_field(random: &mut Random, file: &mut Vec<u8>) -> Option<()> {
    let field = any(random, file, FIELD, |_| true)?;
    let message = file[field + 1];
    drop_where(file, |record| record[0] == FIELD && record[1] == message)
}

fn two_without_field(random: &mut Random, file: &mut Vec<u8>) -> Option<()> {
    one_without_field(random, file)?;
    one_without_field(random, file)
}

fn all_without_field(_: &mut Random, file: &mut Vec<u8>) -> Option<()> {
    drop_where(file, |record| record[0] == FIELD)
}

/// Drops the records for which the test holds; none if it holds for none.
fn drop_where(file: &mut Vec<u8>, test: impl Fn(&[u8]) -> bool) -> Option<()> {
    let before = file.len();
    // From the last to the first, so that those still to be tested stay where they are.
    for at in records(file).into_iter().rev() {
        if test(&file[at..at + RECORD]) {
            file.drain(at..at + RECORD);
        }
    }
    (file.len() < before).then_some(())
}

/// One more message, after the others and without a field.
fn message_added(random: &mut Random, file: &mut Vec<u8>) -> Option<()> {
    let number = of_kind(file, MESSAGE).len();
    let before = of_kind(file, FRAME).len() + number;
    let mut record = [0; RECORD];
    record[0] = MESSAGE;
    record[2] = random.byte(1, 32);
    set_number(&mut record, 1, number)?;
    insert(file, before * RECORD, record)
}
