//! The reader and the listing on the paper's examples, on the edges of the limits, and on one file
//! or more for each refusal.

use twin::layout::{listing, read, Verdict, RANGE, RESERVED, UNUSED, WIDTH};

type Record = [u8; 24];

/// A record that begins with these bytes, filled with zeros.
fn record(bytes: &[u8]) -> Record {
    let mut record = [0; 24];
    record[..bytes.len()].copy_from_slice(bytes);
    record
}

fn file(records: &[&[u8]]) -> Vec<u8> {
    records.iter().flat_map(|bytes| record(bytes)).collect()
}

fn is_accepted(file: &[u8]) -> bool {
    matches!(read(file), Verdict::Accepted(_))
}

/// Refused without a byte.
#[track_caller]
fn assert_refused(file: &[u8], number: u8, record: usize) {
    let refused = Verdict::Refused {
        number,
        record,
        byte: None,
    };
    assert_eq!(read(file), refused);
}

#[track_caller]
fn assert_refused_at(file: &[u8], number: u8, record: usize, byte: u8) {
    let refused = Verdict::Refused {
        number,
        record,
        byte: Some(byte),
    };
    assert_eq!(read(file), refused);
}

/// A frame of two bytes, an unsigned message of ten bits, and its field at start 3.
fn example() -> Vec<u8> {
    file(&[&[1, 0, 2], &[2, 0, 10], &[3, 0, 0, 3]])
}

/// The example with one byte changed.
fn example_with(record: usize, byte: usize, value: u8) -> Vec<u8> {
    example_with_all(record, &[(byte, value)])
}

/// The example with these bytes of one record changed.
fn example_with_all(record: usize, changes: &[(usize, u8)]) -> Vec<u8> {
    let mut file = example();
    for &(byte, value) in changes {
        file[24 * record + byte] = value;
    }
    file
}

/// So many frames of 32 bytes and messages of one bit; each message's fields lie in the frames
/// from 0 on, at the bit of the message's number.
fn node(frames: u8, messages: u8, fields_of: impl Fn(u8) -> u8) -> Vec<u8> {
    let mut records = Vec::new();
    records.extend((0..frames).map(|number| record(&[1, number, 32])));
    records.extend((0..messages).map(|number| record(&[2, number, 1])));
    for message in 0..messages {
        records.extend((0..fields_of(message)).map(|frame| record(&[3, message, frame, message])));
    }
    records.concat()
}

#[test]
fn example_of_the_paper() {
    let expected = "message frame start width status\n0 0 3 10 -\n";
    assert_eq!(listing(&example()), expected);
}

#[test]
fn status_bit_and_two_fields_are_listed() {
    let file = file(&[
        &[1, 0, 32, 1, 1, 1],
        &[1, 1, 2, 0, 1],
        &[2, 0, 1, 1, 1, 0, 1],
        &[3, 0, 0, 254, 1, 255],
        &[3, 0, 1, 1, 1, 0],
    ]);
    let expected = "message frame start width status\n0 0 254 1 255\n0 1 1 1 0\n";
    assert_eq!(listing(&file), expected);
}

#[test]
fn a_refusal_prints_one_line() {
    let printed = |record, byte, value| listing(&example_with(record, byte, value));
    assert_eq!(listing(&[0]), "refused 1 record 0\n");
    assert_eq!(printed(2, 1, 1), "refused 4 record 2\n");
    assert_eq!(printed(1, 2, 33), "refused 3 record 1 byte 2\n");
    assert_eq!(printed(2, 23, 1), "refused 8 record 2 byte 23\n");
    assert_eq!(printed(1, 15, 1), "refused 9 record 1 byte 12\n");
    assert_eq!(printed(1, 19, 1), "refused 10 record 1 byte 16\n");
}

#[test]
fn empty_file() {
    assert!(is_accepted(&[]));
    assert_eq!(listing(&[]), "message frame start width status\n");
}

#[test]
fn frames_alone() {
    assert!(is_accepted(&node(32, 0, |_| 0)));
}

#[test]
fn wide_field_at_the_end_of_the_longest_frame() {
    let at = |start| file(&[&[1, 0, 32], &[2, 0, 32], &[3, 0, 0, start]]);
    assert!(is_accepted(&at(224)));
    assert_refused(&at(225), 6, 2);
}

#[test]
fn number_of_fields() {
    // 16 messages with eight fields each, and a 17th message with the 129th field.
    assert!(is_accepted(&node(8, 16, |_| 8)));
    assert_refused(
        &node(8, 17, |m| if m < 16 { 8 } else { 1 }),
        5,
        8 + 17 + 128,
    );
}

#[test]
fn largest_file() {
    let file = node(32, 32, |_| 4);
    assert_eq!(file.len(), 4608);
    assert!(is_accepted(&file));
    assert_refused(&[file, record(&[3, 31, 4]).to_vec()].concat(), 1, 0);
}

#[test]
fn files_cut_short() {
    for length in 0..72 {
        match length {
            // No message yet, so nothing is wrong.
            0 | 24 => assert!(is_accepted(&example()[..length])),
            48 => assert_refused(&example()[..length], 7, 1),
            _ => assert_refused(&example()[..length], 1, 0),
        }
    }
}

#[test]
fn size_comes_before_all_else() {
    assert_refused(&[255; 23], 1, 0);
    assert_refused(&[255; 4632], 1, 0);
    assert_refused(&[255; 4608], 2, 0);
}

#[test]
fn order_of_kinds_and_numbers() {
    for kind in [0, 4, 5, 255] {
        assert_refused(&example_with(1, 0, kind), 2, 1);
    }
    assert_refused(&file(&[&[2, 0, 10], &[1, 0, 2]]), 2, 1);
    assert_refused(&file(&[&[1, 1, 2]]), 2, 0);
    assert_refused(&file(&[&[1, 0, 2], &[1, 0, 2]]), 2, 1);
    assert_refused(&example_with(1, 1, 1), 2, 1);
    assert_refused(&example_with(1, 1, 33), 2, 1);
}

#[test]
fn order_of_pairs() {
    let with = |one: [u8; 2], other: [u8; 2]| {
        let frames: [&[u8]; 2] = [&[1, 0, 4], &[1, 1, 4]];
        let messages: [&[u8]; 2] = [&[2, 0, 1], &[2, 1, 1]];
        let fields: [&[u8]; 2] = [&[3, one[0], one[1]], &[3, other[0], other[1], 1]];
        file(&[frames, messages, fields].concat())
    };
    assert!(is_accepted(&with([0, 1], [1, 0])));
    assert!(is_accepted(&with([0, 1], [1, 1])));
    assert_refused(&with([0, 1], [0, 0]), 2, 5);
    assert_refused(&with([0, 1], [0, 1]), 2, 5);
    assert_refused(&with([1, 0], [0, 1]), 2, 5);
}

#[test]
fn number_32() {
    assert_refused_at(&node(33, 0, |_| 0), RANGE, 32, 1);
    assert_refused_at(&node(8, 33, |_| 1), RANGE, 8 + 32, 1);
    assert_refused_at(&node(34, 0, |_| 0), RANGE, 32, 1);
    let mut length_0_too = node(33, 0, |_| 0);
    length_0_too[24 * 32 + 2] = 0;
    assert_refused_at(&length_0_too, RANGE, 32, 1);
}

#[test]
fn range_of_each_byte() {
    let bad: [(usize, usize, &[u8]); 11] = [
        (0, 2, &[0, 33, 255]),
        (0, 3, &[2, 255]),
        (0, 4, &[2, 255]),
        (0, 5, &[2, 255]),
        (1, 2, &[0, 33, 255]),
        // 2 is a float, which has 32 bits and not ten.
        (1, 3, &[2, 3, 255]),
        (1, 4, &[2, 255]),
        (1, 5, &[3, 255]),
        (1, 6, &[14, 255]),
        (2, 4, &[2, 255]),
        // No status bit, so no place for it.
        (2, 5, &[1, 255]),
    ];
    for (record, byte, values) in bad {
        for &value in values {
            let file = example_with(record, byte, value);
            assert_refused_at(&file, RANGE, record, byte as u8);
        }
    }
}

#[test]
fn bytes_not_named_are_zero() {
    for byte in 6..24 {
        assert_refused_at(&example_with(0, byte, 1), RESERVED, 0, byte as u8);
        assert_refused_at(&example_with(2, byte, 128), RESERVED, 2, byte as u8);
    }
    for byte in [7, 20, 21, 22, 23] {
        assert_refused_at(&example_with(1, byte, 1), RESERVED, 1, byte as u8);
    }
}

#[test]
fn agreement_of_a_sent_message_is_zero() {
    let with = |direction, agreement| {
        file(&[
            &[1, 0, 2, 0, direction],
            &[2, 0, 10, 0, direction, agreement],
            &[3, 0, 0, 3],
        ])
    };
    assert!(is_accepted(&with(0, 2)));
    assert!(is_accepted(&with(1, 0)));
    assert_refused_at(&with(1, 1), RANGE, 1, 5);
    // The direction must itself be in range first.
    assert_refused_at(&example_with_all(1, &[(4, 2), (5, 1)]), RANGE, 1, 4);
}

#[test]
fn place_of_an_absent_status_bit_is_zero() {
    let with = |present, place| example_with_all(2, &[(4, present), (5, place)]);
    assert!(is_accepted(&with(1, 1)));
    // The byte has a name, so it is not RESERVED.
    assert_refused_at(&with(0, 1), RANGE, 2, 5);
    assert_refused_at(&with(2, 1), RANGE, 2, 4);
}

#[test]
fn words_are_extended_from_the_width() {
    let with = |width, sign, filter, at: usize, pattern: u32| {
        let mut message = record(&[2, 0, width, sign, 0, 0, filter]);
        message[at..at + 4].copy_from_slice(&pattern.to_le_bytes());
        [record(&[1, 0, 4]), message, record(&[3])].concat()
    };
    for at in [8, 12, 16] {
        let refused = |width, sign, pattern| {
            let file = with(width, sign, 8, at, pattern);
            assert_refused_at(&file, WIDTH, 1, at as u8);
        };
        assert!(is_accepted(&with(10, 0, 8, at, 0x3FF)));
        refused(10, 0, 0x400);
        assert!(is_accepted(&with(10, 1, 8, at, 0x1FF)));
        refused(10, 1, 0x200);
        assert!(is_accepted(&with(10, 1, 8, at, 0xFFFF_FE00)));
        refused(10, 1, 0xFFFF_FDFF);
        assert!(is_accepted(&with(32, 0, 8, at, 0xFFFF_FFFF)));
        assert!(is_accepted(&with(32, 1, 8, at, 0x8000_0000)));
        // A word is given by its first byte, also where only a later one is wrong.
        for byte in 1..4 {
            refused(8, 0, 1 << (8 * byte));
            refused(8, 1, 0x80 << (8 * byte));
        }
    }
}

#[test]
fn words_that_the_filter_does_not_use_are_zero() {
    for filter in 0..=13 {
        let with = |at: usize| {
            let mut message = record(&[2, 0, 32, 0, 0, 0, filter]);
            message[at] = 1;
            [record(&[1, 0, 4]), message, record(&[3])].concat()
        };
        let x1_used = matches!(filter, 2 | 3 | 6 | 7 | 8 | 9);
        let x2_used = matches!(filter, 2 | 3 | 8 | 9);
        for (word, used) in [(8, x1_used), (12, x2_used), (16, true)] {
            for byte in word..word + 4 {
                match used {
                    true => assert!(is_accepted(&with(byte))),
                    false => assert_refused_at(&with(byte), UNUSED, 1, word as u8),
                }
            }
        }
    }
}

#[test]
fn unused_comes_before_width_at_one_offset() {
    // The word's last byte is not extended from ten bits.
    assert_refused_at(&example_with(1, 11, 1), UNUSED, 1, 8);
    assert_refused_at(&example_with(1, 15, 1), UNUSED, 1, 12);
    assert_refused_at(&example_with(1, 19, 1), WIDTH, 1, 16);
}

#[test]
fn the_lowest_offset_decides() {
    // A change at each of these bytes, the lower ones of which are dropped one after the other:
    // filter 6 uses x1 and not x2.
    let wrong = [
        (2, 33, RANGE),
        (3, 2, RANGE),
        (4, 2, RANGE),
        (5, 3, RANGE),
        (7, 1, RESERVED),
        (8 + 3, 1, WIDTH),
        (12 + 2, 1, UNUSED),
        (16 + 1, 128, WIDTH),
        (20, 1, RESERVED),
        (23, 1, RESERVED),
    ];
    for from in 0..wrong.len() {
        let mut changes = vec![(6, 6)];
        changes.extend(wrong[from..].iter().map(|&(byte, value, _)| (byte, value)));
        let (byte, _, number) = wrong[from];
        let first = if (8..20).contains(&byte) {
            byte / 4 * 4
        } else {
            byte
        };
        assert_refused_at(&example_with_all(1, &changes), number, 1, first as u8);
    }
    let both = |record, one: usize, other: usize| example_with_all(record, &[(one, 2), (other, 2)]);
    assert_refused_at(&both(1, 3, 7), RANGE, 1, 3);
    assert_refused_at(&both(0, 5, 6), RANGE, 0, 5);
    assert_refused_at(&both(0, 6, 23), RESERVED, 0, 6);
    assert_refused_at(&both(2, 5, 6), RANGE, 2, 5);
    assert_refused_at(&both(2, 22, 23), RESERVED, 2, 22);
}

#[test]
fn wrong_width_sign_and_filter_decide_before_the_words() {
    let words = [(8, 255), (11, 255), (12, 255), (16, 255), (19, 255)];
    for (byte, values) in [(2, [0, 33, 255]), (3, [2, 3, 255]), (6, [14, 15, 255])] {
        for value in values {
            let changes = [&[(byte, value)], &words[..]].concat();
            let file = example_with_all(1, &changes);
            assert_refused_at(&file, RANGE, 1, byte as u8);
        }
    }
}

/// A frame of four bytes, a float with this filter and these words, and its field.
fn float_with(filter: u8, x1: u32, x2: u32, initial: u32) -> Vec<u8> {
    let mut message = record(&[2, 0, 32, 2, 0, 0, filter]);
    for (word, at) in [(x1, 8), (x2, 12), (initial, 16)] {
        message[at..at + 4].copy_from_slice(&word.to_le_bytes());
    }
    [record(&[1, 0, 4]), message, record(&[3])].concat()
}

const NOT_FINITE: [u32; 6] = [
    0x7F80_0000,
    0xFF80_0000,
    0x7F80_0001,
    0x7FC0_0000,
    0xFFFF_FFFF,
    0x7FFF_FFFF,
];

#[test]
fn a_float_has_32_bits() {
    for width in 1..=32 {
        let file = file(&[&[1, 0, 4], &[2, 0, width, 2], &[3]]);
        match width {
            32 => assert!(is_accepted(&file)),
            _ => assert_refused_at(&file, RANGE, 1, 3),
        }
    }
    let with = |width, sign| file(&[&[1, 0, 4], &[2, 0, width, sign], &[3]]);
    for sign in [3, 4, 128, 255] {
        assert_refused_at(&with(32, sign), RANGE, 1, 3);
    }
    // The width is the lower byte.
    for width in [0, 33, 255] {
        assert_refused_at(&with(width, 2), RANGE, 1, 2);
        assert_refused_at(&with(width, 3), RANGE, 1, 2);
    }
}

#[test]
fn a_float_has_no_mask() {
    for filter in 0..=15 {
        let file = float_with(filter, 0, 0, 0);
        match filter {
            2 | 3 | 6 | 7 | 14 | 15 => assert_refused_at(&file, RANGE, 1, 6),
            _ => assert!(is_accepted(&file)),
        }
    }
    // Byte 6 decides before the words, and byte 3 before byte 6.
    assert_refused_at(&float_with(2, NOT_FINITE[0], 1, 0), RANGE, 1, 6);
    let mut file = float_with(2, 0, 0, 0);
    file[24 + 2] = 31;
    assert_refused_at(&file, RANGE, 1, 3);
}

#[test]
fn words_of_a_float_are_finite() {
    let finite = [0, 1, 0x8000_0000, 0x3F80_0000, 0x7F7F_FFFF, 0xFF7F_FFFF];
    for word in finite {
        assert!(is_accepted(&float_with(0, 0, 0, word)));
        assert!(is_accepted(&float_with(8, word, word, word)));
        assert!(is_accepted(&float_with(9, word, 0, word)));
    }
    for word in NOT_FINITE {
        for filter in [0, 1, 4, 5, 8, 9, 10, 11, 12, 13] {
            let file = float_with(filter, 0, 0, word);
            assert_refused_at(&file, WIDTH, 1, 16);
        }
        for filter in [8, 9] {
            assert_refused_at(&float_with(filter, word, word, word), WIDTH, 1, 8);
            assert_refused_at(&float_with(filter, 1, word, word), WIDTH, 1, 12);
        }
        // Of a whole number they are words like others.
        for sign in [0, 1] {
            let mut file = float_with(8, word, word, word);
            file[24 + 3] = sign;
            assert!(is_accepted(&file));
        }
    }
}

#[test]
fn unused_words_of_a_float_are_zero() {
    for filter in [0, 1, 4, 5, 10, 11, 12, 13] {
        // Finite or not; -0 is not zero here.
        for word in [1, 0x8000_0000, 0x3F80_0000].into_iter().chain(NOT_FINITE) {
            assert_refused_at(&float_with(filter, word, 0, 0), UNUSED, 1, 8);
            assert_refused_at(&float_with(filter, 0, word, 0), UNUSED, 1, 12);
            assert_refused_at(&float_with(filter, 0, word, NOT_FINITE[0]), UNUSED, 1, 12);
        }
    }
}

#[test]
fn the_four_stand_after_order_and_before_ref() {
    for (byte, value, number) in [(4, 2, RANGE), (5, 1, RANGE), (6, 1, RESERVED)] {
        // No such message, no such frame, and past the frame's end.
        for other in [(1, 9), (2, 9), (3, 9)] {
            let file = example_with_all(2, &[(byte, value), other]);
            assert_refused_at(&file, number, 2, byte as u8);
        }
    }
    for (byte, value) in [(2, 0), (7, 1), (8, 1), (19, 1)] {
        assert_refused(&example_with_all(1, &[(1, 1), (byte, value)]), 2, 1);
        assert_refused(&example_with_all(1, &[(0, 9), (byte, value)]), 2, 1);
    }
}

#[test]
fn absent_message_or_frame() {
    for number in [1, 31, 32, 33, 255] {
        assert_refused(&example_with(2, 1, number), 4, 2);
        assert_refused(&example_with(2, 2, number), 4, 2);
    }
}

#[test]
fn directions_differ() {
    assert_refused(&example_with(0, 4, 1), 4, 2);
    assert_refused(&example_with(1, 4, 1), 4, 2);
}

#[test]
fn ninth_field_of_a_message() {
    assert!(is_accepted(&node(9, 2, |_| 8)));
    assert_refused(&node(9, 2, |m| 8 + m), 5, 9 + 2 + 16);
}

#[test]
fn status_bits_of_one_message() {
    let with = |one: u8, other: u8| {
        file(&[
            &[1, 0, 2],
            &[1, 1, 2],
            &[2, 0, 10],
            &[3, 0, 0, 3, one],
            &[3, 0, 1, 3, other],
        ])
    };
    assert!(is_accepted(&with(0, 0)));
    assert!(is_accepted(&with(1, 1)));
    assert_refused(&with(1, 0), 5, 4);
    assert_refused(&with(0, 1), 5, 4);
}

#[test]
fn sent_message_with_filter_needs_a_status_bit() {
    let with = |direction, filter, present| {
        file(&[
            &[1, 0, 2, 0, direction],
            &[2, 0, 10, 0, direction, 0, filter],
            &[3, 0, 0, 3, present],
        ])
    };
    for filter in 1..=13 {
        assert_refused(&with(1, filter, 0), 5, 2);
        assert!(is_accepted(&with(1, filter, 1)));
        assert!(is_accepted(&with(0, filter, 0)));
    }
    assert!(is_accepted(&with(1, 0, 0)));
}

#[test]
fn past_the_end() {
    assert!(is_accepted(&example_with(2, 3, 6)));
    assert_refused(&example_with(2, 3, 7), 6, 2);
    let status_at = |place| file(&[&[1, 0, 2], &[2, 0, 10], &[3, 0, 0, 3, 1, place]]);
    assert!(is_accepted(&status_at(15)));
    assert_refused(&status_at(16), 6, 2);
}

#[test]
fn used_twice() {
    let status_at = |place| file(&[&[1, 0, 2], &[2, 0, 10], &[3, 0, 0, 3, 1, place]]);
    for place in 0..16 {
        assert_eq!(is_accepted(&status_at(place)), !(3..13).contains(&place));
    }
    // A field of three bits beside one at 3 to 7 with its status bit at 9, in both orders.
    for order in 0..=1 {
        for start in 0..14 {
            let file = file(&[
                &[1, 0, 2, order],
                &[2, 0, 5],
                &[2, 1, 3],
                &[3, 0, 0, 3, 1, 9],
                &[3, 1, 0, start],
            ]);
            assert_eq!(is_accepted(&file), [0, 10, 11, 12, 13].contains(&start));
        }
    }
}

#[test]
fn lowest_message_without_field() {
    assert_refused(&node(2, 3, |m| if m == 0 { 1 } else { 0 }), 7, 2 + 1);
    assert_refused(&node(2, 3, |m| if m == 2 { 0 } else { 1 }), 7, 2 + 2);
    assert_refused(&node(0, 1, |_| 0), 7, 0);
}

#[test]
fn an_earlier_record_decides_before_a_lower_refusal() {
    // Record 2 lies past the frame's end; record 3 has a kind that there is not.
    let past_the_end = file(&[&[1, 0, 2], &[2, 0, 10], &[3, 0, 0, 7], &[9]]);
    assert_refused(&past_the_end, 6, 2);
    // Byte 7 of record 0, byte 2 of record 1.
    let two = file(&[&[1, 0, 2, 0, 0, 0, 0, 1], &[2, 0, 33], &[3, 0, 0, 3]]);
    assert_refused_at(&two, RESERVED, 0, 7);
}
