//! The node on the paper's examples, on the errors seen in course work, and on each sentence about
//! the calls and the closing.

use std::collections::BTreeSet;

use twin::agreement::agree;
use twin::bits::{initial, pack, unpack, value};
use twin::filter::passes;
use twin::layout::{is_mask, Field, Frame, Layout, Message, Sign};
use twin::node::{
    Node, Stage, ACCESS, ID, INVALIDATED, NOFUNC, NOT_RECEIVED, OK, RDA_FAILED, SUPPRESSED, VALUE,
};
use twin::old_counts::{Put, TELLING};

fn frame(length: usize, sent: bool) -> Frame {
    Frame {
        length,
        big: false,
        sent,
        event: false,
    }
}

fn message(width: usize, sign: Sign, sent: bool) -> Message {
    Message {
        width,
        sign,
        sent,
        agreement: 0,
        filter: 0,
        x1: 0,
        x2: 0,
        initial: 0,
    }
}

fn field(message: usize, frame: usize, start: usize) -> Field {
    Field {
        message,
        frame,
        start,
        status: None,
    }
}

/// One message in one frame of two bytes.
fn one(message: Message, big: bool, start: usize) -> Layout {
    let frame = Frame {
        big,
        ..frame(2, message.sent)
    };
    Layout {
        frames: vec![frame],
        messages: vec![message],
        fields: vec![field(0, 0, start)],
    }
}

/// A sent message of ten bits with its status bit at 15, in so many frames of two bytes.
fn with_status(frames: usize, filter: u8) -> Layout {
    let field = |number| Field {
        status: Some(15),
        ..field(0, number, 0)
    };
    Layout {
        frames: (0..frames).map(|_| frame(2, true)).collect(),
        messages: vec![Message {
            filter,
            ..message(10, Sign::Signed, true)
        }],
        fields: (0..frames).map(field).collect(),
    }
}

/// A received message of eight bits in so many frames of two bytes, its status bit at 8.
fn received(frames: usize, agreement: u8) -> Layout {
    let field = |number| Field {
        status: Some(8),
        ..field(0, number, 0)
    };
    Layout {
        frames: (0..frames).map(|_| frame(2, false)).collect(),
        messages: vec![Message {
            agreement,
            ..message(8, Sign::Signed, false)
        }],
        fields: (0..frames).map(field).collect(),
    }
}

fn flag(node: &Node) -> bool {
    let mut flag = 7;
    assert_eq!(node.read_flag(0, &mut flag), OK);
    assert!(flag <= 1);
    flag == 1
}

/// Status and, with 0, value of message 0; the place stays with any other status.
fn received_of(node: &Node) -> (u8, Option<i64>) {
    let mut place = 12345;
    let status = node.receive(0, &mut place);
    if status != OK {
        assert_eq!(place, 12345);
    }
    (status, (status == OK).then_some(place))
}

#[test]
fn p1_to_p4_packing() {
    let packed = |value, sign, big, start, mut data: [u8; 2]| {
        let layout = one(message(10, sign, true), big, start);
        pack(&layout, &layout.fields[0], value, &mut data);
        assert_eq!(unpack(&layout, &layout.fields[0], &data), value);
        data
    };
    let (unsigned, signed) = (Sign::Unsigned, Sign::Signed);
    assert_eq!(packed(677, unsigned, false, 3, [0, 0]), [0x28, 0x15]);
    assert_eq!(packed(677, unsigned, false, 3, [0xFF, 0xFF]), [0x2F, 0xF5]);
    assert_eq!(packed(677, unsigned, true, 3, [0, 0]), [0x15, 0x28]);
    assert_eq!(packed(-1, signed, false, 0, [0, 0]), [0xFF, 0x03]);
}

#[test]
fn p5_and_p6_average() {
    assert_eq!(agree(1, Sign::Signed, &[-3, -4]), Some(-3));
    let most = 4_294_967_295;
    assert_eq!(agree(1, Sign::Unsigned, &[most; 8]), Some(most));
    assert_eq!(agree(1, Sign::Signed, &[3, 4]), Some(3));
}

#[test]
fn p7_to_p9_vote() {
    let vote = |values: &[i64]| agree(2, Sign::Signed, values);
    assert_eq!(vote(&[5, 5, 9, 7]), Some(5));
    assert_eq!(vote(&[5, 5, 9, 9]), None);
    assert_eq!(vote(&[5]), Some(5));
    assert_eq!(vote(&[7, 9, 5, 5]), Some(5));
    assert_eq!(vote(&[5, 9]), None);
}

#[test]
fn p10_filter_by_sending() {
    let layout = with_status(1, 10);
    let mut node = Node::start(&layout);
    for (value, passes, held) in [(10, true, 10), (4, false, 10), (7, false, 10)] {
        assert_eq!(node.send(0, value), OK);
        let mut data = [0, 0];
        assert_eq!(node.assemble(0, &mut data), OK);
        assert_eq!(data, [held, if passes { 0x80 } else { 0 }]);
    }
}

#[test]
fn p10_filter_by_closing() {
    let mut layout = received(1, 0);
    layout.messages[0].filter = 10;
    let mut node = Node::start(&layout);
    for (value, result) in [
        (10, (OK, Some(10))),
        (4, (NOT_RECEIVED, None)),
        (7, (NOT_RECEIVED, None)),
    ] {
        assert_eq!(node.deliver(0, true, &[value, 1]), OK);
        node.close();
        assert_eq!(received_of(&node), result);
    }
}

#[test]
fn send_at_the_edges_of_the_range() {
    let layout = one(message(10, Sign::Signed, true), false, 0);
    let mut node = Node::start(&layout);
    assert_eq!(node.send(0, -512), OK);
    assert_eq!(node.send(0, 511), OK);
    let before = node.clone();
    for value in [-513, 512, i64::MIN, i64::MAX] {
        assert_eq!(node.send(0, value), VALUE);
    }
    assert_eq!(node, before);
    let layout = one(message(10, Sign::Unsigned, true), false, 0);
    let mut node = Node::start(&layout);
    assert_eq!(node.send(0, 1023), OK);
    assert_eq!(node.send(0, 1024), VALUE);
    assert_eq!(node.send(0, -1), VALUE);
}

#[test]
fn filters() {
    let with = |filter, x1: i32, x2: i32| Message {
        filter,
        x1: x1 as u32,
        x2: x2 as u32,
        ..message(10, Sign::Signed, true)
    };
    for new in -512..=511 {
        assert!(passes(&with(0, 0, 0), new, 0));
        assert!(!passes(&with(1, 0, 0), new, 0));
        assert!(!passes(&with(8, 5, 3), new, 0));
        assert!(passes(&with(9, 5, 3), new, 0));
        assert_eq!(passes(&with(8, -3, 5), new, 0), (-3..=5).contains(&new));
        assert_eq!(passes(&with(9, -3, 5), new, 0), !(-3..=5).contains(&new));
        assert_eq!(passes(&with(4, 0, 0), new, -1), new == -1);
        assert_eq!(passes(&with(5, 0, 0), new, -1), new != -1);
        assert_eq!(passes(&with(10, 0, 0), new, -1), new > -1);
        assert_eq!(passes(&with(11, 0, 0), new, -1), new <= -1);
        assert_eq!(passes(&with(12, 0, 0), new, -1), new < -1);
        assert_eq!(passes(&with(13, 0, 0), new, -1), new >= -1);
        assert_eq!(passes(&with(2, 3, 1), new, 0), new.rem_euclid(4) == 1);
        assert_eq!(passes(&with(3, 3, 1), new, 0), new.rem_euclid(4) != 1);
        assert_eq!(passes(&with(6, 3, 0), new, 6), new.rem_euclid(4) == 2);
        assert_eq!(passes(&with(7, 3, 0), new, 6), new.rem_euclid(4) != 2);
        // The mask works on the extended pattern: only -512 to -1 have these bits.
        assert_eq!(passes(&with(2, -512, -512), new, 0), new < 0);
    }
}

#[test]
fn start() {
    let mut layout = with_status(1, 0);
    layout.messages[0].initial = -5_i32 as u32;
    let mut data = [0, 0];
    let mut node = Node::start(&layout);
    assert!(flag(&node));
    assert_eq!(node.assemble(0, &mut data), OK);
    assert_eq!(data, [0xFB, 0x03]);
    // Without a status bit a message is valid, so that an event frame goes out.
    layout.fields[0].status = None;
    layout.frames[0].event = true;
    assert_eq!(Node::start(&layout).assemble(0, &mut data), OK);
    let layout = received(1, 0);
    assert_eq!(received_of(&Node::start(&layout)), (NOT_RECEIVED, None));
}

#[test]
fn tests_come_in_order() {
    let sent = with_status(1, 0);
    let mut node = Node::start(&sent);
    for absent in [1, 32, 1 << 32, u64::MAX] {
        assert_eq!(node.send(absent, i64::MAX), ID);
        assert_eq!(node.invalidate(absent), ID);
        assert_eq!(node.assemble(absent, &mut []), ID);
        assert_eq!(node.consumed(absent), ID);
        assert_eq!(node.read_flag(absent, &mut 0), ID);
        assert_eq!(node.deliver(absent, false, &[]), ID);
        assert_eq!(node.receive(absent, &mut 0), ID);
    }
    assert_eq!(node.deliver(0, true, &[]), ACCESS);
    assert_eq!(node.receive(0, &mut 0), ACCESS);
    let layout = received(1, 0);
    let mut node = Node::start(&layout);
    assert_eq!(node.send(0, i64::MAX), ACCESS);
    assert_eq!(node.invalidate(0), ACCESS);
    assert_eq!(node.assemble(0, &mut []), ACCESS);
    assert_eq!(node.consumed(0), ACCESS);
    assert_eq!(node.read_flag(0, &mut 0), ID);
    for length in [0, 1, 3, 258] {
        for valid in [false, true] {
            assert_eq!(node.deliver(0, valid, &vec![0; length]), VALUE);
        }
    }
}

#[test]
fn invalidate() {
    let layout = one(message(10, Sign::Signed, true), false, 0);
    assert_eq!(Node::start(&layout).invalidate(0), NOFUNC);
    let layout = with_status(1, 0);
    let mut node = Node::start(&layout);
    let mut data = [0, 0];
    node.send(0, 3);
    node.assemble(0, &mut data);
    assert_eq!(data, [3, 0x80]);
    assert_eq!(node.invalidate(0), OK);
    node.assemble(0, &mut data);
    assert_eq!(data, [3, 0]);
    // The stage did not change: the field is loaded, and no longer waiting.
    node.consumed(0);
    assert!(flag(&node));
}

#[test]
fn event_frames() {
    let mut layout = with_status(1, 0);
    layout.messages.push(message(2, Sign::Unsigned, true));
    layout.fields.push(Field {
        status: Some(14),
        ..field(1, 0, 10)
    });
    layout.frames.push(frame(1, true));
    layout.frames[0].event = true;
    layout.frames[1].event = true;
    let mut node = Node::start(&layout);
    let mut data = [0xFF, 0xFF];
    assert_eq!(node.assemble(0, &mut [0]), VALUE);
    assert_eq!(node.assemble(0, &mut data), SUPPRESSED);
    assert_eq!(data, [0xFF, 0xFF]);
    node.send(1, 2);
    assert_eq!(node.assemble(0, &mut data), OK);
    assert_eq!(data, [0x00, 0x78]);
    // Without a field nothing is invalid.
    assert_eq!(node.assemble(1, &mut [0]), OK);
}

#[test]
fn flag_is_set_once_each_frame_is_assembled_and_consumed() {
    let layout = with_status(2, 0);
    let mut node = Node::start(&layout);
    node.send(0, 1);
    assert!(!flag(&node));
    for number in [0, 1] {
        node.consumed(number);
        assert!(!flag(&node));
        node.assemble(number, &mut [0, 0]);
        assert!(!flag(&node));
        node.consumed(number);
        assert_eq!(flag(&node), number == 1);
    }
}

#[test]
fn consumed_leaves_a_waiting_field() {
    let layout = with_status(1, 0);
    let mut node = Node::start(&layout);
    node.send(0, 1);
    node.assemble(0, &mut [0, 0]);
    node.send(0, 2);
    node.consumed(0);
    assert!(!flag(&node));
}

#[test]
fn filtered_value_goes_out_as_invalid() {
    let layout = with_status(1, 1);
    let mut node = Node::start(&layout);
    assert_eq!(node.send(0, 1), OK);
    assert!(!flag(&node));
    let mut data = [0xFF, 0xFF];
    node.assemble(0, &mut data);
    assert_eq!(data, [0x00, 0x7C]);
    node.consumed(0);
    assert!(flag(&node));
}

#[test]
fn invalid_instances_do_not_count() {
    let layout = received(3, 1);
    let mut node = Node::start(&layout);
    node.deliver(0, true, &[9, 1]);
    node.deliver(1, true, &[5, 0]);
    node.deliver(2, true, &[4, 1]);
    node.close();
    assert_eq!(received_of(&node), (OK, Some(6)));
    node.deliver(1, true, &[5, 0]);
    node.close();
    assert_eq!(received_of(&node), (INVALIDATED, None));
}

#[test]
fn each_round_has_its_own_deliveries() {
    let layout = received(2, 0);
    let mut node = Node::start(&layout);
    node.deliver(0, true, &[1, 1]);
    node.deliver(0, true, &[2, 1]);
    node.deliver(0, false, &[3, 1]);
    assert_eq!(received_of(&node), (NOT_RECEIVED, None));
    node.close();
    assert_eq!(received_of(&node), (OK, Some(2)));
    node.deliver(1, true, &[0xFF, 1]);
    node.close();
    assert_eq!(received_of(&node), (OK, Some(-1)));
    node.close();
    assert_eq!(received_of(&node), (NOT_RECEIVED, None));
}

#[test]
fn pick_any_takes_the_lowest_frame_that_counts() {
    let layout = received(3, 0);
    let mut node = Node::start(&layout);
    node.deliver(2, true, &[3, 1]);
    node.deliver(1, true, &[2, 1]);
    node.deliver(0, true, &[1, 0]);
    node.close();
    assert_eq!(received_of(&node), (OK, Some(2)));
}

#[test]
fn vote_without_result() {
    let layout = received(4, 2);
    let mut node = Node::start(&layout);
    for (values, result) in [
        ([5, 5, 9, 7], (OK, Some(5))),
        ([5, 5, 9, 9], (RDA_FAILED, None)),
    ] {
        for (number, value) in values.into_iter().enumerate() {
            node.deliver(number as u64, true, &[value, 1]);
        }
        node.close();
        assert_eq!(received_of(&node), result);
    }
}

#[test]
fn wide_field_at_the_end_of_the_longest_frame() {
    for big in [false, true] {
        let layout = Layout {
            frames: vec![Frame {
                big,
                ..frame(32, true)
            }],
            messages: vec![message(32, Sign::Signed, true)],
            fields: vec![field(0, 0, 224)],
        };
        let mut node = Node::start(&layout);
        assert_eq!(node.send(0, -2), OK);
        let mut data = [0; 32];
        assert_eq!(node.assemble(0, &mut data), OK);
        let bytes = if big {
            [255, 255, 255, 254]
        } else {
            [254, 255, 255, 255]
        };
        assert_eq!(data[..28], [0; 28]);
        assert_eq!(data[28..], bytes);
    }
}

const PLUS_ZERO: u32 = 0;
const MINUS_ZERO: u32 = 0x8000_0000;
const ONE: u32 = 0x3F80_0000;
const TWO: u32 = 0x4000_0000;
const GREATEST: u32 = 0x7F7F_FFFF;
const INFINITY: u32 = 0x7F80_0000;
const QUIET: u32 = 0x7FC0_0000;
const SIGNALLING: u32 = 0xFF80_0001;

/// A message of 32 bits in so many frames of five bytes, its status bit at 32.
fn wide(frames: usize, message: Message) -> Layout {
    let field = |number| Field {
        status: Some(32),
        ..field(0, number, 0)
    };
    Layout {
        frames: (0..frames).map(|_| frame(5, message.sent)).collect(),
        messages: vec![message],
        fields: (0..frames).map(field).collect(),
    }
}

fn floats(frames: usize, sent: bool, agreement: u8, filter: u8) -> Layout {
    let message = Message {
        agreement,
        filter,
        ..message(32, Sign::Float, sent)
    };
    wide(frames, message)
}

/// A round with these instances, each in its own frame; one that does not count is none.
fn play_round(node: &mut Node, instances: &[Option<u32>]) {
    for (number, &instance) in instances.iter().enumerate() {
        let mut data = instance.unwrap_or(ONE).to_le_bytes().to_vec();
        data.push(instance.is_some().into());
        assert_eq!(node.deliver(number as u64, true, &data), OK);
    }
    node.close();
}

/// What such a round shows of a float.
fn close_with(node: &mut Node, instances: &[Option<u32>]) -> (u8, Option<u32>) {
    play_round(node, instances);
    let (status, value) = received_of(node);
    (status, value.map(|value| u32::try_from(value).unwrap()))
}

/// Status and value of one closing of a float with so many fields as instances.
fn closed(agreement: u8, instances: &[u32]) -> (u8, Option<u32>) {
    let layout = floats(instances.len(), false, agreement, 0);
    let instances: Vec<Option<u32>> = instances.iter().copied().map(Some).collect();
    close_with(&mut Node::start(&layout), &instances)
}

#[test]
fn mean_of_floats() {
    let half = 0x3F00_0000;
    let third = 0x3EAA_AAAB;
    assert_eq!(closed(1, &[ONE, TWO]), (OK, Some(0x3FC0_0000)));
    assert_eq!(closed(1, &[ONE, PLUS_ZERO]), (OK, Some(half)));
    assert_eq!(closed(1, &[ONE, PLUS_ZERO, PLUS_ZERO]), (OK, Some(third)));
    assert_eq!(closed(1, &[GREATEST]), (OK, Some(GREATEST)));
    // Not a sum of bit patterns.
    assert_eq!(closed(1, &[ONE, ONE]), (OK, Some(ONE)));
}

#[test]
fn mean_of_zeros() {
    assert_eq!(closed(1, &[MINUS_ZERO]), (OK, Some(MINUS_ZERO)));
    assert_eq!(closed(1, &[MINUS_ZERO; 2]), (OK, Some(MINUS_ZERO)));
    assert_eq!(closed(1, &[MINUS_ZERO; 8]), (OK, Some(MINUS_ZERO)));
    assert_eq!(closed(1, &[MINUS_ZERO, PLUS_ZERO]), (OK, Some(PLUS_ZERO)));
    assert_eq!(closed(1, &[ONE, ONE | MINUS_ZERO]), (OK, Some(PLUS_ZERO)));
    // The half of the least float below zero is a tie, and zero is even.
    assert_eq!(
        closed(1, &[0x8000_0001, MINUS_ZERO]),
        (OK, Some(MINUS_ZERO))
    );
    assert_eq!(
        closed(1, &[0x8000_0003, MINUS_ZERO]),
        (OK, Some(0x8000_0002))
    );
}

#[test]
fn each_step_is_rounded_to_the_even_one() {
    // 2^24 + 1 lies in the middle of 2^24 and 2^24 + 2, and so each 1 is lost.
    let two_to_24 = 0x4B80_0000;
    let two_to_22 = 0x4A80_0000;
    assert_eq!(
        closed(1, &[two_to_24, ONE, ONE, PLUS_ZERO]),
        (OK, Some(two_to_22))
    );
    // In another order both are kept.
    assert_eq!(
        closed(1, &[ONE, ONE, two_to_24, PLUS_ZERO]),
        (OK, Some(two_to_22 + 1))
    );
    // 2^24 + 2 + 1 lies in the middle of 2^24 + 2 and 2^24 + 4, of which the second is even.
    assert_eq!(
        closed(1, &[two_to_24 + 1, ONE]),
        (OK, Some(two_to_24 + 2 - 0x0080_0000))
    );
}

#[test]
fn a_sum_that_is_infinite_stays_so() {
    let minus = |float: u32| float | MINUS_ZERO;
    assert_eq!(closed(1, &[GREATEST, GREATEST]), (RDA_FAILED, None));
    for later in [minus(GREATEST), minus(ONE), PLUS_ZERO] {
        let instances = [GREATEST, GREATEST, later, later];
        assert_eq!(closed(1, &instances), (RDA_FAILED, None));
    }
    let instances = [minus(GREATEST), minus(GREATEST), GREATEST];
    assert_eq!(closed(1, &instances), (RDA_FAILED, None));
    // The same values in an order without such a sum.
    let third = 0x7EAA_AAAA;
    let instances = [GREATEST, minus(GREATEST), GREATEST];
    assert_eq!(closed(1, &instances), (OK, Some(third)));
    // A half of the last place of the greatest is a tie, which is infinite; less is lost.
    assert_eq!(closed(1, &[GREATEST, 0x7300_0000]), (RDA_FAILED, None));
    assert_eq!(
        closed(1, &[GREATEST, 0x72FF_FFFF]),
        (OK, Some(GREATEST - 0x0080_0000))
    );
}

#[test]
fn not_finite_floats_are_left_out() {
    for aside in [INFINITY, INFINITY | MINUS_ZERO, QUIET, SIGNALLING] {
        // Not in the sum, not in the divisor.
        assert_eq!(closed(1, &[aside, ONE, TWO]), (OK, Some(0x3FC0_0000)));
        assert_eq!(closed(1, &[ONE, TWO, aside]), (OK, Some(0x3FC0_0000)));
        assert_eq!(closed(1, &[aside, MINUS_ZERO]), (OK, Some(MINUS_ZERO)));
        assert_eq!(closed(0, &[aside, TWO, ONE]), (OK, Some(TWO)));
        assert_eq!(closed(2, &[aside, aside, ONE]), (OK, Some(ONE)));
        assert_eq!(
            closed(2, &[aside, aside, ONE, TWO, aside]),
            (RDA_FAILED, None)
        );
    }
}

#[test]
fn all_set_aside_and_none_counting() {
    for agreement in 0..=2 {
        let layout = floats(2, false, agreement, 0);
        let mut node = Node::start(&layout);
        assert_eq!(
            close_with(&mut node, &[Some(INFINITY), Some(QUIET)]),
            (RDA_FAILED, None)
        );
        assert_eq!(
            close_with(&mut node, &[None, Some(SIGNALLING)]),
            (RDA_FAILED, None)
        );
        assert_eq!(close_with(&mut node, &[None, None]), (INVALIDATED, None));
        assert_eq!(close_with(&mut node, &[]), (NOT_RECEIVED, None));
        assert_eq!(close_with(&mut node, &[None, Some(ONE)]), (OK, Some(ONE)));
    }
}

#[test]
fn votes_of_floats_compare_patterns() {
    assert_eq!(closed(2, &[PLUS_ZERO, MINUS_ZERO]), (RDA_FAILED, None));
    assert_eq!(
        closed(2, &[PLUS_ZERO, MINUS_ZERO, MINUS_ZERO]),
        (OK, Some(MINUS_ZERO))
    );
    assert_eq!(
        closed(2, &[PLUS_ZERO, MINUS_ZERO, ONE, ONE]),
        (OK, Some(ONE))
    );
}

#[test]
fn filters_of_floats() {
    let with = |filter, x1: u32, x2: u32| Message {
        filter,
        x1,
        x2,
        ..message(32, Sign::Float, true)
    };
    // In the order of their numbers, the two zeros beside each other.
    let minus = |float: u32| float | MINUS_ZERO;
    let floats = [
        minus(GREATEST),
        minus(TWO),
        minus(ONE),
        minus(1),
        MINUS_ZERO,
        PLUS_ZERO,
        1,
        2,
        ONE,
        TWO,
        GREATEST,
    ];
    // Both zeros are the number at the place of the first.
    let number = |place: usize| if place == 5 { 4 } else { place };
    for (i, new) in floats.into_iter().enumerate() {
        for (j, other) in floats.into_iter().enumerate() {
            let passes = |filter, x1, x2| {
                let (new, old) = (i64::from(new), i64::from(other));
                passes(&with(filter, x1, x2), new, old)
            };
            let (i_number, j_number) = (number(i), number(j));
            assert!(passes(0, 0, 0));
            assert!(!passes(1, 0, 0));
            assert_eq!(passes(4, 0, 0), i == j);
            assert_eq!(passes(5, 0, 0), i != j);
            assert_eq!(passes(10, 0, 0), i_number > j_number);
            assert_eq!(passes(11, 0, 0), i_number <= j_number);
            assert_eq!(passes(12, 0, 0), i_number < j_number);
            assert_eq!(passes(13, 0, 0), i_number >= j_number);
            assert_eq!(passes(8, other, GREATEST), i_number >= j_number);
            assert_eq!(passes(8, minus(GREATEST), other), i_number <= j_number);
            assert_eq!(passes(9, other, GREATEST), i_number < j_number);
            assert_eq!(passes(9, minus(GREATEST), other), i_number > j_number);
            assert_eq!(passes(8, other, other), i_number == j_number);
        }
    }
    // Nothing passes between 1 and -1.
    assert!(!passes(&with(8, ONE, minus(ONE)), 0, 0));
}

#[test]
fn zeros_put_to_filters() {
    let put = |filter, initial, new| {
        let mut layout = floats(1, false, 0, filter);
        layout.messages[0].initial = initial;
        close_with(&mut Node::start(&layout), &[Some(new)])
    };
    let (filtered, zero) = ((NOT_RECEIVED, None), (OK, Some(MINUS_ZERO)));
    assert_eq!(put(4, PLUS_ZERO, MINUS_ZERO), filtered);
    assert_eq!(put(4, MINUS_ZERO, MINUS_ZERO), zero);
    assert_eq!(put(5, PLUS_ZERO, MINUS_ZERO), zero);
    assert_eq!(put(10, PLUS_ZERO, MINUS_ZERO), filtered);
    assert_eq!(put(11, PLUS_ZERO, MINUS_ZERO), zero);
    assert_eq!(put(12, PLUS_ZERO, MINUS_ZERO), filtered);
    assert_eq!(put(13, PLUS_ZERO, MINUS_ZERO), zero);
}

/// Messages of 32 bits with each filter that they may have and each initial value of five, and three
/// of these values for the filter, in all ways.
fn ways(sent: bool) -> impl Iterator<Item = (Message, [u32; 3])> {
    let whole = [-2_i32, -1, 0, 1, 2].map(|value| value as u32);
    let floats = [ONE | MINUS_ZERO, MINUS_ZERO, PLUS_ZERO, ONE, TWO];
    let signs = [(Sign::Signed, whole), (Sign::Float, floats)];
    signs.into_iter().flat_map(move |(sign, values)| {
        let filters = (0..14).filter(move |&filter| sign != Sign::Float || !is_mask(filter));
        filters.flat_map(move |filter| {
            (0..625).map(move |way| {
                let [first, second, third, initial] = [1, 5, 25, 125].map(|n| values[way / n % 5]);
                let message = Message {
                    filter,
                    // As a mask, some of the whole numbers are the same under it.
                    x1: 2,
                    initial,
                    ..message(32, sign, sent)
                };
                (message, [first, second, third])
            })
        })
    })
}

#[test]
fn a_value_sent_is_compared_with_the_held_one() {
    for (message, values) in ways(true) {
        let layout = wide(1, message);
        let message = &layout.messages[0];
        let mut node = Node::start(&layout);
        let mut held = message.initial;
        for new in values {
            let passed = passes(message, value(message, new), value(message, held));
            held = if passed { new } else { held };
            let mut data = [0; 5];
            assert_eq!(node.send(0, value(message, new)), OK);
            assert_eq!(node.assemble(0, &mut data), OK);
            assert_eq!(data[..4], held.to_le_bytes());
            assert_eq!(data[4], passed.into());
        }
    }
}

#[test]
fn a_value_agreed_on_is_compared_with_the_held_one() {
    for (message, values) in ways(false) {
        let layout = wide(1, message);
        let message = &layout.messages[0];
        let mut node = Node::start(&layout);
        let mut held = value(message, message.initial);
        for new in values {
            let instance = value(message, new);
            let expected = match passes(message, instance, held) {
                true => (OK, Some(instance)),
                false => (NOT_RECEIVED, None),
            };
            play_round(&mut node, &[Some(new)]);
            assert_eq!(received_of(&node), expected);
            held = expected.1.unwrap_or(held);
        }
    }
}

#[test]
fn a_value_that_does_not_pass_leaves_no_trace() {
    let mut not_passed = 0;
    for (message, values) in ways(true) {
        let layout = wide(1, message);
        let mut node = Node::start(&layout);
        for new in values {
            // As if it were invalidated, but that its field is waiting as after any send.
            let mut other = node.clone();
            other.invalidate(0);
            other.stages.fill(Stage::Waiting);
            node.send(0, value(&layout.messages[0], new));
            not_passed += usize::from(!node.states[0].valid);
            assert!(node.states[0].valid || node == other);
        }
    }
    for (message, values) in ways(false) {
        let layout = wide(1, message);
        let mut node = Node::start(&layout);
        for new in values {
            // As if nothing came.
            let mut other = node.clone();
            play_round(&mut other, &[]);
            play_round(&mut node, &[Some(new)]);
            not_passed += usize::from(node.states[0].status != OK);
            assert!(node.states[0].status == OK || node == other);
        }
    }
    assert!(not_passed >= 10_000);
}

#[test]
fn filters_that_tell_the_held_value_from_others() {
    let mut telling = [BTreeSet::new(), BTreeSet::new()];
    for (message, values) in ways(false) {
        let (mut held, mut last) = (initial(&message), initial(&message));
        for new in values.map(|new| value(&message, new)) {
            let message = &message;
            let put = Put {
                message,
                new,
                held,
                last,
            };
            for (telling, tells) in telling.iter_mut().zip(put.tells()) {
                if tells {
                    telling.insert((message.sign == Sign::Float, message.filter));
                }
            }
            held = if put.passes() { new } else { held };
            last = new;
        }
    }
    for (telling, filters) in telling.into_iter().zip(TELLING) {
        let floats = filters.into_iter().filter(|&filter| !is_mask(filter));
        let both = filters.map(|filter| (false, filter)).into_iter();
        assert!(telling
            .into_iter()
            .eq(both.chain(floats.map(|filter| (true, filter)))));
    }
}

#[test]
fn what_does_not_reach_the_filter_is_not_the_old_value() {
    let layout = floats(2, false, 1, 10);
    let mut node = Node::start(&layout);
    assert_eq!(close_with(&mut node, &[Some(ONE)]), (OK, Some(ONE)));
    assert_eq!(close_with(&mut node, &[Some(INFINITY)]), (RDA_FAILED, None));
    let overflow = [Some(GREATEST), Some(GREATEST)];
    assert_eq!(close_with(&mut node, &overflow), (RDA_FAILED, None));
    assert_eq!(close_with(&mut node, &[Some(TWO)]), (OK, Some(TWO)));
    assert_eq!(close_with(&mut node, &[Some(ONE)]), (NOT_RECEIVED, None));
}

#[test]
fn send_of_floats() {
    let layout = floats(1, true, 0, 0);
    let mut node = Node::start(&layout);
    for float in [PLUS_ZERO, 1, ONE, GREATEST, GREATEST | MINUS_ZERO] {
        assert_eq!(node.send(0, float.into()), OK);
        let mut data = [0; 5];
        assert_eq!(node.assemble(0, &mut data), OK);
        assert_eq!(data[..4], float.to_le_bytes());
        assert_eq!(data[4], 1);
    }
    let before = node.clone();
    for float in [INFINITY, INFINITY | MINUS_ZERO, QUIET, SIGNALLING, u32::MAX] {
        assert_eq!(node.send(0, float.into()), VALUE);
    }
    for value in [-1, 1 << 32, i64::MIN, i64::MAX, i64::from(ONE) - (1 << 32)] {
        assert_eq!(node.send(0, value), VALUE);
    }
    assert_eq!(node, before);
}
