//! The generated calls: orders that may be changed give the same outcomes, and the second order is
//! one of those.

use std::collections::HashMap;

use twin::calls::{Call, Outcome};
use twin::case::Case;
use twin::layout::{read, Layout, Verdict};
use twin::node::Node;

const SEED: u64 = 7;

fn cases() -> impl Iterator<Item = (Case, Layout)> {
    (0..200).map(|index| {
        let case = Case::of_calls(SEED, index);
        match read(&case.file) {
            Verdict::Accepted(layout) => (case, layout),
            refused => panic!("case {index}: {refused:?}"),
        }
    })
}

#[test]
fn both_orders_lead_to_the_same() {
    for (case, layout) in cases() {
        let (mut first, mut second) = (Node::start(&layout), Node::start(&layout));
        let one: Vec<Outcome> = case
            .calls
            .iter()
            .map(|call| call.play(&mut first))
            .collect();
        for &place in &case.order {
            assert_eq!(case.calls[place].play(&mut second), one[place]);
        }
        assert_eq!(first, second);
    }
}

#[test]
fn the_second_order_keeps_closings_and_is_another() {
    let mut others = 0;
    for (case, _) in cases() {
        for (at, &place) in case.order.iter().enumerate() {
            assert_eq!(
                case.calls[place] == Call::Close,
                case.calls[at] == Call::Close
            );
        }
        let mut sorted = case.order.clone();
        others += usize::from(!sorted.is_sorted());
        sorted.sort();
        assert!(sorted.into_iter().eq(0..case.calls.len()));
    }
    assert!(others >= 150);
}

#[test]
fn calls_on_one_message_or_one_frame_keep_their_order() {
    for (case, _) in cases() {
        let mut last: HashMap<(bool, u64), usize> = HashMap::new();
        for &place in &case.order {
            let call = &case.calls[place];
            let named = call
                .message()
                .map(|m| (true, m))
                .or(call.frame().map(|f| (false, f)));
            if let Some(named) = named {
                assert!(last
                    .insert(named, place)
                    .is_none_or(|earlier| earlier < place));
            }
        }
    }
}
