//! The fourteen message filters.

use std::cmp::Ordering;

use crate::bits;
use crate::float;
use crate::layout::{Message, Sign};

/// Does the new value pass? The old one is the value that the message holds. Masks work on the
/// extended patterns, order on values. Of floats, 4 and 5 compare patterns, and 8 to 13 the numbers
/// that these stand for.
pub fn passes(message: &Message, new: i64, old: i64) -> bool {
    let (x1, x2) = (message.x1, message.x2);
    let masked = |value| bits::pattern(value) & x1;
    let to = |other| order(message, new, other);
    let within = to(bits::value(message, x1)).is_ge() && to(bits::value(message, x2)).is_le();
    match message.filter {
        0 => true,
        1 => false,
        2 => masked(new) == x2,
        3 => masked(new) != x2,
        4 => new == old,
        5 => new != old,
        6 => masked(new) == masked(old),
        7 => masked(new) != masked(old),
        8 => within,
        9 => !within,
        10 => to(old).is_gt(),
        11 => to(old).is_le(),
        12 => to(old).is_lt(),
        _ => to(old).is_ge(),
    }
}

fn order(message: &Message, one: i64, other: i64) -> Ordering {
    match message.sign {
        Sign::Unsigned | Sign::Signed => one.cmp(&other),
        Sign::Float => float::compare(bits::pattern(one), bits::pattern(other)),
    }
}
