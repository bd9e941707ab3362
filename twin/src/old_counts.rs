//! How often a verdict of a filter that a call showed told that its old value is the held one, and no
//! other.

use crate::bits;
use crate::filter::passes;
use crate::layout::{is_mask, Message};

/// What the counts remember of a message: the last value that was put to its filter, and the verdict.
#[derive(Clone)]
pub struct Past {
    /// Passed or not; at first the initial value.
    pub last: i64,
    /// Is it one that was not held already? Then a message that is sent shows the verdict by its value,
    /// and else only by its status bit.
    pub is_other: bool,
    /// What the verdict tells the held value from, until a call has shown it.
    pub tells: [bool; 2],
}

impl Past {
    pub fn start(message: &Message) -> Past {
        Past {
            last: bits::initial(message),
            is_other: false,
            tells: [false; 2],
        }
    }

    pub fn of(put: &Put) -> Past {
        Past {
            last: put.new,
            is_other: put.new != put.held,
            tells: put.tells(),
        }
    }
}

/// A value that is put to the filter of a message.
pub struct Put<'a> {
    pub message: &'a Message,
    pub new: i64,
    pub held: i64,
    /// The value that was put before it.
    pub last: i64,
}

impl Put<'_> {
    pub fn passes(&self) -> bool {
        self.passes_against(self.held)
    }

    /// Would the verdict be another if the old value were the one last put, or the initial one?
    pub fn tells(&self) -> [bool; 2] {
        let others = [self.last, bits::initial(self.message)];
        others.map(|other| self.passes_against(other) != self.passes())
    }

    fn passes_against(&self, old: i64) -> bool {
        passes(self.message, self.new, old)
    }
}

/// The filters that can tell the held value from the one last put, and those that can from the
/// initial one. What 5 does not pass is held already; what 4 passes is the initial value. With 7 and
/// 6 it is the same under the mask.
pub const TELLING: [[u8; 6]; 2] = [[4, 6, 10, 11, 12, 13], [5, 7, 10, 11, 12, 13]];

/// How often the held value was told, of whole numbers or of floats.
#[derive(Clone, Default)]
pub struct OldCounts {
    /// From the value last put and from the initial one, by direction, received or sent, and filter.
    told: [[[u64; 14]; 2]; 2],
}

impl OldCounts {
    /// A call showed a verdict of the message's filter, which tells the held value from these.
    pub fn shown(&mut self, message: &Message, tells: [bool; 2]) {
        let [sent, filter] = [message.sent.into(), message.filter].map(usize::from);
        for (told, tells) in self.told.iter_mut().zip(tells) {
            told[sent][filter] += u64::from(tells);
        }
    }

    pub fn all(&mut self) -> impl Iterator<Item = &mut u64> {
        self.told.iter_mut().flatten().flatten()
    }

    /// The least count of a direction, received or sent, over the filters that can tell.
    pub fn least(&self, direction: usize, floats: bool) -> u64 {
        let [last, initial] = self.least_from(direction, floats);
        last.min(initial)
    }

    pub fn said(&self, direction: usize, floats: bool) -> String {
        let [last, initial] = self.least_from(direction, floats);
        format!("the held value told from the one last put at least {last} times, from the initial one {initial}")
    }

    /// From the value last put, and from the initial one. A float has no masks.
    fn least_from(&self, direction: usize, floats: bool) -> [u64; 2] {
        [0, 1].map(|other| {
            let filters = TELLING[other].into_iter();
            let filters = filters.filter(|&filter| !floats || !is_mask(filter));
            let counts = filters.map(|filter| self.told[other][direction][usize::from(filter)]);
            counts.min().unwrap_or(0)
        })
    }
}
