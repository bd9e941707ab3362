//! How often each thing was compared that is special of whole numbers: instances, votes and filters.

use std::fmt;

use crate::agreement::{leading, sizes};
use crate::layout::Message;
use crate::old_counts::{OldCounts, Put};

/// The most instances of a message.
const MOST: usize = 8;

#[derive(Clone, Default)]
pub struct WholeCounts {
    /// Closings by agreement and by how many instances count.
    counting: [[u64; MOST + 1]; 3],
    /// Votes by how many instances count, how many values lead, and how many instances carry each of
    /// these.
    votes: [[[u64; MOST + 1]; MOST + 1]; MOST + 1],
    /// By direction, received or sent, and filter: values that did not pass, and that did.
    filters: [[[u64; 2]; 14]; 2],
    pub old: OldCounts,
}

impl WholeCounts {
    /// A closing with these counting instances, of which there is at least one.
    pub fn closing(&mut self, message: &Message, counting: &[i64]) {
        self.counting[usize::from(message.agreement)][counting.len()] += 1;
        if message.agreement == 2 {
            let (values, each) = leading(counting);
            self.votes[counting.len()][values.len()][each] += 1;
        }
    }

    pub fn filter(&mut self, put: &Put) {
        let by_filter = &mut self.filters[usize::from(put.message.sent)];
        by_filter[usize::from(put.message.filter)][usize::from(put.passes())] += 1;
    }

    pub fn all(&mut self) -> impl Iterator<Item = &mut u64> {
        let counting = self.counting.iter_mut().flatten();
        let votes = self.votes.iter_mut().flatten().flatten();
        let filters = self.filters.iter_mut().flatten().flatten();
        let all = counting.chain(votes).chain(filters);
        all.chain(self.old.all())
    }

    /// The least count of instances by agreement, and of what a filter does by direction.
    pub fn least(&self) -> u64 {
        let counting = (0..3).map(|agreement| self.least_counting(agreement));
        let filters = (0..2).map(|direction| self.least_filter(direction));
        counting.chain(filters).min().unwrap_or(0)
    }

    /// The least count of all votes that can be.
    pub fn least_vote(&self) -> u64 {
        let all = (1..=MOST).map(|leading| self.least_leading(leading));
        all.min().unwrap_or(0)
    }

    fn least_counting(&self, agreement: usize) -> u64 {
        self.counting[agreement][1..]
            .iter()
            .copied()
            .min()
            .unwrap_or(0)
    }

    /// Of votes in which so many values lead.
    fn least_leading(&self, leading: usize) -> u64 {
        let votes = votes().filter(|&(_, values, _)| values == leading);
        let counts = votes.map(|(counting, values, each)| self.votes[counting][values][each]);
        counts.min().unwrap_or(0)
    }

    /// Each filter passes some values and not others, but 0 passes all and 1 none.
    fn least_filter(&self, direction: usize) -> u64 {
        let filters = &self.filters[direction];
        let both = filters[2..].iter().flatten().copied();
        let all = both.chain([filters[0][1], filters[1][0]]);
        all.min().unwrap_or(0)
    }
}

/// The votes that can be: how many instances count, how many values lead, and how many instances
/// carry each.
fn votes() -> impl Iterator<Item = (usize, usize, usize)> {
    let of = |counting| {
        sizes(counting)
            .into_iter()
            .map(move |(values, each)| (counting, values, each))
    };
    (1..=MOST).flat_map(of)
}

impl fmt::Display for WholeCounts {
    fn fmt(&self, f: &mut fmt::Formatter) -> fmt::Result {
        let by_agreement = |counts: [u64; 3]| {
            let [pick, average, vote] = counts;
            format!("pick any {pick}, average {average}, vote {vote}")
        };
        let closings = self.counting.map(|counting| counting.iter().sum());
        writeln!(f, "whole numbers closed: {}", by_agreement(closings))?;
        let eight = by_agreement(self.counting.map(|counting| counting[MOST]));
        let least = by_agreement([0, 1, 2].map(|agreement| self.least_counting(agreement)));
        writeln!(f, "  eight instances counting: {eight}")?;
        writeln!(f, "  of each number from 1 to 8, at least: {least}")?;
        let ties = votes().filter(|&(counting, values, _)| counting == MOST && values > 1);
        let ties: Vec<String> = ties
            .map(|(_, values, each)| {
                format!("{values} x {each}: {}", self.votes[MOST][values][each])
            })
            .collect();
        writeln!(
            f,
            "  ties among eight, values x instances: {}",
            ties.join(", ")
        )?;
        let least_tie = (2..=MOST).map(|values| self.least_leading(values)).min();
        writeln!(
            f,
            "  of each size of a vote, at least: won {}, tied {}",
            self.least_leading(1),
            least_tie.unwrap_or(0)
        )?;
        let [received, sent] = [0, 1].map(|direction| self.least_filter(direction));
        writeln!(
            f,
            "  each filter passed and not, at least: received {received}, sent {sent}"
        )?;
        writeln!(f, "  received: {}", self.old.said(0, false))?;
        writeln!(f, "  sent: {}", self.old.said(1, false))
    }
}
