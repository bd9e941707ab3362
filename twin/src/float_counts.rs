//! How often each thing was compared that is special of floats.

use std::fmt;

use crate::bits;
use crate::float::{is_finite, quotient, sum, Lies, EXPONENT, FRACTION, SIGN};
use crate::layout::Message;
use crate::node::left;
use crate::old_counts::{OldCounts, Put};
use crate::patterns::MINUS_ZERO;

/// The filters that a float may have.
const FILTERS: [usize; 10] = [0, 1, 4, 5, 8, 9, 10, 11, 12, 13];

/// What can occur in closings.
const SUM_ROUNDED: usize = 0;
const SUM_TIE: usize = 1;
const QUOTIENT_ROUNDED: usize = 2;
const QUOTIENT_TIE: usize = 3;
const OVERFLOW: usize = 4;
const OVERFLOW_UNDONE: usize = 5;
const SUBNORMAL: usize = 6;
const PLUS_ZERO: usize = 7;
const MINUS_ZERO_ALONE: usize = 8;
const MINUS_ZEROS: usize = 9;
const ROUNDED_TO_ZERO: usize = 10;
const VOTE_TIED: usize = 11;
const VOTE_WON: usize = 12;
const VOTE_OF_BOTH_ZEROS: usize = 13;
const FIRST_SET_ASIDE: usize = 14;
const INFINITY: usize = 15;
const QUIET: usize = 16;
const SIGNALLING: usize = 17;

const CASES: [&str; 18] = [
    "sum rounded",
    "sum a tie",
    "quotient rounded",
    "quotient a tie",
    "sum infinite, so no mean",
    "then one of the other sign",
    "mean subnormal",
    "mean +0",
    "mean of -0 alone",
    "mean of several -0",
    "mean rounded to zero",
    "vote tied",
    "vote won",
    "both zeros in a vote",
    "first set aside, another picked",
    "infinity set aside",
    "quiet NaN set aside",
    "signalling NaN set aside",
];

/// What can occur in sends.
const SENDS: [&str; 6] = [
    "normal",
    "subnormal",
    "zero",
    "infinity",
    "NaN",
    "outside 32 bits",
];

#[derive(Clone, Default)]
pub struct FloatCounts {
    /// Closings with counting instances, by agreement and by how many are left, 0 if all are set
    /// aside.
    left: [[u64; 9]; 3],
    /// By agreement: some are set aside, and some left.
    some_aside: [u64; 3],
    cases: [u64; CASES.len()],
    sends: [u64; SENDS.len()],
    /// By filter: values that did not pass, and that did.
    filters: [[u64; 2]; 14],
    /// By filter: a zero against the other zero.
    zeros: [u64; 14],
    pub old: OldCounts,
    /// Fields packed or delivered, by order.
    fields: [u64; 2],
}

impl FloatCounts {
    /// A closing with these counting instances, of which there is at least one, and whether they
    /// agree.
    pub fn closing(&mut self, message: &Message, counting: &[i64], agrees: bool) {
        let left = left(message.sign, counting.to_vec());
        let agreement = usize::from(message.agreement);
        self.left[agreement][left.len()] += 1;
        let floats: Vec<u32> = left.iter().map(|&value| bits::pattern(value)).collect();
        for &value in counting {
            self.set_aside(bits::pattern(value));
        }
        if floats.is_empty() {
            return;
        }
        if floats.len() < counting.len() {
            self.some_aside[agreement] += 1;
        }
        match agreement {
            0 => self.when(left[0] != counting[0], FIRST_SET_ASIDE),
            1 => self.mean(&floats),
            _ => {
                self.when(agrees, VOTE_WON);
                self.when(!agrees, VOTE_TIED);
                let both = floats.contains(&0) && floats.contains(&MINUS_ZERO);
                self.when(both, VOTE_OF_BOTH_ZEROS);
            }
        }
    }

    fn set_aside(&mut self, float: u32) {
        let fraction = float & FRACTION;
        let quiet = fraction >= 0x40_0000;
        if !is_finite(float) {
            self.when(fraction == 0, INFINITY);
            self.when(quiet, QUIET);
            self.when(fraction != 0 && !quiet, SIGNALLING);
        }
    }

    /// The mean once more, step by step.
    fn mean(&mut self, floats: &[u32]) {
        let mut total = floats[0];
        for (place, &next) in floats.iter().enumerate().skip(1) {
            let step = sum(total, next);
            self.when(step.lies != Lies::There, SUM_ROUNDED);
            self.when(step.lies == Lies::Between, SUM_TIE);
            total = step.pattern;
            if !is_finite(total) {
                let mut later = floats[place + 1..].iter();
                self.when(true, OVERFLOW);
                self.when(later.any(|it| (it ^ total) & SIGN != 0), OVERFLOW_UNDONE);
                return;
            }
        }
        let mean = quotient(total, floats.len());
        self.when(mean.lies != Lies::There, QUOTIENT_ROUNDED);
        self.when(mean.lies == Lies::Between, QUOTIENT_TIE);
        let zero = mean.pattern & !SIGN == 0;
        self.when(!zero && mean.pattern & EXPONENT == 0, SUBNORMAL);
        self.when(mean.pattern == 0, PLUS_ZERO);
        self.when(zero && mean.lies != Lies::There, ROUNDED_TO_ZERO);
        if total == MINUS_ZERO {
            self.when(floats.len() == 1, MINUS_ZERO_ALONE);
            self.when(floats.len() > 1, MINUS_ZEROS);
        }
    }

    fn when(&mut self, occurs: bool, case: usize) {
        self.cases[case] += u64::from(occurs);
    }

    pub fn send(&mut self, value: i64) {
        let kind = match u32::try_from(value) {
            Err(_) => 5,
            Ok(float) => match (float & EXPONENT, float & FRACTION) {
                (0, 0) => 2,
                (0, _) => 1,
                (EXPONENT, 0) => 3,
                (EXPONENT, _) => 4,
                _ => 0,
            },
        };
        self.sends[kind] += 1;
    }

    pub fn filter(&mut self, put: &Put) {
        let filter = usize::from(put.message.filter);
        self.filters[filter][usize::from(put.passes())] += 1;
        let others = match filter {
            8 | 9 => [put.message.x1, put.message.x2],
            _ => [bits::pattern(put.held); 2],
        };
        let new = bits::pattern(put.new);
        let other_zero = new & !SIGN == 0 && others.contains(&(new ^ SIGN));
        self.zeros[filter] += u64::from(other_zero);
    }

    pub fn field(&mut self, big: bool) {
        self.fields[usize::from(big)] += 1;
    }

    /// Closings of float messages that had counting instances.
    pub fn closings(&self) -> u64 {
        self.left.iter().flatten().sum()
    }

    pub fn all(&mut self) -> impl Iterator<Item = &mut u64> {
        let left = self.left.iter_mut().flatten();
        let filters = self.filters.iter_mut().flatten();
        let all = left.chain(&mut self.some_aside).chain(&mut self.cases);
        let all = all.chain(&mut self.sends).chain(filters);
        let all = all.chain(&mut self.zeros).chain(&mut self.fields);
        all.chain(self.old.all())
    }

    /// The least count of each status and its reason, and of each filter passing and not.
    pub fn least(&self) -> u64 {
        let statuses = [OVERFLOW, VOTE_TIED, VOTE_WON, FIRST_SET_ASIDE];
        let statuses = statuses.map(|case| self.cases[case]);
        let all_aside = self.left.map(|left| left[0]);
        let all = all_aside.into_iter().chain(self.some_aside).chain(statuses);
        let all = all.chain(self.fields).chain([self.least_filter()]);
        all.min().unwrap_or(0)
    }

    /// The least count of all that can occur in closings.
    pub fn least_rare(&self) -> u64 {
        let left = self.left.into_iter().flatten();
        let all = left.chain(self.cases).chain([self.least_zeros()]);
        all.min().unwrap_or(0)
    }

    pub fn least_send(&self) -> u64 {
        self.sends.iter().copied().min().unwrap_or(0)
    }

    /// Each filter passes some values and not others, but 0 passes all and 1 none.
    fn least_filter(&self) -> u64 {
        let both = FILTERS[2..].iter().flat_map(|&filter| self.filters[filter]);
        let all = both.chain([self.filters[0][1], self.filters[1][0]]);
        all.min().unwrap_or(0)
    }

    fn least_zeros(&self) -> u64 {
        let compare = FILTERS[2..].iter().map(|&filter| self.zeros[filter]);
        compare.min().unwrap_or(0)
    }
}

impl fmt::Display for FloatCounts {
    fn fmt(&self, f: &mut fmt::Formatter) -> fmt::Result {
        let by_agreement = |counts: [u64; 3]| {
            let [pick, average, vote] = counts;
            format!("pick any {pick}, average {average}, vote {vote}")
        };
        let named = |names: &[&str], counts: &[u64]| {
            let named = names.iter().zip(counts);
            let named: Vec<String> = named.map(|(name, n)| format!("{name}: {n}")).collect();
            named
        };
        let closings = self.left.map(|left| left.iter().sum());
        let least_left = self.left.map(|left| left[1..].iter().copied().min());
        let least_left = least_left.map(|least| least.unwrap_or(0));
        writeln!(f, "floats closed: {}", by_agreement(closings))?;
        let aside = self.left.map(|left| left[0]);
        writeln!(f, "  all set aside: {}", by_agreement(aside))?;
        writeln!(f, "  some set aside: {}", by_agreement(self.some_aside))?;
        let least_left = by_agreement(least_left);
        writeln!(
            f,
            "  of each number from 1 to 8 left, at least: {least_left}"
        )?;
        for some in named(&CASES, &self.cases).chunks(6) {
            writeln!(f, "  {}", some.join(", "))?;
        }
        writeln!(
            f,
            "  each filter passed and not at least {} times; +0 against -0 at least {} times",
            self.least_filter(),
            self.least_zeros()
        )?;
        writeln!(f, "  {}", self.old.said(0, true))?;
        match self.sends.iter().sum() {
            0 => Ok(()),
            _ => {
                writeln!(f, "floats sent: {}", named(&SENDS, &self.sends).join(", "))?;
                writeln!(f, "  {}", self.old.said(1, true))
            }
        }
    }
}
