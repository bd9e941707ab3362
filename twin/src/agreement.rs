//! Agreement on the values of a message's counting instances.

use std::collections::BTreeMap;

use crate::bits;
use crate::float;
use crate::layout::Sign;

/// The agreed value of the counting instances, of which there is at least one, given in order of
/// their frames; none if there is no result. Floats that are not finite were set aside before.
pub fn agree(agreement: u8, sign: Sign, values: &[i64]) -> Option<i64> {
    match (agreement, sign) {
        (0, _) => Some(values[0]),
        (1, Sign::Float) => mean(values),
        (1, _) => Some(average(values)),
        _ => vote(values),
    }
}

/// The mean of floats, whose values are patterns; none if it is not finite.
fn mean(values: &[i64]) -> Option<i64> {
    let floats: Vec<u32> = values.iter().map(|&value| bits::pattern(value)).collect();
    float::mean(&floats).map(i64::from)
}

/// The exact sum divided by the count, the fraction dropped toward zero.
fn average(values: &[i64]) -> i64 {
    // Eight values of 32 bits never overflow 64, and the division drops the fraction toward zero.
    let sum: i64 = values.iter().sum();
    sum / values.len() as i64
}

/// The value carried by more counting instances than every other value.
fn vote(values: &[i64]) -> Option<i64> {
    match leading(values).0[..] {
        [value] => Some(value),
        _ => None,
    }
}

/// The values that no other value is carried more often than, and by how many instances each is.
pub fn leading(values: &[i64]) -> (Vec<i64>, usize) {
    let mut carried: BTreeMap<i64, usize> = BTreeMap::new();
    for &value in values {
        *carried.entry(value).or_default() += 1;
    }
    let most = carried.values().copied().max().unwrap_or(0);
    carried.retain(|_, &mut times| times == most);
    (carried.into_keys().collect(), most)
}

/// How many values can lead among so many instances, and how many instances carry each: the other
/// values are carried by fewer, so by none where each is carried by one.
pub fn sizes(instances: usize) -> Vec<(usize, usize)> {
    let all = (1..=instances).flat_map(|values| (1..=instances).map(move |each| (values, each)));
    let can_be = |&(values, each): &(usize, usize)| match each {
        1 => values == instances,
        _ => values * each <= instances,
    };
    all.filter(can_be).collect()
}
