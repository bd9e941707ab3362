//! Votes, on every way in which up to eight instances can share values.

use std::collections::BTreeSet;

use twin::agreement::{agree, leading, sizes};
use twin::layout::Sign;

/// All ways for so many instances: each carries a value that came before, or the next new one.
fn ways(instances: usize) -> Vec<Vec<i64>> {
    let mut ways = vec![Vec::new()];
    for _ in 0..instances {
        let longer = ways.iter().flat_map(|way: &Vec<i64>| {
            let new = way.iter().max().map_or(0, |most| most + 1);
            (0..=new).map(|value| [&way[..], &[value]].concat())
        });
        ways = longer.collect();
    }
    ways
}

#[test]
fn a_vote_is_the_value_carried_by_more_than_every_other() {
    assert_eq!(ways(8).len(), 4140);
    for way in (1..=8).flat_map(ways) {
        let carried = |value: i64| way.iter().filter(|&&other| other == value).count();
        let ahead = |value: i64| {
            let mut others = way.iter().filter(|&&other| other != value);
            others.all(|&other| carried(other) < carried(value))
        };
        let value = way.iter().copied().find(|&value| ahead(value));
        assert_eq!(agree(2, Sign::Signed, &way), value, "{way:?}");
    }
}

#[test]
fn the_sizes_of_votes_are_those_that_can_be() {
    for instances in 1..=8 {
        let size = |way: &Vec<i64>| {
            let (values, each) = leading(way);
            (values.len(), each)
        };
        let seen: BTreeSet<(usize, usize)> = ways(instances).iter().map(size).collect();
        assert_eq!(seen, BTreeSet::from_iter(sizes(instances)));
    }
    assert_eq!((1..=8).map(|count| sizes(count).len()).sum::<usize>(), 49);
}
