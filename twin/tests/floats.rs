//! The twin's sums, quotients and comparisons of floats, which are of whole numbers, against the
//! machine's floats; and that the cases of pairs hold all pairs.

use std::collections::HashSet;
use std::hint::black_box;

use twin::calls::Call;
use twin::case::Case;
use twin::float::{compare, is_finite, mean, quotient, sum, Lies, INFINITE};
use twin::layout::{read, Verdict};
use twin::node::Node;
use twin::pairs::{limits, means, orders, ORDERS, PATTERNS};
use twin::patterns::{edges, Theme, MINUS_ZERO};
use twin::random::Random;

const SEED: u64 = 7;
const RANDOM: usize = 100_000;

fn finite_edges() -> Vec<u32> {
    let mut edges = edges();
    edges.retain(|&edge| is_finite(edge));
    edges
}

/// Any pair of finite floats, half of them of one theme.
fn random_pair(random: &mut Random) -> (u32, u32) {
    let theme = match random.once_in(2) {
        true => Theme::any(random),
        false => Theme::Any,
    };
    loop {
        let (one, other) = (theme.pattern(random), theme.pattern(random));
        if is_finite(one) && is_finite(other) {
            return (one, other);
        }
        // A theme without finite floats.
        if matches!(theme, Theme::NotFinite) {
            return random_pair(random);
        }
    }
}

/// The machine's float; black_box, so that it is not computed by the compiler.
fn machine(pattern: u32) -> f32 {
    black_box(f32::from_bits(pattern))
}

#[track_caller]
fn assert_as_the_machine(one: u32, other: u32) {
    let added = sum(one, other).pattern;
    assert_eq!(added, (machine(one) + machine(other)).to_bits());
    let compared = machine(one).partial_cmp(&machine(other));
    assert_eq!(Some(compare(one, other)), compared);
    for float in [one, added] {
        for count in (1..=8).filter(|_| is_finite(float)) {
            let divided = machine(float) / black_box(count as f32);
            assert_eq!(quotient(float, count).pattern, divided.to_bits());
        }
    }
}

#[test]
fn all_pairs_of_edges_are_as_on_the_machine() {
    let edges = finite_edges();
    for &one in &edges {
        for &other in &edges {
            assert_as_the_machine(one, other);
        }
    }
}

#[test]
fn random_pairs_are_as_on_the_machine() {
    let mut random = Random::new(SEED, 0);
    for _ in 0..RANDOM {
        let (one, other) = random_pair(&mut random);
        assert_as_the_machine(one, other);
    }
}

#[test]
fn means_are_as_on_the_machine() {
    let mut random = Random::new(SEED, 1);
    for _ in 0..RANDOM / 4 {
        let theme = Theme::any(&mut random);
        let mut floats: Vec<u32> = (0..8).map(|_| theme.pattern(&mut random)).collect();
        floats.retain(|&float| is_finite(float));
        floats.truncate(random.between(1, 8));
        if floats.is_empty() {
            continue;
        }
        let first = machine(floats[0]);
        let total = floats[1..]
            .iter()
            .fold(first, |total, &it| total + machine(it));
        let expected = total / black_box(floats.len() as f32);
        let expected = expected.is_finite().then(|| expected.to_bits());
        assert_eq!(mean(&floats), expected);
    }
}

/// The pairs that the tests above are of hold what rounding can do.
#[test]
fn edges_and_random_pairs_are_rounded_in_all_ways() {
    let edges = finite_edges();
    let of_edges = edges
        .iter()
        .flat_map(|&one| edges.iter().map(move |&it| (one, it)));
    let mut random = Random::new(SEED, 0);
    let of_random = (0..RANDOM).map(|_| random_pair(&mut random));
    for pairs in [of_edges.collect::<Vec<_>>(), of_random.collect()] {
        let sums: Vec<_> = pairs.iter().map(|&(one, it)| sum(one, it)).collect();
        for lies in [Lies::There, Lies::Nearer, Lies::Between] {
            assert!(sums.iter().filter(|it| it.lies == lies).count() >= 500);
        }
        let infinite = sums.iter().filter(|it| !is_finite(it.pattern));
        assert!(infinite.count() >= 100);
        let finite = sums.iter().filter(|it| is_finite(it.pattern));
        let quotients = finite.flat_map(|it| (2..=8).map(|count| quotient(it.pattern, count)));
        let ties = quotients.filter(|it| it.lies == Lies::Between);
        assert!(ties.count() >= 500);
    }
}

#[test]
fn edges_are_200_patterns() {
    let edges = edges();
    assert_eq!(edges.len(), PATTERNS);
    assert_eq!(edges.iter().collect::<HashSet<_>>().len(), PATTERNS);
    assert_eq!(finite_edges().len(), 182);
}

#[test]
fn sums_at_the_edge_of_the_greatest() {
    let greatest = INFINITE - 1;
    // 2^103 is a half of its last place.
    assert_eq!(sum(greatest, 0x7300_0000).pattern, INFINITE);
    assert_eq!(sum(greatest, 0x72FF_FFFF).pattern, greatest);
    assert_eq!(
        sum(greatest | MINUS_ZERO, greatest | MINUS_ZERO).pattern,
        INFINITE | MINUS_ZERO
    );
}

/// What is put to the agreement of each message, at each closing of the case.
fn instances(case: &Case) -> Vec<Vec<u32>> {
    let Verdict::Accepted(layout) = read(&case.file) else {
        return Vec::new();
    };
    let mut node = Node::start(&layout);
    let mut seen = Vec::new();
    for call in &case.calls {
        if *call == Call::Close {
            for message in 0..layout.messages.len() {
                let counting = node.counting(message).unwrap_or_default();
                seen.push(counting.into_iter().map(|it| it as u32).collect());
            }
        }
        call.play(&mut node);
    }
    seen
}

#[test]
fn cases_of_means_hold_all_pairs_and_divisors() {
    for (place, &one) in edges().iter().enumerate() {
        let seen: HashSet<Vec<u32>> = instances(&means(place)).into_iter().collect();
        assert!(seen.contains(&vec![one]));
        for other in edges() {
            let mut added = vec![one, other];
            while added.len() <= 8 {
                assert!(seen.contains(&added));
                added.push(MINUS_ZERO);
            }
        }
    }
}

#[test]
fn cases_of_orders_hold_all_pairs_of_held_and_new() {
    let mut seen = HashSet::new();
    for place in 0..ORDERS {
        let case = orders(place);
        let Verdict::Accepted(layout) = read(&case.file) else {
            continue;
        };
        // They close once, so the initial values are held until then.
        for (message, new) in layout.messages.iter().zip(instances(&case)) {
            seen.insert((message.filter, message.initial, new));
        }
    }
    for held in finite_edges() {
        for new in edges() {
            for filter in [4, 5, 10, 11, 12, 13] {
                assert!(seen.contains(&(filter, held, vec![new])));
            }
        }
    }
}

#[test]
fn cases_of_limits_hold_all_pairs() {
    for (place, &one) in edges().iter().enumerate() {
        let case = limits(place);
        match is_finite(one) {
            true => assert_eq!(instances(&case).len(), 4 * PATTERNS),
            false => assert!(case.calls.is_empty()),
        }
    }
}
