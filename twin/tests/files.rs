//! The generators: valid files are accepted, each change is refused as it is meant to be, and the
//! edges that matter occur.

use twin::changes::{with_change, wrong_at_one, wrong_bytes, CHANGES};
use twin::files::file;
use twin::layout::{faults, read, Fault, Layout, Message, Sign, Verdict, RECORD};
use twin::plans::valid;
use twin::random::Random;
use twin::wrong::{all_places, Place};

const SEED: u64 = 7;

/// The layouts of many valid files; a refused one fails the test.
fn valid_layouts() -> Vec<Layout> {
    let layout = |index| match read(&valid(&mut Random::new(SEED, index))) {
        Verdict::Accepted(layout) => layout,
        refused => panic!("valid file {index}: {refused:?}"),
    };
    (0..500).map(layout).collect()
}

fn count(layouts: &[Layout], test: impl Fn(&Layout) -> bool) -> usize {
    layouts.iter().filter(|layout| test(layout)).count()
}

fn uses_last_bit(layout: &Layout) -> bool {
    layout.fields.iter().any(|field| {
        let end = 8 * layout.frames[field.frame].length;
        let after = field.start + layout.messages[field.message].width;
        after == end || field.status == Some(end - 1)
    })
}

#[test]
fn valid_files_are_of_all_sizes() {
    let layouts = valid_layouts();
    let largest = |l: &Layout| (l.frames.len(), l.messages.len(), l.fields.len()) == (32, 32, 128);
    assert!(layouts.contains(&Layout::default()));
    assert!(count(&layouts, largest) >= 20);
    assert!(count(&layouts, |layout| layout.fields.len() == 128) >= 50);
    assert!(count(&layouts, uses_last_bit) >= 250);
}

#[test]
fn valid_files_have_all_widths_and_filters() {
    let layouts = valid_layouts();
    for width in 1..=32 {
        let has = |layout: &Layout| layout.messages.iter().any(|m| m.width == width);
        assert!(count(&layouts, has) >= 20);
    }
    for filter in 0..=13 {
        let has = |layout: &Layout| layout.messages.iter().any(|m| m.filter == filter);
        assert!(count(&layouts, has) >= 20);
    }
}

#[test]
fn valid_files_have_floats() {
    let layouts = valid_layouts();
    let has = |sent, agreement, filter| {
        let is = |it: &Message| {
            it.sign == Sign::Float
                && (it.sent, it.agreement, it.filter) == (sent, agreement, filter)
        };
        count(&layouts, |layout| layout.messages.iter().any(is))
    };
    for filter in [0, 1, 4, 5, 8, 9, 10, 11, 12, 13] {
        assert!(has(true, 0, filter) >= 20);
        for agreement in 0..=2 {
            assert!(has(false, agreement, filter) >= 10);
        }
    }
    for fields in 1..=8 {
        let with_so_many = |layout: &Layout| {
            let is_float = |&m: &usize| layout.messages[m].sign == Sign::Float;
            let has = |m: usize| layout.fields_of_message(m).count() == fields;
            (0..layout.messages.len()).filter(is_float).any(has)
        };
        assert!(count(&layouts, with_so_many) >= 20);
    }
}

#[test]
fn each_change_leads_to_its_refusal() {
    for (place, &(aim, change)) in CHANGES.iter().enumerate() {
        let hits = (0..100)
            .map(|index| read(&with_change(&mut Random::new(SEED, index), change)))
            .filter(|it| matches!(it, Verdict::Refused { number, .. } if *number == aim))
            .count();
        assert!(hits >= 25, "change {place}, refusal {aim}: {hits} of 100");
    }
}

/// The refused record and where it is wrong, if the refusal gives a byte.
fn refused_at(file: &[u8]) -> Option<(&[u8], Fault)> {
    match read(file) {
        Verdict::Refused {
            number,
            record,
            byte: Some(byte),
        } => Some((&file[record * RECORD..][..RECORD], Fault { byte, number })),
        _ => None,
    }
}

#[test]
fn single_faults_go_through_all_places() {
    let places = all_places();
    let rounds = 10;
    let files = (0..rounds * places.len() as u64)
        .map(|turn| wrong_at_one(&mut Random::new(SEED, turn), turn));
    let seen: Vec<Place> = files
        .map(|file| {
            let (record, fault) = refused_at(&file).expect("refused at a byte");
            Place::of(record, fault)
        })
        .collect();
    for place in places {
        let times = seen.iter().filter(|&&other| other == place).count();
        assert_eq!(times as u64, rounds, "{place:?}");
    }
}

#[test]
fn the_third_turns_have_several_faults() {
    let several = |turn: &u64| {
        let file = wrong_bytes(&mut Random::new(SEED, *turn), 3 * turn + 2);
        refused_at(&file).is_some_and(|(record, first)| {
            let faults = faults(record);
            faults.iter().any(|fault| fault.number != first.number)
        })
    };
    assert!((0..1000).filter(several).count() >= 500);
}

#[test]
fn no_other_place_is_given() {
    let places = all_places();
    for index in 0..4000 {
        if let Some((record, fault)) = refused_at(&file(SEED, index)) {
            assert!(places.contains(&Place::of(record, fault)));
        }
    }
}

#[test]
fn random_bytes_take_every_length() {
    let random_bytes = (0..10_000).step_by(2);
    let mut lengths: Vec<usize> = random_bytes.map(|index| file(SEED, index).len()).collect();
    lengths.sort();
    assert!(lengths[..4610].iter().copied().eq(0..4610));
    assert!(lengths[4999] > 90_000 && lengths[4999] <= 100_000);
}

#[test]
fn files_depend_on_seed_and_index_alone() {
    let files = |seed| -> Vec<Vec<u8>> { (0..100).map(|index| file(seed, index)).collect() };
    assert_eq!(files(SEED), files(SEED));
    assert_ne!(files(SEED), files(SEED + 1));
}
