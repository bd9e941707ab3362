//! The files that are compared: valid ones (see plans.rs), changed ones (see changes.rs), and random
//! bytes.

use crate::changes;
use crate::layout::LONGEST;
use crate::plans;
use crate::random::Random;

/// The file of an index: half are random bytes, an eighth valid, a quarter changed ones, and an
/// eighth has wrong bytes in one record.
pub fn file(seed: u64, index: u64) -> Vec<u8> {
    let mut random = Random::new(seed, index);
    match index % 8 {
        0 | 2 | 4 | 6 => random_bytes(&mut random, index / 2),
        1 => plans::valid(&mut random),
        3 | 5 => changes::changed(&mut random),
        _ => changes::wrong_bytes(&mut random, index / 8),
    }
}

/// Random bytes. Of every 5,000 turns the first 4,610 take each length from 0 to 4,609 once, and
/// the rest are longer, up to 100,000.
fn random_bytes(random: &mut Random, turn: u64) -> Vec<u8> {
    let turn = (turn % 5000) as usize;
    let length = match turn {
        0..=4609 => turn,
        _ => random.between(LONGEST + 2, 100_000),
    };
    // With few different bytes, more of the tests are passed before the first that fails.
    let any = random.once_in(2);
    (0..length)
        .map(|_| match any {
            true => random.byte(0, 255),
            false => random.byte(0, 9).saturating_sub(6),
        })
        .collect()
}
