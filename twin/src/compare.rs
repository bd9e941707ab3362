//! Plays cases on the library and checks the replies; of a difference it finds a short case.

use std::io;

use crate::calls::hex;
use crate::case::Case;
use crate::check::{check, Difference};
use crate::counts::Counts;
use crate::layout::RECORD;
use crate::player::{NodeStep, Player};

/// Plays all the cases in one batch.
pub fn compare(player: &mut Player, cases: &[Case], counts: &mut Counts) -> Result<(), Difference> {
    let of_cases: Vec<Vec<NodeStep>> = cases.iter().map(Case::steps).collect();
    let lengths: Vec<usize> = of_cases.iter().map(Vec::len).collect();
    let steps: Vec<NodeStep> = of_cases.into_iter().flatten().collect();
    let mut replies = &player.play(&steps).map_err(ended)?[..];
    for (case, length) in cases.iter().zip(lengths) {
        let (own, others) = replies.split_at(length);
        check(case, own, counts)?;
        replies = others;
    }
    Ok(())
}

fn ended(error: io::Error) -> Difference {
    format!("the player ended: {error}\n")
}

/// The case alone in a player of its own.
fn alone(command: &str, case: &Case) -> Result<(), Difference> {
    let mut player = Player::start(command).map_err(ended)?;
    let told: String = case
        .nodes()
        .map(|node| case.told(node, case.calls.len()))
        .collect();
    let replies = player
        .play(&case.steps())
        .map_err(|error| told + &ended(error))?;
    check(case, &replies, &mut Counts::default())
}

/// Of cases that showed a difference, the first that shows one alone, without what is not needed
/// for it.
pub fn explain(command: &str, cases: &[Case], seen: Difference) -> String {
    let failing = |case: &Case| alone(command, case).err();
    let Some((case, mut difference)) = cases.iter().find_map(|case| Some((case, failing(case)?)))
    else {
        return seen;
    };
    let mut case = case.without(0, 0);
    let mut count = case.parts();
    while count > 0 {
        let mut from = 0;
        while from < case.parts() {
            let fewer = case.without(from, count);
            match failing(&fewer) {
                Some(still) => (case, difference) = (fewer, still),
                None => from += count,
            }
        }
        count /= 2;
    }
    format!("{}{difference}", records(&case.file))
}

/// The file in hex, one record to a line.
pub fn records(file: &[u8]) -> String {
    let lines: String = file
        .chunks(RECORD)
        .map(|record| hex(record) + "\n")
        .collect();
    format!("file of {} bytes:\n{lines}", file.len())
}
