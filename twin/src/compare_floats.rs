//! Plays closings of float messages on the library, in players, and compares them with this
//! package's own reading: all pairs of the edge patterns, and random ones.

use std::process::ExitCode;

use twin::case::Case;
use twin::check::Difference;
use twin::counts::Counts;
use twin::float::is_finite;
use twin::pairs::{limits, means, orders, ORDERS, PATTERNS};
use twin::patterns::edges;

use crate::players::{play, Players};

const CLOSINGS: u64 = 40_000;
const SEED: u64 = 1;

/// With at least the default number of closings, all that can occur has to occur so often.
const LEAST: u64 = 100;

/// So many cases are played at once.
const PAIRS_AT_ONCE: usize = 8;
const CLOSINGS_AT_ONCE: u64 = 40;

pub struct Task {
    player: String,
    closings: u64,
    seed: u64,
}

/// --player COMMAND [--closings N] [--seed S]
pub fn task(arguments: &[&str]) -> Option<Task> {
    let mut task = Task {
        player: String::new(),
        closings: CLOSINGS,
        seed: SEED,
    };
    for option in arguments.chunks(2) {
        match *option {
            ["--player", command] => task.player = command.to_string(),
            ["--closings", number] => task.closings = number.parse().ok()?,
            ["--seed", number] => task.seed = number.parse().ok()?,
            _ => return None,
        }
    }
    (!task.player.is_empty()).then_some(task)
}

pub fn run(task: Task) -> ExitCode {
    let played = play(&task.player, task.seed, |players, counts| {
        compare_pairs(players)?;
        compare_closings(&task, players, counts)
    });
    match played {
        Ok(counts) => conclude(&task, &counts),
        Err(status) => status,
    }
}

/// How many pairs are played, what is done with them, in how many cases, and each of these.
type Kind = (usize, &'static str, usize, fn(usize) -> Case);

/// All pairs, each in a sum, in the quotients of it, and in each comparison. A layout has only finite
/// floats, so that of a comparison only one of the two may be any.
fn compare_pairs(players: &mut Players) -> Result<(), Difference> {
    let finite = edges().into_iter().filter(|&edge| is_finite(edge)).count();
    let [all, some] = [PATTERNS, finite].map(|others| PATTERNS * others);
    let averaged = "averaged, alone and with one to six -0";
    let put_to_orders = "put to filters 4, 5 and 10 to 13";
    let kinds: [Kind; 3] = [
        (all, averaged, PATTERNS, means),
        (some, put_to_orders, ORDERS, orders),
        (some, "put to filters 8 and 9", PATTERNS, limits),
    ];
    for (pairs, name, cases, case) in kinds {
        let mut counts = Counts::default();
        for first in (0..cases).step_by(PAIRS_AT_ONCE) {
            let indices = first as u64..cases.min(first + PAIRS_AT_ONCE) as u64;
            players.compare(indices, |index| case(index as usize), &mut counts)?;
        }
        println!("{pairs} pairs {name}: {} calls", counts.calls());
    }
    Ok(())
}

fn compare_closings(
    task: &Task,
    players: &mut Players,
    counts: &mut Counts,
) -> Result<(), Difference> {
    let mut first = 0;
    while counts.floats.closings() < task.closings {
        let indices = first..first + CLOSINGS_AT_ONCE;
        players.compare(indices, |index| Case::of_closings(task.seed, index), counts)?;
        first += CLOSINGS_AT_ONCE;
    }
    Ok(())
}

fn conclude(task: &Task, counts: &Counts) -> ExitCode {
    print!("{}", counts.floats);
    let least = counts.floats.least().min(counts.floats.least_rare());
    let least = least.min(counts.floats.old.least(0, true));
    if task.closings >= CLOSINGS && least < LEAST {
        println!("something occurred fewer than {LEAST} times");
        return ExitCode::from(1);
    }
    println!("no difference");
    ExitCode::SUCCESS
}
