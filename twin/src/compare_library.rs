//! Plays generated files and calls on the library, in players, and compares them with this
//! package's own reading.

use std::process::ExitCode;

use twin::case::Case;
use twin::check::Difference;
use twin::counts::Counts;

use crate::players::{play, Players};

const CALLS: u64 = 200_000;
const FILES: u64 = 20_000;
const SEED: u64 = 1;

/// With at least the default number of calls and files, all that can occur has to occur so often;
/// each refusal at each byte that it can give, each size of a vote, and what is rare of floats, so
/// often; and verdicts that tell the held value from another and are shown, received and sent, so often.
/// Without `send_and_assemble` of scripts.rs, or without its assembly, too few of those sent are.
const LEAST: u64 = 100;
const LEAST_RARE: u64 = 20;
const LEAST_OLD: [u64; 2] = [25, 45];

/// So many cases are played at once.
const FILES_AT_ONCE: u64 = 400;
const CALLS_AT_ONCE: u64 = 100;

pub struct Task {
    player: String,
    /// 0 for no end.
    calls: u64,
    files: u64,
    seed: u64,
}

/// --player COMMAND [--calls N] [--files N] [--seed S]
pub fn task(arguments: &[&str]) -> Option<Task> {
    let mut task = Task {
        player: String::new(),
        calls: CALLS,
        files: FILES,
        seed: SEED,
    };
    for option in arguments.chunks(2) {
        match *option {
            ["--player", command] => task.player = command.to_string(),
            ["--calls", number] => task.calls = number.parse().ok()?,
            ["--files", number] => task.files = number.parse().ok()?,
            ["--seed", number] => task.seed = number.parse().ok()?,
            _ => return None,
        }
    }
    (!task.player.is_empty()).then_some(task)
}

pub fn run(task: Task) -> ExitCode {
    let played = play(&task.player, task.seed, |players, counts| {
        compare_all(&task, players, counts)
    });
    match played {
        Ok(counts) => conclude(&task, &counts),
        Err(status) => status,
    }
}

fn compare_all(task: &Task, players: &mut Players, counts: &mut Counts) -> Result<(), Difference> {
    for first in (0..task.files).step_by(FILES_AT_ONCE as usize) {
        let indices = first..task.files.min(first + FILES_AT_ONCE);
        players.compare(indices, |index| Case::of_file(task.seed, index), counts)?;
    }
    let mut first = 0;
    while task.calls == 0 || counts.calls() < task.calls {
        let indices = first..first + CALLS_AT_ONCE;
        let case = |index| match index % 8 {
            7 => Case::of_damage(task.seed, index),
            _ => Case::of_calls(task.seed, index),
        };
        players.compare(indices, case, counts)?;
        first += CALLS_AT_ONCE;
    }
    Ok(())
}

fn conclude(task: &Task, counts: &Counts) -> ExitCode {
    print!("{counts}");
    let (files, calls) = counts.least();
    let (all_files, all_calls) = (task.files >= FILES, task.calls >= CALLS);
    if (all_files && files < LEAST) || (all_calls && calls < LEAST) {
        println!("something occurred fewer than {LEAST} times");
        return ExitCode::from(1);
    }
    if all_files && counts.least_place() < LEAST_RARE {
        println!("a refusal was given at some byte fewer than {LEAST_RARE} times");
        return ExitCode::from(1);
    }
    if all_calls && counts.whole.least_vote() < LEAST_RARE {
        println!("a size of a vote occurred fewer than {LEAST_RARE} times");
        return ExitCode::from(1);
    }
    if all_calls && counts.floats.least_rare() < LEAST_RARE {
        println!("something of floats occurred fewer than {LEAST_RARE} times");
        return ExitCode::from(1);
    }
    for (direction, least) in LEAST_OLD.into_iter().enumerate() {
        if all_calls && counts.least_old(direction) < least {
            let name = ["received", "sent"][direction];
            println!("{name}: a filter told the held value from another fewer than {least} times");
            return ExitCode::from(1);
        }
    }
    println!("no difference");
    ExitCode::SUCCESS
}
