//! Some players of the library, which play their shares of the cases at the same time.

use std::io;
use std::ops::Range;
use std::process::ExitCode;
use std::thread;
use std::time::{Duration, Instant};

use twin::case::Case;
use twin::check::Difference;
use twin::compare::{compare, explain};
use twin::counts::Counts;
use twin::player::Player;

const PLAYERS: usize = 2;
const PROGRESS: Duration = Duration::from_secs(10);

pub struct Players {
    command: String,
    players: Vec<Player>,
    /// When the last line about progress was written.
    said: Instant,
}

/// Starts the players and has them play; a difference is printed, and ends with status 1.
pub fn play(
    command: &str,
    seed: u64,
    compare: impl FnOnce(&mut Players, &mut Counts) -> Result<(), Difference>,
) -> Result<Counts, ExitCode> {
    let mut players = Players::start(command).map_err(|error| {
        println!("{command} cannot be run: {error}");
        ExitCode::from(2)
    })?;
    let mut counts = Counts::default();
    let compared = compare(&mut players, &mut counts);
    match compared.and_then(|()| players.end()) {
        Ok(()) => Ok(counts),
        Err(difference) => {
            print!("difference at seed {seed}\n{difference}");
            Err(ExitCode::from(1))
        }
    }
}

impl Players {
    fn start(command: &str) -> io::Result<Players> {
        let players: io::Result<Vec<Player>> =
            (0..PLAYERS).map(|_| Player::start(command)).collect();
        Ok(Players {
            command: command.to_string(),
            players: players?,
            said: Instant::now(),
        })
    }

    /// Plays the cases of these indices at once.
    pub fn compare(
        &mut self,
        indices: Range<u64>,
        case: impl Fn(u64) -> Case + Sync,
        counts: &mut Counts,
    ) -> Result<(), Difference> {
        let command = &self.command;
        let compare_share = |player: &mut Player, share: &[u64]| {
            let cases: Vec<Case> = share.iter().map(|&index| case(index)).collect();
            let mut counts = Counts::default();
            match compare(player, &cases, &mut counts) {
                Ok(()) => Ok(counts),
                Err(seen) => Err(explain(command, &cases, seen)),
            }
        };
        let indices: Vec<u64> = indices.collect();
        let shares = indices.chunks(indices.len().div_ceil(PLAYERS));
        let results: Vec<Result<Counts, Difference>> = thread::scope(|scope| {
            let compare_share = &compare_share;
            let threads: Vec<_> = self
                .players
                .iter_mut()
                .zip(shares)
                .map(|(player, share)| scope.spawn(move || compare_share(player, share)))
                .collect();
            let join =
                |thread: thread::ScopedJoinHandle<_>| thread.join().expect("no thread panics");
            threads.into_iter().map(join).collect()
        });
        for result in results {
            counts.add(result?);
        }
        self.tell(counts);
        Ok(())
    }

    /// A line on standard error now and then.
    fn tell(&mut self, counts: &Counts) {
        if self.said.elapsed() > PROGRESS {
            self.said = Instant::now();
            match (counts.files(), counts.calls()) {
                (0, calls) => eprintln!("{calls} calls alike"),
                (files, calls) => eprintln!("{files} files and {calls} calls alike"),
            }
        }
    }

    /// A memory checker may tell by a player's status what it saw.
    fn end(self) -> Result<(), Difference> {
        self.players
            .into_iter()
            .try_for_each(|player| match player.end() {
                Ok(status) if status.success() => Ok(()),
                Ok(status) => Err(format!("a player ended with {status}\n")),
                Err(error) => Err(format!("a player did not end: {error}\n")),
            })
    }
}
