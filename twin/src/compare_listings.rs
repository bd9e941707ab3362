//! Runs the listing program on generated layout files and compares what it prints, byte for byte,
//! with this package's own reading. The paper says nothing of the program's exit status and standard
//! error, so these are not compared.

use std::io::{self, Write};
use std::process::{Command, ExitCode, Stdio};
use std::sync::atomic::{AtomicU64, Ordering::SeqCst};
use std::thread;

use twin::compare::records;
use twin::files;
use twin::layout::{listing, read, Verdict, REFUSALS};

const COUNT: u64 = 10_000;
const SEED: u64 = 1;
const THREADS: usize = 2;

/// With at least so many files, each verdict has to occur at least so often.
const ENOUGH_FILES: u64 = 5_000;
const LEAST: u64 = 20;

pub struct Task {
    list: String,
    count: u64,
    seed: u64,
}

/// How often each verdict occurred: accepted at 0, else at the refusal's number.
type Counts = [u64; 1 + REFUSALS];

/// The file at which the comparison stopped, and what the program printed for it if it could run.
struct Stop {
    index: u64,
    printed: io::Result<Vec<u8>>,
}

/// LIST [COUNT] [SEED]
pub fn task(arguments: &[&str]) -> Option<Task> {
    let number = |place: usize, default: u64| match arguments.get(place) {
        None => Some(default),
        Some(text) => text.parse().ok(),
    };
    if arguments.len() > 3 {
        return None;
    }
    Some(Task {
        list: arguments.first()?.to_string(),
        count: number(1, COUNT)?,
        seed: number(2, SEED)?,
    })
}

pub fn run(task: Task) -> ExitCode {
    match compare(&task) {
        Ok(counts) => conclude(&task, counts),
        Err(stop) => report(&task, stop),
    }
}

/// Compares all files, the threads taking the next one each time. If some differ, the lowest stop
/// is given, so that one seed always stops at the same file.
fn compare(task: &Task) -> Result<Counts, Stop> {
    let next = AtomicU64::new(0);
    let end = AtomicU64::new(task.count);
    let results: Vec<Result<Counts, Stop>> = thread::scope(|scope| {
        let work = || compare_some(task, &next, &end);
        let threads = [(); THREADS].map(|()| scope.spawn(work));
        threads.map(|thread| thread.join().unwrap()).into()
    });
    let mut total = Counts::default();
    let mut stops = Vec::new();
    for result in results {
        match result {
            Ok(counts) => (0..=REFUSALS).for_each(|verdict| total[verdict] += counts[verdict]),
            Err(stop) => stops.push(stop),
        }
    }
    match stops.into_iter().min_by_key(|stop| stop.index) {
        None => Ok(total),
        Some(stop) => Err(stop),
    }
}

fn compare_some(task: &Task, next: &AtomicU64, end: &AtomicU64) -> Result<Counts, Stop> {
    let mut counts = Counts::default();
    loop {
        let index = next.fetch_add(1, SeqCst);
        if index >= end.load(SeqCst) {
            return Ok(counts);
        }
        let file = files::file(task.seed, index);
        let printed = printed(&task.list, &file);
        if !matches!(&printed, Ok(text) if text == listing(&file).as_bytes()) {
            end.fetch_min(index, SeqCst);
            return Err(Stop { index, printed });
        }
        match read(&file) {
            Verdict::Accepted(_) => counts[0] += 1,
            Verdict::Refused { number, .. } => counts[usize::from(number)] += 1,
        }
    }
}

/// What the program prints with the file on its standard input.
fn printed(list: &str, file: &[u8]) -> io::Result<Vec<u8>> {
    let mut child = Command::new(list)
        .stdin(Stdio::piped())
        .stdout(Stdio::piped())
        .spawn()?;
    let mut input = child.stdin.take().expect("standard input is a pipe");
    thread::scope(|scope| {
        // A thread writes while this one reads, so that neither program waits for the other.
        scope.spawn(move || {
            // The program may end without reading a file that is too long, so an error is no fault.
            let _ = input.write_all(file);
        });
        Ok(child.wait_with_output()?.stdout)
    })
}

fn conclude(task: &Task, counts: Counts) -> ExitCode {
    let refused: Vec<String> = (1..=REFUSALS)
        .map(|n| format!("{n}: {}", counts[n]))
        .collect();
    println!(
        "{} files alike: accepted {}; refused {}",
        task.count,
        counts[0],
        refused.join(", ")
    );
    if task.count >= ENOUGH_FILES && counts.iter().any(|&count| count < LEAST) {
        println!("a verdict occurred fewer than {LEAST} times");
        return ExitCode::from(1);
    }
    ExitCode::SUCCESS
}

fn report(task: &Task, stop: Stop) -> ExitCode {
    let file = files::file(task.seed, stop.index);
    match stop.printed {
        Err(error) => {
            println!("{} cannot be run: {error}", task.list);
            ExitCode::from(2)
        }
        Ok(printed) => {
            println!("difference at file {} of seed {}", stop.index, task.seed);
            print!("{}", records(&file));
            println!("expected:\n{}", listing(&file));
            println!("printed:\n{}", String::from_utf8_lossy(&printed));
            ExitCode::from(1)
        }
    }
}
