//! A second, independent reading of the paper, compared with the listing program and the library.

mod compare_floats;
mod compare_library;
mod compare_listings;
mod players;

use std::env;
use std::process::ExitCode;

const USAGE: &str = "usage: twin layouts LIST [COUNT] [SEED]
       twin calls --player COMMAND [--calls N] [--files N] [--seed S]
       twin floats --player COMMAND [--closings N] [--seed S]";

fn main() -> ExitCode {
    let arguments: Vec<String> = env::args().skip(1).collect();
    let words: Vec<&str> = arguments.iter().map(String::as_str).collect();
    let result = match words[..] {
        ["layouts", ref rest @ ..] => compare_listings::task(rest).map(compare_listings::run),
        ["calls", ref rest @ ..] => compare_library::task(rest).map(compare_library::run),
        ["floats", ref rest @ ..] => compare_floats::task(rest).map(compare_floats::run),
        _ => None,
    };
    result.unwrap_or_else(|| {
        eprintln!("{USAGE}");
        ExitCode::from(2)
    })
}
