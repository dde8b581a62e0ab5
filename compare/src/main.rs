//! Compares the plan program and the linked services with the second program on many inputs.
//!
//! `compare ROUNDS SEED` runs so many rounds; round `k` takes the seed `SEED + k`, which is
//! printed with a difference, so that `compare 1 SEED` shows it again. Without numbers it
//! is 2,000 rounds from seed 1. `compare largest` runs networks and tables of 256 vertices, of
//! every family, and crowded networks of that size, on a stack of 2 MB.
//!
//! What differs is written to a file of its own in `target/compare`: what was given, what is
//! due by the second program, and what the core answered.

use std::env;
use std::process::ExitCode;

use arguments::{Work, USAGE};

mod arguments;
mod buffers;
mod candidates;
mod chains;
mod costs;
mod crowded;
mod difference;
mod largest;
mod lists;
mod networks;
mod pages;
mod program;
mod reasons;
mod rounds;
mod steps;
mod tables;
mod vectors;

fn main() -> ExitCode {
    let words: Vec<String> = env::args_os()
        .skip(1)
        .map(|word| word.to_string_lossy().into_owned())
        .collect();
    let differences = match arguments::parse(&words) {
        Ok(Work::Rounds { rounds, seed }) => rounds::run(rounds, seed),
        Ok(Work::Largest) => largest::run(),
        Err(fault) => {
            eprintln!("compare: {fault}\n{USAGE}");
            return ExitCode::from(2);
        }
    };
    if differences == 0 {
        ExitCode::SUCCESS
    } else {
        ExitCode::FAILURE
    }
}
