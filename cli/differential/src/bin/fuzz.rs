//! Compares the proved library with the independent reader, writer, session, import and comparison until it is stopped, and saves what differs.
//!
//!     fuzz [--seed N] [--cases N]
//!
//! Without a seed the clock gives one. The exit status is 1 if something differed, 2 if the run couldn't go on.

use std::path::PathBuf;
use std::process::ExitCode;
use std::time::{Duration, Instant, SystemTime, UNIX_EPOCH};

use zs_differential::run::Run;

/// Where cases that differ are saved.
const FOLDER: &str = "differences";
/// Between two lines of progress.
const PAUSE: Duration = Duration::from_secs(10);

/// What the command line asks for.
struct Arguments {
    seed: Option<u64>,
    cases: u64,
}

fn arguments() -> Option<Arguments> {
    let mut asked = Arguments {
        seed: None,
        cases: u64::MAX,
    };
    let mut words = std::env::args().skip(1);
    while let Some(word) = words.next() {
        let value = words.next()?.parse().ok()?;
        match word.as_str() {
            "--seed" => asked.seed = Some(value),
            "--cases" => asked.cases = value,
            _ => return None,
        }
    }
    Some(asked)
}

fn fresh_seed() -> u64 {
    let since = SystemTime::now().duration_since(UNIX_EPOCH);
    since.map_or(0, |since| since.as_nanos() as u64)
}

fn main() -> ExitCode {
    let asked = match arguments() {
        Some(asked) => asked,
        None => {
            eprintln!("usage: fuzz [--seed N] [--cases N]");
            return ExitCode::from(2);
        }
    };
    let seed = asked.seed.unwrap_or_else(fresh_seed);
    println!("seed {seed}");
    let mut run = Run::new(seed, PathBuf::from(FOLDER));
    let mut printed = Instant::now();
    while run.tally.cases() < asked.cases {
        if let Err(error) = run.step() {
            eprintln!("fuzz: {FOLDER}: {error}");
            return ExitCode::from(2);
        }
        if printed.elapsed() >= PAUSE {
            let (cases, differing) = (run.tally.cases(), run.tally.differing);
            println!("seed {seed}: {cases} cases, {differing} differ");
            printed = Instant::now();
        }
    }
    println!("seed {seed}\n{}", run.tally);
    match run.tally.differing {
        0 => ExitCode::SUCCESS,
        _ => ExitCode::FAILURE,
    }
}
