//! The command `zs`: makes, checks, reads, searches and compares ZS archives.
//!
//! Every archive, every verdict, every match, every opened block and every difference comes from the proved library. This crate reads the
//! arguments and the files, and prints the answers.
//!
//! * [`arguments`], [`help`], [`escapes`] and [`usage`]: what a person asks for.
//! * [`input`], [`memory`], [`cut_files`], [`archive`], [`answers`], [`differences`], [`refusals`]: bytes, checked or not, the library's
//!   answers with lists that grow, and refusals in words.
//! * [`records`], [`encoding`], [`writing`], [`making`]: records one after the other in an input, and the archive that the library makes
//!   of them, from what is asked to a file; [`arriving`], [`adding`]: the same while the input arrives.
//! * [`make`], [`import`], [`validate`], [`dump`], [`compare`], [`info`], [`explain`]: one module for each command.
//! * [`output`], [`target`], [`storing`], [`unfinished`], [`signals`], [`system`]: where answers are written, how an archive comes to the
//!   disk, and how a file appears only when it is whole.
//! * [`terminal`], [`progress`], [`failure`]: text and progress on a terminal, and what went wrong.
//! * [`layout`], [`walk`], [`metadata`]: fields, bounds and faults for display, and what a check, a search or a comparison would take.
#![deny(unsafe_code)]

mod adding;
mod answers;
mod archive;
mod arguments;
mod arriving;
mod compare;
#[allow(unsafe_code)]
mod cut_files;
mod differences;
mod dump;
mod encoding;
mod escapes;
mod explain;
mod failure;
mod help;
mod import;
mod info;
#[allow(unsafe_code)]
mod input;
mod layout;
mod make;
mod making;
mod memory;
mod metadata;
mod output;
mod progress;
mod records;
mod refusals;
#[allow(unsafe_code)]
mod signals;
mod storing;
#[allow(unsafe_code)]
mod system;
mod target;
mod terminal;
mod unfinished;
mod usage;
mod validate;
mod walk;
mod writing;

use std::path::Path;
use std::process::ExitCode;

use arguments::{Arguments, Command, Import};
use clap::Parser;
use failure::{complain, Failure, Status};

fn main() -> ExitCode {
    signals::survive_length_limit();
    let status = match Arguments::try_parse() {
        Ok(arguments) => run(&arguments.command),
        Err(help_or_mistake) => report(None, usage::show(help_or_mistake)),
    };
    ExitCode::from(status as u8)
}

fn run(command: &Command) -> Status {
    let (file, outcome) = match command {
        Command::Make(asked) => {
            let outcome = make::run(asked);
            (make::file_at_fault(asked, &outcome), outcome)
        }
        Command::Import(Import::Sim(asked)) => {
            let outcome = import::run(asked);
            (import::file_at_fault(asked, &outcome), outcome)
        }
        Command::Validate(asked) => return report(None, validate::run(asked)),
        Command::Compare(asked) => {
            let (file, outcome) = compare::run(asked);
            return report(file, outcome);
        }
        Command::Dump(asked) => (Some(asked.file.as_path()), dump::run(asked)),
        Command::Info(asked) => (Some(asked.file.as_path()), info::run(asked)),
        Command::Explain(asked) => (Some(asked.file.as_path()), explain::run(asked)),
    };
    report(file, outcome.map(|()| Status::Answered))
}

/// Says on standard error why a command didn't answer, and what to do about it. `file` is the one that is refused, if one is.
fn report(file: Option<&Path>, outcome: Result<Status, Failure>) -> Status {
    match outcome {
        Ok(status) => status,
        Err(failure) => {
            if let Some(reason) = failure.describe(file) {
                complain(&reason);
            }
            if let Some(advice) = failure.advice() {
                complain(&format!("what to do: {advice}"));
            }
            failure.status()
        }
    }
}
