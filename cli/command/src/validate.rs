//! `zs validate`: one verdict for each file.

use std::collections::BTreeSet;
use std::path::Path;

use crate::archive::read_and_check;
use crate::arguments::Validate;
use crate::escapes::escape_name;
use crate::failure::{complain, Failure, Status};
use crate::input::begins_as_archive;
use crate::output::{format_count, Output};
use crate::refusals::Refusal;

/// Checks every file, also after a refused one, and also where nobody reads the verdicts any more: the worst status is that of the
/// command. What to do about the refusals is said at the end.
pub fn run(asked: &Validate) -> Result<Status, Failure> {
    let output = Output::find(None)?;
    for file in &asked.files {
        if output.is_file(file) && begins_as_archive(file) {
            output.refuse_archive(file)?;
        }
    }
    let mut worst = Status::Answered;
    let mut advice = Advice::default();
    let mut is_read = true;
    for file in &asked.files {
        let (status, line) = judge(file, &output, &mut advice);
        worst = worst.max(status);
        is_read = is_read && print(&line, &output)?;
    }
    advice.say();
    Ok(worst)
}

/// Gives a file's status and its line. A file that can't be read has none, and neither has the one that the lines are written to: that
/// is said on standard error.
fn judge(file: &Path, output: &Output, advice: &mut Advice) -> (Status, String) {
    let name = escape_name(file);
    if output.is_file(file) {
        complain(&format!("{name}: not checked; the output is written there"));
        return (Status::Trouble, String::new());
    }
    let failure = match read_and_check(file) {
        Ok((_, contents)) => {
            let records = format_count(contents.records, "record", "records");
            let blocks = format_count(contents.blocks, "block", "blocks");
            let line = format!("{name}: valid, {records} in {blocks}\n");
            return (Status::Answered, line);
        }
        Err(failure) => failure,
    };
    let words = failure.describe(Some(file)).unwrap_or_default();
    if let Failure::Refused(refusal) = &failure {
        advice.note(refusal);
        return (Status::Refused, words + "\n");
    }
    complain(&words);
    (failure.status(), String::new())
}

/// Prints a line, and says whether somebody reads it.
fn print(line: &str, output: &Output) -> Result<bool, Failure> {
    match output.write(&|out| out.write_all(line.as_bytes())) {
        Ok(()) => Ok(true),
        Err(Failure::ReaderGone) => Ok(false),
        Err(failure) => Err(failure),
    }
}

/// The refusals that there were, and what to do about each.
#[derive(Default)]
struct Advice(BTreeSet<(u64, &'static str)>);

impl Advice {
    fn note(&mut self, refusal: &Refusal) {
        let advice = refusal.advice.map(|advice| (refusal.number, advice));
        self.0.extend(advice);
    }

    /// Says each advice once, with the numbers that it is for.
    fn say(&self) {
        let mut said = BTreeSet::new();
        for (_, advice) in &self.0 {
            if said.insert(advice) {
                let same = self.0.iter().filter(|(_, other)| other == advice);
                let numbers: Vec<String> = same.map(|(number, _)| number.to_string()).collect();
                let numbers = numbers.join(", ");
                complain(&format!("what to do about {numbers}: {advice}"));
            }
        }
    }
}
