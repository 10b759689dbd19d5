//! `zs compare`: the records that two archives hold a different number of times.

use std::io::{self, Write};
use std::path::Path;

use crate::answers::check;
use crate::arguments::Compare;
use crate::differences::{compare, Difference, Differences, Fault};
use crate::escapes::{escape_name, printable_pieces};
use crate::failure::{Failure, Status};
use crate::input::{self, is_read_once, Input};
use crate::output::{format_count, Output};
use crate::progress::show_while;

/// Gives the status, or why there is none, and the file that is refused, if one is. Writes nothing before the whole answer is known.
pub fn run(asked: &Compare) -> (Option<&Path>, Result<Status, Failure>) {
    let paths = [asked.first.as_path(), asked.second.as_path()];
    match answer(asked, paths) {
        Ok(status) => (None, Ok(status)),
        Err(fault) => (fault.file.map(|file| paths[file]), Err(fault.failure)),
    }
}

fn answer(asked: &Compare, paths: [&Path; 2]) -> Result<Status, Fault> {
    let output = find_output(asked, paths)?;
    let inputs = read_both(paths)?;
    let files = [inputs[0].bytes(), inputs[1].bytes()];
    let what = format!("comparing {} with", escape_name(paths[0]));
    let length = files[0].len() + files[1].len();
    let differences = show_while(&what, paths[1], length, || compare(files))?;
    let written = match asked.count {
        true => output.write(&|out| writeln!(out, "{}", summarise(&differences))),
        false => output.write(&|out| write_lines(&differences, files, out)),
    };
    match written {
        // Whoever reads the answer, or doesn't, may ask for the status.
        Ok(()) | Err(Failure::ReaderGone) => Ok(match differences.count() {
            0 => Status::Answered,
            _ => Status::Different,
        }),
        Err(failure) => Err(failure.into()),
    }
}

impl From<Failure> for Fault {
    /// A failure that isn't the refusal of a file.
    fn from(failure: Failure) -> Self {
        Fault {
            file: None,
            failure,
        }
    }
}

/// Finds where the answer goes. That is none of the archives, and these aren't read from one pipe.
fn find_output(asked: &Compare, paths: [&Path; 2]) -> Result<Output, Failure> {
    let output = Output::find(asked.output.as_deref())?;
    output.refuse_archive(paths[0])?;
    output.refuse_archive(paths[1])?;
    if is_read_once(paths[0], paths[1]) {
        let name = escape_name(paths[0]);
        let words = format!("{name}: it can be read only once, and can't be both A and B");
        return Err(Failure::Trouble(words));
    }
    Ok(output)
}

/// Reads both files. Where the second is refused by its first bytes, a refusal of the first still comes before.
fn read_both(paths: [&Path; 2]) -> Result<[Input; 2], Fault> {
    let refuse = |file| {
        move |failure| Fault {
            file: Some(file),
            failure,
        }
    };
    let first = input::read(paths[0]).map_err(refuse(0))?;
    match input::read(paths[1]) {
        Ok(second) => Ok([first, second]),
        Err(failure) => {
            if let Failure::Refused(_) = failure {
                let bytes = first.bytes();
                let checked = show_while("checking", paths[0], bytes.len(), || check(bytes));
                checked.map_err(refuse(0))?;
            }
            Err(refuse(1)(failure))
        }
    }
}

/// Writes a line for each difference: copies in both files, and the record.
fn write_lines(
    differences: &Differences,
    files: [&[u8]; 2],
    out: &mut dyn Write,
) -> io::Result<()> {
    for Difference { record, copies } in differences.of(files) {
        write!(out, "{}\t{}\t", copies[0], copies[1])?;
        let mut pieces = printable_pieces(record);
        pieces.try_for_each(|piece| out.write_all(piece.as_bytes()))?;
        out.write_all(b"\n")?;
    }
    Ok(())
}

/// How many differences there are, and how many records the second file has more than the first, with a sign.
fn summarise(differences: &Differences) -> String {
    let count = format_count(differences.count(), "difference", "differences");
    match differences.sum {
        0 => format!("{count}, sum 0"),
        sum => format!("{count}, sum {sum:+}"),
    }
}
