//! `zs make`: an archive of records.

use std::path::Path;

use zs_library::Counts;

use crate::adding;
use crate::arguments::Make;
use crate::arriving::Arriving;
use crate::encoding::Encoded;
use crate::failure::Failure;
use crate::input::arrives;
use crate::making::{read, Argument, Order};
use crate::progress::show_while;
use crate::records::Form;

pub fn run(asked: &Make) -> Result<(), Failure> {
    let form = find_form(asked)?;
    let order = order(asked);
    order.carry_out(|metadata| match find_streamed(asked) {
        Some(counts) => adding::make(metadata, counts, Arriving::open(&asked.input, form)?),
        None => order.make(metadata, &load(asked, form)?),
    })
}

/// The counts with which records are added as they arrive, where that can be. The usual count can't be known before the last record.
fn find_streamed(asked: &Make) -> Option<Counts> {
    let per_block = asked.archive.records_per_block?;
    let counts = Counts {
        per_block,
        per_index: asked.archive.entries_per_block,
    };
    (!asked.sort && arrives(&asked.input)).then_some(counts)
}

/// Reads the whole input.
fn load(asked: &Make, form: Form) -> Result<Encoded, Failure> {
    let input = read(&asked.input, "input", form.most_times())?;
    let what = if asked.sort { "sorting" } else { "reading" };
    show_while(what, &asked.input, input.len(), || {
        Encoded::new(input, form, asked.sort)
    })
}

/// The file that is refused, if one is.
pub fn file_at_fault<'a>(asked: &'a Make, outcome: &Result<(), Failure>) -> Option<&'a Path> {
    order(asked).file_at_fault(outcome)
}

fn order(asked: &Make) -> Order<'_> {
    Order {
        metadata: Argument {
            name: "METADATA",
            given: &asked.metadata,
        },
        input: Argument {
            name: "INPUT",
            given: &asked.input,
        },
        archive: &asked.archive,
    }
}

fn find_form(asked: &Make) -> Result<Form<'_>, Failure> {
    match asked.separation.form() {
        Form::Terminated(b"") => {
            let words = "--terminator: give a byte or more, by which records can be told apart";
            Err(Failure::Trouble(words.into()))
        }
        form => Ok(form),
    }
}
