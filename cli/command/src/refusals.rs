//! Refusals as a person reads them, in the words of the library's table; 27 and 31 in those of the command, to which nobody lends lists or
//! outputs, and 28, which knows no sessions here, and of a dump has its own form.

use zs_library::refusals::find;

use crate::escapes::escape;
use crate::layout::{codec_name, header_end, stored_metadata, total_length};
use crate::metadata::describe_fault;

/// A refusal as the library gives it, and what the file's own bytes tell about it.
#[derive(Clone, Debug, PartialEq, Eq)]
pub struct Refusal {
    pub number: u64,
    place: u64,
    sentence: &'static str,
    detail: Option<String>,
    /// What to do about it.
    pub advice: Option<&'static str>,
}

impl Refusal {
    /// The refusal of a file.
    pub fn of_file(number: u64, place: u64, file: &[u8]) -> Self {
        let unknown = "a refusal that this command doesn't know";
        Refusal {
            number,
            place,
            sentence: find(number).map_or(unknown, |row| row.sentence),
            detail: find_detail(number, file),
            advice: find_advice(number, file),
        }
    }

    /// The refusal of more matches than are allowed.
    pub fn of_matches(limit: u64) -> Self {
        let are = if limit == 1 { "is" } else { "are" };
        Refusal {
            number: 27,
            place: 0,
            sentence: "more records match than --max-results allows",
            detail: Some(format!("at most {limit} {are} allowed")),
            advice: Some("ask for fewer records, or give a greater --max-results"),
        }
    }

    /// The refusal to make an archive.
    pub fn of_making(number: u64, detail: Option<String>) -> Self {
        let advice = match number {
            9 => Some("give one JSON object, quoted for the shell as in '{\"about\": \"names\"}', or @FILE for that of a file"),
            28 => Some("give one record or more; with --length-prefixed each after its length, in the form named"),
            29 => Some("give --sort, or sort the input by its bytes, as LC_ALL=C sort does"),
            31 => Some("put the records into several archives"),
            32 => Some("give as --name-length the length of a record on the card less 14, and the whole dump"),
            33 => Some("give the right --name-length, or read the card again"),
            34 => Some("give the right --name-length, or read the card again; where no number is set, set one on the card, or delete the record there"),
            _ => None,
        };
        let refusal = Refusal::of_file(number, 0, &[]);
        Refusal {
            sentence: match number {
                28 => "the records to be written aren't each a length and as many bytes, or there are none",
                31 => "the archive would be longer than 1073741824 bytes (2^30)",
                _ => refusal.sentence,
            },
            detail,
            advice: advice.or(refusal.advice),
            ..refusal
        }
    }

    /// The refusal of a dump of so many records, all of them free.
    pub fn of_free_records(number: usize) -> Self {
        let detail = match number {
            0 => "the dump is empty".into(),
            1 => "its only record is free".into(),
            _ => format!("all its {number} records are free"),
        };
        Refusal {
            number: 28,
            place: 0,
            sentence: "an archive needs at least one record, and the dump has none that isn't free",
            detail: Some(detail),
            advice: Some("make sure that this is the dump of a card with contacts"),
        }
    }

    /// Number, place if there is one, sentence and detail.
    pub fn describe(&self) -> String {
        // No block begins at 0.
        let place = match self.place {
            0 => String::new(),
            place => format!(" at {place}"),
        };
        let detail = match &self.detail {
            Some(detail) => format!(" ({detail})"),
            None => String::new(),
        };
        format!("refused {}{place}: {}{detail}", self.number, self.sentence)
    }
}

/// What to do about a refusal. Where a file is too long and no archive either, it was the wrong one.
fn find_advice(number: u64, file: &[u8]) -> Option<&'static str> {
    let meant = match number {
        1 if begins_otherwise(file) => 3,
        _ => number,
    };
    find(meant).map(|row| row.advice)
}

/// What the bytes tell about a refusal, for display.
fn find_detail(number: u64, file: &[u8]) -> Option<String> {
    match number {
        1 if begins_otherwise(file) => Some("it doesn't begin as a ZS file either".into()),
        3 if file.is_empty() => Some("it is empty".into()),
        4 => Some(compare_lengths(
            file,
            "the header alone takes",
            header_end(file),
        )),
        7 => codec_name(file).map(|codec| format!("it is \"{}\"", escape(codec))),
        8 => Some(compare_lengths(file, "the header says", total_length(file))),
        9 => stored_metadata(file).map(describe_fault),
        _ => None,
    }
}

/// Whether the first bytes alone are refused as those of no archive.
fn begins_otherwise(file: &[u8]) -> bool {
    let first = file.get(..8).unwrap_or(file);
    zs_library::check(first, &mut []).number == 3
}

/// The file's length, and the one that is due, as far as it is known.
fn compare_lengths(file: &[u8], due_by: &str, due: Option<u64>) -> String {
    let length = file.len() as u64;
    let shown = due.map_or(String::from("more"), |due| due.to_string());
    let cut = match due {
        Some(due) if due <= length => "",
        _ => ": was it cut short?",
    };
    format!("it has {length} bytes, {due_by} {shown}{cut}")
}

#[cfg(test)]
mod tests {
    use super::*;
    use zs_library::refusals::GREATEST;

    #[test]
    fn a_refusal_has_number_place_and_sentence() {
        let refusal = Refusal::of_file(16, 106, b"");
        assert_eq!(
            refusal.describe(),
            "refused 16 at 106: the records of this block are out of order"
        );
        assert!(refusal.advice.is_some());
    }

    #[test]
    fn an_unknown_number_is_said_to_be_one() {
        let refusal = Refusal::of_file(GREATEST + 1, 0, b"");
        let words = refusal.describe();
        assert!(words.ends_with(": a refusal that this command doesn't know"));
        assert_eq!(refusal.advice, None);
    }
}
