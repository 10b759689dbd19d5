//! What kept a command from answering, and the exit status that says so.

use std::io::Write;
use std::path::Path;

use crate::escapes::escape_name;
use crate::refusals::Refusal;

/// The exit status. Where several files are checked, the greatest is the worst.
#[derive(Clone, Copy, Debug, PartialEq, Eq, PartialOrd, Ord)]
pub enum Status {
    /// There was an answer.
    Answered = 0,
    /// A file was refused.
    Refused = 1,
    /// The arguments, an input or an output were at fault.
    Trouble = 2,
    /// There was an answer: two files differ.
    Different = 3,
}

/// Why a command didn't answer.
#[derive(Debug)]
pub enum Failure {
    /// The library refused the file or the answer.
    Refused(Refusal),
    /// An input or an output is at fault, as these words say.
    Trouble(String),
    /// The reader of the output has closed it. Nothing more is printed.
    ReaderGone,
}

impl Failure {
    /// The failure to read or write a file.
    pub fn of_file(file: &Path, error: &std::io::Error) -> Self {
        Failure::Trouble(format!("{}: {}", escape_name(file), in_words(error)))
    }

    /// The line for a person, if there is anything to say. `file` is the one that is refused, if one is.
    pub fn describe(&self, file: Option<&Path>) -> Option<String> {
        match self {
            Failure::Refused(refusal) => {
                let name = file.map_or(String::new(), |file| format!("{}: ", escape_name(file)));
                Some(format!("{name}{}", refusal.describe()))
            }
            Failure::Trouble(words) => Some(words.clone()),
            Failure::ReaderGone => None,
        }
    }

    /// What to do about a refusal.
    pub fn advice(&self) -> Option<&'static str> {
        match self {
            Failure::Refused(refusal) => refusal.advice,
            Failure::Trouble(_) | Failure::ReaderGone => None,
        }
    }

    pub fn status(&self) -> Status {
        match self {
            Failure::Refused(_) => Status::Refused,
            Failure::Trouble(_) => Status::Trouble,
            Failure::ReaderGone => Status::Answered,
        }
    }
}

/// A fault of the system without its number, which tells a person nothing.
pub fn in_words(error: &std::io::Error) -> String {
    let words = error.to_string();
    let number = error
        .raw_os_error()
        .map(|code| format!(" (os error {code})"));
    let plain = number.and_then(|number| words.strip_suffix(number.as_str()).map(String::from));
    plain.unwrap_or(words)
}

/// Puts a line on standard error. Where even that can't be written, the exit status is all there is.
pub fn complain(words: &str) {
    let _ = std::io::stderr().write_all(format!("zs: {words}\n").as_bytes());
}
