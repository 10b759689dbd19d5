//! From what is asked to an archive that is there whole: what `make` and `import` share.

use std::ffi::OsStr;
use std::os::unix::ffi::OsStrExt;
use std::path::Path;

use zs_library::Counts;

use crate::arguments::NewArchive;
use crate::encoding::Encoded;
use crate::escapes::escape_name;
use crate::failure::Failure;
use crate::input::{is_standard_input, read_any, LONGEST};
use crate::memory::Memory;
use crate::output::{format_count, Output};
use crate::progress::show_while;
use crate::refusals::Refusal;
use crate::terminal::is_terminal;
use crate::writing::{refuse_early, usual_count, Draft, Made, MOST_PER_BLOCK};

/// An archive that is asked for.
pub struct Order<'a> {
    pub metadata: Argument<'a, OsStr>,
    /// What the records are taken from.
    pub input: Argument<'a, Path>,
    pub archive: &'a NewArchive,
}

/// An argument, and what it is called in messages.
pub struct Argument<'a, T: ?Sized> {
    pub name: &'static str,
    pub given: &'a T,
}

impl<'a> Order<'a> {
    /// Has the archive made, of these metadata, once nothing else is in the way, and writes nothing before it is whole. It isn't checked then:
    /// that it would be accepted is proved of the library.
    pub fn carry_out(
        &self,
        make: impl FnOnce(&[u8]) -> Result<Made, Failure>,
    ) -> Result<(), Failure> {
        self.refuse_mistakes()?;
        let output = self.find_output()?;
        let line_output = self.find_line_output(&output)?;
        let metadata = self.read_metadata()?;
        // The usual count, which isn't known yet, is in its range.
        refuse_early(&metadata, self.find_counts(|| MOST_PER_BLOCK))?;
        let made = make(&metadata)?;
        output.store(&made.file)?;
        let line = describe(&self.archive.output, &made);
        line_output.map_or(Ok(()), |out| {
            out.write(&|out| out.write_all(line.as_bytes()))
        })
    }

    /// Makes the archive of records that are all there.
    pub fn make(&self, metadata: &[u8], records: &Encoded) -> Result<Made, Failure> {
        show_while("making", &self.archive.output, records.bytes.len(), || {
            let draft = Draft {
                metadata,
                records,
                counts: self.find_counts(|| usual_count(records)),
            };
            draft.make()
        })
    }

    /// The file that is refused: that of the metadata, named as it is given, the input, or the archive that would be too long. Where an
    /// argument itself is at fault there is none.
    pub fn file_at_fault(&self, outcome: &Result<(), Failure>) -> Option<&'a Path> {
        let number = match outcome {
            Err(Failure::Refused(refusal)) => refusal.number,
            _ => return None,
        };
        match number {
            9 => self.metadata_file().map(|_| Path::new(self.metadata.given)),
            28 | 29 | 32 | 33 | 34 => Some(self.input.given),
            31 => Some(&self.archive.output),
            _ => None,
        }
    }

    /// The counts that are asked, and the usual ones where nobody says them.
    fn find_counts(&self, usual: impl FnOnce() -> u64) -> Counts {
        Counts {
            per_block: self.archive.records_per_block.unwrap_or_else(usual),
            per_index: self.archive.entries_per_block,
        }
    }

    /// The file that holds the metadata, if they aren't given themselves. No metadata begin so.
    fn metadata_file(&self) -> Option<&'a Path> {
        let name = self.metadata.given.as_bytes().strip_prefix(b"@")?;
        Some(Path::new(OsStr::from_bytes(name)))
    }

    /// Refuses a file of metadata that has no name, and standard input where it would be read twice.
    fn refuse_mistakes(&self) -> Result<(), Failure> {
        let (metadata, input) = (self.metadata.name, self.input.name);
        let words = match self.metadata_file() {
            Some(file) if file.as_os_str().is_empty() => {
                format!("{metadata}: @ needs the name of a file, as in @about.json")
            }
            Some(file) if is_standard_input(file) && is_standard_input(self.input.given) => {
                format!("standard input can't be both {metadata} and {input}")
            }
            _ => return Ok(()),
        };
        Err(Failure::Trouble(words))
    }

    /// Finds where the archive goes, before the input is read. That is no input, no file that is to be kept, and no terminal.
    fn find_output(&self) -> Result<Output, Failure> {
        let name = &self.archive.output;
        let mut output = Output::find(Some(name))?;
        self.refuse_inputs(&output)?;
        if self.archive.in_place {
            output.write_in_place()?;
        }
        if !self.archive.force {
            output.keep_existing()?;
        }
        if name == Path::new("-") && is_terminal() {
            let words = "standard output is a terminal, and an archive is no text; name a file";
            return Err(Failure::Trouble(words.into()));
        }
        output.try_folder()?;
        Ok(output)
    }

    /// Finds where to say what was made: standard output, if the archive is a file.
    fn find_line_output(&self, output: &Output) -> Result<Option<Output>, Failure> {
        if !output.is_plain() {
            return Ok(None);
        }
        let line_output = Output::find(None)?;
        self.refuse_inputs(&line_output)?;
        Ok(Some(line_output))
    }

    fn refuse_inputs(&self, output: &Output) -> Result<(), Failure> {
        output.refuse_input(self.input.given, &self.input.name.to_lowercase())?;
        match self.metadata_file() {
            Some(file) => output.refuse_input(file, "metadata"),
            None => Ok(()),
        }
    }

    /// Gives the metadata without white space around them, which no archive can have.
    fn read_metadata(&self) -> Result<Vec<u8>, Failure> {
        let text = match self.metadata_file() {
            Some(file) => read(file, "metadata", 1)?,
            None => Memory::from(self.metadata.given.as_bytes().to_vec()),
        };
        let is_other = |byte: &u8| !b" \t\n\r".contains(byte);
        let first = text.iter().position(is_other).unwrap_or(text.len());
        let last = text
            .iter()
            .rposition(is_other)
            .map_or(first, |last| last + 1);
        Ok(text[first..last].to_vec())
    }
}

fn describe(name: &Path, made: &Made) -> String {
    let name = escape_name(name);
    let records = format_count(made.records, "record", "records");
    let blocks = format_count(made.blocks, "block", "blocks");
    let length = made.file.len();
    format!("{name}: made, {records} in {blocks}, {length} bytes\n")
}

/// Reads what goes into the archive as it is. What is so many times as long as any archive is refused by its length.
pub fn read(path: &Path, what: &str, times: u64) -> Result<Memory, Failure> {
    let longest = find_longest(times);
    read_any(path, longest)?.ok_or_else(|| refuse_long(what, longest))
}

/// What is longer than this many times an archive is refused by its length.
pub fn find_longest(times: u64) -> u64 {
    times.saturating_mul(LONGEST as u64)
}

/// The refusal of what is longer than that.
pub fn refuse_long(what: &str, longest: u64) -> Failure {
    let detail = format!("the {what} alone has more than {longest} bytes");
    Failure::Refused(Refusal::of_making(31, Some(detail)))
}
