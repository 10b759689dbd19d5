//! An archive as the commands use it: its bytes, checked first unless that isn't wanted.

use std::path::Path;

use crate::answers::{check, Contents};
use crate::arguments::Trust;
use crate::escapes::escape_name;
use crate::failure::{complain, Failure};
use crate::input::{self, Input};
use crate::progress;

/// The bytes of an archive, and what the check found in them if there was one.
pub struct Archive {
    input: Input,
    pub known: Option<Contents>,
}

impl Archive {
    /// Reads and checks a file, or maps it unchecked.
    pub fn open(path: &Path, trust: &Trust) -> Result<Self, Failure> {
        let (input, known) = if trust.unchecked {
            (input::map(path)?, None)
        } else {
            let (input, contents) = read_and_check(path)?;
            (input, Some(contents))
        };
        Ok(Archive { input, known })
    }

    pub fn bytes(&self) -> &[u8] {
        self.input.bytes()
    }

    /// Says what isn't promised of an answer, if the file wasn't checked.
    pub fn qualify_answer(&self, path: &Path) {
        if self.known.is_none() {
            let name = escape_name(path);
            complain(&format!(
                "{name}: not checked; that every match is found is promised for checked files only"
            ));
        }
    }
}

/// Reads and checks a file.
pub fn read_and_check(path: &Path) -> Result<(Input, Contents), Failure> {
    let input = input::read(path)?;
    let bytes = input.bytes();
    let contents = progress::show_while("checking", path, bytes.len(), || check(bytes))?;
    Ok((input, contents))
}
