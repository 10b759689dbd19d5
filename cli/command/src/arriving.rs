//! An input that is cut into records while it arrives. Of what has arrived only the bytes that aren't a whole record yet are kept.

use std::fs::File;
use std::io::{self, Read};
use std::path::Path;

use crate::failure::Failure;
use crate::input::{lack_memory, open};
use crate::making::{find_longest, refuse_long};
use crate::records::{Before, Flaw, Form};

/// The least that is read at a time.
const PIECE: usize = 1 << 16;

/// An input of which nobody knows how long it is.
pub struct Arriving<'a> {
    path: &'a Path,
    file: File,
    form: Form<'a>,
    /// A longer input is refused.
    longest: u64,
    /// How many bytes have arrived.
    arrived: u64,
    ended: bool,
    /// What stands before the bytes that are kept.
    before: Before,
    kept: Vec<u8>,
}

impl<'a> Arriving<'a> {
    pub fn open(path: &'a Path, form: Form<'a>) -> Result<Self, Failure> {
        let (file, _) = open(path).map_err(|error| Failure::of_file(path, &error))?;
        Ok(Arriving {
            path,
            file,
            form,
            longest: find_longest(form.most_times()),
            arrived: 0,
            ended: false,
            before: Before::default(),
            kept: Vec::new(),
        })
    }

    /// What a person calls a record.
    pub fn noun(&self) -> &'static str {
        self.form.noun()
    }

    /// Hands the records on, one after the other, and says what is wrong with the record after them, if anything is. An input that is too
    /// long is refused by its length, whatever is wrong with it.
    pub fn for_each(
        mut self,
        mut each: impl FnMut(&[u8]) -> Result<(), Failure>,
    ) -> Result<Option<Flaw>, Failure> {
        loop {
            self.read_more()?;
            let flaw = self.cut(&mut each)?;
            if flaw.is_some() {
                self.pass_rest()?;
            }
            if flaw.is_some() || self.ended {
                return Ok(flaw);
            }
        }
    }

    /// Reads on until at least twice as much is there as before, or all. So the beginning of a long record is looked at few times.
    fn read_more(&mut self) -> Result<(), Failure> {
        let most = self.kept.len().max(PIECE);
        let room = self.kept.try_reserve(most).map_err(lack_memory);
        let read = room.and_then(|()| (&self.file).take(most as u64).read_to_end(&mut self.kept));
        let read = read.map_err(|error| Failure::of_file(self.path, &error))?;
        self.ended = read < most;
        self.count(read as u64)
    }

    /// Hands on the records that are whole.
    fn cut(
        &mut self,
        each: &mut impl FnMut(&[u8]) -> Result<(), Failure>,
    ) -> Result<Option<Flaw>, Failure> {
        let before = self.before;
        let mut records = self.form.split_arrived(&self.kept, before, self.ended);
        let mut flaw = None;
        for record in &mut records {
            match record {
                Ok(record) => each(record)?,
                Err(found) => flaw = Some(found),
            }
        }
        self.before = records.before();
        let whole = self.before.bytes - before.bytes;
        self.kept.drain(..whole as usize);
        Ok(flaw)
    }

    /// Reads what is left, and keeps none of it.
    fn pass_rest(&mut self) -> Result<(), Failure> {
        let most = self.longest + 1 - self.arrived;
        let read = io::copy(&mut (&self.file).take(most), &mut io::sink());
        let read = read.map_err(|error| Failure::of_file(self.path, &error))?;
        self.count(read)
    }

    fn count(&mut self, read: u64) -> Result<(), Failure> {
        self.arrived += read;
        match self.arrived > self.longest {
            true => Err(refuse_long("input", self.longest)),
            false => Ok(()),
        }
    }
}
