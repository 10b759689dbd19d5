//! Archives that are made while the input arrives: each record is added to a session of the library, so that memory holds the archive and not
//! the input.

use zs_library::{Counts, Session, Stepped};

use crate::arriving::Arriving;
use crate::encoding::{describe_fall, lack_memory, length_encoded};
use crate::failure::Failure;
use crate::input::LONGEST;
use crate::layout::{count_blocks, CHECKSUM};
use crate::memory::Memory;
use crate::refusals::Refusal;
use crate::writing::{describe_length, Made, NO_RECORDS};

/// The first length of the output, which is doubled whenever it is too short.
const FIRST: usize = 1 << 16;

/// Makes an archive of the records of an input, with counts and metadata that aren't refused. The refusal is that of the whole input.
pub fn make(metadata: &[u8], counts: Counts, input: Arriving) -> Result<Made, Failure> {
    let mut adding = Adding::begin(metadata, counts, input.noun())?;
    match input.for_each(|record| adding.take(record))? {
        Some(flaw) => Err(refuse(28, Some(flaw.to_string()))),
        None => adding.finish(),
    }
}

fn refuse(number: u64, detail: Option<String>) -> Failure {
    Failure::Refused(Refusal::of_making(number, detail))
}

/// A session and its output, and what is known of the records so far.
struct Adding {
    session: Session,
    output: Memory,
    /// How many records there are.
    number: u64,
    /// How many bytes they take in an archive.
    length: u64,
    /// What a person calls a record.
    noun: &'static str,
    /// The number of a refusal, or 0. After one nothing is added.
    refused: u64,
    /// The last record, after a refusal because of the room.
    last: Vec<u8>,
    /// Which record is less than the one before it, if any is.
    fall: Option<String>,
}

impl Adding {
    fn begin(metadata: &[u8], counts: Counts, noun: &'static str) -> Result<Self, Failure> {
        let mut output = Memory::zeros(FIRST).map_err(lack_memory)?;
        let mut adding = Adding {
            session: Session::afresh(&mut output),
            output,
            number: 0,
            length: 0,
            noun,
            refused: 0,
            last: Vec::new(),
            fall: None,
        };
        adding.refused = adding.step(|session, output| session.begin(metadata, counts, output))?;
        Ok(adding)
    }

    /// Takes a step, with as long an output as it needs and a file may have. A step that is refused changes nothing, so it is repeated.
    fn step(&mut self, step: impl Fn(Session, &mut [u8]) -> Stepped) -> Result<u64, Failure> {
        loop {
            let stepped = step(self.session, &mut self.output);
            self.session = stepped.session;
            if stepped.number != 31 || self.output.len() >= LONGEST {
                return Ok(stepped.number);
            }
            self.grow()?;
        }
    }

    /// Lengthens the output by zeros. Behind what stands in it there are zeros already.
    fn grow(&mut self) -> Result<(), Failure> {
        let length = LONGEST.min(2 * self.output.len());
        let mut output = Memory::zeros(length).map_err(lack_memory)?;
        let standing = self.session.next as usize;
        output[..standing].copy_from_slice(&self.output[..standing]);
        self.output = output;
        Ok(())
    }

    /// Adds a record. After a refusal it is looked at for what the library would refuse first in the whole input: a record that is less than
    /// the one before it comes before too little room.
    fn take(&mut self, record: &[u8]) -> Result<(), Failure> {
        if self.refused == 0 {
            self.refused = self.step(|session, output| session.add(record, output))?;
            if self.refused != 0 {
                self.last = self.last_added().to_vec();
            }
        }
        if self.refused != 0 && self.fall.is_none() {
            if record < &self.last[..] {
                self.refused = 29;
                self.fall = Some(describe_fall(self.noun, self.number, &self.last, record));
            }
            record.clone_into(&mut self.last);
        }
        self.number += 1;
        self.length += length_encoded(record);
        Ok(())
    }

    /// The last record that was added, which ends before the checksum of its block; an empty one where there is none.
    fn last_added(&self) -> &[u8] {
        let Session { last, next, .. } = self.session;
        match self.session.records {
            0 => &[],
            _ => &self.output[last as usize..(next - CHECKSUM) as usize],
        }
    }

    /// Where there are no records the library says so, whatever was refused before.
    fn finish(mut self) -> Result<Made, Failure> {
        if self.refused == 0 || self.number == 0 {
            self.refused = self.step(Session::finish)?;
        }
        if self.refused != 0 {
            return Err(refuse(self.refused, self.find_detail()));
        }
        let (mut file, records) = (self.output, self.session.records);
        file.truncate(self.session.next as usize);
        let blocks = count_blocks(&file) as u64;
        Ok(Made {
            file,
            records,
            blocks,
        })
    }

    /// What is wrong with the input, for display.
    fn find_detail(&self) -> Option<String> {
        match self.refused {
            28 => Some(NO_RECORDS.into()),
            29 => self.fall.clone(),
            31 => Some(describe_length(self.length)),
            _ => None,
        }
    }
}
