//! The records of an input, in the form that the library takes.

use std::io::Write;

use crate::arguments::Length;
use crate::escapes::quote;
use crate::failure::Failure;
use crate::memory::Memory;
use crate::records::{Flaw, Form};

/// The form in which the library takes records.
const LIBRARY_FORM: Form = Form::Prefixed(Length::Uleb128);
/// The beginning of a length. At the end of records it stands for one that can't be made out, and the library refuses it likewise.
const CUT_OFF: u8 = 0x80;

/// Records, each after its length.
pub struct Encoded {
    pub bytes: Memory,
    /// How many records there are.
    pub number: u64,
    /// What is wrong with the record after them, if anything is.
    pub flaw: Option<Flaw>,
    /// What a person calls a record of the input.
    noun: &'static str,
}

impl Encoded {
    /// Takes the records of an input, in their order or sorted.
    pub fn new(input: Memory, form: Form, sort: bool) -> Result<Self, Failure> {
        let (mut number, mut flaw) = (0, None);
        for record in form.split(&input) {
            match record {
                Ok(_) => number += 1,
                Err(found) => flaw = Some(found),
            }
        }
        let end: &[u8] = if flaw.is_some() { &[CUT_OFF] } else { &[] };
        let bytes = match sort {
            false if form == LIBRARY_FORM => input,
            false => encode(form.split(&input).flatten(), end, input.len())?,
            true => {
                let sorted = sort_records(&input, form, number)?;
                encode(sorted.into_iter(), end, input.len())?
            }
        };
        Ok(Encoded {
            bytes,
            number: number as u64,
            flaw,
            noun: form.noun(),
        })
    }

    /// Takes records that are in the library's form, as it has given them.
    pub fn from_library(bytes: Memory) -> Self {
        let number = LIBRARY_FORM.split(&bytes).flatten().count();
        Encoded {
            bytes,
            number: number as u64,
            flaw: None,
            noun: LIBRARY_FORM.noun(),
        }
    }

    pub fn records(&self) -> impl Iterator<Item = &[u8]> {
        LIBRARY_FORM.split(&self.bytes).flatten()
    }

    /// Goes over the blocks of a level, which begin so many records apart, and says of each how long the key of its entry is at most.
    pub fn key_lengths(&self, apart: usize) -> impl Iterator<Item = usize> + '_ {
        let pair = |before: &mut Option<_>, record| Some((before.replace(record), record));
        let firsts = self.records().scan(None, pair).step_by(apart);
        firsts.map(|(before, first)| before.map_or(0, |before| key_length(before, first)))
    }

    /// Says which record is less than the one before it, if any is.
    pub fn describe_fall(&self) -> Option<String> {
        let mut pairs = (1..).zip(self.records().zip(self.records().skip(1)));
        let (at, (before, record)) = pairs.find(|(_, (before, record))| record < before)?;
        Some(describe_fall(self.noun, at, before, record))
    }
}

/// Says that a record is less than the one before it, of which there are so many up to it.
pub fn describe_fall(noun: &str, at: u64, before: &[u8], record: &[u8]) -> String {
    let (next, before, record) = (at + 1, quote(before), quote(record));
    format!("{noun} {next}, {record}, is less than {noun} {at}, {before}")
}

/// Puts the records of an input of this length one after the other, and `end` after them.
fn encode<'a>(
    mut records: impl Iterator<Item = &'a [u8]>,
    end: &[u8],
    length: usize,
) -> Result<Memory, Failure> {
    // In the input a byte or more stands beside each record but the last. Its length takes more than one only from 128 bytes on.
    let most = length + length / 128 + 16;
    let mut bytes = Memory::zeros(most).map_err(lack_memory)?;
    let mut room: &mut [u8] = &mut bytes;
    let outcome = records.try_for_each(|record| LIBRARY_FORM.write(record, &mut room));
    outcome.map_err(lack_memory)?;
    room.write_all(end).map_err(lack_memory)?;
    let left = room.len();
    bytes.truncate(most - left);
    Ok(bytes)
}

/// How many bytes a record takes in the library's form.
pub fn length_encoded(record: &[u8]) -> u64 {
    let bits = usize::BITS - (record.len() | 1).leading_zeros();
    u64::from((bits + 6) / 7) + record.len() as u64
}

/// A key tells its block's first record from the one before it. It has at most one byte more than these begin with alike.
fn key_length(before: &[u8], first: &[u8]) -> usize {
    let pairs = before.iter().zip(first);
    let agreeing = pairs.take_while(|(one, other)| one == other).count();
    first.len().min(agreeing + 1)
}

/// Sorts as unsigned bytes. Equal records are the same bytes, so that nothing depends on which of them comes first.
fn sort_records<'a>(
    input: &'a [u8],
    form: Form<'a>,
    number: usize,
) -> Result<Vec<&'a [u8]>, Failure> {
    let mut records = Vec::new();
    records.try_reserve_exact(number).map_err(lack_memory)?;
    records.extend(form.split(input).flatten());
    records.sort_unstable();
    Ok(records)
}

/// What is said where there is too little memory.
pub fn lack_memory<E>(_: E) -> Failure {
    Failure::Trouble("there isn't enough memory to make the archive".into())
}
