//! Archives that the library makes: how many records go into a block, an output that is long enough, and what is wrong with an input.

use zs_library::Counts;

use crate::encoding::{lack_memory, Encoded};
use crate::failure::Failure;
use crate::input::LONGEST;
use crate::memory::Memory;
use crate::metadata::describe_fault;
use crate::refusals::Refusal;

/// About so many bytes of records make a data block, where nobody says how many records.
pub const BLOCK_BYTES: u64 = 4096;
/// Entries of an index block, where nobody says how many.
pub const ENTRIES_PER_BLOCK: u64 = 16;
/// More records make a data block where the keys would otherwise take more than one of so many bytes of the records: long records that
/// begin alike have long keys.
pub const KEY_SHARE: u64 = 16;
/// The library takes no greater count.
pub const MOST_PER_BLOCK: u64 = 65_535;

/// The bytes of a header without its metadata.
const HEADER: usize = 104;
/// What a block takes beside its payload and its entry beside the key, at most: a level, a checksum, and four numbers, each of five bytes
/// or less in a file that isn't too long.
const BESIDE: usize = 1 + 8 + 4 * 5;

/// What an archive is to be made of.
pub struct Draft<'a> {
    pub metadata: &'a [u8],
    pub records: &'a Encoded,
    pub counts: Counts,
}

/// An archive, and how many records and blocks it has.
pub struct Made {
    pub file: Memory,
    pub records: u64,
    pub blocks: u64,
}

/// What is said of an input without records.
pub const NO_RECORDS: &str = "there are none: the input is empty";

/// What is said of records for which there is no room.
pub fn describe_length(length: u64) -> String {
    format!("the records alone take {length} bytes")
}

/// How many records go into a data block, where nobody says it.
pub fn usual_count(records: &Encoded) -> u64 {
    let length = records.bytes.len() as u64;
    let mut count = (records.number * BLOCK_BYTES / length.max(1)).clamp(1, MOST_PER_BLOCK);
    let keys = |count| records.key_lengths(count as usize).sum::<usize>() as u64;
    while count < MOST_PER_BLOCK && keys(count) > length / KEY_SHARE {
        count = MOST_PER_BLOCK.min(2 * count);
    }
    count
}

/// Refuses counts and metadata that no archive can have, whatever its records: the library looks at them first.
pub fn refuse_early(metadata: &[u8], counts: Counts) -> Result<(), Failure> {
    let number = zs_library::write(metadata, &[], counts, &mut []).number;
    let detail = match number {
        9 => describe_fault(metadata),
        30 => describe_counts(counts),
        _ => return Ok(()),
    };
    Err(Failure::Refused(Refusal::of_making(number, Some(detail))))
}

impl Draft<'_> {
    pub fn make(&self) -> Result<Made, Failure> {
        refuse_early(self.metadata, self.counts)?;
        let Size { blocks, longest } = self.measure();
        let mut file = Memory::zeros(longest.min(LONGEST)).map_err(lack_memory)?;
        let records = &self.records.bytes;
        let written = zs_library::write(self.metadata, records, self.counts, &mut file);
        if written.number != 0 {
            let detail = self.find_detail(written.number);
            let refusal = Refusal::of_making(written.number, detail);
            return Err(Failure::Refused(refusal));
        }
        file.truncate(written.length as usize);
        Ok(Made {
            file,
            records: self.records.number,
            blocks,
        })
    }

    /// Goes up level by level until a block stands alone, with counts that are in range.
    fn measure(&self) -> Size {
        let Counts {
            per_block,
            per_index,
        } = self.counts;
        let mut size = Size {
            blocks: 0,
            longest: HEADER + self.metadata.len() + self.records.bytes.len(),
        };
        let mut apart = per_block as usize;
        size.add_level(self.records.key_lengths(apart));
        loop {
            apart = apart.saturating_mul(per_index as usize);
            if size.add_level(self.records.key_lengths(apart)) <= 1 {
                return size;
            }
        }
    }

    /// What is wrong with the input, for display. That something is wrong is the library's verdict.
    fn find_detail(&self, number: u64) -> Option<String> {
        match number {
            28 => match &self.records.flaw {
                Some(flaw) => Some(flaw.to_string()),
                None => Some(NO_RECORDS.into()),
            },
            29 => self.records.describe_fall(),
            31 => Some(describe_length(self.records.bytes.len() as u64)),
            _ => None,
        }
    }
}

fn describe_counts(counts: Counts) -> String {
    let Counts {
        per_block,
        per_index,
    } = counts;
    match per_block {
        1..=MOST_PER_BLOCK => format!("--entries-per-block is {per_index}"),
        _ => format!("--records-per-block is {per_block}"),
    }
}

/// How many blocks a file has, and a length that it doesn't exceed.
struct Size {
    blocks: u64,
    longest: usize,
}

impl Size {
    /// Adds the blocks of a level, given how long their keys are at most, and says how many they are.
    fn add_level(&mut self, key_lengths: impl Iterator<Item = usize>) -> u64 {
        let before = self.blocks;
        for length in key_lengths {
            self.blocks += 1;
            self.longest += length + BESIDE;
        }
        self.blocks - before
    }
}
