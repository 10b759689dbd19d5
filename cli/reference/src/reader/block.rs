//! Blocks and their payloads: refusals 10 to 16 and 21.

use std::ops::Range;

use super::header::u64_at;
use super::number::{number, NumberFault};
use super::Refusal;
use crate::checksums::crc64;

/// Levels from here up are reserved.
const FIRST_RESERVED: u8 = 64;

/// A block with sound framing and a right CRC.
#[derive(Debug, Clone)]
pub struct Block {
    /// Position of its first byte.
    pub start: usize,
    /// The position after its CRC.
    pub end: usize,
    /// Its level byte.
    pub level: u8,
    /// Positions of its payload.
    pub payload: Range<usize>,
}

impl Block {
    /// The number, L and 8 together.
    pub fn full_size(&self) -> u64 {
        (self.end - self.start) as u64
    }

    /// Whether the block is a data or an index block.
    pub fn is_ordinary(&self) -> bool {
        self.level < FIRST_RESERVED
    }

    /// Whether the block is a data block.
    pub fn is_data(&self) -> bool {
        self.level == 0
    }

    /// Whether the block is an index block.
    pub fn is_index(&self) -> bool {
        self.is_ordinary() && !self.is_data()
    }

    /// The items of an ordinary block, front to back.
    pub fn items<'a>(&self, file: &'a [u8]) -> Items<'a> {
        Items {
            rest: file.get(self.payload.clone()).unwrap_or(&[]),
            end: self.payload.end,
            with_names: self.is_index(),
        }
    }
}

/// The block that begins at `start`: its number, 13, 10, 14.
pub fn block_at(file: &[u8], start: usize) -> Result<Block, Refusal> {
    let refuse = |number| Refusal::at(number, start);
    let rest = file.get(start..).unwrap_or(&[]);
    let (length, digits) = number(rest).map_err(|fault| refuse(fault_number(fault, 10)))?;
    if length == 0 {
        return Err(refuse(13));
    }
    let past_end = refuse(10);
    let length = usize::try_from(length).map_err(|_| past_end)?;
    let body = rest.get(digits..).unwrap_or(&[]);
    let covered = body.get(..length).ok_or(past_end)?;
    let crc = u64_at(body, length).ok_or(past_end)?;
    if crc != crc64(covered) {
        return Err(refuse(14));
    }
    let level_at = start + digits;
    Ok(Block {
        start,
        end: level_at + length + 8,
        level: covered.first().copied().unwrap_or(u8::MAX),
        payload: level_at + 1..level_at + length,
    })
}

/// The refusal for a number that can't be read, given the one for a cut-off number.
fn fault_number(fault: NumberFault, cut_off: u64) -> u64 {
    match fault {
        NumberFault::CutOff => cut_off,
        NumberFault::TooWide => 11,
        NumberFault::NotShortest => 12,
    }
}

/// A record of a data block or an entry of an index block.
#[derive(Debug, Clone, Copy)]
pub struct Item<'a> {
    /// Position in the file of the first byte of the record or key.
    pub at: usize,
    /// The record, or the entry's key.
    pub bytes: &'a [u8],
    /// Offset that the entry names; 0 for a record.
    pub offset: u64,
    /// Full size that the entry names; 0 for a record.
    pub size: u64,
}

/// Reads a payload item by item. A fault is the number of its refusal, and the last thing given.
#[derive(Debug, Clone)]
pub struct Items<'a> {
    rest: &'a [u8],
    end: usize,
    with_names: bool,
}

impl<'a> Items<'a> {
    fn take_number(&mut self) -> Result<u64, u64> {
        let (value, digits) = number(self.rest).map_err(|fault| fault_number(fault, 15))?;
        self.rest = self.rest.get(digits..).unwrap_or(&[]);
        Ok(value)
    }

    fn take_bytes(&mut self) -> Result<&'a [u8], u64> {
        let length = usize::try_from(self.take_number()?).map_err(|_| 15_u64)?;
        let bytes = self.rest.get(..length).ok_or(15_u64)?;
        self.rest = self.rest.get(length..).unwrap_or(&[]);
        Ok(bytes)
    }

    fn take_item(&mut self) -> Result<Item<'a>, u64> {
        let bytes = self.take_bytes()?;
        let at = self.end - self.rest.len() - bytes.len();
        let (mut offset, mut size) = (0, 0);
        if self.with_names {
            offset = self.take_number()?;
            size = self.take_number()?;
        }
        Ok(Item {
            at,
            bytes,
            offset,
            size,
        })
    }
}

impl<'a> Iterator for Items<'a> {
    type Item = Result<Item<'a>, u64>;

    fn next(&mut self) -> Option<Self::Item> {
        if self.rest.is_empty() {
            return None;
        }
        let item = self.take_item();
        if item.is_err() {
            self.rest = &[];
        }
        Some(item)
    }
}

/// What one look over a sound payload tells.
#[derive(Debug, Clone, Copy)]
pub struct Summary<'a> {
    /// How many records or entries there are.
    pub count: u64,
    /// The first record or key.
    pub first: &'a [u8],
    /// The last record or key.
    pub last: &'a [u8],
}

/// Tests the payload of an ordinary block: 11, 12, 15, then 16 or 21.
pub fn summarize<'a>(file: &'a [u8], block: &Block) -> Result<Summary<'a>, Refusal> {
    let refuse = |number| Refusal::at(number, block.start);
    let mut items = block.items(file);
    let first = items.next().unwrap_or(Err(15)).map_err(refuse)?.bytes;
    let mut summary = Summary {
        count: 1,
        first,
        last: first,
    };
    let mut rising = true;
    for item in items {
        let bytes = item.map_err(refuse)?.bytes;
        rising = rising && summary.last <= bytes;
        summary.last = bytes;
        summary.count += 1;
    }
    if rising {
        Ok(summary)
    } else if block.is_data() {
        Err(refuse(16))
    } else {
        Err(refuse(21))
    }
}

/// The block stage: every block front to back, ordinary ones with their payload tested.
pub struct BlockStage<'a> {
    file: &'a [u8],
    at: usize,
}

impl<'a> BlockStage<'a> {
    /// Begins at the first block.
    pub fn new(file: &'a [u8], blocks_at: usize) -> Self {
        BlockStage {
            file,
            at: blocks_at,
        }
    }

    fn take_block(&mut self) -> Result<(Block, Option<Summary<'a>>), Refusal> {
        let block = block_at(self.file, self.at)?;
        self.at = block.end;
        let summary = if block.is_ordinary() {
            Some(summarize(self.file, &block)?)
        } else {
            None
        };
        Ok((block, summary))
    }
}

/// Gives ordinary blocks only; reserved ones are tested and passed over.
impl<'a> Iterator for BlockStage<'a> {
    type Item = Result<(Block, Summary<'a>), Refusal>;

    fn next(&mut self) -> Option<Self::Item> {
        while self.at < self.file.len() {
            match self.take_block() {
                Err(refusal) => {
                    self.at = self.file.len();
                    return Some(Err(refusal));
                }
                Ok((block, Some(summary))) => return Some(Ok((block, summary))),
                Ok((_, None)) => {}
            }
        }
        None
    }
}
