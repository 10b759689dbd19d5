//! Writing a file one record at a time, by request L8: begin, add a record, close the block, finish, and start afresh.
//!
//! The records are kept in lists, block by block, and every step makes the whole output anew from these. The three figures of a session aren't
//! kept: [`figures`] counts them from the bytes. Every refusal has place 0, and changes nothing.

use crate::reader::{is_metadata, number};
use crate::writer::{
    counts_in_range, data_payload, fitting, lay_out, put_block, shortest_key, Counts, CODEC_NONE,
};

const GOOD_MAGIC: &[u8] = b"\xabZSfiLe\x01";
const UNFINISHED_MAGIC: &[u8] = b"\xabZStoBe\x01";

/// Root, total and SHA-256 of an unfinished file.
const UNKNOWN: &[u8] = &[0; 56];
/// The CRC of its header.
const NO_CRC: &[u8] = &[0; 8];

/// A step out of turn, a block without a record that is to be closed, or a file without one that is to be finished.
const OUT_OF_TURN: u64 = 28;

/// A step of a session, or what may happen to its output between two steps.
#[derive(Debug, Clone, PartialEq, Eq)]
pub enum Step {
    /// Starting afresh, on an output of so many bytes that may hold anything.
    Afresh {
        /// Bytes of the output.
        room: usize,
    },
    /// Beginning a file.
    Begin {
        /// The metadata.
        metadata: Vec<u8>,
        /// How many records and entries the blocks hold.
        counts: Counts,
    },
    /// Adding this record.
    Add(Vec<u8>),
    /// Closing the block.
    Close,
    /// Finishing the file.
    Finish,
    /// Not a step: the output gets so many zeros more.
    Grow(usize),
}

/// The three figures that every step hands back; 0 where there is nothing.
#[derive(Debug, Clone, Copy, Default, PartialEq, Eq)]
pub struct Figures {
    /// How many records there are.
    pub records: u64,
    /// The offset of the last one's first byte.
    pub last: u64,
    /// The end of all that stands.
    pub next: u64,
}

/// A file that is being written.
#[derive(Debug, Clone)]
struct Draft {
    metadata: Vec<u8>,
    per_block: usize,
    per_index: usize,
    /// The records, block by block.
    blocks: Vec<Vec<Vec<u8>>>,
    /// Whether the last block is open.
    is_open: bool,
}

#[derive(Debug, Clone)]
enum Stage {
    Afresh,
    Begun(Draft),
    Finished(Draft),
}

/// A session and its output.
#[derive(Debug, Clone)]
pub struct Session {
    room: usize,
    stage: Stage,
    /// What stands at the front of the output; the rest is zeros.
    standing: Vec<u8>,
}

impl Session {
    /// Starts afresh, on an output of so many bytes.
    pub fn afresh(room: usize) -> Self {
        Session {
            room,
            stage: Stage::Afresh,
            standing: Vec::new(),
        }
    }

    /// Takes a step.
    ///
    /// # Errors
    /// The number of the refusal; nothing has changed then.
    pub fn take(&mut self, step: &Step) -> Result<(), u64> {
        match step {
            Step::Afresh { room } => *self = Session::afresh(*room),
            Step::Begin { metadata, counts } => return self.begin(metadata, *counts),
            Step::Add(record) => return self.add(record),
            Step::Close => return self.close_block(),
            Step::Finish => return self.finish(),
            Step::Grow(bytes) => self.room += bytes,
        }
        Ok(())
    }

    /// Begins a file: 28, 30, 9, 31.
    fn begin(&mut self, metadata: &[u8], counts: Counts) -> Result<(), u64> {
        if !matches!(self.stage, Stage::Afresh) {
            return Err(OUT_OF_TURN);
        }
        let (per_block, per_index) = counts_in_range(counts)?;
        if !is_metadata(metadata) {
            return Err(9);
        }
        self.go_on(Draft {
            metadata: metadata.to_vec(),
            per_block,
            per_index,
            blocks: Vec::new(),
            is_open: false,
        })
    }

    /// Adds a record: 28, 29, 31.
    fn add(&mut self, record: &[u8]) -> Result<(), u64> {
        let mut draft = self.draft()?.clone();
        let last = draft.blocks.last().and_then(|block| block.last());
        if last.map_or(false, |last| &last[..] > record) {
            return Err(29);
        }
        match draft.blocks.last_mut() {
            Some(block) if draft.is_open && block.len() < draft.per_block => {
                block.push(record.to_vec());
            }
            _ => draft.blocks.push(vec![record.to_vec()]),
        }
        draft.is_open = true;
        self.go_on(draft)
    }

    /// Closes the block: 28.
    fn close_block(&mut self) -> Result<(), u64> {
        let mut draft = self.draft()?.clone();
        if !draft.is_open {
            return Err(OUT_OF_TURN);
        }
        draft.is_open = false;
        self.go_on(draft)
    }

    /// Finishes the file: 28, 31.
    fn finish(&mut self) -> Result<(), u64> {
        let draft = self.draft()?.clone();
        if draft.blocks.is_empty() {
            return Err(OUT_OF_TURN);
        }
        let blocks: Vec<Vec<&[u8]>> = draft.blocks.iter().map(|block| parts(block)).collect();
        let blocks: Vec<&[&[u8]]> = blocks.iter().map(Vec::as_slice).collect();
        let file = lay_out(shortest_key, &draft.metadata, &blocks, draft.per_index);
        self.standing = fitting(file, self.room)?;
        self.stage = Stage::Finished(draft);
        Ok(())
    }

    /// What is being written; 28 before begin and once finished.
    fn draft(&self) -> Result<&Draft, u64> {
        match &self.stage {
            Stage::Begun(draft) => Ok(draft),
            Stage::Afresh | Stage::Finished(_) => Err(OUT_OF_TURN),
        }
    }

    /// Goes on with this draft, unless it doesn't fit.
    fn go_on(&mut self, draft: Draft) -> Result<(), u64> {
        self.standing = fitting(unfinished(&draft.metadata, &draft.blocks), self.room)?;
        self.stage = Stage::Begun(draft);
        Ok(())
    }

    /// Bytes of the output.
    pub fn room(&self) -> usize {
        self.room
    }

    /// What stands at the front of the output.
    pub fn standing(&self) -> &[u8] {
        &self.standing
    }

    /// The whole output.
    pub fn output(&self) -> Vec<u8> {
        let mut output = self.standing.clone();
        output.resize(self.room, 0);
        output
    }

    /// The figures, counted from the output.
    pub fn figures(&self) -> Figures {
        figures(&self.output())
    }

    /// The data blocks, each a list of records.
    pub fn blocks(&self) -> &[Vec<Vec<u8>>] {
        match &self.stage {
            Stage::Begun(draft) | Stage::Finished(draft) => &draft.blocks,
            Stage::Afresh => &[],
        }
    }

    /// The records of the open block; none where none is open.
    pub fn open_block(&self) -> &[Vec<u8>] {
        match &self.stage {
            Stage::Begun(draft) if draft.is_open => draft.blocks.last().map_or(&[], Vec::as_slice),
            _ => &[],
        }
    }

    /// Whether the open block has no room for one record more.
    pub fn is_full(&self) -> bool {
        let per_block = self.draft().map_or(0, |draft| draft.per_block);
        !self.open_block().is_empty() && self.open_block().len() == per_block
    }

    /// Whether a file is begun and not finished.
    pub fn is_begun(&self) -> bool {
        matches!(self.stage, Stage::Begun(_))
    }

    /// Whether the file is finished.
    pub fn is_finished(&self) -> bool {
        matches!(self.stage, Stage::Finished(_))
    }

    /// Whether a block was closed with fewer records than fit, and then added to.
    pub fn has_short_block(&self) -> bool {
        match &self.stage {
            Stage::Begun(draft) | Stage::Finished(draft) => {
                let mut before_last = draft.blocks.iter().rev().skip(1);
                before_last.any(|block| block.len() < draft.per_block)
            }
            Stage::Afresh => false,
        }
    }
}

fn parts(block: &[Vec<u8>]) -> Vec<&[u8]> {
    block.iter().map(Vec::as_slice).collect()
}

/// The bytes of an unfinished file with these data blocks: in the header root, total, SHA-256 and CRC are zeros.
pub fn unfinished(metadata: &[u8], blocks: &[Vec<Vec<u8>>]) -> Vec<u8> {
    let length = (metadata.len() as u64).to_le_bytes();
    let data = [UNKNOWN, CODEC_NONE, &length, metadata].concat();
    let extent = (data.len() as u64).to_le_bytes();
    let mut file = [UNFINISHED_MAGIC, &extent, &data, NO_CRC].concat();
    for block in blocks {
        put_block(&mut file, 0, &data_payload(&parts(block)), &[]);
    }
    file
}

/// The figures, counted from the bytes of an output: blocks from the header's end up to a zero byte or the output's end. All 0 where no magic
/// is there.
pub fn figures(output: &[u8]) -> Figures {
    let mut figures = Figures::default();
    let mut next = header_end(output);
    while let Some(at) = next {
        figures.next = at as u64;
        next = pass_block(output, at, &mut figures);
    }
    figures
}

/// 24+H, after either magic.
fn header_end(output: &[u8]) -> Option<usize> {
    let rest = output.strip_prefix(GOOD_MAGIC);
    let rest = rest.or_else(|| output.strip_prefix(UNFINISHED_MAGIC))?;
    let extent = u64::from_le_bytes(rest.get(..8)?.try_into().ok()?);
    usize::try_from(extent).ok()?.checked_add(24)
}

/// Counts the records of the block at a position, where it is a data block, and gives the block's end. None where no block begins there.
fn pass_block(output: &[u8], at: usize, figures: &mut Figures) -> Option<usize> {
    let rest = output.get(at..)?;
    if rest.first()? == &0 {
        return None;
    }
    let (length, digits) = number(rest).ok()?;
    let level_at = at + digits;
    let end = level_at.checked_add(usize::try_from(length).ok()?)?;
    if output.get(level_at)? == &0 {
        let mut from = level_at + 1;
        while from < end {
            let (length, digits) = number(output.get(from..)?).ok()?;
            figures.records += 1;
            figures.last = (from + digits) as u64;
            from = (from + digits).checked_add(usize::try_from(length).ok()?)?;
        }
    }
    end.checked_add(8)
}
