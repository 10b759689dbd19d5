//! The check: refusals 1 to 25 in the checking order.

use std::collections::HashMap;
use std::ops::Range;

use super::block::{Block, BlockStage, Item, Summary};
use super::header::{header, Header};
use super::Refusal;
use crate::checksums::sha256;

/// The answer of the check. Its work list is all zeros after every call.
#[derive(Debug, Clone, Copy, PartialEq, Eq)]
pub struct Checked {
    /// The refusal, or 0.
    pub number: u64,
    /// Place of the refusal, or 0.
    pub place: u64,
    /// How many ordinary blocks there are.
    pub blocks: u64,
    /// How many records there are.
    pub records: u64,
}

/// Checks a file, as if with a work list of `work_places` places.
pub fn check(file: &[u8], work_places: usize) -> Checked {
    match examine(file, work_places) {
        Ok((blocks, records)) => Checked {
            number: 0,
            place: 0,
            blocks,
            records,
        },
        Err(refusal) => Checked {
            number: refusal.number,
            place: refusal.place,
            blocks: 0,
            records: 0,
        },
    }
}

/// The counts of ordinary blocks and of records.
fn examine(file: &[u8], work_places: usize) -> Result<(u64, u64), Refusal> {
    let header = header(file)?;
    let blocks = ordinary_blocks(file, &header)?;
    let root = find_root(&blocks, &header)?;
    if work_places < blocks.len() {
        return Err(Refusal::of_file(18));
    }
    let tree = Tree::link(file, &blocks, root)?;
    tree.test_names()?;
    tree.test_walk()?;
    test_neighbours(&blocks)?;
    tree.test_keys(file)?;
    test_hash(file, &blocks, &header)?;
    let data = blocks.iter().filter(|(block, _)| block.is_data());
    let records = data.map(|(_, summary)| summary.count).sum();
    Ok((blocks.len() as u64, records))
}

/// Ordinary blocks in file order, each with what its payload tells.
type Ordinary<'a> = (Block, Summary<'a>);

fn ordinary_blocks<'a>(file: &'a [u8], header: &Header) -> Result<Vec<Ordinary<'a>>, Refusal> {
    BlockStage::new(file, header.blocks_at).collect()
}

/// 17: the root by its place and full size.
fn find_root(blocks: &[Ordinary], header: &Header) -> Result<usize, Refusal> {
    let is_root = |(block, _): &Ordinary| {
        block.start as u64 == header.root_offset
            && block.full_size() == header.root_size
            && block.is_index()
    };
    let found = blocks.iter().position(is_root);
    found.ok_or_else(|| Refusal::of_file(17))
}

/// 23: records of neighbouring data blocks, pairs front to back.
fn test_neighbours(blocks: &[Ordinary]) -> Result<(), Refusal> {
    let mut before: Option<&[u8]> = None;
    for (block, summary) in blocks.iter().filter(|(block, _)| block.is_data()) {
        if before > Some(summary.first) {
            return Err(Refusal::at(23, block.start));
        }
        before = Some(summary.last);
    }
    Ok(())
}

/// Whether an entry names this block by its full size, from one level above.
fn fits(entry: &Item, index: &Block, child: &Block) -> bool {
    child.full_size() == entry.size && child.level + 1 == index.level
}

/// 25: SHA-256 of all data payloads joined in file order.
fn test_hash(file: &[u8], blocks: &[Ordinary], header: &Header) -> Result<(), Refusal> {
    let data = blocks.iter().filter(|(block, _)| block.is_data());
    let payloads = data.filter_map(|(block, _)| file.get(block.payload.clone()));
    if sha256(payloads) == header.hash {
        Ok(())
    } else {
        Err(Refusal::of_file(25))
    }
}

/// The ordinary blocks and which names which. A block is known by its number in file order.
struct Tree<'a> {
    blocks: &'a [Ordinary<'a>],
    root: usize,
    /// The blocks named by all entries, in file order of the entries.
    named: Vec<usize>,
    /// For each block, where its own entries stand in `named`.
    entries: Vec<Range<usize>>,
}

impl<'a> Tree<'a> {
    /// 19: finds the block that each entry names.
    fn link(file: &[u8], blocks: &'a [Ordinary<'a>], root: usize) -> Result<Self, Refusal> {
        let numbered = blocks.iter().enumerate();
        let by_start: HashMap<u64, usize> = numbered
            .map(|(number, (block, _))| (block.start as u64, number))
            .collect();
        let mut named = Vec::new();
        let mut entries = Vec::with_capacity(blocks.len());
        for (block, _) in blocks {
            let first = named.len();
            if block.is_index() {
                for entry in block.items(file).flatten() {
                    let target = by_start.get(&entry.offset).copied();
                    let target = target.filter(|target| fits(&entry, block, &blocks[*target].0));
                    named.push(target.ok_or_else(|| Refusal::at(19, block.start))?);
                }
            }
            entries.push(first..named.len());
        }
        Ok(Tree {
            blocks,
            root,
            named,
            entries,
        })
    }

    fn children(&self, number: usize) -> &[usize] {
        &self.named[self.entries[number].clone()]
    }

    /// 20: every block but the root is named once, the root never.
    fn test_names(&self) -> Result<(), Refusal> {
        let mut times = vec![0_usize; self.blocks.len()];
        for target in &self.named {
            times[*target] += 1;
        }
        let due = |number| usize::from(number != self.root);
        match (0..times.len()).find(|number| times[*number] != due(*number)) {
            Some(number) => Err(Refusal::at(20, self.blocks[number].0.start)),
            None => Ok(()),
        }
    }

    /// 22: the walk meets data blocks at rising offsets.
    ///
    /// A row holds all blocks of one level in walk order. The row below is their children.
    fn test_walk(&self) -> Result<(), Refusal> {
        let mut row = vec![self.root];
        for _ in 0..self.blocks[self.root].0.level {
            let below = row.iter().flat_map(|number| self.children(*number));
            row = below.copied().collect();
        }
        match row.windows(2).find(|pair| pair[1] <= pair[0]) {
            Some(pair) => Err(Refusal::at(22, self.blocks[pair[1]].0.start)),
            None => Ok(()),
        }
    }

    /// 24: each key is at most the first record its block leads to, and at least all before it.
    ///
    /// The records are in order by now, so the last one before stands for all of them.
    fn test_keys(&self, file: &[u8]) -> Result<(), Refusal> {
        let leads = self.first_data_blocks();
        let before = self.last_records_before();
        for (number, (block, _)) in self.blocks.iter().enumerate() {
            let entries = block.items(file).flatten();
            for (entry, target) in entries.zip(self.children(number)) {
                let lead = leads[*target];
                let at_least = before[lead].unwrap_or(&[]);
                let at_most = self.blocks[lead].1.first;
                if entry.bytes < at_least || at_most < entry.bytes {
                    return Err(Refusal::at(24, block.start));
                }
            }
        }
        Ok(())
    }

    /// For each block, the first data block that it leads to. Found level by level, upward.
    fn first_data_blocks(&self) -> Vec<usize> {
        let mut upward: Vec<usize> = (0..self.blocks.len()).collect();
        let mut leads = upward.clone();
        upward.sort_by_key(|number| self.blocks[*number].0.level);
        for number in upward {
            if let Some(child) = self.children(number).first() {
                leads[number] = leads[*child];
            }
        }
        leads
    }

    /// For each block, the last record of the data blocks before it in the file.
    fn last_records_before(&self) -> Vec<Option<&'a [u8]>> {
        let mut last = None;
        let step = |(block, summary): &Ordinary<'a>| {
            let before = last;
            if block.is_data() {
                last = Some(summary.last);
            }
            before
        };
        self.blocks.iter().map(step).collect()
    }
}
