//! The search: a walk down the index from the root, on any bytes, checked or not.

use super::block::{block_at, summarize, Block, Item};
use super::header::{header, Header};
use super::query::{may_hold_match, Query};
use super::results::pack;
use super::{fill_list, Refusal};

/// The answer of a search.
#[derive(Debug, Clone, PartialEq, Eq)]
pub struct Found {
    /// The refusal, or 0.
    pub number: u64,
    /// Place of the refusal, or 0.
    pub place: u64,
    /// How many records match.
    pub matches: u64,
    /// How many blocks were opened.
    pub opened: u64,
    /// The whole opened list: offset of each block opened, then zeros.
    pub opened_list: Vec<u64>,
    /// The whole result list: a number for each match, then zeros.
    pub results: Vec<u64>,
}

/// Searches through the index. The lists have `opened_places` and `result_places` places.
pub fn search(file: &[u8], query: &Query, opened_places: usize, result_places: usize) -> Found {
    match walk_from_root(file, query, opened_places, result_places) {
        Ok((opened, results)) => Found {
            number: 0,
            place: 0,
            matches: results.len() as u64,
            opened: opened.len() as u64,
            opened_list: fill_list(opened, opened_places),
            results: fill_list(results, result_places),
        },
        Err(refusal) => Found {
            number: refusal.number,
            place: refusal.place,
            matches: 0,
            opened: 0,
            opened_list: fill_list(Vec::new(), opened_places),
            results: fill_list(Vec::new(), result_places),
        },
    }
}

fn walk_from_root(
    file: &[u8],
    query: &Query,
    opened_places: usize,
    result_places: usize,
) -> Result<(Vec<u64>, Vec<u64>), Refusal> {
    let header = header(file)?;
    let mut walk = Walk {
        file,
        query,
        blocks_at: header.blocks_at,
        opened_places,
        result_places,
        opened: Vec::new(),
        results: Vec::new(),
    };
    walk.visit(&Name::of_root(&header), None)?;
    Ok((walk.opened, walk.results))
}

/// How a block is named, by the header or by an entry.
struct Name {
    offset: u64,
    size: u64,
    /// The level the block must have; the root may have that of any index block.
    level: Option<u8>,
    /// The refusal where the name doesn't fit.
    unfit: Refusal,
}

impl Name {
    fn of_root(header: &Header) -> Self {
        Name {
            offset: header.root_offset,
            size: header.root_size,
            level: None,
            unfit: Refusal::of_file(17),
        }
    }

    fn of_entry(entry: &Item, index: &Block) -> Self {
        Name {
            offset: entry.offset,
            size: entry.size,
            level: index.level.checked_sub(1),
            unfit: Refusal::at(19, index.start),
        }
    }

    fn fits(&self, block: &Block) -> bool {
        let level_fits = match self.level {
            Some(level) => block.level == level,
            None => block.is_index(),
        };
        level_fits && block.full_size() == self.size
    }
}

/// A walk and its lists so far.
struct Walk<'a> {
    file: &'a [u8],
    query: &'a Query,
    blocks_at: usize,
    opened_places: usize,
    result_places: usize,
    opened: Vec<u64>,
    results: Vec<u64>,
}

impl<'a> Walk<'a> {
    /// Opens a block and goes on below it. Levels fall by one, so this nests 64 deep at most.
    fn visit(&mut self, name: &Name, upper: Option<&'a [u8]>) -> Result<(), Refusal> {
        if self.opened.len() >= self.opened_places {
            return Err(Refusal::of_file(26));
        }
        let start = self.position(name.offset).ok_or(name.unfit)?;
        self.opened.push(name.offset);
        let block = block_at(self.file, start)?;
        if !name.fits(&block) {
            return Err(name.unfit);
        }
        summarize(self.file, &block)?;
        if block.is_data() {
            self.compare_records(&block)
        } else {
            self.visit_children(&block, upper)
        }
    }

    /// An offset as a position, if a block may begin there.
    fn position(&self, offset: u64) -> Option<usize> {
        let position = usize::try_from(offset).ok()?;
        let inside = self.blocks_at <= position && position < self.file.len();
        inside.then_some(position)
    }

    /// Visits the blocks whose bounds can hold a match, in entry order.
    fn visit_children(&mut self, block: &Block, upper: Option<&'a [u8]>) -> Result<(), Refusal> {
        let mut entries = block.items(self.file).flatten().peekable();
        while let Some(entry) = entries.next() {
            let next_key = entries.peek().map(|next| next.bytes);
            let child_upper = next_key.or(upper);
            if may_hold_match(entry.bytes, child_upper, self.query) {
                self.visit(&Name::of_entry(&entry, block), child_upper)?;
            }
        }
        Ok(())
    }

    /// Puts every matching record of a data block on the result list.
    fn compare_records(&mut self, block: &Block) -> Result<(), Refusal> {
        for record in block.items(self.file).flatten() {
            if !self.query.matches(record.bytes) {
                continue;
            }
            if self.results.len() >= self.result_places {
                return Err(Refusal::of_file(27));
            }
            self.results.push(pack(record.at, record.bytes.len()));
        }
        Ok(())
    }
}
