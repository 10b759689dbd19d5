//! The walk of a search, once more: for what the library doesn't say of it, and for what it would cost.
//!
//! Which blocks are opened and what matches is the library's answer. This walk adds by which bounds each block was reached. It makes
//! the opening test and no test of a block, so it needs no checksums, and it ends at a block that it can't make out: there the search
//! is refused.

use zs_library::Query;

use crate::answers::Contents;
use crate::layout::{block, header, take_entry, Block, Entry, INDEX};

/// A block that the search opens.
pub struct Opened<'a> {
    pub offset: u64,
    pub block: Block<'a>,
    /// How far it stands below the root.
    pub depth: usize,
    /// The root has none.
    pub bounds: Option<Bounds<'a>>,
}

/// Between which byte strings, both included, the records of a block lie.
#[derive(Clone, Copy)]
pub struct Bounds<'a> {
    pub lower: &'a [u8],
    pub upper: Option<&'a [u8]>,
}

/// The blocks that a search opens, in its order. It holds no more than the way down to the last of them.
pub struct Walk<'a> {
    file: &'a [u8],
    query: &'a Query<'a>,
    /// The root, until it is opened.
    root: Option<u64>,
    /// The index blocks on the way down whose entries are gone through.
    entered: Vec<Entered<'a>>,
}

/// An index block whose entries are gone through.
struct Entered<'a> {
    level: u8,
    upper: Option<&'a [u8]>,
    /// The entry whose turn it is, and the bytes after it.
    entry: Option<Entry<'a>>,
    rest: &'a [u8],
}

impl<'a> Walk<'a> {
    pub fn new(file: &'a [u8], query: &'a Query<'a>) -> Self {
        Walk {
            file,
            query,
            root: header(file).map(|header| header.root_offset),
            entered: Vec::new(),
        }
    }

    /// The next block that some entry names and whose bounds admit the query.
    fn next_below(&mut self) -> Option<(u64, Bounds<'a>)> {
        while let Some(deepest) = self.entered.last_mut() {
            let query = self.query;
            let admitted = deepest.find(|(_, bounds)| admits(bounds, query));
            if admitted.is_some() {
                return admitted;
            }
            self.entered.pop();
        }
        None
    }

    /// The block at an offset, if it is one and has the level due.
    fn find_block(&self, offset: u64) -> Option<Block<'a>> {
        let found = block(self.file, offset)?;
        let fits = match self.entered.last() {
            Some(above) => found.level == above.level - 1,
            None => INDEX.contains(&found.level),
        };
        fits.then_some(found)
    }
}

impl<'a> Iterator for Walk<'a> {
    type Item = Opened<'a>;

    fn next(&mut self) -> Option<Opened<'a>> {
        let (offset, bounds) = match self.root.take() {
            Some(root) => (root, None),
            None => self.next_below().map(|(at, bounds)| (at, Some(bounds)))?,
        };
        let block = match self.find_block(offset) {
            Some(block) => block,
            None => {
                self.entered.clear();
                return None;
            }
        };
        let depth = self.entered.len();
        if INDEX.contains(&block.level) {
            let upper = bounds.and_then(|bounds| bounds.upper);
            self.entered.push(Entered::new(&block, upper));
        }
        Some(Opened {
            offset,
            block,
            depth,
            bounds,
        })
    }
}

impl<'a> Entered<'a> {
    fn new(block: &Block<'a>, upper: Option<&'a [u8]>) -> Self {
        let mut rest = block.payload;
        Entered {
            level: block.level,
            upper,
            entry: take_entry(&mut rest),
            rest,
        }
    }
}

/// The block of each entry, and its bounds.
impl<'a> Iterator for Entered<'a> {
    type Item = (u64, Bounds<'a>);

    fn next(&mut self) -> Option<(u64, Bounds<'a>)> {
        let entry = self.entry.take()?;
        self.entry = take_entry(&mut self.rest);
        let next_key = self.entry.as_ref().map(|next| next.key);
        let bounds = Bounds {
            lower: entry.key,
            upper: next_key.or(self.upper),
        };
        Some((entry.offset, bounds))
    }
}

/// The opening test: whether some byte string between the bounds matches. If any does, then the greatest of lower bound, start and
/// prefix does.
fn admits(bounds: &Bounds, query: &Query) -> bool {
    let least = bounds.lower.max(query.start).max(query.prefix);
    least.starts_with(query.prefix)
        && bounds.upper.map_or(true, |upper| least <= upper)
        && query.stop.map_or(true, |stop| least < stop)
}

/// How many blocks a search opens and how many records it meets, at most; nothing where its blocks are longer together than the file.
///
/// A search of an accepted file opens each block at most once, so it is never longer than the file.
pub fn measure(file: &[u8], query: &Query) -> Option<Contents> {
    // One block more is put on the list where the search is refused at it.
    let mut most = Contents {
        blocks: 1,
        records: 0,
    };
    let mut bytes = 0;
    for Opened { offset, block, .. } in Walk::new(file, query) {
        bytes += block.end - offset;
        if bytes > file.len() as u64 {
            return None;
        }
        most.blocks += 1;
        if block.level == 0 {
            // A record takes a byte or more.
            most.records += block.payload.len() as u64;
        }
    }
    Some(most)
}
