//! The rules of the tree, said as docs/FORMAT.md says them: all pairs, all records before.

use std::collections::BTreeSet;

use zs_reference::checksums::sha256;
use zs_reference::reader::{may_hold_match, Query};

use super::{take_apart, Apart, Item, Seen};

/// Every refusal of 2 to 17 and 19 to 25 that applies to a file.
///
/// 20 needs a root; 22 and 24 need a tree, so they are judged only where 17, 19 and 20 hold.
pub fn faults(file: &[u8]) -> BTreeSet<u64> {
    let apart = take_apart(file);
    let mut faults = apart.faults.clone();
    if let Some(tree) = Tree::of(&apart) {
        tree.note_faults(&mut faults);
    }
    faults
}

/// The ordinary blocks of a file that can be taken apart whole.
pub struct Tree<'a> {
    pub blocks: &'a [Seen],
    root: (u64, u64),
    hash: &'a [u8],
}

impl<'a> Tree<'a> {
    pub fn of(apart: &'a Apart) -> Option<Self> {
        let blocks = apart.blocks.as_deref()?;
        let (root, hash) = (apart.root, apart.hash.as_slice());
        Some(Tree { blocks, root, hash })
    }

    fn data(&self) -> impl Iterator<Item = &'a Seen> + 'a {
        self.blocks.iter().filter(|block| block.level == 0)
    }

    fn entries(&self) -> impl Iterator<Item = (&'a Seen, &'a Item)> + 'a {
        let index = self.blocks.iter().filter(|block| block.level > 0);
        index.flat_map(|block| block.items.iter().map(move |entry| (block, entry)))
    }

    pub fn root(&self) -> Option<&'a Seen> {
        let is_root = |block: &&Seen| (block.start, block.size) == self.root && block.level > 0;
        self.blocks.iter().find(is_root)
    }

    fn find_named(&self, entry: &Item) -> Option<&'a Seen> {
        let mut blocks = self.blocks.iter();
        blocks.find(|block| names(entry, block))
    }

    fn note_faults(&self, faults: &mut BTreeSet<u64>) {
        let before = faults.len();
        if self.root().is_none() {
            faults.insert(17);
        }
        let fits = |(index, entry): (&Seen, &Item)| {
            let named = self.find_named(entry);
            named.map_or(false, |block| block.level + 1 == index.level)
        };
        if !self.entries().all(fits) {
            faults.insert(19);
        }
        if let Some(root) = self.root() {
            let wrong = |block: &&Seen| self.times_named(block) != times_due(block, root);
            if self.blocks.iter().any(|block| wrong(&block)) {
                faults.insert(20);
            }
        }
        if faults.len() == before {
            self.note_order(faults);
        }
        self.note_records(faults);
    }

    fn times_named(&self, block: &Seen) -> usize {
        self.entries()
            .filter(|(_, entry)| names(entry, block))
            .count()
    }

    /// 22 and 24, in a tree.
    fn note_order(&self, faults: &mut BTreeSet<u64>) {
        let leaves = self.root().map_or_else(Vec::new, |root| self.leaves(root));
        if leaves.windows(2).any(|pair| pair[1].start <= pair[0].start) {
            faults.insert(22);
        }
        if !self.entries().all(|(_, entry)| self.keeps_key_rule(entry)) {
            faults.insert(24);
        }
    }

    /// The data blocks under a block, in the order of the walk.
    pub fn leaves(&self, block: &'a Seen) -> Vec<&'a Seen> {
        if block.level == 0 {
            return vec![block];
        }
        let children = block
            .items
            .iter()
            .filter_map(|entry| self.find_named(entry));
        children.flat_map(|child| self.leaves(child)).collect()
    }

    fn keeps_key_rule(&self, entry: &Item) -> bool {
        let leaves = self
            .find_named(entry)
            .map_or_else(Vec::new, |b| self.leaves(b));
        let records = leaves.iter().flat_map(|leaf| &leaf.items);
        match records.min_by_key(|record| record.at) {
            None => false,
            Some(first) => {
                let mut all = self.data().flat_map(|block| &block.items);
                let below = all.all(|r| r.at >= first.at || r.bytes <= entry.bytes);
                entry.bytes <= first.bytes && below
            }
        }
    }

    /// 23 and 25.
    fn note_records(&self, faults: &mut BTreeSet<u64>) {
        let data: Vec<&Seen> = self.data().collect();
        for (number, later) in data.iter().enumerate() {
            let mut before = data[..number].iter().flat_map(|block| &block.items);
            if before.any(|a| later.items.iter().any(|b| a.bytes > b.bytes)) {
                faults.insert(23);
            }
        }
        let payloads = data.iter().map(|block| block.payload.as_slice());
        if sha256(payloads) != self.hash {
            faults.insert(25);
        }
    }

    /// Every block that must be opened, root first, in the order of the walk: all blocks are
    /// gone through, and those kept for which the whole way down is open.
    pub fn must_open(&self, query: &Query) -> Vec<&'a Seen> {
        let mut kept = Vec::new();
        if let Some(root) = self.root() {
            self.keep_open(root, None, true, query, &mut kept);
        }
        kept
    }

    fn keep_open(
        &self,
        block: &'a Seen,
        upper: Option<&[u8]>,
        open: bool,
        query: &Query,
        kept: &mut Vec<&'a Seen>,
    ) {
        if open {
            kept.push(block);
        }
        for (number, entry) in block.items.iter().enumerate() {
            let next = block.items.get(number + 1).map(|next| &next.bytes[..]);
            let bound = next.or(upper);
            if let Some(child) = self.find_named(entry).filter(|_| block.level > 0) {
                let open = open && may_hold_match(&entry.bytes, bound, query);
                self.keep_open(child, bound, open, query, kept);
            }
        }
    }
}

/// Whether an entry names this block by its exact start and full size.
fn names(entry: &Item, block: &Seen) -> bool {
    entry.offset == u128::from(block.start) && entry.size == u128::from(block.size)
}

fn times_due(block: &Seen, root: &Seen) -> usize {
    usize::from(block.start != root.start)
}
