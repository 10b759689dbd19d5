//! Trees, queries and damage drawn from a seed, the same ones each time.

use super::image::{Content, Image, Target};
use super::keys::Keys;
use super::tree::{Placing, Tree};
use crate::reader::Query;

/// Bytes that strings are made of: few, so that equal strings and beginnings are common.
const ALPHABET: [u8; 4] = [0x00, 0x61, 0x62, 0xff];

/// A small generator of numbers (SplitMix64).
#[derive(Debug, Clone)]
pub struct Random(u64);

impl Random {
    /// The same seed gives the same numbers.
    pub fn new(seed: u64) -> Self {
        Random(seed)
    }

    /// The next number.
    #[allow(clippy::should_implement_trait)]
    pub fn next(&mut self) -> u64 {
        self.0 = self.0.wrapping_add(0x9e37_79b9_7f4a_7c15);
        let mut mixed = self.0;
        mixed = (mixed ^ (mixed >> 30)).wrapping_mul(0xbf58_476d_1ce4_e5b9);
        mixed = (mixed ^ (mixed >> 27)).wrapping_mul(0x94d0_49bb_1331_11eb);
        mixed ^ (mixed >> 31)
    }

    /// A number below `bound`; 0 where the bound is 0.
    pub fn below(&mut self, bound: usize) -> usize {
        match bound {
            0 => 0,
            _ => (self.next() % bound as u64) as usize,
        }
    }

    /// One of the given things.
    pub fn pick<T: Copy>(&mut self, things: &[T]) -> T {
        things[self.below(things.len())]
    }

    /// True once in `times`.
    pub fn once_in(&mut self, times: usize) -> bool {
        self.below(times) == 0
    }

    /// A string of at most `longest` bytes of the small alphabet.
    pub fn string(&mut self, longest: usize) -> Vec<u8> {
        let length = self.below(longest + 1);
        (0..length).map(|_| self.pick(&ALPHABET)).collect()
    }
}

/// A sound file of at most `most_groups` data blocks.
pub fn tree(random: &mut Random, most_groups: usize) -> Tree {
    let sizes: Vec<usize> = (0..1 + random.below(most_groups))
        .map(|_| 1 + random.below(3))
        .collect();
    let mut records: Vec<Vec<u8>> = (0..sizes.iter().sum()).map(|_| random.string(3)).collect();
    records.sort();
    let mut rest = records.into_iter();
    let groups = sizes.iter().map(|size| rest.by_ref().take(*size).collect());
    let mut tree = Tree::new::<Vec<u8>>(&[]);
    tree.groups = groups.collect();
    tree.fan_out = (0..1 + random.below(3))
        .map(|_| 1 + random.below(4))
        .collect();
    tree.root_level = 1 + random.below(4) as u8;
    tree.keys = keys(random);
    tree.placing = placing(random);
    for _ in 0..random.below(3) {
        let at = random.below(sizes.len() + 3);
        let level = 64 + random.below(192) as u8;
        tree.reserved.push((at, level, random.string(5)));
    }
    tree.extra = random.string(4);
    tree
}

fn keys(random: &mut Random) -> Keys {
    let mixed = Keys::Mixed(random.next());
    random.pick(&[
        Keys::FirstRecord,
        Keys::Separator,
        Keys::LastBefore,
        Keys::EmptyFirst,
        mixed,
        mixed,
    ])
}

fn placing(random: &mut Random) -> Placing {
    random.pick(&[
        Placing::After,
        Placing::Before,
        Placing::AfterChildren,
        Placing::BeforeChildren,
        Placing::AfterFirst,
    ])
}

/// A query over the same small alphabet.
pub fn query(random: &mut Random) -> Query {
    let sometimes = |random: &mut Random| {
        if random.once_in(2) {
            random.string(3)
        } else {
            Vec::new()
        }
    };
    Query {
        start: sometimes(random),
        stop: (!random.once_in(3)).then(|| random.string(3)),
        prefix: sometimes(random),
    }
}

/// Changes one thing of a file; lengths, checksums and offsets follow the change.
pub fn bend(random: &mut Random, image: &mut Image) {
    let blocks = image.blocks.len();
    if blocks == 0 {
        return;
    }
    let other = random.below(blocks + 1);
    let here = random.below(blocks);
    match random.below(8) {
        0 => image.root = Target::Block(other),
        1 => image.root = target_beside(random, here),
        2 => image.blocks.swap(here, other.min(blocks - 1)),
        3 => image.blocks[here].level = Some(random.pick(&[0, 1, 2, 3, 63, 64, 255])),
        4 => drop(image.blocks.remove(here)),
        _ => bend_content(random, &mut image.blocks[here].content, blocks),
    }
}

fn target_beside(random: &mut Random, block: usize) -> Target {
    let shift = random.pick(&[-1, 1]);
    if random.once_in(2) {
        Target::Beside(block, shift, 0)
    } else {
        Target::Beside(block, 0, shift)
    }
}

/// Changes one item of a payload.
fn bend_content(random: &mut Random, content: &mut Content, blocks: usize) {
    let here = random.next() as usize;
    match content {
        Content::Bytes(bytes) => *bytes = random.string(4),
        Content::Records(records) if records.is_empty() => {}
        Content::Records(records) => {
            let here = here % records.len();
            match random.below(3) {
                0 => records.swap(0, here),
                1 => drop(records.remove(here)),
                _ => records[here] = random.string(3),
            }
        }
        Content::Entries(entries) if entries.is_empty() => {}
        Content::Entries(entries) => {
            let here = here % entries.len();
            match random.below(6) {
                0 => entries.swap(0, here),
                1 => drop(entries.remove(here)),
                2 => entries.push(entries[here].clone()),
                3 => entries[here].target = Target::Block(random.below(blocks + 1)),
                4 => entries[here].target = target_beside(random, here),
                _ => entries[here].key = random.string(3),
            }
        }
    }
}

/// Changes some bytes of a file, and mends nothing.
pub fn break_bytes(random: &mut Random, file: &mut Vec<u8>) {
    let here = random.below(file.len());
    match random.below(4) {
        0 => file.truncate(here),
        1 => file.push(random.next() as u8),
        _ if file.is_empty() => {}
        2 => file[here] = random.next() as u8,
        _ => file[here] ^= 1 << random.below(8),
    }
}
