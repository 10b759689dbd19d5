//! Faults of names: the root 17, entries 19, and how often a block is named 20.

use super::{entries_of, is_index, some_block, some_entries};
use zs_reference::maker::random::Random;
use zs_reference::maker::{Entry, Image, Plan, Target};

/// 17: the root elsewhere, of another size, or a block that is no index block.
pub fn misname_root(random: &mut Random, image: &mut Image) {
    let blocks = image.blocks.len();
    let root = match image.root {
        Target::Block(block) => block,
        _ => 0,
    };
    let place = image.places().get(root).copied().unwrap_or_default();
    let end = image.bytes().len() as u64;
    let huge = random.pick(&[u64::MAX, u64::MAX - 8, 1 << 63, 1 << 32]);
    image.root = match random.below(8) {
        0 => shift_little(random, root),
        // The size as L has it, without number and CRC.
        1 => Target::Beside(root, 0, -9),
        2 => Target::Exactly(random.pick(&[0, 1, 16, image.blocks_at() - 1]), place.size),
        3 => Target::Exactly(random.pick(&[end - 1, end, end + 1, huge]), place.size),
        4 => Target::Exactly(place.offset, random.pick(&[0, huge])),
        5 => Target::Beside(root, random.pick(&[1 << 16, 1 << 32, i64::MIN]), 0),
        6 => Target::Beside(root, 0, random.pick(&[1 << 8, 1 << 16, 1 << 32, i64::MIN])),
        _ => Target::Block(random.below(blocks)),
    };
}

/// A name that is off by a little.
fn shift_little(random: &mut Random, block: usize) -> Target {
    let shift = random.pick(&[-2, -1, 1, 2, 8]);
    shift_by(random, block, shift)
}

/// A name that is off by a multiple of 2^8 or 2^32.
fn shift_much(random: &mut Random, block: usize) -> Target {
    let shift = random.pick(&[1 << 8, 1 << 32, 1 << 32]);
    shift_by(random, block, shift)
}

/// The block's name with its offset or its size shifted.
fn shift_by(random: &mut Random, block: usize, shift: i64) -> Target {
    if random.once_in(2) {
        Target::Beside(block, shift, 0)
    } else {
        Target::Beside(block, 0, shift)
    }
}

/// 19: an entry that names no fitting block, instead of a right one or besides.
pub fn misname_entry(random: &mut Random, image: &mut Image) {
    let (index, here) = match some_block(random, image, is_index) {
        Some(index) => (index, random.next() as usize),
        None => return,
    };
    let own = entries_of(image, index).map(|entries| entries[here % entries.len()].target);
    let block = match own {
        Some(Target::Block(block)) if !random.once_in(3) => block,
        _ => random.below(image.blocks.len()),
    };
    let target = unfit_target(random, image, block);
    if let Some(entries) = entries_of(image, index) {
        let here = here % entries.len();
        if random.once_in(2) {
            entries[here].target = target;
        } else {
            let key = entries[here].key.clone();
            entries.insert(here, Entry { key, target });
        }
    }
}

/// A name that is like that of the block but, most times, of none.
fn unfit_target(random: &mut Random, image: &Image, block: usize) -> Target {
    let blocks_at = image.blocks_at();
    let end = image.bytes().len() as u64;
    let place = image.places()[block];
    let far = random.pick(&[0, 1, blocks_at - 1, end, end + 1, (1 << 63) - 1]);
    match random.below(7) {
        0 => shift_little(random, block),
        1 | 2 => shift_much(random, block),
        3 => Target::Exactly(far, place.size),
        4 => Target::Exactly(place.offset, random.pick(&[0, place.size - 9, far])),
        5 => Target::Exactly(blocks_at + random.below(40) as u64, place.size),
        _ => Target::Block(random.below(image.blocks.len())),
    }
}

/// 20: a block that is named by no entry, by two or by very many, or a named root.
pub fn spoil_counts(random: &mut Random, image: &mut Image) {
    let count = if random.once_in(12) { 255 } else { 1 };
    match random.below(5) {
        0 => name_root(random, image),
        1 => add_unnamed_index(random, image),
        kind => {
            if let Some(entries) = some_entries(random, image) {
                let here = random.below(entries.len());
                let entry = entries[here].clone();
                match kind {
                    2 => drop(entries.remove(here)),
                    3 => entries[here].target = entries[random.below(entries.len())].target,
                    _ => (0..count + random.below(2))
                        .for_each(|_| entries.insert(here, entry.clone())),
                }
            }
        }
    }
}

/// A block above the root that names it; nothing names that block.
fn name_root(random: &mut Random, image: &mut Image) {
    if let Target::Block(root) = image.root {
        let level = image.blocks[root].level.unwrap_or(0) + 1;
        image
            .blocks
            .push(Plan::index(level, &[(random.string(1), root)]));
    }
}

/// One more index block over blocks that have a name already.
fn add_unnamed_index(random: &mut Random, image: &mut Image) {
    if let Some(block) = some_block(random, image, is_index) {
        let again = image.blocks[block].clone();
        image.blocks.push(again);
    }
}
