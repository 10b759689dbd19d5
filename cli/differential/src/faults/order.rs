//! Faults of order: the walk 22, neighbouring data blocks 23, keys 24, and the hash 25.

use super::{entries_of, is_data, is_index, some_block, some_entries, some_records};
use crate::strings::vary;
use zs_reference::checksums::sha256;
use zs_reference::maker::random::Random;
use zs_reference::maker::{Content, Image};

/// 22: two entries, of one index block or of two on one level, change the blocks that they name; keys stay.
pub fn disorder_walk(random: &mut Random, image: &mut Image) {
    let one = some_block(random, image, is_index);
    let other = if random.once_in(2) {
        one
    } else {
        some_block(random, image, is_index)
    };
    if let (Some(one), Some(other)) = (one, other) {
        if image.blocks[one].level == image.blocks[other].level {
            exchange(random, image, one, other);
        }
    }
}

fn exchange(random: &mut Random, image: &mut Image, one: usize, other: usize) -> Option<()> {
    let first = random.below(entries_of(image, one)?.len());
    let second = random.below(entries_of(image, other)?.len());
    let given = entries_of(image, one)?.get(first)?.target;
    let taken = entries_of(image, other)?.get(second)?.target;
    entries_of(image, one)?.get_mut(first)?.target = taken;
    entries_of(image, other)?.get_mut(second)?.target = given;
    Some(())
}

/// 23: the last record of a block becomes greater, or the first one less.
pub fn disorder_neighbours(random: &mut Random, image: &mut Image) {
    let other = match some_block(random, image, is_data).map(|b| &image.blocks[b].content) {
        Some(Content::Records(records)) => records[random.below(records.len())].clone(),
        _ => return,
    };
    if let Some(records) = some_records(random, image) {
        let changed = vary(random, &other);
        match records.last() {
            Some(last) if *last <= changed => records.push(changed),
            _ => records.insert(0, changed),
        }
    }
}

/// 24: a key just outside what the rule allows.
pub fn spoil_key(random: &mut Random, image: &mut Image) {
    let other = match some_block(random, image, is_data).map(|b| &image.blocks[b].content) {
        Some(Content::Records(records)) => records[random.below(records.len())].clone(),
        _ => return,
    };
    if let Some(entries) = some_entries(random, image) {
        let here = random.below(entries.len());
        let key = if random.once_in(2) {
            vary(random, &other)
        } else {
            vary(random, &entries[here].key.clone())
        };
        entries[here].key = key;
    }
}

/// 25: another hash, of other bytes or with a bit flipped.
pub fn spoil_hash(random: &mut Random, image: &mut Image) {
    let places = image.places();
    let payloads = |all: bool| -> Vec<Vec<u8>> {
        let plans = image.blocks.iter();
        let chosen = plans.filter(|plan| all || plan.level == Some(0));
        chosen.map(|plan| plan.payload(&places)).collect()
    };
    let hash_of = |parts: &[Vec<u8>]| sha256(parts.iter().map(Vec::as_slice));
    let mut hash = hash_of(&payloads(false));
    match random.below(4) {
        0 => hash = hash_of(&payloads(true)),
        1 => hash = hash_of(&payloads(false)[1..]),
        _ => hash[random.below(32)] ^= 1 << random.below(8),
    }
    image.hash = Some(hash);
}
