//! Files with one fault, made for each refusal.

mod framing;
mod header;
mod names;
mod order;
mod payload;

pub use header::bad_metadata;

use crate::shapes::shape;
use zs_reference::maker::random::Random;
use zs_reference::maker::{Content, Entry, Image};
use zs_reference::reader::check;

/// The refusals that the bytes of a file can cause. 1 takes a file above 2^30 bytes; 18, 26 and 27 are of short lists.
pub const NUMBERS: [u64; 23] = [
    2, 3, 4, 5, 6, 7, 8, 9, 10, 11, 12, 13, 14, 15, 16, 17, 19, 20, 21, 22, 23, 24, 25,
];

/// Files drawn at most; the last one is taken whatever its refusal.
const TRIES: usize = 60;

/// Enough work places for every file that is made here.
const AMPLE: usize = 1000;

/// Draws a file that the check refuses with this number, and the image that it was made from.
pub fn draw_faulty(random: &mut Random, number: u64) -> (Image, Vec<u8>) {
    let mut made = (Image::new(Vec::new()), Vec::new());
    for _ in 0..TRIES {
        let image = shape(random).image();
        made.1 = damage(random, number, image.clone());
        made.0 = image;
        if check(&made.1, AMPLE).number == number {
            break;
        }
    }
    made
}

/// Gives a sound file a fault, most times the one of this number.
fn damage(random: &mut Random, number: u64, mut image: Image) -> Vec<u8> {
    match number {
        2..=9 => return header::damage(random, number, image),
        10..=14 if random.once_in(2) => framing::damage(random, number, &mut image),
        11 | 12 => payload::damage_number(random, number, &mut image),
        10 | 13 | 14 => framing::damage(random, number, &mut image),
        15 => payload::cut(random, &mut image),
        16 => payload::disorder_records(random, &mut image),
        17 => names::misname_root(random, &mut image),
        19 => names::misname_entry(random, &mut image),
        20 => names::spoil_counts(random, &mut image),
        21 => payload::disorder_keys(random, &mut image),
        22 => order::disorder_walk(random, &mut image),
        23 => order::disorder_neighbours(random, &mut image),
        24 => order::spoil_key(random, &mut image),
        _ => order::spoil_hash(random, &mut image),
    }
    image.bytes()
}

/// Which block: one that holds what is wanted.
fn some_block(random: &mut Random, image: &Image, wanted: fn(&Content) -> bool) -> Option<usize> {
    let fitting: Vec<usize> = (0..image.blocks.len())
        .filter(|block| wanted(&image.blocks[*block].content))
        .collect();
    fitting.get(random.below(fitting.len())).copied()
}

fn is_data(content: &Content) -> bool {
    matches!(content, Content::Records(_))
}

fn is_index(content: &Content) -> bool {
    matches!(content, Content::Entries(_))
}

fn is_ordinary(content: &Content) -> bool {
    is_data(content) || is_index(content)
}

/// The records of some data block.
fn some_records<'a>(random: &mut Random, image: &'a mut Image) -> Option<&'a mut Vec<Vec<u8>>> {
    let block = some_block(random, image, is_data)?;
    match &mut image.blocks[block].content {
        Content::Records(records) => Some(records),
        _ => None,
    }
}

/// The entries of some index block.
fn some_entries<'a>(random: &mut Random, image: &'a mut Image) -> Option<&'a mut Vec<Entry>> {
    let block = some_block(random, image, is_index)?;
    entries_of(image, block)
}

/// The entries of an index block.
fn entries_of(image: &mut Image, block: usize) -> Option<&mut Vec<Entry>> {
    match &mut image.blocks[block].content {
        Content::Entries(entries) => Some(entries),
        _ => None,
    }
}
