//! Working out where blocks stand, and writing them.

use super::image::{Image, Plan};
use crate::checksums::crc64;

/// Where a block stands: its first byte and its full size.
#[derive(Debug, Clone, Copy, Default, PartialEq, Eq)]
pub struct Place {
    /// Position of its first byte.
    pub offset: u64,
    /// Its full size.
    pub size: u64,
}

/// Index blocks may name later blocks, so sizes and offsets depend on each other.
/// Each round can only raise them, and a number has at most ten bytes; this is ample.
const ROUNDS: usize = 1000;

impl Image {
    /// The place of every block.
    pub fn places(&self) -> Vec<Place> {
        let mut places = vec![Place::default(); self.blocks.len()];
        for _ in 0..ROUNDS {
            let next = self.places_from(&places);
            if next == places {
                break;
            }
            places = next;
        }
        places
    }

    /// The place of every block, given a guess for what the entries name.
    fn places_from(&self, guess: &[Place]) -> Vec<Place> {
        let mut offset = self.blocks_at();
        let mut next = Vec::new();
        for plan in &self.blocks {
            let size = frame(plan, guess).len() as u64;
            next.push(Place { offset, size });
            offset += size;
        }
        next
    }

    /// Start of the n-th block.
    pub fn start(&self, block: usize) -> u64 {
        self.places().get(block).map_or(0, |place| place.offset)
    }
}

/// Gives a block with its number and CRC.
pub fn frame(plan: &Plan, places: &[Place]) -> Vec<u8> {
    let mut covered: Vec<u8> = plan.level.into_iter().collect();
    covered.extend(plan.payload(places));
    let mut out = match &plan.number {
        Some(bytes) => bytes.clone(),
        None => encode(covered.len() as u64),
    };
    out.extend(&covered);
    out.extend(crc_bytes(crc64(&covered) ^ plan.crc_flips));
    out
}

/// The payloads of all data blocks in file order.
pub fn data_payloads(blocks: &[Plan], places: &[Place]) -> Vec<Vec<u8>> {
    let data = blocks.iter().filter(|plan| plan.level == Some(0));
    data.map(|plan| plan.payload(places)).collect()
}

/// A CRC as it stands in the file.
pub fn crc_bytes(crc: u64) -> [u8; 8] {
    crc.to_le_bytes()
}

/// Gives a number in its shortest form.
pub fn encode(value: u64) -> Vec<u8> {
    let mut out = Vec::new();
    put_number(&mut out, value);
    out
}

/// Puts a number in its shortest form.
pub fn put_number(out: &mut Vec<u8>, mut value: u64) {
    while value >= 128 {
        out.push((value % 128) as u8 + 128);
        value /= 128;
    }
    out.push(value as u8);
}
