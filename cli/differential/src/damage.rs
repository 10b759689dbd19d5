//! Damage to the bytes of a file, with and without repaired checksums.

use crate::frames::{data_payloads, frames, header_end};
use zs_reference::checksums::{crc64, sha256};
use zs_reference::maker::random::Random;

/// Changes some bytes: flips, other values, cuts, more bytes, parts moved or doubled.
pub fn damage(random: &mut Random, file: &mut Vec<u8>) {
    let length = file.len();
    if length == 0 {
        return;
    }
    let here = draw_place(random, length);
    match random.below(10) {
        0 => file.truncate(here),
        1 => file.extend(random.string(12)),
        2 => {
            file.remove(here);
        }
        3 => file.insert(here, random.next() as u8),
        4 => file[here] = random.pick(&[0x00, 0x01, 0x7f, 0x80, 0xff]),
        5 => file[here] = file[here].wrapping_add(random.pick(&[0x01, 0xff])),
        6 => file.swap(here, random.below(length)),
        7 => copy_part(random, file, here),
        _ => file[here] ^= 1 << random.below(8),
    }
}

/// Draws a position, after the header two times out of three.
fn draw_place(random: &mut Random, length: usize) -> usize {
    if random.once_in(3) || length <= 120 {
        random.below(length)
    } else {
        106 + random.below(length - 106)
    }
}

/// Writes a part of the file over another one.
fn copy_part(random: &mut Random, file: &mut [u8], here: usize) {
    let from = random.below(file.len());
    let room = file.len() - from.max(here);
    let length = 1 + random.below(room.min(40));
    file.copy_within(from..from + length, here);
}

/// Which checksums are repaired.
#[derive(Debug, Clone, Copy)]
pub struct Repair {
    /// The CRC of each block that can be found.
    pub blocks: bool,
    /// The hash of the data payloads that can be found.
    pub hash: bool,
    /// The total length.
    pub total: bool,
}

/// Repairs a file, and then its header's CRC. Files without a whole header stay.
pub fn repair(file: &mut [u8], what: Repair) {
    let blocks_at = match header_end(file) {
        Some(end) => end,
        None => return,
    };
    let frames = frames(file, blocks_at);
    if what.blocks {
        for covered in &frames {
            let crc = crc64(&file[covered.clone()]).to_le_bytes();
            put(file, covered.end, &crc);
        }
    }
    if what.hash {
        let hash = sha256(data_payloads(file, &frames));
        put(file, 40, &hash);
    }
    if what.total {
        let total = (file.len() as u64).to_le_bytes();
        put(file, 32, &total);
    }
    let crc = crc64(&file[16..blocks_at - 8]).to_le_bytes();
    put(file, blocks_at - 8, &crc);
}

fn put(file: &mut [u8], at: usize, bytes: &[u8]) {
    if let Some(place) = file.get_mut(at..at + bytes.len()) {
        place.copy_from_slice(bytes);
    }
}
