//! Stores to ask for, cuts of a written file, and bytes about the edges of what has stores.

use crate::call::{Call, Room};
use crate::calls::Asked;
use zs_reference::maker::random::Random;
use zs_reference::stores::stores;

const GOOD_MAGIC: [u8; 8] = *b"\xabZSfiLe\x01";
const UNFINISHED_MAGIC: [u8; 8] = *b"\xabZStoBe\x01";

/// Draws numbers of stores: those that there are, a few beyond them, and far ones that agree with these in their last bits.
pub fn draw_stores(random: &mut Random, count: usize) -> Vec<Asked> {
    let mut draw = || {
        let near = random.below(7) as u64;
        let far = random.pick(&[1 << 8, 1 << 16, 1 << 32, 1 << 63, u64::MAX - 6]);
        let i = if random.once_in(6) { far + near } else { near };
        (Call::Store { i }, Room::Any)
    };
    (0..count).map(|_| draw()).collect()
}

/// Draws cuts of a written file: in each store before its first byte, after its last one, or within it, and now and then none at all. The last
/// store has few bytes and gets two more cuts.
pub fn draw_cuts(random: &mut Random, file: &[u8]) -> Vec<Asked> {
    let lengths: Vec<usize> = stores(file).iter().map(|store| store.bytes.len()).collect();
    let mut cuts = Vec::new();
    for whole in [0, 1, 2, 3, 3, 3] {
        let length = lengths.get(whole).copied().unwrap_or(0);
        let within = 1 + random.below(length.saturating_sub(1));
        let bytes = random.pick(&[0, length, within]);
        cuts.push((Call::Cut { whole, bytes }, Room::Any));
    }
    if random.once_in(4) {
        let whole = lengths.len();
        cuts.push((Call::Cut { whole, bytes: 0 }, Room::Any));
    }
    cuts
}

/// Draws bytes that may have stores: a magic, H, by which the header ends about the end of the bytes or far behind it, and any bytes after it.
/// Now and then all but the first few are cut off.
pub fn draw_edge(random: &mut Random) -> Vec<u8> {
    let length = random.pick(&[24, 24, 25, 26, 30, 200]) + random.below(8);
    let end = length as u64 - 24;
    let extent = match random.below(8) {
        0 => random.below(length) as u64,
        1 => random.pick(&[1 << 16, 1 << 32, 1 << 63]) + end,
        2 => u64::MAX - random.below(40) as u64,
        3 => random.next(),
        _ => (end + random.below(4) as u64).saturating_sub(2),
    };
    let mut file = [draw_magic(random), extent.to_le_bytes()].concat();
    while file.len() < length {
        file.extend(random.next().to_le_bytes());
    }
    file.truncate(length);
    if random.once_in(5) {
        file.truncate(random.below(25));
    }
    file
}

/// Draws the good magic most times; else the unfinished one, or the good one with one byte changed.
fn draw_magic(random: &mut Random) -> [u8; 8] {
    let mut magic = GOOD_MAGIC;
    match random.below(10) {
        0 => return UNFINISHED_MAGIC,
        1 => magic[random.below(8)] ^= 1 << random.below(8),
        _ => {}
    }
    magic
}
