//! The rules of docs/FORMAT.md, each tested by itself and without an order.
//!
//! This shares nothing with the reader but the checksums, and leaves JSON to another parser. It answers
//! which refusals apply to a file at all, so that tests can tell a single fault from several.

pub mod compare;
pub mod json;
pub mod results;
pub mod sim;
pub mod tree;

use std::collections::BTreeSet;

use zs_reference::checksums::crc64;

/// A block as its bytes show it.
pub struct Seen {
    pub start: u64,
    pub size: u64,
    pub level: u8,
    pub payload: Vec<u8>,
    /// Records or keys, with position, named offset and named size.
    pub items: Vec<Item>,
}

/// A record, or an entry with its key.
pub struct Item {
    pub at: u64,
    pub bytes: Vec<u8>,
    pub offset: u128,
    pub size: u128,
}

/// A file taken apart as far as it goes.
pub struct Apart {
    pub faults: BTreeSet<u64>,
    /// Ordinary blocks; `None` where framing or a payload can't be followed.
    pub blocks: Option<Vec<Seen>>,
    pub root: (u64, u64),
    pub hash: Vec<u8>,
}

fn little_endian(bytes: &[u8]) -> u64 {
    bytes
        .iter()
        .rev()
        .fold(0, |sum, byte| (sum << 8) | u64::from(*byte))
}

/// Takes a file apart and notes every fault of its header, blocks and payloads.
pub fn take_apart(file: &[u8]) -> Apart {
    let mut faults = BTreeSet::new();
    let nothing = |faults| Apart {
        faults,
        blocks: None,
        root: (0, 0),
        hash: Vec::new(),
    };
    if !file.starts_with(b"\xabZSfiLe\x01") {
        let unfinished = file.starts_with(b"\xabZStoBe\x01");
        faults.insert(if unfinished { 2 } else { 3 });
    }
    let length = file.len() as u128;
    if length < 16 || 24 + u128::from(little_endian(&file[8..16])) > length {
        faults.insert(4);
        return nothing(faults);
    }
    let h = little_endian(&file[8..16]) as usize;
    if crc64(&file[16..16 + h]) != little_endian(&file[16 + h..24 + h]) {
        faults.insert(5);
    }
    if h < 80 {
        faults.insert(6);
        return nothing(faults);
    }
    note_header_fields(file, h, &mut faults);
    let blocks = blocks(file, 24 + h, &mut faults);
    Apart {
        faults,
        blocks,
        root: (little_endian(&file[16..24]), little_endian(&file[24..32])),
        hash: file[40..72].to_vec(),
    }
}

fn note_header_fields(file: &[u8], h: usize, faults: &mut BTreeSet<u64>) {
    let m = little_endian(&file[88..96]);
    if &file[72..76] != b"none" || file[76..88].iter().any(|byte| *byte != 0) {
        faults.insert(7);
    }
    if little_endian(&file[32..40]) != file.len() as u64 {
        faults.insert(8);
    }
    if m > h as u64 - 80 {
        faults.insert(6);
        return;
    }
    if !json::is_metadata(&file[96..96 + m as usize]) {
        faults.insert(9);
    }
}

/// All ordinary blocks, going on after a fault wherever the next block is still known.
fn blocks(file: &[u8], from: usize, faults: &mut BTreeSet<u64>) -> Option<Vec<Seen>> {
    let mut at = from;
    let mut blocks = Vec::new();
    let mut all_read = true;
    while at < file.len() {
        let (l, digits) = number(&file[at..], 10, faults)?;
        if l == 0 {
            faults.insert(13);
        }
        let body = at + digits;
        if body as u128 + l + 8 > file.len() as u128 {
            faults.insert(10);
            return None;
        }
        let end = body + l as usize;
        if crc64(&file[body..end]) != little_endian(&file[end..end + 8]) {
            faults.insert(14);
        }
        let size = (end + 8 - at) as u64;
        if l > 0 && file[body] < 64 {
            match items(&file[..end], body, faults) {
                Some(items) => blocks.push(Seen {
                    start: at as u64,
                    size,
                    level: file[body],
                    payload: file[body + 1..end].to_vec(),
                    items,
                }),
                None => all_read = false,
            }
        }
        at = end + 8;
    }
    all_read.then_some(blocks)
}

/// The items of a payload that reaches from after the level byte to the part's end.
fn items(part: &[u8], level_at: usize, faults: &mut BTreeSet<u64>) -> Option<Vec<Item>> {
    let level = part[level_at];
    let mut at = level_at + 1;
    let mut items: Vec<Item> = Vec::new();
    if at == part.len() {
        faults.insert(15);
    }
    let mut whole = at < part.len();
    while whole && at < part.len() {
        match item(part, &mut at, level > 0, faults) {
            Some(item) => items.push(item),
            None => whole = false,
        }
    }
    let falls = |j: usize| items[..j].iter().any(|item| item.bytes > items[j].bytes);
    if (0..items.len()).any(falls) {
        faults.insert(if level == 0 { 16 } else { 21 });
    }
    whole.then_some(items)
}

fn item(part: &[u8], at: &mut usize, names: bool, faults: &mut BTreeSet<u64>) -> Option<Item> {
    let (length, digits) = number(&part[*at..], 15, faults)?;
    *at += digits;
    if *at as u128 + length > part.len() as u128 {
        faults.insert(15);
        return None;
    }
    let bytes = part[*at..*at + length as usize].to_vec();
    let bytes_at = *at as u64;
    *at += bytes.len();
    let mut named = [0, 0];
    for name in named.iter_mut().filter(|_| names) {
        let (value, digits) = number(&part[*at..], 15, faults)?;
        *name = value;
        *at += digits;
    }
    Some(Item {
        at: bytes_at,
        bytes,
        offset: named[0],
        size: named[1],
    })
}

/// A number and its digits; one that isn't shortest is noted and still read.
fn number(part: &[u8], cut_off: u64, faults: &mut BTreeSet<u64>) -> Option<(u128, usize)> {
    let mut value = 0_u128;
    for (place, byte) in part.iter().enumerate() {
        value |= u128::from(byte & 0x7f) << (7 * place);
        if *byte < 0x80 {
            if place > 0 && *byte == 0 {
                faults.insert(12);
            }
            return Some((value, place + 1));
        }
        if place == 8 {
            faults.insert(11);
            return None;
        }
    }
    faults.insert(cut_off);
    None
}
