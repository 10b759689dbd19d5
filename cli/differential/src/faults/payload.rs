//! Faults of a payload: 11, 12, 15, and 16 and 21.

use super::framing::{long_number, wide_number};
use super::{is_ordinary, some_block, some_entries, some_records};
use crate::strings::vary;
use zs_reference::maker::random::Random;
use zs_reference::maker::{encode, Content, Image, Place, Plan};

/// A piece of a payload.
enum Piece {
    Number(u64),
    Bytes(Vec<u8>),
}

/// The payload of an ordinary block in pieces.
fn pieces(plan: &Plan, places: &[Place]) -> Vec<Piece> {
    let mut pieces = Vec::new();
    let string = |pieces: &mut Vec<Piece>, bytes: &[u8]| {
        pieces.push(Piece::Number(bytes.len() as u64));
        pieces.push(Piece::Bytes(bytes.to_vec()));
    };
    match &plan.content {
        Content::Bytes(bytes) => pieces.push(Piece::Bytes(bytes.clone())),
        Content::Records(records) => {
            for record in records {
                string(&mut pieces, record);
            }
        }
        Content::Entries(entries) => {
            for entry in entries {
                let (offset, size) = entry.target.resolve(places);
                string(&mut pieces, &entry.key);
                pieces.extend([Piece::Number(offset), Piece::Number(size)]);
            }
        }
    }
    pieces
}

/// Writes the pieces, one number among them as `wrong` says.
fn join(pieces: &[Piece], fault: usize, mut wrong: impl FnMut(u64) -> Vec<u8>) -> Vec<u8> {
    let mut out = Vec::new();
    for (at, piece) in pieces.iter().enumerate() {
        match piece {
            Piece::Number(value) if at == fault => out.extend(wrong(*value)),
            Piece::Number(value) => out.extend(encode(*value)),
            Piece::Bytes(bytes) => out.extend(bytes),
        }
    }
    out
}

/// 11 and 12: one number of a payload in a wrong form.
pub fn damage_number(random: &mut Random, number: u64, image: &mut Image) {
    change_number(random, image, |random, value| match number {
        11 => wide_number(random),
        _ => long_number(random, value),
    });
}

/// Rewrites one number in the payload of some ordinary block.
fn change_number(
    random: &mut Random,
    image: &mut Image,
    wrong: impl Fn(&mut Random, u64) -> Vec<u8>,
) {
    let places = image.places();
    if let Some(block) = some_block(random, image, is_ordinary) {
        let plan = &mut image.blocks[block];
        let pieces = pieces(plan, &places);
        let fault = random.below(pieces.len());
        let payload = join(&pieces, fault, |value| wrong(random, value));
        plan.content = Content::Bytes(payload);
    }
}

/// 15: an empty payload, one cut short, one with something after it, or a length too great.
pub fn cut(random: &mut Random, image: &mut Image) {
    let places = image.places();
    if random.once_in(3) {
        let more = random.pick(&[1, 2, 4, 1 << 8, 1 << 16, 1 << 32, 1 << 62]);
        return change_number(random, image, |_, value| encode(value + more));
    }
    if let Some(block) = some_block(random, image, is_ordinary) {
        let plan = &mut image.blocks[block];
        let mut payload = plan.payload(&places);
        match random.below(6) {
            0 => payload.clear(),
            1 => payload.push(random.pick(&[0x01, 0x7f])),
            2 => payload.extend(vec![0x80; 1 + random.below(8)]),
            _ => payload.truncate(random.below(payload.len())),
        }
        plan.content = Content::Bytes(payload);
    }
}

/// 16: records of one block out of order.
pub fn disorder_records(random: &mut Random, image: &mut Image) {
    if let Some(records) = some_records(random, image) {
        let (one, other) = (random.below(records.len()), random.below(records.len()));
        match random.below(3) {
            0 => records.insert(0, vary(random, &records[one].clone())),
            1 => records.push(vary(random, &records[one].clone())),
            _ => records.swap(one, other),
        }
    }
}

/// 21: keys of one block out of order.
pub fn disorder_keys(random: &mut Random, image: &mut Image) {
    if let Some(entries) = some_entries(random, image) {
        let (one, other) = (random.below(entries.len()), random.below(entries.len()));
        match random.below(3) {
            0 => entries.swap(one, other),
            1 => entries[one].key = vary(random, &entries[other].key.clone()),
            _ => {
                let mut entry = entries[other].clone();
                entry.key = vary(random, &entry.key);
                entries.push(entry);
            }
        }
    }
}
