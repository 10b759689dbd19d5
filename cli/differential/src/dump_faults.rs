//! Faults of dumps: 32 to 34.

use std::iter::once;

use crate::dumps::Dump;
use zs_reference::maker::random::Random;

/// Lengths that are far too great. Of some too little would be left in 8, 16 or 32 bits, and with some the length of a record would wrap.
pub const FAR: [u64; 12] = [
    243,
    255,
    256,
    256 + 3,
    1 << 16,
    1 << 32,
    (1 << 32) + 3,
    1 << 63,
    u64::MAX - 14,
    u64::MAX - 13,
    u64::MAX - 12,
    u64::MAX,
];

/// What is wrong with a dump.
#[derive(Debug, Clone, Copy, PartialEq, Eq)]
pub enum Fault {
    /// 32: it isn't whole records, or the name field is too long.
    Size,
    /// 33: a name isn't formed as one.
    Name,
    /// 34: a number is too long.
    Number,
}

/// No fault, one, or several; a record may get two.
pub fn draw_faults(random: &mut Random) -> Vec<Fault> {
    let first = match random.below(10) {
        0 | 1 => Fault::Size,
        2 | 3 => Fault::Name,
        4 => Fault::Number,
        _ => return Vec::new(),
    };
    let others = [Fault::Name, Fault::Number].into_iter();
    let more = others.filter(|_| random.once_in(3));
    once(first).chain(more).collect()
}

/// Gives a record a fault, most times the one that is asked for.
pub fn spoil(random: &mut Random, record: &mut [u8], field: usize, fault: Fault) {
    let (name, rest) = record.split_at_mut(field);
    match fault {
        Fault::Size => {}
        Fault::Name => spoil_name(random, name),
        Fault::Number => {
            let any = 12 + random.below(244) as u8;
            rest[0] = random.pick(&[12, 12, 13, 0x80, 0xfe, 0xff, any]);
        }
    }
}

/// 33: bytes after the name, a count that runs past the field, first bytes that are no coding, bytes that aren't plain, and pairs before
/// or after a lone byte or the pair FF FF.
fn spoil_name(random: &mut Random, field: &mut [u8]) {
    let last = match field.len() {
        0 => return,
        length => length - 1,
    };
    let any = random.next() as u8;
    let high = random.pick(&[0x83, 0xfe, 0x83 + any % 0x7c]);
    let wrong = random.pick(&[0x00, 0x41, 0x80, 0x83, 0xfe]);
    let somewhere = random.below(last + 1);
    match random.below(9) {
        0 => field[last] = wrong,
        1 => field[last / 2 + random.below(last / 2 + 1)] = wrong,
        2 => field[0] = high,
        3 => field[somewhere] = high,
        4 => {
            field.fill(0x41);
            field[0] = 0x80;
            field[last] = wrong;
        }
        5 => {
            field.fill(0xff);
            field[0] = 0x80;
            field[somewhere] = wrong;
        }
        6 => field[somewhere] = any,
        _ => overcount(random, field),
    }
}

/// A count that is too great for the field, by little most times; or a field that is too short for the count or the base.
fn overcount(random: &mut Random, field: &mut [u8]) {
    let base = random.pick(&[1, 2]);
    let most = field.len().saturating_sub(2 + base);
    let count = random.pick(&[most + 1, most + 1, most + 2, 0xff]);
    for (byte, value) in field.iter_mut().zip([0x80 + base as u8, count as u8]) {
        *byte = value;
    }
}

/// 32: a part of a record too few or too many, or another length of the name field.
pub fn spoil_size(random: &mut Random, dump: &mut Dump) {
    let part = 1 + random.below(dump.name_length as usize + 13);
    match random.below(5) {
        0 => dump.bytes.truncate(dump.bytes.len().saturating_sub(part)),
        1 => dump.bytes.extend(vec![random.pick(&[0x00, 0xff]); part]),
        2 => dump.name_length += 1,
        3 => dump.name_length = dump.name_length.saturating_sub(1),
        _ => dump.name_length = random.pick(&FAR),
    }
}
