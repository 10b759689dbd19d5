//! Dumps of SIM phonebooks: sound ones with names of every coding, and ones with one fault or several.

use crate::dump_faults::{draw_faults, spoil, spoil_size, Fault};
use zs_reference::maker::adn;
use zs_reference::maker::random::Random;

/// Of so many dumps one has very many records.
const LARGE: u64 = 300;
/// The longest name field.
const LONGEST_FIELD: usize = 241;
/// Lengths of name fields by turns: all that are allowed, and the first that isn't.
pub const FIELDS: u64 = LONGEST_FIELD as u64 + 2;
/// Lengths of name fields that matter, and short ones, with which equal records are common.
const SHORT: [usize; 21] = [
    0, 0, 1, 2, 3, 4, 5, 6, 7, 8, 10, 15, 16, 20, 30, 113, 114, 114, 115, 240, 241,
];
/// Bytes of plain names: few, and some that are lengths of numbers too.
const PLAIN: [u8; 6] = [0x00, 0x05, 0x0b, 0x41, 0x42, 0x7f];
/// Bytes of other names.
const ANY: [u8; 10] = [0x00, 0x05, 0x0b, 0x41, 0x7f, 0x80, 0x82, 0xfe, 0xff, 0xff];

/// What an import is given, but for the output.
#[derive(Debug, Clone)]
pub struct Dump {
    /// The records one after the other.
    pub bytes: Vec<u8>,
    /// How many bytes of a record are its name field.
    pub name_length: u64,
    /// What the records are that aren't free, where the dump has no fault.
    pub entries: Option<Vec<Entry>>,
}

/// A record that isn't free.
#[derive(Debug, Clone, PartialEq, Eq, PartialOrd, Ord)]
pub struct Entry {
    /// Its name, coding bytes included.
    pub name: Vec<u8>,
    /// The 14 bytes after the name field.
    pub rest: [u8; 14],
}

impl Entry {
    /// The record that the import makes of it.
    pub fn record(&self) -> Vec<u8> {
        [&self.name[..], &self.rest].concat()
    }
}

/// Draws a dump. Every other one has a name field of some length that matters; those between them have every length by turns, first each
/// without a fault and with records, then each with anything.
pub fn draw_dump(random: &mut Random, turn: u64) -> Dump {
    let by_turns = (turn / 2 % FIELDS) as usize;
    match (turn % 2, turn / 2 / FIELDS % 2) {
        (0, 0) => {
            let count = 1 + random.below(14);
            faulty_dump(random, by_turns, count, &[])
        }
        (other, _) => {
            let field = random.pick(&SHORT);
            let count = draw_count(random, turn);
            let faults = draw_faults(random);
            let field = if other == 0 { by_turns } else { field };
            faulty_dump(random, field, count, &faults)
        }
    }
}

/// How many records aren't free: few mostly, sometimes none, and by turns very many.
fn draw_count(random: &mut Random, turn: u64) -> usize {
    match random.below(10) {
        _ if turn % LARGE == 1 => 3000 + random.below(3000),
        0 => 0,
        1 => 1,
        2 => 100 + random.below(200),
        _ => 2 + random.below(14),
    }
}

/// Draws a dump with these faults; each is given to some record.
fn faulty_dump(random: &mut Random, field: usize, count: usize, faults: &[Fault]) -> Dump {
    let entries = entries(random, field, count);
    let mut records = records(random, field, &entries);
    for fault in faults {
        let place = random.below(records.len());
        if let Some(record) = records.get_mut(place) {
            spoil(random, record, field, *fault);
        }
    }
    let mut dump = Dump {
        bytes: records.concat(),
        name_length: field as u64,
        entries: (faults.is_empty() && field <= LONGEST_FIELD).then_some(entries),
    };
    if faults.contains(&Fault::Size) {
        spoil_size(random, &mut dump);
    }
    dump
}

/// Entries with names that fit the field.
fn entries(random: &mut Random, field: usize, count: usize) -> Vec<Entry> {
    let mut entries: Vec<Entry> = Vec::new();
    for _ in 0..count {
        let before = entries.get(random.below(entries.len())).cloned();
        let next = match (random.below(9), before) {
            (0, Some(before)) => before,
            (1, Some(before)) => Entry {
                rest: rest(random),
                ..before
            },
            (2 | 3, Some(before)) => follow(random, field, before),
            _ => Entry {
                name: name(random, field),
                rest: rest(random),
            },
        };
        entries.push(next);
    }
    entries
}

/// The records of these entries, and free ones among them.
fn records(random: &mut Random, field: usize, entries: &[Entry]) -> Vec<Vec<u8>> {
    let mut records = Vec::new();
    let free = vec![0xff; field + 14];
    for entry in entries {
        records.extend((random.once_in(6)).then(|| free.clone()));
        records.push(adn(&entry.name, field, entry.rest));
    }
    records.extend(vec![free; random.pick(&[0, 0, 0, 1, 3])]);
    records
}

/// An entry whose record begins with that of the given one; or whose name begins with its name; or that has other bytes after the same name.
fn follow(random: &mut Random, field: usize, before: Entry) -> Entry {
    let rest = rest(random);
    let step = 1 + usize::from(before.name.first() == Some(&0x80));
    let more = vec![random.pick(&[0x00, 0x05, 0x0b]); step];
    let longer = [&before.name[..], &more].concat();
    let whole = before.record();
    let names = if random.once_in(2) {
        [longer, whole]
    } else {
        [whole, longer]
    };
    let fitting = names
        .into_iter()
        .find(|name| name.len() <= field && is_open_name(name));
    Entry {
        name: fitting.unwrap_or(before.name),
        rest,
    }
}

/// Whether these bytes are a name of a coding without a count.
fn is_open_name(bytes: &[u8]) -> bool {
    match bytes {
        [0x80, pairs @ ..] => pairs.chunks_exact(2).all(|pair| pair != [0xff, 0xff]),
        _ => bytes.is_ascii(),
    }
}

/// A name of any coding that has room in the field.
fn name(random: &mut Random, field: usize) -> Vec<u8> {
    match (random.below(10), field) {
        (0 | 1, 1..) => pairs(random, field),
        (2 | 3, 3..) => counted(random, 0x81, 1, field),
        (4 | 5, 4..) => counted(random, 0x82, 2, field),
        _ => {
            let length = length(random, field);
            (0..length).map(|_| random.pick(&PLAIN)).collect()
        }
    }
}

/// A length up to this one: an outermost one often.
fn length(random: &mut Random, most: usize) -> usize {
    let any = random.below(most + 1);
    random
        .pick(&[0, 1, any, any, most.saturating_sub(1), most])
        .min(most)
}

/// 80: pairs, none of which is FF FF.
fn pairs(random: &mut Random, field: usize) -> Vec<u8> {
    let mut name = vec![0x80];
    for _ in 0..length(random, (field - 1) / 2) {
        let (first, second) = (random.pick(&ANY), random.pick(&ANY));
        let filling = first == 0xff && second == 0xff;
        name.extend([first, if filling { 0x00 } else { second }]);
    }
    name
}

/// 81 or 82: a count, a base of so many bytes, and as many bytes as the count says.
fn counted(random: &mut Random, coding: u8, base: usize, field: usize) -> Vec<u8> {
    let count = length(random, field - 2 - base);
    let mut name = vec![coding, count as u8];
    name.extend((0..base + count).map(|_| random.pick(&ANY)));
    name
}

/// The 14 bytes after a name: a length that is allowed, and bytes that are often the same.
fn rest(random: &mut Random) -> [u8; 14] {
    let mut rest = [random.pick(&[0x00, 0x05, 0xff]); 14];
    for _ in 0..random.below(3) {
        rest[1 + random.below(13)] = random.pick(&ANY);
    }
    let any = random.below(12) as u8;
    rest[0] = random.pick(&[0x00, 0x05, 0x0b, 0x0b, any]);
    rest
}
