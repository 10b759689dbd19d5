//! Fictitious backups, two of each kind, which are compared.

use zs_library::Counts;

use crate::shapes::{FAN_OUT, TO_A_BLOCK};

/// So many records lie between two of a kind that were removed, changed or added.
const APART: usize = 1000;

/// How two backups differ.
#[derive(Debug, Clone, Copy, PartialEq, Eq)]
pub enum Kind {
    /// Of every thousand records one was removed, one was changed and one was added.
    Later,
    /// In nothing.
    Equal,
    /// In their blocks alone.
    Reshaped,
    /// In every record.
    Apart,
    /// One record, of which the second backup has one copy less.
    Repeated,
    /// In every record, and each of the second comes after all of the first; a quarter as many records, eight to a block, two entries to an index block.
    Behind,
}

/// A record, and its copies in both backups.
pub type Difference<'a> = (&'a [u8], [u64; 2]);

impl Kind {
    /// All of them, that which is measured as a process too first.
    pub const ALL: [Kind; 6] = [
        Kind::Later,
        Kind::Equal,
        Kind::Reshaped,
        Kind::Apart,
        Kind::Repeated,
        Kind::Behind,
    ];

    /// The kind in a few words.
    pub fn name(self) -> &'static str {
        match self {
            Kind::Later => "of a thousand records one removed, one changed, one added",
            Kind::Equal => "equal",
            Kind::Reshaped => "equal records, blocks of 4 KiB in the second",
            Kind::Apart => "no record in both",
            Kind::Repeated => "one record over and over, once less in the second",
            Kind::Behind => {
                "a quarter as many records, eight to a block, all of the second after the first"
            }
        }
    }

    /// The records of both backups, in order.
    pub fn records(self, records: &[Vec<u8>]) -> [Vec<Vec<u8>>; 2] {
        let second = match self {
            Kind::Later => records.iter().enumerate().flat_map(later).collect(),
            Kind::Equal | Kind::Reshaped => records.to_vec(),
            Kind::Apart => records.iter().map(|record| change(record)).collect(),
            Kind::Repeated => vec![records[0].clone(); records.len() - 1],
            Kind::Behind => records[..records.len() / 4]
                .iter()
                .map(|record| behind(record))
                .collect(),
        };
        match self {
            Kind::Repeated => [vec![records[0].clone(); records.len()], second],
            Kind::Behind => [records[..records.len() / 4].to_vec(), second],
            _ => [records.to_vec(), second],
        }
    }

    /// How the records of both backups are put into blocks.
    pub fn counts(self) -> [Counts; 2] {
        let large = Counts {
            per_block: TO_A_BLOCK as u64,
            per_index: FAN_OUT as u64,
        };
        let small = Counts {
            per_block: 64,
            per_index: 16,
        };
        let least = Counts {
            per_block: 8,
            per_index: 2,
        };
        match self {
            Kind::Reshaped => [large, small],
            Kind::Behind => [least; 2],
            _ => [large; 2],
        }
    }
}

/// What became of a record: it went, it changed, another one was added after it, or it stayed.
fn later((number, record): (usize, &Vec<u8>)) -> Vec<Vec<u8>> {
    match number % APART {
        250 => vec![],
        500 => vec![change(record)],
        750 => vec![record.clone(), change(record)],
        _ => vec![record.clone()],
    }
}

/// A record that wasn't there before. It stands right after the old one, since none of them begins with another.
fn change(record: &[u8]) -> Vec<u8> {
    [record, &b" b"[..]].concat()
}

/// A record that comes after all others.
fn behind(record: &[u8]) -> Vec<u8> {
    [&b"\xff"[..], record].concat()
}

/// What differs between two lists of records, by sorting both together.
pub fn differences(lists: &[Vec<Vec<u8>>; 2]) -> Vec<Difference<'_>> {
    let mut all: Vec<(&[u8], usize)> = Vec::new();
    for (number, list) in lists.iter().enumerate() {
        all.extend(list.iter().map(|record| (record.as_slice(), number)));
    }
    all.sort_unstable();
    let mut found: Vec<Difference> = Vec::new();
    for (record, number) in all {
        if found.last().map_or(true, |(last, _)| *last != record) {
            found.push((record, [0; 2]));
        }
        if let Some((_, copies)) = found.last_mut() {
            copies[number] += 1;
        }
    }
    found.retain(|(_, copies)| copies[0] != copies[1]);
    found
}
