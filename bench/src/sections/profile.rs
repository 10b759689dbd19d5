//! Where the time of a check and of a lookup goes: what they do to a block, each part alone and on the same blocks.

use super::Setting;
use crate::archive::{blocks, Archive, Lists, RESULT_PLACES};
use crate::clock::{measure_time, median};
use crate::foreign::{proved_crc64, proved_entries, proved_matches, proved_records, proved_sha256};
use crate::records::{draw, key};
use crate::report::{time, Report, Table};

/// How often a check, and a lookup, reads the numbers of a block: among the tests of the block, and again on the walk.
const READINGS: f64 = 2.0;

/// Seconds of a check or of a lookup.
struct Profile {
    whole: f64,
    crc: f64,
    sha: Option<f64>,
    /// One reading of the numbers.
    numbers: f64,
    /// The tests of the payloads: one reading of the numbers, and the order.
    tests: f64,
    query: Option<f64>,
}

/// What was measured of some blocks.
#[derive(Default)]
struct Parts {
    crc: f64,
    tests: f64,
    numbers: f64,
}

/// A block, which is level and payload, and a copy of it with the numbers alone to be tested.
struct Twin<'a> {
    block: &'a [u8],
    unordered: Vec<u8>,
}

impl<'a> Twin<'a> {
    fn new(block: &'a [u8]) -> Self {
        let mut unordered = block.to_vec();
        if let Some(at) = first_byte(block) {
            // No record has this byte, so the next item is below this one.
            unordered[at] = 0xff;
        }
        let twin = Twin { block, unordered };
        assert_eq!(test(block), 0);
        let number = if block[0] == 0 { 16 } else { 21 };
        // A short block may have a single item, and no order.
        assert!(block.len() < 256 || test(&twin.unordered) == number);
        twin
    }

    /// The CRC, and then the tests, as a check or a lookup goes over a block; the copy is read before, so that it is in the caches too.
    fn measure(&self, parts: &mut Parts) {
        parts.crc += measure_time(|| proved_crc64(self.block));
        parts.tests += measure_time(|| test(self.block));
        test(&self.unordered);
        parts.numbers += measure_time(|| test(&self.unordered));
    }
}

/// The tests of a block's payload: the number of the refusal, or 0.
fn test(block: &[u8]) -> u64 {
    match block[0] {
        0 => proved_records(&block[1..]),
        _ => proved_entries(&block[1..]),
    }
}

/// Where the first record or key begins that has any bytes. An empty key is the first of its level; the entry's two numbers and the length
/// of the next key follow it.
fn first_byte(block: &[u8]) -> Option<usize> {
    let after_number = |at: usize| {
        let last = block.get(at..)?.iter().position(|byte| *byte < 0x80)?;
        Some(at + last + 1)
    };
    match block.get(1) {
        Some(0) => after_number(after_number(after_number(2)?)?),
        _ => after_number(1),
    }
}

/// Measures both on the large archive.
pub fn measure(setting: &Setting, archive: &mut Archive, report: &mut Report) {
    let lookup = profile_lookups(setting, archive);
    let check = profile_check(setting, archive);
    report.add_table(table(setting, &check, &lookup));
}

/// The medians of so many rows of numbers.
fn medians<const N: usize>(rows: &[[f64; N]]) -> [f64; N] {
    let mut number = 0;
    [0.0; N].map(|_| {
        let column = rows.iter().map(|row| row[number]).collect();
        number += 1;
        median(column)
    })
}

fn profile_check(setting: &Setting, archive: &mut Archive) -> Profile {
    let (bytes, payloads) = (archive.bytes.clone(), archive.payloads());
    let twins: Vec<Twin> = blocks(&bytes).map(Twin::new).collect();
    let rows: Vec<[f64; 5]> = (0..setting.sizes.rounds)
        .map(|_| {
            let whole = measure_time(|| archive.check());
            let sha = measure_time(|| proved_sha256(&payloads));
            let mut parts = Parts::default();
            twins.iter().for_each(|twin| twin.measure(&mut parts));
            [whole, sha, parts.crc, parts.tests, parts.numbers]
        })
        .collect();
    let [whole, sha, crc, tests, numbers] = medians(&rows);
    Profile {
        whole,
        crc,
        sha: Some(sha),
        numbers,
        tests,
        query: None,
    }
}

fn profile_lookups(setting: &Setting, archive: &Archive) -> Profile {
    let mut lists = Lists::default();
    let drawn = draw(setting.records, setting.sizes.lookups);
    let rows: Vec<[f64; 5]> = drawn
        .iter()
        .map(|record| profile_lookup(archive, record, &mut lists))
        .collect();
    let [whole, query, crc, tests, numbers] = medians(&rows);
    Profile {
        whole,
        crc,
        sha: None,
        numbers,
        tests,
        query: Some(query),
    }
}

/// One lookup, the comparison of a data block's records with the query, and the parts of the blocks that it opens.
fn profile_lookup(archive: &Archive, record: &[u8], lists: &mut Lists) -> [f64; 5] {
    let found = archive.lookup(key(record));
    assert_eq!(found.records, [record]);
    let whole = measure_time(|| archive.search(key(record), lists));
    let mut parts = Parts::default();
    let mut query = 0.0;
    for block in &found.opened {
        let twin = Twin::new(block);
        let before = parts.numbers;
        twin.measure(&mut parts);
        if block[0] == 0 {
            let mut results = [0; RESULT_PLACES];
            let both = measure_time(|| proved_matches(&block[1..], key(record), &mut results));
            query += both - (parts.numbers - before);
        }
    }
    [whole, query, parts.crc, parts.tests, parts.numbers]
}

/// The rows of a profile: seconds of each part, none where there is no such part, and of the whole.
fn rows(profile: &Profile) -> [Option<f64>; 7] {
    let numbers = READINGS * profile.numbers;
    let order = profile.tests - profile.numbers;
    let (sha, query) = (profile.sha, profile.query);
    let known = profile.crc + sha.unwrap_or(0.0) + numbers + order + query.unwrap_or(0.0);
    [
        Some(profile.crc),
        sha,
        Some(numbers),
        Some(order),
        query,
        Some(profile.whole - known),
        Some(profile.whole),
    ]
}

fn table(setting: &Setting, check: &Profile, lookup: &Profile) -> Table {
    let about = format!(
        "A check and a lookup of the large file, as in the tables below, and their parts, each called alone on the same blocks: medians of {} \
         checks, and over {} lookups. The CRC is taken block by block. The tests of a payload follow it, so that the block is in the caches: \
         once of the block, which is numbers and order, and once of a copy whose first record or key was raised above the second. There the \
         tests go on for the numbers alone, since order is lost already. The order is the difference of the two; the numbers count \
         twice, since a check and a lookup read them among the tests of a block and again on the walk. The query is what comparing the records \
         of a data block with the query takes beyond their numbers. The rest is the difference to the whole: header, names, the walk with its \
         entries, hash and lists, and what it takes to read the file from memory again; where that is little, the spread of the parts can make it \
         less than nothing.",
        setting.sizes.rounds, setting.sizes.lookups
    );
    let head = ["part", "check", "share", "one lookup", "share"];
    let mut table = Table::new("Where the time goes", &about, &head);
    let names = [
        "CRC-64 of the blocks",
        "SHA-256 of the data payloads",
        "numbers: those of records and entries, twice",
        "order: each record or key with the one before it",
        "query: each record of the data block with the query",
        "walk, names, lists and the rest",
        "the whole",
    ];
    let cells = |seconds: Option<f64>, whole: f64| {
        // Nothing is added to what is rounded, so that it has no sign.
        let share = |part: f64| format!("{} %", (100.0 * part / whole).round() + 0.0);
        let cells = seconds.map(|seconds| [time(seconds), share(seconds)]);
        cells.unwrap_or_else(|| ["-".to_string(), "-".to_string()])
    };
    for ((name, of_check), of_lookup) in names.iter().zip(rows(check)).zip(rows(lookup)) {
        let [check, check_share] = cells(of_check, check.whole);
        let [lookup, lookup_share] = cells(of_lookup, lookup.whole);
        table.add_row(&[name, &check, &check_share, &lookup, &lookup_share]);
    }
    table
}
