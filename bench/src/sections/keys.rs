//! What the shortest keys save: index, file and lookup, against the same layout with whole records as keys.

use zs_library::Counts;
use zs_reference::maker::encode;
use zs_reference::writer::{self, shortest_key, whole_record, KeyRule};

use super::{measure_searches, Searched, Setting};
use crate::archive::{blocks, Archive};
use crate::input::{Input, METADATA};
use crate::records::notes;
use crate::report::{ratio, size, time, Goal, Report, Table};

/// Entries to an index block, as usual.
const ENTRIES: u64 = 16;
/// How much notes begin alike with in the last rows.
const HEAD: usize = 1024;

/// Records in a layout.
struct Kind<'a> {
    what: &'static str,
    records: &'a [Vec<u8>],
    per_block: u64,
}

/// Measures the records of the large archive, notes, and notes that begin alike.
pub fn measure(setting: &Setting, report: &mut Report) {
    let plain = notes(setting.sizes.notes, "");
    let alike = notes(setting.sizes.notes, &"-".repeat(HEAD));
    // As many to a block as `zs make` puts there; of notes also sixteen, the least it put there before.
    let kinds = [
        ("records", setting.records, 64),
        ("notes", &plain, 1),
        ("notes", &plain, 16),
        ("notes that begin alike", &alike, 4),
    ];
    let kinds = kinds.map(|(what, records, per_block)| Kind {
        what,
        records,
        per_block,
    });
    let mut table = empty_table();
    for kind in kinds {
        measure_kind(setting, &kind, &mut table, report);
    }
    report.add_table(table);
}

fn measure_kind(setting: &Setting, kind: &Kind, table: &mut Table, report: &mut Report) {
    let input = Input::new(kind.records);
    let counts = Counts {
        per_block: kind.per_block,
        per_index: ENTRIES,
    };
    let shortest = Archive::new(input.file(counts), kind.records.len());
    assert!(shortest.bytes == second_file(shortest_key, &input, counts));
    let whole = second_file(whole_record, &input, counts);
    let whole = Archive::new(whole, kind.records.len());
    let [after, before] = measure_searches(setting, [&shortest, &whole], kind.records);
    let (number, per_block) = (kind.records.len(), kind.per_block);
    let what = format!("{number} {}, {per_block} to a block", kind.what);
    report.add_goal(
        &format!("lookups of {what}: speed against whole records as keys"),
        before.seconds / after.seconds,
        Goal::AtLeast(1.0),
    );
    let mean = input.bytes.len() / number;
    let what = format!("{what}, {mean} bytes each");
    add_row(table, [&what, "the shortest"], &shortest, &after, &before);
    add_row(table, [&what, "whole records"], &whole, &before, &before);
}

/// The file that the second writer makes, with keys by this rule.
fn second_file(rule: KeyRule, input: &Input, counts: Counts) -> Vec<u8> {
    let counts = writer::Counts {
        per_block: counts.per_block,
        per_index: counts.per_index,
    };
    let metadata = METADATA.as_bytes();
    let file = writer::write_by(rule, metadata, &input.bytes, counts, usize::MAX);
    file.expect("sound records")
}

/// The bytes of all index blocks, with their lengths and checksums.
fn index_length(file: &[u8]) -> usize {
    let index = blocks(file).filter(|block| block[0] > 0);
    let lengths = index.map(|block| encode(block.len() as u64).len() + block.len() + 8);
    lengths.sum()
}

fn add_row(
    table: &mut Table,
    words: [&str; 2],
    archive: &Archive,
    now: &Searched,
    before: &Searched,
) {
    let [what, keys] = words;
    table.add_row(&[
        what,
        keys,
        &length(index_length(&archive.bytes)),
        &size(archive.bytes.len()),
        &format!("{:.0}", now.blocks),
        &length(now.bytes as usize),
        &time(now.seconds),
        &format!("{:.0}", 1.0 / now.seconds),
        &ratio(before.seconds / now.seconds),
    ]);
}

fn length(bytes: usize) -> String {
    match bytes {
        0..=999_999 => format!("{:.1} kB", bytes as f64 / 1e3),
        _ => size(bytes),
    }
}

fn empty_table() -> Table {
    let about = format!(
        "Two files of the same layout, with {ENTRIES} entries to an index block: one of the proved writer, and one of the second writer with \
         the first record of each block as its key, as it was before. The check accepts both, and both give the same records. The last notes \
         begin with the same {HEAD} bytes. Lookup: one record in memory, by a prefix that only it has, by turns in both files; medians, with \
         the blocks that it opened and their bytes. The lists of a lookup are those above, cleared and filled within the time."
    );
    let head = [
        "records",
        "keys",
        "index",
        "file",
        "blocks opened",
        "their bytes",
        "lookup",
        "lookups per second",
        "speed / whole records",
    ];
    Table::new("Keys: the shortest, and whole records", &about, &head)
}
