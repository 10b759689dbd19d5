//! How many records a data block and how many entries an index block should hold: length of the file, check and lookup.

use zs_library::Counts;

use super::{measure_search, Setting};
use crate::archive::{blocks, Archive};
use crate::clock::{run_in_turn, side, Side};
use crate::input::Input;
use crate::records::without_addresses;
use crate::report::{size, time, Report, Table};

/// How many entries index blocks have.
const ENTRIES: [u64; 6] = [8, 16, 32, 64, 128, 256];
/// Those of the files whose length and check are shown.
const USUAL_ENTRIES: u64 = 16;

/// Records, and how many of them make data blocks of 1 to 32 KiB.
struct Kind<'a> {
    records: &'a [Vec<u8>],
    input: Input,
    to_a_block: [u64; 6],
}

impl<'a> Kind<'a> {
    fn new(records: &'a [Vec<u8>], to_a_block: [u64; 6]) -> Self {
        Kind {
            records,
            input: Input::new(records),
            to_a_block,
        }
    }

    /// An archive that the check accepts.
    fn archive(&self, per_block: u64, per_index: u64) -> Archive {
        let counts = Counts {
            per_block,
            per_index,
        };
        Archive::new(self.input.file(counts), self.records.len())
    }

    /// Bytes of a record with its length, on average.
    fn mean(&self) -> f64 {
        self.input.bytes.len() as f64 / self.records.len() as f64
    }
}

/// Measures the records of the large archive, and the same without addresses.
pub fn measure(setting: &Setting, report: &mut Report) {
    let short = without_addresses(setting.records);
    let kinds = [
        Kind::new(setting.records, [16, 32, 64, 128, 256, 512]),
        Kind::new(&short, [32, 64, 128, 256, 512, 1024]),
    ];
    for kind in kinds {
        report.add_table(measure_kind(setting, &kind));
    }
}

fn measure_kind(setting: &Setting, kind: &Kind) -> Table {
    let usual = |per_block: &u64| kind.archive(*per_block, USUAL_ENTRIES);
    let mut archives: Vec<Archive> = kind.to_a_block.iter().map(usual).collect();
    let sides: Vec<Side> = archives
        .iter_mut()
        .map(|archive| side(|| archive.check()))
        .collect();
    let checks = run_in_turn(setting.sizes.rounds, sides);
    let mut table = empty_table(kind, &archives[0]);
    for ((per_block, archive), check) in kind.to_a_block.iter().zip(&archives).zip(checks) {
        let mut cells = vec![
            per_block.to_string(),
            kibibytes(*per_block, kind.mean()),
            length(kind, archive),
            time(check),
        ];
        cells.extend(ENTRIES.map(|entries| lookup(setting, kind, *per_block, entries)));
        let cells: Vec<&str> = cells.iter().map(String::as_str).collect();
        table.add_row(&cells);
    }
    table
}

/// How long so many items are together.
fn kibibytes(items: u64, mean: f64) -> String {
    format!("{:.1} KiB", items as f64 * mean / 1024.0)
}

/// The length of the file, and by how much it is longer than the input.
fn length(kind: &Kind, archive: &Archive) -> String {
    let (file, input) = (archive.bytes.len(), kind.input.bytes.len());
    let more = 100.0 * (file as f64 / input as f64 - 1.0);
    format!("{} (+{more:.1} %)", size(file))
}

/// The time of a lookup, and how many blocks it opens.
fn lookup(setting: &Setting, kind: &Kind, per_block: u64, entries: u64) -> String {
    let archive = kind.archive(per_block, entries);
    let searched = measure_search(setting, &archive, kind.records);
    format!("{} ({:.0})", time(searched.seconds), searched.blocks)
}

/// Bytes of an entry, on average: each block but the root has one.
fn mean_entry(archive: &Archive) -> f64 {
    let index = blocks(&archive.bytes).filter(|block| block[0] > 0);
    let bytes: usize = index.map(|block| block.len() - 1).sum();
    bytes as f64 / (archive.blocks() - 1) as f64
}

fn empty_table(kind: &Kind, archive: &Archive) -> Table {
    let (record, entry) = (kind.mean() - 1.0, mean_entry(archive));
    let about = format!(
        "{} records of about {record:.0} bytes, in files of the proved writer. File and check: with {USUAL_ENTRIES} entries to an index block; \
         in brackets by how much the file is longer than the writer's input. Lookup: one record in memory, by a prefix that only it has, \
         with so many entries to an index block; in brackets how many blocks it opens. An entry has about {entry:.0} bytes, so index blocks \
         have {} to {}. The lists of a lookup are those above, cleared and filled within the time.",
        kind.records.len(),
        kibibytes(ENTRIES[0], entry),
        kibibytes(ENTRIES[ENTRIES.len() - 1], entry)
    );
    let title = format!("Data blocks of 1 to 32 KiB, records of {record:.0} bytes");
    let columns = ["records to a data block", "data block", "file", "check"];
    let lookups = ENTRIES.map(|entries| format!("lookup, {entries} entries"));
    let head: Vec<&str> = columns
        .into_iter()
        .chain(lookups.iter().map(String::as_str))
        .collect();
    Table::new(&title, &about, &head)
}
