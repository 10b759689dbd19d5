//! Lookups of one record among many: against the CRC of the blocks opened, LMDB, `sqlite3` and `look`.

use std::path::{Path, PathBuf};

use super::Setting;
use crate::archive::{Archive, Lists, OPENED_PLACES, RESULT_PLACES};
use crate::clock::{measure_time, median, run_in_turn, side, Side};
use crate::foreign::{proved_crc64, Lmdb};
use crate::others::{import_lines, Call};
use crate::records::{draw, key};
use crate::report::{file_size, ratio, time, Goal, Report, Table};

/// Measures all of it on the archive at `file`, which stands in memory too.
pub fn measure(setting: &Setting, archive: &Archive, file: &Path, report: &mut Report) {
    measure_in_process(setting, archive, report);
    measure_as_processes(setting, file, report);
}

/// Medians over the lookups within this process.
struct Within {
    search: f64,
    checksums: f64,
    lmdb: f64,
    opened: f64,
    bytes: f64,
}

fn measure_in_process(setting: &Setting, archive: &Archive, report: &mut Report) {
    let folder = setting.folder.join("lmdb");
    std::fs::create_dir(&folder).expect("a folder for LMDB");
    let lmdb = Lmdb::create(&folder, setting.records).expect("LMDB");
    let within = measure_lookups(setting, archive, &lmdb);
    report.add_goal(
        "one lookup: time against the CRC of the blocks it opens",
        within.search / within.checksums,
        Goal::AtMost(1.2),
    );
    report.add_table(within_table(setting, &within));
}

fn measure_lookups(setting: &Setting, archive: &Archive, lmdb: &Lmdb) -> Within {
    let mut columns = vec![Vec::new(); 5];
    let mut lists = Lists::default();
    for record in draw(setting.records, setting.sizes.lookups) {
        let found = archive.lookup(key(record));
        assert_eq!(found.records, [record]);
        assert_eq!(lmdb_finds(lmdb, key(record)), [record]);
        let lengths = found.opened.iter().map(|block| block.len());
        let row = [
            measure_time(|| archive.search(key(record), &mut lists)),
            measure_time(|| found.opened.iter().map(|block| proved_crc64(block)).max()),
            measure_time(|| lmdb_finds(lmdb, key(record)).len()),
            found.opened.len() as f64,
            lengths.sum::<usize>() as f64,
        ];
        for (column, cell) in columns.iter_mut().zip(row) {
            column.push(cell);
        }
    }
    let medians: Vec<f64> = columns.into_iter().map(median).collect();
    Within {
        search: medians[0],
        checksums: medians[1],
        lmdb: medians[2],
        opened: medians[3],
        bytes: medians[4],
    }
}

fn within_table(setting: &Setting, within: &Within) -> Table {
    let about = format!(
        "{} lookups of records drawn from {}, by a prefix that one record has; medians. A lookup opened {} blocks of \
         {:.1} KiB together. It clears and fills an opened list of {OPENED_PLACES} places and a result list of \
         {RESULT_PLACES} within the time. The same lookup goes before it, untimed, so that the caches are warm for all. \
         LMDB keeps a read transaction and a cursor open, has the whole records as keys, and looks at no checksum.",
        setting.sizes.lookups,
        setting.records.len(),
        within.opened,
        within.bytes / 1024.0
    );
    let head = ["what", "time", "time of the search / this"];
    let mut table = Table::new("One lookup within a process", &about, &head);
    let rows = [
        ("the proved search", within.search),
        (
            "proved CRC-64 of the opened blocks, alone",
            within.checksums,
        ),
        ("LMDB", within.lmdb),
    ];
    for (what, seconds) in rows {
        table.add_row(&[what, &time(seconds), &ratio(within.search / seconds)]);
    }
    table
}

fn lmdb_finds<'a>(lmdb: &'a Lmdb, prefix: &[u8]) -> Vec<&'a [u8]> {
    let mut found = Vec::new();
    lmdb.lookup(prefix, |record| found.push(record));
    found
}

/// The same records as three files: the archive, a database of sqlite3, and sorted lines.
struct Files {
    archive: PathBuf,
    database: PathBuf,
    lines: PathBuf,
}

impl Files {
    fn make(setting: &Setting, archive: &Path) -> Self {
        let files = Files {
            archive: archive.to_path_buf(),
            database: setting.folder.join("records.db"),
            lines: setting.lines.to_path_buf(),
        };
        import_lines(&files.lines, &files.database).run();
        files
    }

    fn zs(&self, setting: &Setting, prefix: &str) -> Call {
        let words = [
            "dump",
            "--unchecked",
            "--prefix",
            prefix,
            &self.archive.to_string_lossy(),
        ];
        Call::new(&setting.programs.zs, &words)
    }

    /// All records from the prefix up to the least string that is above all that begin with it.
    fn sqlite3(&self, prefix: &str) -> Call {
        let end = format!("{}{}", &prefix[..prefix.len() - 1], next_letter(prefix));
        let query =
            format!("select record from records where record >= '{prefix}' and record < '{end}'");
        Call::new(
            "sqlite3",
            &["-readonly", &self.database.to_string_lossy(), &query],
        )
    }

    fn look(&self, prefix: &str) -> Call {
        Call::new("look", &[prefix, &self.lines.to_string_lossy()])
    }
}

/// The character after the last one of a prefix, which is a digit here.
fn next_letter(prefix: &str) -> char {
    prefix
        .bytes()
        .last()
        .map_or('0', |last| char::from(last + 1))
}

fn measure_as_processes(setting: &Setting, archive: &Path, report: &mut Report) {
    let files = Files::make(setting, archive);
    let mut times = vec![Vec::new(); 3];
    for record in draw(setting.records, setting.sizes.processes) {
        let prefix = String::from_utf8_lossy(key(record)).into_owned();
        let calls = [
            files.zs(setting, &prefix),
            files.sqlite3(&prefix),
            files.look(&prefix),
        ];
        let line = [record, b"\n"].concat();
        for call in &calls {
            assert_eq!(call.output(), line);
        }
        let sides: Vec<Side> = calls.iter().map(|call| side(|| call.run())).collect();
        for (times, seconds) in times.iter_mut().zip(run_in_turn(1, sides)) {
            times.push(seconds);
        }
    }
    let times: Vec<f64> = times.into_iter().map(median).collect();
    report.add_goal(
        "`zs dump --unchecked --prefix` as a process: time against `sqlite3`",
        times[0] / times[1],
        Goal::AtMost(1.0),
    );
    report.add_table(process_table(setting, &files, &times));
}

fn process_table(setting: &Setting, files: &Files, times: &[f64]) -> Table {
    let about = format!(
        "{} lookups of one record among {}, each program started anew, its files read before; medians. \
         The database has the records as its primary key and nothing else.",
        setting.sizes.processes,
        setting.records.len()
    );
    let head = ["what", "file", "time", "time of zs / this"];
    let mut table = Table::new("One lookup as a process", &about, &head);
    let rows = [
        ("`zs dump --unchecked --prefix`", &files.archive),
        (
            "`sqlite3 -readonly`, `where record >= .. and record < ..`",
            &files.database,
        ),
        ("`look` in sorted lines", &files.lines),
    ];
    for ((what, path), seconds) in rows.iter().zip(times) {
        table.add_row(&[
            what,
            &file_size(path),
            &time(*seconds),
            &ratio(times[0] / seconds),
        ]);
    }
    table
}
