//! Writing a large file: against its checksums and copies alone and the second writer, and as a process against `sqlite3`, `sort -c` and `xz`.

use std::path::{Path, PathBuf};

use zs_library::Counts;

use super::Setting;
use crate::archive::{blocks, Archive};
use crate::clock::{measure_time, run_in_turn, side, Side};
use crate::foreign::{proved_crc64, proved_sha256};
use crate::input::{Input, METADATA};
use crate::others::{import_lines, Call, Reference};
use crate::report::{file_size, ratio, size, speed, time, Goal, Report, Table};
use crate::shapes::{FAN_OUT, TO_A_BLOCK};

/// Those of the large archive.
pub const COUNTS: Counts = Counts {
    per_block: TO_A_BLOCK as u64,
    per_index: FAN_OUT as u64,
};

/// Measures all of it on the records of the large archive.
pub fn measure(setting: &Setting, report: &mut Report) {
    let input = Input::new(setting.records);
    let archive = Archive::new(input.file(COUNTS), setting.records.len());
    measure_in_process(setting, &input, &archive.bytes, report);
    measure_as_processes(setting, &archive.bytes, report);
}

fn measure_in_process(setting: &Setting, input: &Input, file: &[u8], report: &mut Report) {
    let mut portable = start_writer(setting, &setting.programs.portable, input, file);
    let mut accelerated = start_writer(setting, &setting.programs.accelerated, input, file);
    let blocks: Vec<&[u8]> = blocks(file).collect();
    let (mut output, mut copies) = (vec![0; file.len()], (file.to_vec(), file.to_vec()));
    input.write(COUNTS, &mut output);
    assert!(output == file);
    assert_eq!(input.write(COUNTS, &mut []).number, 31);
    let sides: Vec<Side> = vec![
        side(|| input.write(COUNTS, &mut output)),
        side(|| blocks.iter().map(|block| proved_crc64(block)).max()),
        side(|| proved_sha256(&input.bytes)),
        side(|| copy_twice(file, &mut copies)),
        side(|| input.write(COUNTS, &mut [])),
        Box::new(|| portable.ask().seconds),
        Box::new(|| accelerated.ask().seconds),
    ];
    let times = run_in_turn(setting.sizes.rounds, sides);
    add_goals(&times, report);
    report.add_table(large_file_table(setting, &times, file.len()));
}

/// The second writer in a process of its own, which has made the same file once.
fn start_writer(setting: &Setting, program: &Path, input: &Input, file: &[u8]) -> Reference {
    let paths = ["records.input", "written.zs"].map(|name| setting.folder.join(name));
    std::fs::write(&paths[0], &input.bytes).expect("room for the input");
    std::fs::write(&paths[1], file).expect("room for the file");
    let words = [
        "write",
        &paths[0].to_string_lossy(),
        &COUNTS.per_block.to_string(),
        &COUNTS.per_index.to_string(),
        &paths[1].to_string_lossy(),
    ];
    let mut writer = Reference::start(program, &words);
    assert_eq!(writer.ask().answer, [1]);
    writer
}

/// A copy, and a copy of the copy.
fn copy_twice(bytes: &[u8], (first, second): &mut (Vec<u8>, Vec<u8>)) -> Option<u8> {
    first.copy_from_slice(bytes);
    second.copy_from_slice(first);
    second.last().copied()
}

fn add_goals(times: &[f64], report: &mut Report) {
    let parts = times[1] + times[2] + times[3];
    report.add_goal(
        "writing a large file: time against its CRC, its SHA and two copies alone",
        times[0] / parts,
        Goal::AtMost(1.3),
    );
    report.add_goal(
        "writing a large file: time against these and the tests of the input alone",
        times[0] / (parts + times[4]),
        Goal::None,
    );
    let against = "writing: speed against the second writer";
    for (checksums, seconds) in [
        ("portable checksums", times[5]),
        ("SHA by the processor", times[6]),
    ] {
        report.add_goal(
            &format!("{against}, {checksums}"),
            seconds / times[0],
            Goal::None,
        );
    }
}

fn large_file_table(setting: &Setting, times: &[f64], length: usize) -> Table {
    let about = format!(
        "A file of {}: {} records, {} to a data block (about 16 KiB), {} entries to an index block. The output is as long as the file; \
         the writer clears it first, within the time. The tests of the input are the writer's own: it was lent an output of no bytes, and so \
         read each record's number, compared each record with the one before it (28, 29), and gave 31. The second writer runs in a process of \
         its own and times itself.",
        size(length),
        setting.records.len(),
        COUNTS.per_block,
        COUNTS.per_index
    );
    let head = ["what", "time", "speed", "time of the writer / this"];
    let mut table = Table::new("Writing a large file", &about, &head);
    let parts = times[1] + times[2] + times[3];
    let rows = [
        ("the proved writer", times[0]),
        ("proved CRC-64 of the blocks, alone", times[1]),
        ("proved SHA-256 of the input, alone", times[2]),
        ("two copies of the file in memory", times[3]),
        ("these three", parts),
        ("the proved tests of the input, alone", times[4]),
        ("these four", parts + times[4]),
        ("second writer, Rust -O, portable checksums", times[5]),
        ("second writer, Rust -O, SHA by the processor", times[6]),
    ];
    for (what, seconds) in rows {
        table.add_row(&[
            what,
            &time(seconds),
            &speed(length, seconds),
            &ratio(times[0] / seconds),
        ]);
    }
    table
}

/// A call that makes a file, and the file.
pub struct Making {
    /// The call.
    pub call: Call,
    /// The file.
    pub made: PathBuf,
}

impl Making {
    /// A side that makes the file anew each time.
    pub fn side(&self) -> Side<'_> {
        Box::new(|| {
            // The first time there is none.
            let _ = std::fs::remove_file(&self.made);
            measure_time(|| self.call.run())
        })
    }
}

/// A build of `zs` makes an archive of the lines, under this name.
pub fn make(setting: &Setting, zs: &Path, name: &str) -> Making {
    let counts = [COUNTS.per_block, COUNTS.per_index].map(|count| count.to_string());
    let counts = [
        "--records-per-block",
        &counts[0],
        "--entries-per-block",
        &counts[1],
    ];
    make_with(setting, zs, name, &counts)
}

/// The same with the counts that `zs make` chooses.
pub fn make_usual(setting: &Setting, zs: &Path, name: &str) -> Making {
    make_with(setting, zs, name, &[])
}

fn make_with(setting: &Setting, zs: &Path, name: &str, counts: &[&str]) -> Making {
    let made = setting.folder.join(name);
    let (lines, path) = (setting.lines.to_string_lossy(), made.to_string_lossy());
    let words = [&["make", METADATA, &lines, &path], counts].concat();
    let call = Call::new(zs, &words);
    Making { call, made }
}

/// `zs make`, `sqlite3` and `xz -0`, each of the same lines.
fn makings(setting: &Setting) -> [Making; 3] {
    let lines = setting.lines.to_string_lossy();
    let archive = make(setting, &setting.programs.zs, "made.zs");
    let made = setting.folder.join("made.db");
    let call = import_lines(setting.lines, &made);
    let database = Making { call, made };
    let call = Call::new("xz", &["-0", "--keep", &lines]);
    let made = PathBuf::from(format!("{lines}.xz"));
    let packed = Making { call, made };
    [archive, database, packed]
}

/// The archive is the file that the writer makes in memory, and the two others give the lines back.
fn compare(setting: &Setting, [archive, database, packed]: &[Making; 3], file: &[u8]) {
    let lines = std::fs::read(setting.lines).expect("the lines");
    assert!(std::fs::read(&archive.made).expect("the archive") == file);
    let base = database.made.to_string_lossy();
    let select = Call::new("sqlite3", &["-readonly", &base, "select * from records"]);
    assert!(select.output() == lines);
    let unpack = Call::new("xz", &["-dc", &packed.made.to_string_lossy()]);
    assert!(unpack.output() == lines);
}

fn measure_as_processes(setting: &Setting, file: &[u8], report: &mut Report) {
    let makings = makings(setting);
    for making in &makings {
        making.call.run();
    }
    compare(setting, &makings, file);
    let sort = Call::new("sort", &["-c", &setting.lines.to_string_lossy()]);
    let mut sides: Vec<Side> = makings.iter().map(Making::side).collect();
    sides.push(side(|| sort.run()));
    let times = run_in_turn(setting.sizes.rounds, sides);
    let others = [
        ("`sqlite3` importing the same lines", times[1]),
        ("`sort -c` and `xz -0`", times[3] + times[2]),
    ];
    for (what, seconds) in others {
        let what = format!("`zs make` as a process: time against {what}");
        report.add_goal(&what, times[0] / seconds, Goal::None);
    }
    report.add_table(process_table(setting, &makings, &times));
}

fn process_table(setting: &Setting, makings: &[Making; 3], times: &[f64]) -> Table {
    let about = format!(
        "{} sorted lines of {} together, read before; each program started anew, without the file that it makes. The database has the lines \
         as its primary key and nothing else. `zs make` and `sqlite3` wait until their file is on the disk; `xz` doesn't.",
        setting.records.len(),
        file_size(setting.lines)
    );
    let head = ["what", "file", "time", "time of zs / this"];
    let mut table = Table::new("Making an archive as a process", &about, &head);
    let sizes = [0, 1, 2].map(|number| file_size(&makings[number].made));
    let rows = [
        ("`zs make`", sizes[0].as_str(), times[0]),
        ("`sqlite3`, `.import`", &sizes[1], times[1]),
        ("`sort -c`", "-", times[3]),
        ("`xz -0`", &sizes[2], times[2]),
        ("`sort -c` and `xz -0`", &sizes[2], times[3] + times[2]),
    ];
    for (what, file, seconds) in rows {
        table.add_row(&[what, file, &time(seconds), &ratio(times[0] / seconds)]);
    }
    table
}
