//! The check of a large plain file: against its checksums alone, the independent reader, `sha256sum` and `xz -t`.

use std::path::{Path, PathBuf};

use super::Setting;
use crate::archive::{Archive, Lists};
use crate::clock::{run_in_turn, side, Side};
use crate::foreign::{proved_crc64, proved_sha256};
use crate::others::{Call, Reference};
use crate::records::key;
use crate::report::{file_size, ratio, size, speed, time, Goal, Report, Table};

/// Measures all of it on the archive at `file`, which stands in memory too.
pub fn measure(setting: &Setting, archive: &mut Archive, file: &Path, report: &mut Report) {
    measure_in_process(setting, archive, file, report);
    measure_as_processes(setting, archive.bytes.len(), file, report);
}

fn measure_in_process(setting: &Setting, archive: &mut Archive, file: &Path, report: &mut Report) {
    let start = |program: &Path| Reference::start(program, &["check", &file.to_string_lossy()]);
    let mut portable = start(&setting.programs.portable);
    let mut accelerated = start(&setting.programs.accelerated);
    let answer = archive.check();
    let answer = [answer.number, answer.place, answer.blocks, answer.records];
    assert_eq!(portable.ask().answer, answer);
    assert_eq!(accelerated.ask().answer, answer);

    let copy = Archive::new(archive.bytes.clone(), setting.records.len());
    let (bytes, payloads) = (&copy.bytes, copy.payloads());
    let (middle, mut lists) = (
        key(&setting.records[setting.records.len() / 2]),
        Lists::default(),
    );
    assert_eq!(copy.read(middle, &mut lists), 1);
    let sides: Vec<Side> = vec![
        side(|| archive.check()),
        side(|| proved_crc64(bytes)),
        side(|| proved_sha256(&payloads)),
        Box::new(|| portable.ask().seconds),
        Box::new(|| accelerated.ask().seconds),
        side(|| copy.read(middle, &mut lists)),
    ];
    let times = run_in_turn(setting.sizes.rounds, sides);
    add_goals(&times, report);
    report.add_table(large_file_table(
        setting,
        &times,
        bytes.len(),
        payloads.len(),
    ));
}

fn add_goals(times: &[f64], report: &mut Report) {
    let (check, alone) = (times[0], times[1] + times[2]);
    let against = "check: speed against the independent reader";
    report.add_goal(
        "check of a large file: time against its CRC and SHA alone",
        check / alone,
        Goal::AtMost(1.2),
    );
    report.add_goal(
        &format!("{against}, portable checksums"),
        times[3] / check,
        Goal::AtLeast(1.0),
    );
    report.add_goal(
        &format!("{against}, SHA by the processor"),
        times[4] / check,
        Goal::None,
    );
}

fn large_file_table(setting: &Setting, times: &[f64], length: usize, hashed: usize) -> Table {
    let about = format!(
        "One archive of {}, {} records in data blocks of about 16 KiB, in memory. The work list has a place for each block \
         and is cleared within the time of the check. The independent reader runs in a process of its own and times itself.",
        size(length),
        setting.records.len()
    );
    let head = ["what", "time", "speed", "time of the check / this"];
    let mut table = Table::new("Check of a large file", &about, &head);
    let rows = [
        ("the proved check", times[0]),
        ("proved CRC-64 of the whole file, alone", times[1]),
        ("proved SHA-256 of the data payloads, alone", times[2]),
        ("both alone", times[1] + times[2]),
        ("independent reader, Rust -O, portable checksums", times[3]),
        (
            "independent reader, Rust -O, SHA by the processor",
            times[4],
        ),
        ("the proved reading front to back, for one record", times[5]),
    ];
    for (number, (what, seconds)) in rows.iter().enumerate() {
        let bytes = if number == 2 { hashed } else { length };
        table.add_row(&[
            what,
            &time(*seconds),
            &speed(bytes, *seconds),
            &ratio(times[0] / seconds),
        ]);
    }
    table
}

/// The check by a build of `zs`.
pub fn validate(zs: &Path, file: &Path) -> Call {
    Call::new(zs, &["validate", &file.to_string_lossy()])
}

fn measure_as_processes(setting: &Setting, length: usize, file: &Path, report: &mut Report) {
    let path = file.to_string_lossy();
    let packed = PathBuf::from(format!("{path}.xz"));
    Call::new("xz", &["--keep", "--check=crc64", &path]).run();
    let validate = validate(&setting.programs.zs, file);
    let sum = Call::new("sha256sum", &[&path]);
    let test = Call::new("xz", &["-t", &packed.to_string_lossy()]);
    let sides = [&validate, &sum, &test].map(|call| side(|| call.run()));
    let times = run_in_turn(setting.sizes.rounds, sides.into());
    report.add_goal(
        "`zs validate` as a process: time against `sha256sum`",
        times[0] / times[1],
        Goal::AtMost(1.0),
    );
    let about = format!(
        "The same file on disk, read before, each program started anew. The packed file has {}; its check is CRC-64 too.",
        file_size(&packed)
    );
    let mut table = Table::new(
        "Check as a process",
        &about,
        &["what", "time", "speed", "time of zs / this"],
    );
    for (what, seconds) in ["`zs validate`", "`sha256sum`", "`xz -t` of the packed file"]
        .iter()
        .zip(&times)
    {
        table.add_row(&[
            what,
            &time(*seconds),
            &speed(length, *seconds),
            &ratio(times[0] / seconds),
        ]);
    }
    report.add_table(table);
}
