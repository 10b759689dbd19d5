//! Whole commands against an earlier build of `zs`, if one is named.

use std::path::Path;

use super::checking::validate;
use super::writing::{make, Making};
use super::Setting;
use crate::clock::{median, median_ratio, side, time_in_turn, Side};
use crate::others::{version, Call};
use crate::report::{file_size, ratio, time, Report, Table};
use crate::shapes::Shape;

/// Measures `zs validate` of the large archive at `file` and of one with a block for each record, and `zs make`.
pub fn measure(setting: &Setting, file: &Path, report: &mut Report) {
    if let Some(before) = &setting.programs.before {
        let tiny = setting.folder.join("tiny.zs");
        std::fs::write(&tiny, Shape::Tiny.archive(setting.records)).expect("room for the archive");
        let builds = [before, setting.programs.zs.as_path()];
        report.add_table(measure_builds(setting, builds, [file, &tiny]));
    }
}

/// The builds take turns, the earlier one first.
fn measure_builds(setting: &Setting, builds: [&Path; 2], files: [&Path; 2]) -> Table {
    let checks = files.map(|file| builds.map(|zs| validate(zs, file)));
    let names = ["made-before.zs", "made-now.zs"];
    let makings = [0, 1].map(|number| make(setting, builds[number], names[number]));
    compare(setting, &makings);
    let checks = checks.iter().flatten().map(|call| side(|| call.run()));
    let sides: Vec<Side> = checks.chain(makings.iter().map(Making::side)).collect();
    let times = time_in_turn(setting.sizes.close_rounds, sides);
    let validated =
        [Shape::Plain, Shape::Tiny].map(|shape| format!("`zs validate`, {}", shape.name()));
    let rows = [
        (validated[0].as_str(), files[0]),
        (&validated[1], files[1]),
        ("`zs make`", &makings[1].made),
    ];
    let mut table = empty_table(builds);
    for ((what, file), pair) in rows.iter().zip(times.chunks(2)) {
        table.add_row(&[
            what,
            &file_size(file),
            &time(median(pair[0].clone())),
            &time(median(pair[1].clone())),
            &ratio(median_ratio(&pair[0], &pair[1])),
        ]);
    }
    table
}

/// Both archives give the lines back.
fn compare(setting: &Setting, makings: &[Making; 2]) {
    let lines = std::fs::read(setting.lines).expect("the lines");
    for making in makings {
        making.call.run();
        let made = making.made.to_string_lossy();
        let dump = Call::new(&setting.programs.zs, &["dump", &made]);
        assert!(dump.output() == lines);
    }
}

fn empty_table(builds: [&Path; 2]) -> Table {
    let [before, now] = builds.map(|zs| version(&zs.to_string_lossy(), "--version"));
    // A version that both have doesn't tell them apart.
    let before = if before == now || before == "unknown" {
        "the `zs` in the folder that `BEFORE` named".to_string()
    } else {
        format!("`{before}`")
    };
    let about = format!(
        "Before: {before}. Now: the `zs` of this build. Each is started anew. `zs validate` reads the large file and one of the same records \
         with a block for each, both read before. `zs make` is called as above, and both builds' files give the same lines back."
    );
    let head = ["what", "file", "before", "now", "speed now / before"];
    Table::new("Against an earlier build, as processes", &about, &head)
}
