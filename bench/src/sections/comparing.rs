//! Comparing two archives: against their checks and checksums alone, and as a process against `comm` and `diff` of the same records as lines.

use zs_library::{check, compare, shown, Compared};

use super::Setting;
use crate::archive::Archive;
use crate::backups::{differences, Difference, Kind};
use crate::clock::{median, median_ratio, run_in_turn, side, time_in_turn, Side};
use crate::foreign::{proved_crc64, proved_sha256};
use crate::input::Input;
use crate::others::Call;
use crate::records::lines;
use crate::report::{ratio, size, time, Goal, Report, Table};

/// Numbers on the list for each difference.
const NUMBERS: usize = 5;
/// How `zs compare` ends where archives differ, and `diff` where files do.
const ZS_DIFFERENT: i32 = 3;
const DIFF_DIFFERENT: i32 = 1;

/// Two archives in memory, with lists that are just as long as they have to be.
struct Pair {
    archives: [Archive; 2],
    work: Vec<u64>,
    list: Vec<u64>,
}

/// What two archives took.
struct Times {
    kind: Kind,
    differences: usize,
    whole: f64,
    checks: f64,
    checksums: f64,
    /// The time of the comparison by that of the checks, within a round.
    against_checks: f64,
    /// What the comparison takes beyond the checks, within a round.
    merge: f64,
}

/// Measures backups of as many records as the large archive has.
pub fn measure(setting: &Setting, report: &mut Report) {
    let mut all = Vec::new();
    let mut processes = None;
    for kind in Kind::ALL {
        let lists = kind.records(setting.records);
        let due = differences(&lists);
        let mut pair = Pair::new(kind, &lists, &due);
        all.push(pair.measure(setting, kind));
        if kind == Kind::Later {
            processes = Some(measure_as_processes(setting, &pair, &lists, &due));
        }
    }
    add_goals(&all, report);
    report.add_table(table(setting, &all));
    if let Some((ratio, table)) = processes {
        let what =
            "`zs compare` of two backups as a process: time against `comm -3` of the same lines";
        report.add_goal(what, ratio, Goal::None);
        report.add_table(table);
    }
}

impl Pair {
    /// Makes both archives. The library lists what is due.
    fn new(kind: Kind, lists: &[Vec<Vec<u8>>; 2], due: &[Difference]) -> Self {
        let counts = kind.counts();
        let archives = [0, 1].map(|number| {
            let records: &[Vec<u8>] = &lists[number];
            Archive::new(Input::new(records).file(counts[number]), records.len())
        });
        let mut pair = Pair {
            work: vec![0; archives[0].blocks().max(archives[1].blocks())],
            list: vec![0; NUMBERS * due.len()],
            archives,
        };
        let answer = pair.compare();
        let sum = lists[1].len() as i64 - lists[0].len() as i64;
        assert_eq!((answer.number, answer.sum), (0, sum));
        assert_eq!(answer.differences, due.len() as u64);
        assert!(pair.listed().eq(due.iter().copied()));
        pair
    }

    fn compare(&mut self) -> Compared {
        let [first, second] = &self.archives;
        compare(&first.bytes, &second.bytes, &mut self.work, &mut self.list)
    }

    /// What the list says.
    fn listed(&self) -> impl Iterator<Item = Difference<'_>> {
        let [first, second] = &self.archives;
        self.list.chunks(NUMBERS).map(move |numbers| {
            let (which, offset, length) = (numbers[0], numbers[1], numbers[2]);
            let record = shown(&first.bytes, &second.bytes, which, offset, length);
            (record, [numbers[3], numbers[4]])
        })
    }

    fn measure(&mut self, setting: &Setting, kind: Kind) -> Times {
        let [first, second] = &self.archives;
        let (one, other) = (&first.bytes, &second.bytes);
        let payloads = (first.payloads(), second.payloads());
        let mut works = (vec![0; first.blocks()], vec![0; second.blocks()]);
        let (work, list) = (&mut self.work, &mut self.list);
        let differences = list.len() / NUMBERS;
        let sides: Vec<Side> = vec![
            side(|| compare(one, other, work, list)),
            side(|| (check(one, &mut works.0), check(other, &mut works.1))),
            side(|| (proved_crc64(one), proved_crc64(other))),
            side(|| (proved_sha256(&payloads.0), proved_sha256(&payloads.1))),
        ];
        let times = time_in_turn(setting.sizes.rounds, sides);
        let against_checks = median_ratio(&times[0], &times[1]);
        let rounds = times[0].iter().zip(&times[1]);
        let merge = median(rounds.map(|(whole, checks)| whole - checks).collect());
        let medians: Vec<f64> = times.into_iter().map(median).collect();
        Times {
            kind,
            differences,
            whole: medians[0],
            checks: medians[1],
            checksums: medians[2] + medians[3],
            against_checks,
            merge,
        }
    }
}

fn add_goals(all: &[Times], report: &mut Report) {
    for times in all {
        report.add_goal(
            &format!(
                "comparison, {}: time against both checks",
                times.kind.name()
            ),
            times.against_checks,
            Goal::AtMost(1.5),
        );
    }
    report.add_goal(
        &format!(
            "comparison, {}: time against the CRC and SHA of both alone",
            all[0].kind.name()
        ),
        all[0].whole / all[0].checksums,
        Goal::None,
    );
}

fn table(setting: &Setting, all: &[Times]) -> Table {
    let about = format!(
        "Two archives of {} records each in memory, in data blocks of about 16 KiB unless another size is named. The comparison checks both and \
         then goes over the records of both at once. Its lists are just as long as they have to be, and are cleared within the time. The checks \
         are those of the same two archives, and so are CRC-64 of the whole file and SHA-256 of the data payloads, alone. The merge is what a \
         comparison takes beyond the two checks; it and the ratio to the checks are medians over the rounds of what is so within a round.",
        setting.sizes.records
    );
    let head = [
        "the second archive",
        "differences",
        "the proved comparison",
        "both checks",
        "time / both checks",
        "CRC and SHA of both",
        "time / these",
        "the merge",
        "share",
    ];
    let mut table = Table::new("Comparing two archives", &about, &head);
    for times in all {
        table.add_row(&[
            times.kind.name(),
            &times.differences.to_string(),
            &time(times.whole),
            &time(times.checks),
            &ratio(times.against_checks),
            &time(times.checksums),
            &ratio(times.whole / times.checksums),
            &time(times.merge),
            // Nothing is added to what is rounded, so that it has no sign.
            &format!("{} %", (100.0 * times.merge / times.whole).round() + 0.0),
        ]);
    }
    table
}

/// Measures the command, `comm` and `diff`, which find the same records. Gives the time of the command by that of `comm`, and the table.
fn measure_as_processes(
    setting: &Setting,
    pair: &Pair,
    lists: &[Vec<Vec<u8>>; 2],
    due: &[Difference],
) -> (f64, Table) {
    let put = |name: String, bytes: &[u8]| {
        let file = setting.folder.join(name);
        std::fs::write(&file, bytes).expect("room for a file");
        file.to_string_lossy().into_owned()
    };
    let archives = [0, 1].map(|n| put(format!("backup-{n}.zs"), &pair.archives[n].bytes));
    let texts = [0, 1].map(|n| put(format!("backup-{n}.txt"), &lines(&lists[n])));
    let zs = &setting.programs.zs;
    let compare = Call::new(zs, &["compare", &archives[0], &archives[1]]).ending(ZS_DIFFERENT);
    let validate = Call::new(zs, &["validate", &archives[0], &archives[1]]);
    let comm = Call::new("comm", &["-3", &texts[0], &texts[1]]);
    let diff = Call::new("diff", &[&texts[0], &texts[1]]).ending(DIFF_DIFFERENT);
    assert!(compare.output() == compare_lines(due));
    assert!(comm.output() == comm_lines(due));
    assert!(sorted_diff_lines(&diff.output()) == sorted_diff_lines(&diff_lines(due)));
    let calls = [&compare, &validate, &comm, &diff];
    let sides = calls.map(|call| side(|| call.run()));
    let times = run_in_turn(setting.sizes.rounds, sides.into());
    let length = pair.archives[0].bytes.len();
    (
        times[0] / times[2],
        process_table(&times, length, due.len()),
    )
}

fn process_table(times: &[f64], length: usize, differences: usize) -> Table {
    let about = format!(
        "The archives of the first row above on disk, {} each, and the same records as lines, all read before; each program is started anew and \
         writes to /dev/null. {differences} records differ, and all three find the same. `comm` and `diff`, with LC_ALL=C, look at no checksum.",
        size(length)
    );
    let head = ["what", "time", "time of `zs compare` / this"];
    let mut table = Table::new("Comparing as a process", &about, &head);
    let names = [
        "`zs compare`",
        "`zs validate` of both",
        "`comm -3` of the lines",
        "`diff` of the lines",
    ];
    for (what, seconds) in names.iter().zip(times) {
        table.add_row(&[what, &time(*seconds), &ratio(times[0] / seconds)]);
    }
    table
}

/// What `zs compare` writes. Of the bytes of these records only the tab is an escape.
fn compare_lines(due: &[Difference]) -> Vec<u8> {
    let lines = due.iter().map(|(record, copies)| {
        let record = String::from_utf8_lossy(record).replace('\t', "\\t");
        format!("{}\t{}\t{record}\n", copies[0], copies[1])
    });
    lines.collect::<String>().into_bytes()
}

/// What `comm -3` writes: a tab before what only the second file has.
fn comm_lines(due: &[Difference]) -> Vec<u8> {
    mark_lines(due, ["", "\t"])
}

/// The lines of `diff` that are records.
fn diff_lines(due: &[Difference]) -> Vec<u8> {
    mark_lines(due, ["< ", "> "])
}

/// Records as lines, each after the mark of the file that has it.
fn mark_lines(due: &[Difference], marks: [&str; 2]) -> Vec<u8> {
    let lines = due.iter().flat_map(|(record, copies)| {
        let mark = marks[usize::from(copies[0] == 0)];
        [mark.as_bytes(), record, b"\n"].concat()
    });
    lines.collect()
}

/// The records that `diff` shows, in the order of their lines.
fn sorted_diff_lines(output: &[u8]) -> Vec<&[u8]> {
    let lines = output.split(|byte| *byte == b'\n');
    let mut lines: Vec<&[u8]> = lines
        .filter(|line| line.starts_with(b"< ") || line.starts_with(b"> "))
        .collect();
    lines.sort_unstable();
    lines
}
