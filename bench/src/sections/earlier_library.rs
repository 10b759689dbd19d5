//! The library against an earlier build of itself, if one is named: check, lookup and writing, both loaded in this process and by turns.

use super::writing::{make_usual, COUNTS};
use super::Setting;
use crate::archive::{prefix_query, Archive, Lists};
use crate::clock::{measure_time, median, median_ratio, side, time_in_turn, Side};
use crate::input::{Input, METADATA};
use crate::loaded::{matches, Library};
use crate::records::{draw, key};
use crate::report::{ratio, time, Goal, Report, Table};
use crate::shapes::Shape;

/// What was measured of both builds: seconds, and the time now by that before.
struct Row {
    what: String,
    before: f64,
    now: f64,
    ratio: f64,
}

impl Row {
    /// Of the times of both, round by round.
    fn new(what: String, before: &[f64], now: &[f64]) -> Self {
        Row {
            what,
            before: median(before.to_vec()),
            now: median(now.to_vec()),
            ratio: median_ratio(now, before),
        }
    }
}

/// The rows for which there is a goal.
const CHECK: usize = 0;
const LOOKUP: usize = 2;
const USUAL_LOOKUP: usize = 3;

/// Measures on the large archive, on one with a block for each record, and on one as `zs make` lays it out without counts.
pub fn measure(setting: &Setting, archive: &Archive, report: &mut Report) {
    let before = setting.libraries.before.as_ref();
    let rows = before.map(|before| {
        let builds = [before, &setting.libraries.now];
        let tiny = Shape::Tiny.archive(setting.records);
        let tiny = Archive::new(tiny, setting.records.len());
        let mut rows = measure_checks(setting, builds, [archive, &tiny]);
        rows.extend(measure_lookups(setting, builds, archive));
        rows.push(measure_writing(setting, builds));
        rows
    });
    add_goals(rows.as_deref(), report);
    if let Some(rows) = rows {
        report.add_table(table(setting, &rows));
    }
}

fn add_goals(rows: Option<&[Row]>, report: &mut Report) {
    let goals = [
        ("check of a large file", "", CHECK, 0.7),
        ("one lookup in the large file", "", LOOKUP, 0.35),
        (
            "one lookup in a file as `zs make` lays it out",
            " in the large file",
            USUAL_LOOKUP,
            0.2,
        ),
    ];
    for (what, place, number, limit) in goals {
        let ratio = rows.map(|rows| rows[number].ratio);
        let what = format!("{what}: time against the earlier build{place}");
        report.add_goal(&what, ratio, Goal::AtMost(limit));
    }
}

/// The check of each archive by both builds.
fn measure_checks(setting: &Setting, builds: [&Library; 2], archives: [&Archive; 2]) -> Vec<Row> {
    let works = archives.map(|archive| [0, 1].map(|_| vec![0; archive.blocks()]));
    let mut sides: Vec<Side> = Vec::new();
    for (archive, works) in archives.iter().zip(works) {
        for (library, mut work) in builds.iter().zip(works) {
            let answer = library.check(&archive.bytes, &mut work);
            let (records, blocks) = (setting.records.len() as u64, archive.blocks() as u64);
            assert_eq!((answer.number, answer.records), (0, records));
            assert_eq!(answer.blocks, blocks);
            sides.push(side(move || library.check(&archive.bytes, &mut work)));
        }
    }
    let times = time_in_turn(setting.sizes.close_rounds, sides);
    let rows = [Shape::Plain, Shape::Tiny].iter().zip(times.chunks(2));
    rows.map(|(shape, pair)| Row::new(format!("check, {}", shape.name()), &pair[0], &pair[1]))
        .collect()
}

/// A build, and the archive in which it looks records up.
struct Reader<'a> {
    library: &'a Library,
    archive: &'a Archive,
    lists: Lists,
    seconds: Vec<f64>,
}

impl<'a> Reader<'a> {
    fn new(library: &'a Library, archive: &'a Archive) -> Self {
        Reader {
            library,
            archive,
            lists: Lists::default(),
            seconds: Vec::new(),
        }
    }

    /// Looks a record up, once untimed and then timed.
    fn look_up(&mut self, record: &[u8]) {
        let file = &self.archive.bytes;
        let query = prefix_query(key(record));
        let found = self.library.search(file, &query, &mut self.lists);
        assert_eq!((found.number, found.matches), (0, 1));
        let part = matches(&self.lists.results)[0];
        assert!(zs_library::bytes(file, part.offset, part.length) == record);
        let search = || self.library.search(file, &query, &mut self.lists);
        self.seconds.push(measure_time(search));
    }
}

/// Lookups in the large archive by both builds, and by the present one in an archive as `zs make` lays it out.
fn measure_lookups(setting: &Setting, builds: [&Library; 2], archive: &Archive) -> [Row; 2] {
    let making = make_usual(setting, &setting.programs.zs, "usual.zs");
    making.call.run();
    let usual = std::fs::read(&making.made).expect("the archive");
    let usual = Archive::new(usual, setting.records.len());
    let [before, now] = builds;
    let mut readers = [
        Reader::new(before, archive),
        Reader::new(now, archive),
        Reader::new(now, &usual),
    ];
    let mut order = [0, 1, 2];
    for record in draw(setting.records, setting.sizes.lookups) {
        order
            .iter()
            .for_each(|number| readers[*number].look_up(record));
        order.reverse();
    }
    let [before, now, usual] = readers.map(|reader| reader.seconds);
    let row = |place: &str, now: &[f64]| Row::new(format!("one lookup, {place}"), &before, now);
    let places = "before the large file, now a file as `zs make` lays it out";
    [row("the large file", &now), row(places, &usual)]
}

/// Both builds write the same file.
fn measure_writing(setting: &Setting, builds: [&Library; 2]) -> Row {
    let input = Input::new(setting.records);
    let file = input.file(COUNTS);
    let mut outputs = [0, 1].map(|_| vec![0; file.len()]);
    let write = |library: &Library, output: &mut [u8]| {
        library.write(METADATA.as_bytes(), &input.bytes, COUNTS, output)
    };
    for (library, output) in builds.iter().zip(&mut outputs) {
        assert_eq!(write(library, output).number, 0);
        assert!(*output == file);
    }
    let both = builds.iter().zip(&mut outputs);
    let sides: Vec<Side> = both
        .map(|(library, output)| side(move || write(library, output)))
        .collect();
    let times = time_in_turn(setting.sizes.close_rounds, sides);
    Row::new("writing the large file".to_string(), &times[0], &times[1])
}

fn table(setting: &Setting, rows: &[Row]) -> Table {
    let about = format!(
        "Before: the library in the folder that `BEFORE` named. Now: that of this build. Both are loaded into this process as shared objects \
         and take turns. The large file is that of the tables below, in memory. Times and ratios are medians: of {} rounds for check and writing, \
         over {} records for lookups. The lists of a lookup are those below, cleared and filled within the time, and the same lookup goes before \
         it, untimed. `zs make` lays a file out by its own counts where it is given none.",
        setting.sizes.close_rounds, setting.sizes.lookups
    );
    let head = [
        "what",
        "before",
        "now",
        "time now / before",
        "speed now / before",
    ];
    let mut table = Table::new("Against an earlier build, within a process", &about, &head);
    for row in rows {
        table.add_row(&[
            &row.what,
            &time(row.before),
            &time(row.now),
            &ratio(row.ratio),
            &ratio(1.0 / row.ratio),
        ]);
    }
    table
}
