//! What many matches take: the shortest result list with which they are found, the time with it, and the memory of `zs dump`; of this build,
//! and of an earlier one if it is named.

use std::mem::size_of_val;
use std::path::Path;

use zs_library::Query;

use super::Setting;
use crate::archive::{Archive, Lists};
use crate::clock::{median, median_ratio, side, time_in_turn, Side};
use crate::loaded::{matches, Library};
use crate::others::Call;
use crate::report::{ratio, size, time, Goal, Report, Table};

/// No refusal.
const NONE: u64 = 0;
/// The refusal of a result list that is too short.
const TOO_SHORT: u64 = 27;

/// What one build took: bytes of memory, and seconds round by round.
struct Taken {
    bytes: f64,
    seconds: Vec<f64>,
}

/// What both builds took.
struct Row {
    what: String,
    before: Option<Taken>,
    now: Taken,
}

impl Row {
    /// Of all builds, the present one last.
    fn new(what: String, mut taken: Vec<Taken>) -> Self {
        let now = taken.pop().expect("the present build");
        Row {
            what,
            before: taken.pop(),
            now,
        }
    }

    /// The bytes now by those before, and the same of the time.
    fn ratios(&self) -> [Option<f64>; 2] {
        let before = self.before.as_ref();
        [
            before.map(|before| self.now.bytes / before.bytes),
            before.map(|before| median_ratio(&self.now.seconds, &before.seconds)),
        ]
    }

    fn add_to(&self, table: &mut Table, memory: fn(f64) -> String) {
        let or_none = |cell: Option<String>| cell.unwrap_or_else(|| "-".to_string());
        let seconds = |taken: &Taken| time(median(taken.seconds.clone()));
        let (before, [bytes, times]) = (self.before.as_ref(), self.ratios());
        table.add_row(&[
            &self.what,
            &or_none(before.map(|before| memory(before.bytes))),
            &memory(self.now.bytes),
            &or_none(bytes.map(ratio)),
            &or_none(before.map(seconds)),
            &seconds(&self.now),
            &or_none(times.map(ratio)),
        ]);
    }
}

/// Measures on the large archive, which stands in memory and at `file`.
pub fn measure(setting: &Setting, archive: &Archive, file: &Path, report: &mut Report) {
    let all = setting.records.len();
    let mut table = empty_table(setting, archive);
    for way in [Way::Search, Way::Read] {
        for number in [1_000, all / 10, all] {
            let question = Question::new(way, archive, setting.records, number);
            let row = question.measure(setting);
            if let Way::Search = way {
                add_goals(&row, report);
            }
            row.add_to(&mut table, |bytes| format!("{bytes} bytes"));
        }
    }
    report.add_table(table);
    report.add_table(measure_dumps(setting, file));
}

fn add_goals(row: &Row, report: &mut Report) {
    let [bytes, times] = row.ratios();
    let what = &row.what;
    report.add_goal(
        &format!("{what}: bytes of the result list against the earlier build"),
        bytes,
        Goal::AtMost(0.5),
    );
    report.add_goal(
        &format!("{what}: time against the earlier build"),
        times,
        Goal::AtMost(1.0),
    );
}

/// How records are found.
#[derive(Clone, Copy)]
enum Way {
    Search,
    Read,
}

/// A query with which the first records of the archive are found.
struct Question<'a> {
    way: Way,
    archive: &'a Archive,
    query: Query<'a>,
    records: &'a [Vec<u8>],
}

impl<'a> Question<'a> {
    /// For the first `number` of these records, which are all that the archive has.
    fn new(way: Way, archive: &'a Archive, records: &'a [Vec<u8>], number: usize) -> Self {
        let query = Query {
            start: &[],
            stop: records.get(number).map(Vec::as_slice),
            prefix: &[],
        };
        Question {
            way,
            archive,
            query,
            records: &records[..number],
        }
    }

    fn name(&self) -> String {
        let way = match self.way {
            Way::Search => "search",
            Way::Read => "reading front to back",
        };
        format!("{way}, {} matches", self.records.len())
    }

    /// The number of the refusal.
    fn ask(&self, library: &Library, lists: &mut Lists) -> u64 {
        let file = &self.archive.bytes;
        match self.way {
            Way::Search => library.search(file, &self.query, lists).number,
            Way::Read => library.read(file, &self.query, &mut lists.results).number,
        }
    }

    /// The lists, with so many places for results.
    fn lists(&self, places: usize) -> Lists {
        Lists {
            opened: vec![0; self.archive.blocks()],
            results: vec![0; places],
        }
    }

    /// The lists with the fewest places for results that are enough: with one place less the build refuses.
    fn shortest_lists(&self, library: &Library) -> Lists {
        let (mut refused, mut enough) = (0, 4 * self.records.len());
        while enough - refused > 1 {
            let middle = (refused + enough) / 2;
            match self.ask(library, &mut self.lists(middle)) {
                NONE => enough = middle,
                number => {
                    assert_eq!(number, TOO_SHORT);
                    refused = middle;
                }
            }
        }
        let mut lists = self.lists(enough);
        assert_eq!(self.ask(library, &mut lists), NONE);
        self.compare(&lists);
        lists
    }

    /// The results are the records.
    fn compare(&self, lists: &Lists) {
        let parts = matches(&lists.results);
        assert_eq!(parts.len(), self.records.len());
        for (part, record) in parts.iter().zip(self.records) {
            assert!(zs_library::bytes(&self.archive.bytes, part.offset, part.length) == record);
        }
    }

    fn measure(&self, setting: &Setting) -> Row {
        let libraries = &setting.libraries;
        let builds: Vec<&Library> = libraries.before.iter().chain([&libraries.now]).collect();
        let shortest = builds.iter().map(|library| self.shortest_lists(library));
        let mut lists: Vec<Lists> = shortest.collect();
        let bytes: Vec<usize> = lists.iter().map(|l| size_of_val(&*l.results)).collect();
        let sides: Vec<Side> = builds
            .iter()
            .zip(&mut lists)
            .map(|(library, lists)| side(|| self.ask(library, lists)))
            .collect();
        let rounds = match self.way {
            Way::Search => setting.sizes.short_rounds,
            Way::Read => setting.sizes.close_rounds,
        };
        let times = time_in_turn(rounds, sides);
        let both = bytes.iter().zip(times);
        let taken = both.map(|(bytes, seconds)| Taken {
            bytes: *bytes as f64,
            seconds,
        });
        Row::new(self.name(), taken.collect())
    }
}

fn empty_table(setting: &Setting, archive: &Archive) -> Table {
    let about = format!(
        "The first records of the large file, up to a stop, and all of them without one, in memory. Before: the library in the folder that \
         `BEFORE` named, if it named one. The result list is the shortest with which the call is answered, found by trying: with one place \
         less it is refused (27). The results of both are the records. The opened list of a search has {} places, one for each block, before \
         and now. The lists are cleared and filled within the time. Both builds are loaded into this process as shared objects and take \
         turns, {} for a search and {} for a reading; times and ratios of times are medians.",
        archive.blocks(),
        setting.sizes.short_rounds,
        setting.sizes.close_rounds
    );
    let head = [
        "what",
        "result list before",
        "now",
        "now / before",
        "time before",
        "now",
        "time now / before",
    ];
    Table::new("Results: a search of many matches", &about, &head)
}

/// `zs dump` of all records by both builds, with a check and without.
fn measure_dumps(setting: &Setting, file: &Path) -> Table {
    let programs = &setting.programs;
    let path = file.to_string_lossy();
    let lines = std::fs::read(setting.lines).expect("the lines");
    let mut table = empty_dump_table(setting);
    for words in [vec!["dump"], vec!["dump", "--unchecked"]] {
        let call = |zs| Call::new(zs, &[words.as_slice(), &[&path]].concat());
        let calls: Vec<Call> = programs
            .before
            .iter()
            .chain([&programs.zs])
            .map(call)
            .collect();
        let peaks: Vec<f64> = calls.iter().map(|call| peak(setting, call)).collect();
        assert!(calls.iter().all(|call| call.output() == lines));
        let sides = calls.iter().map(|call| side(|| call.run())).collect();
        let times = time_in_turn(setting.sizes.close_rounds, sides);
        let both = peaks.into_iter().zip(times);
        let taken = both.map(|(bytes, seconds)| Taken { bytes, seconds });
        let row = Row::new(format!("`zs {}`", words.join(" ")), taken.collect());
        row.add_to(&mut table, |bytes| size(bytes as usize));
    }
    table
}

/// The median of what some runs had in memory at most.
fn peak(setting: &Setting, call: &Call) -> f64 {
    let runs = 0..setting.sizes.rounds;
    median(runs.map(|_| call.peak_memory() as f64).collect())
}

fn empty_dump_table(setting: &Setting) -> Table {
    let about = format!(
        "All {} records of the large file, read before. Before: the `zs` in the folder that `BEFORE` named, if it named one. Each is started \
         anew, and both write the same. The memory is the most that the process had in use (VmHWM of Linux) when it began to write, which is \
         when it has the whole answer; it includes the file, which `zs dump` reads and `zs dump --unchecked` maps. Median of {} runs; the times \
         are medians of {} others, by turns and to /dev/null.",
        setting.records.len(),
        setting.sizes.rounds,
        setting.sizes.close_rounds
    );
    let head = [
        "what",
        "most memory before",
        "now",
        "now / before",
        "time before",
        "now",
        "time now / before",
    ];
    Table::new("Results: the memory of `zs dump`", &about, &head)
}
