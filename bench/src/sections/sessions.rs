//! Adding records one at a time, a call for each: against the writer, which is given all of them at once.

use std::ops::Range;

use zs_library::{Session, Stepped};

use super::writing::COUNTS;
use super::Setting;
use crate::clock::{run_in_turn, side, Side};
use crate::input::{Input, METADATA};
use crate::records::key;
use crate::report::{ratio, size, time, Goal, Report, Table};

/// What the writer is given of some records, where each of them lies in it, and the file.
struct Kind {
    what: &'static str,
    goal: Goal,
    input: Input,
    records: Vec<Range<usize>>,
    file: Vec<u8>,
}

/// What a kind of records took.
struct Times {
    writer: f64,
    session: f64,
    /// The session without its last step.
    adding: f64,
}

/// Measures the records of the large archive, and only their names and numbers, of which there are as many.
pub fn measure(setting: &Setting, report: &mut Report) {
    let whole = setting.records.iter().map(Vec::as_slice).collect();
    let short = setting.records.iter().map(|record| key(record)).collect();
    let kinds = [
        Kind::new("records", Goal::AtMost(2.0), whole),
        Kind::new("short records", Goal::None, short),
    ];
    let mut table = empty_table(setting);
    for kind in &kinds {
        let times = kind.measure(setting);
        let (number, what) = (kind.records.len(), kind.what);
        report.add_goal(
            &format!("adding {number} {what} one by one: time against the writer"),
            times.session / times.writer,
            kind.goal,
        );
        kind.add_row(&times, &mut table);
    }
    report.add_table(table);
}

impl Kind {
    /// Session and writer make the same file.
    fn new(what: &'static str, goal: Goal, records: Vec<&[u8]>) -> Self {
        let input = Input::new(&records);
        let records = places(&records);
        let file = input.file(COUNTS);
        let kind = Kind {
            what,
            goal,
            input,
            records,
            file,
        };
        let mut output = vec![1; kind.file.len()];
        let finished = kind.make(&mut output);
        assert_eq!(finished.next, kind.file.len() as u64);
        assert_eq!(finished.records, kind.records.len() as u64);
        assert!(output == kind.file);
        kind
    }

    /// Starts afresh, begins, and adds every record.
    fn add(&self, output: &mut [u8]) -> Session {
        let afresh = Session::afresh(output);
        let begun = afresh.begin(METADATA.as_bytes(), COUNTS, output);
        let mut session = done(begun);
        for place in &self.records {
            let record = &self.input.bytes[place.clone()];
            session = done(session.add(record, output));
        }
        session
    }

    /// Adds every record, and finishes.
    fn make(&self, output: &mut [u8]) -> Session {
        let added = self.add(output);
        done(added.finish(output))
    }

    fn measure(&self, setting: &Setting) -> Times {
        let mut outputs = [(); 3].map(|()| vec![0; self.file.len()]);
        let [first, second, third] = &mut outputs;
        let sides: Vec<Side> = vec![
            side(|| self.input.write(COUNTS, first)),
            side(|| self.make(second)),
            side(|| self.add(third)),
        ];
        let times = run_in_turn(setting.sizes.rounds, sides);
        Times {
            writer: times[0],
            session: times[1],
            adding: times[2],
        }
    }

    fn add_row(&self, times: &Times, table: &mut Table) {
        let number = self.records.len();
        let mean = (self.input.bytes.len() as f64 / number as f64).round();
        table.add_row(&[
            &format!("{number} {}, {mean} bytes each", self.what),
            &size(self.file.len()),
            &time(times.writer),
            &time(times.session),
            &time(times.adding / number as f64),
            &time(times.session - times.adding),
            &ratio(times.session / times.writer),
        ]);
    }
}

/// Where records lie in the writer's input, each after its length, so that both sides read the same bytes.
fn places(records: &[&[u8]]) -> Vec<Range<usize>> {
    let mut end = 0;
    let places = records.iter().map(|record| {
        let bits = usize::BITS - record.len().leading_zeros();
        let start = end + ((bits + 6) / 7).max(1) as usize;
        end = start + record.len();
        start..end
    });
    places.collect()
}

/// The session after a step that isn't refused.
fn done(stepped: Stepped) -> Session {
    assert_eq!(stepped.number, 0);
    stepped.session
}

fn empty_table(setting: &Setting) -> Table {
    let about = format!(
        "Files of {} records with the same counts as above, made by the writer in one call and by a session with a call for each record; both \
         make the same bytes. The output is as long as the file and is cleared within the time. Short records are the names and numbers that \
         the others begin with. The time of an add is that of the session without its last step, shared out over the records; the last step \
         hashes the data, and puts the index and the header.",
        setting.records.len()
    );
    let head = [
        "records",
        "file",
        "the proved writer",
        "the proved session",
        "one add",
        "finishing",
        "time of the session / the writer",
    ];
    Table::new("Adding one record at a time", &about, &head)
}
