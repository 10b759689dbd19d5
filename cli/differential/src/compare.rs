//! One case: both implementations answer, and everything is compared.

use crate::call::Call;
use crate::frames::{data_payloads, frames, header_end};
use crate::lent::Lent;
use crate::outcome::Outcome;
use crate::pair_cases::{compare_files, compare_shown};
use crate::session_cases::compare_steps;
use crate::store_cases::{compare_after_write, compare_cut, compare_store};
use zs_library as library;
use zs_reference::maker::encode;
use zs_reference::maker::random::Random;
use zs_reference::reader::{self, Query};
use zs_reference::sim;
use zs_reference::writer::{self, whole_record, Counts};

/// Makes a call on these bytes with both implementations and compares.
pub fn compare(random: &mut Random, bytes: &[u8], call: &Call) -> Outcome {
    let lent = Lent::bytes(random, bytes);
    let mut outcome = match call {
        Call::Check { work } => check(random, lent.part(), *work),
        Call::Read { query, results } => read(random, lent.part(), query, *results),
        Call::Search {
            query,
            opened,
            results,
        } => search(random, lent.part(), query, *opened, *results),
        Call::Record { offset, length } => record(lent.part(), *offset, *length),
        Call::Metadata => metadata(lent.part()),
        Call::IsMetadata => is_metadata(lent.part()),
        Call::Write {
            metadata,
            counts,
            output,
        } => write(random, lent.part(), metadata, *counts, *output),
        Call::ImportSim {
            name_length,
            output,
        } => import_sim(random, lent.part(), *name_length, *output),
        Call::Store { i } => compare_store(lent.part(), *i),
        Call::Cut { whole, bytes } => compare_cut(lent.part(), *whole, *bytes),
        Call::Compare { second, work, list } => {
            compare_files(random, lent.part(), second, *work, *list)
        }
        Call::Show {
            second,
            which,
            offset,
            length,
        } => compare_shown(random, lent.part(), second, [*which, *offset, *length]),
        Call::Session { steps } => compare_steps(random, steps),
    };
    outcome.require(lent.is_unchanged(), "the bytes were changed");
    outcome
}

fn check(random: &mut Random, file: &[u8], places: usize) -> Outcome {
    let due = reader::check(file, places);
    let mut work = Lent::list(random, places);
    let given = library::check(file, work.part_mut());
    let mut outcome = Outcome::of(due.number, 0);
    outcome.compare("number", due.number, given.number);
    outcome.compare("place", due.place, given.place);
    outcome.compare("blocks", due.blocks, given.blocks);
    outcome.compare("records", due.records, given.records);
    outcome.compare_places("work list", &vec![0; places], &work);
    outcome
}

fn read(random: &mut Random, file: &[u8], query: &Query, places: usize) -> Outcome {
    let due = reader::read(file, query, places);
    let mut results = Lent::list(random, places);
    let asked = LentQuery::new(random, query);
    let given = library::read(file, &asked.query(), results.part_mut());
    let mut outcome = Outcome::of(due.number, due.matches);
    outcome.compare("number", due.number, given.number);
    outcome.compare("place", due.place, given.place);
    outcome.compare("matches", due.matches, given.matches);
    outcome.compare_places("result list", &due.results, &results);
    outcome.require(asked.is_unchanged(), "the query was changed");
    outcome
}

fn search(
    random: &mut Random,
    file: &[u8],
    query: &Query,
    opened_places: usize,
    result_places: usize,
) -> Outcome {
    let due = reader::search(file, query, opened_places, result_places);
    let mut opened = Lent::list(random, opened_places);
    let mut results = Lent::list(random, result_places);
    let asked = LentQuery::new(random, query);
    let given = library::search(file, &asked.query(), opened.part_mut(), results.part_mut());
    let mut outcome = Outcome::of(due.number, due.matches);
    outcome.compare("number", due.number, given.number);
    outcome.compare("place", due.place, given.place);
    outcome.compare("matches", due.matches, given.matches);
    outcome.compare("opened", due.opened, given.opened);
    outcome.compare_places("opened list", &due.opened_list, &opened);
    outcome.compare_places("result list", &due.results, &results);
    outcome.require(asked.is_unchanged(), "the query was changed");
    outcome
}

fn record(file: &[u8], offset: u64, length: u64) -> Outcome {
    let (due_offset, due_length) = reader::record(file, offset, length);
    let within = reader::within(file, offset, length);
    let given = library::record(file, offset, length);
    let mut outcome = Outcome::of(u64::from(!within), 0);
    outcome.compare("part's offset", due_offset, given.offset);
    outcome.compare("part's length", due_length, given.length);
    let given = library::within(file, offset, length);
    outcome.compare("within", u64::from(within), u64::from(given));
    let due = file.get(due_offset as usize..(due_offset + due_length) as usize);
    let given = library::bytes(file, offset, length);
    outcome.require(due == Some(given), "part: other bytes");
    outcome
}

fn metadata(file: &[u8]) -> Outcome {
    let (due_offset, due_length) = reader::metadata(file);
    let given = library::metadata_part(file);
    let mut outcome = Outcome::of(u64::from(due_length == 0), 0);
    outcome.compare("metadata's offset", due_offset, given.offset);
    outcome.compare("metadata's length", due_length, given.length);
    let due = file.get(due_offset as usize..(due_offset + due_length) as usize);
    let given = library::metadata(file);
    outcome.require(due == Some(given.unwrap_or(&[])), "metadata: other bytes");
    outcome
}

fn is_metadata(text: &[u8]) -> Outcome {
    let due = reader::is_metadata(text);
    let given = library::is_metadata(text);
    let mut outcome = Outcome::of(u64::from(!due), 0);
    outcome.compare("is metadata", u64::from(due), u64::from(given));
    outcome
}

fn write(
    random: &mut Random,
    records: &[u8],
    metadata: &[u8],
    due_counts: Counts,
    room: usize,
) -> Outcome {
    let due = writer::write(metadata, records, due_counts, room);
    let metadata = Lent::bytes(random, metadata);
    let mut output = Lent::output(random, room);
    let counts = library::Counts {
        per_block: due_counts.per_block,
        per_index: due_counts.per_index,
    };
    let given = library::write(metadata.part(), records, counts, output.part_mut());
    let mut outcome = compare_output(due, given, &output);
    outcome.require(metadata.is_unchanged(), "the metadata were changed");
    compare_after_write(&mut outcome, written(given, &output), output.part());
    if outcome.number == 0 {
        read_back(&mut outcome, written(given, &output), records);
        let whole = writer::write_by(
            whole_record,
            metadata.part(),
            records,
            due_counts,
            usize::MAX,
        );
        let is_short = whole.map_or(false, |whole| given.length <= whole.len() as u64);
        outcome.require(is_short, "longer than with whole records as keys");
    }
    outcome
}

fn import_sim(random: &mut Random, dump: &[u8], name_length: u64, room: usize) -> Outcome {
    let due = sim::import(dump, name_length, room);
    let mut output = Lent::output(random, room);
    let given = library::import_sim(dump, name_length, output.part_mut());
    let mut outcome = compare_output(due, given, &output);
    let records = written(given, &output);
    if outcome.number == 0 && !records.is_empty() {
        write_imported(&mut outcome, records);
    }
    outcome
}

/// Compares an answer and the whole output that it was given with. What is due is the bytes written, or the number of the refusal.
fn compare_output(
    due: Result<Vec<u8>, u64>,
    given: library::Written,
    output: &Lent<u8>,
) -> Outcome {
    let number = due.as_ref().err().copied().unwrap_or(0);
    let mut bytes = due.unwrap_or_default();
    let mut outcome = Outcome::of(number, 0);
    outcome.compare("number", number, given.number);
    outcome.compare("place", 0, given.place);
    outcome.compare("length", bytes.len() as u64, given.length);
    bytes.resize(output.part().len(), 0);
    outcome.compare_places("output", &bytes, output);
    outcome
}

/// The bytes that an answer says were written; none where there aren't so many.
fn written(given: library::Written, output: &Lent<u8>) -> &[u8] {
    let bytes = output.part().get(..given.length as usize);
    bytes.unwrap_or(&[])
}

/// What holds of records imported, whatever the second import says: the writer takes them, and neither 28 nor 29 is given.
fn write_imported(outcome: &mut Outcome, records: &[u8]) {
    let counts = library::Counts {
        per_block: 65_535,
        per_index: 2,
    };
    let mut output = vec![7; 2 * records.len() + 400];
    let given = library::write(b"{}", records, counts, &mut output);
    outcome.compare("writing what is imported", 0, given.number);
}

/// What holds of a file written, whatever the second writer says: it is accepted, and its records and data payloads are the input.
pub fn read_back(outcome: &mut Outcome, file: &[u8], records: &[u8]) {
    let checked = library::check(file, &mut vec![7; file.len() / 11]);
    outcome.compare("check of the file", 0, checked.number);
    let frames = header_end(file).map_or_else(Vec::new, |end| frames(file, end));
    let payloads: Vec<&[u8]> = data_payloads(file, &frames).collect();
    outcome.require(payloads.concat() == records, "other data payloads");

    let mut results = vec![7; checked.records as usize];
    let everything = library::Query {
        start: &[],
        stop: None,
        prefix: &[],
    };
    library::read(file, &everything, &mut results);
    let mut rest = Some(records);
    for part in results.into_iter().map(library::Part::of_match) {
        let record = library::bytes(file, part.offset, part.length);
        rest = rest
            .and_then(|rest| rest.strip_prefix(&encode(part.length)[..]))
            .and_then(|rest| rest.strip_prefix(record));
    }
    outcome.require(rest == Some(&[]), "other records are read");
}

/// A query with arbitrary bytes around its parts.
struct LentQuery {
    start: Lent<u8>,
    stop: Option<Lent<u8>>,
    prefix: Lent<u8>,
}

impl LentQuery {
    fn new(random: &mut Random, query: &Query) -> Self {
        LentQuery {
            start: Lent::bytes(random, &query.start),
            stop: query.stop.as_ref().map(|stop| Lent::bytes(random, stop)),
            prefix: Lent::bytes(random, &query.prefix),
        }
    }

    fn query(&self) -> library::Query<'_> {
        library::Query {
            start: self.start.part(),
            stop: self.stop.as_ref().map(Lent::part),
            prefix: self.prefix.part(),
        }
    }

    fn is_unchanged(&self) -> bool {
        let stop = self.stop.as_ref().map_or(true, Lent::is_unchanged);
        self.start.is_unchanged() && stop && self.prefix.is_unchanged()
    }
}
