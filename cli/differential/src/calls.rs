//! The calls to be made on a file, those of the writer on an input, and those of the import on a dump.

use crate::call::{Call, Room};
use crate::dumps::Dump;
use crate::inputs::Input;
use crate::queries::{narrow_range, query};
use crate::store_calls::draw_stores;
use zs_reference::maker::random::Random;
use zs_reference::reader::{check, read, search, unpack, Checked, Query};
use zs_reference::sim::import;
use zs_reference::writer::{whole_record, write, write_by};

/// Room for every answer, unless blocks are named in very many ways. Files with more records get queries that few of them match.
const AMPLE: usize = 1000;

/// A call, and how its room compares with what it needs.
pub type Asked = (Call, Room);

/// Draws all calls of the writer on an input: where it is sound, with more bytes than needed, just enough, one less, and fewer; and with
/// bytes that are enough only because no key is longer than it must be.
pub fn draw_writes(random: &mut Random, input: &Input) -> Vec<Asked> {
    let mut calls = Vec::new();
    let mut ask = |output, room| {
        let call = Call::Write {
            metadata: input.metadata.clone(),
            counts: input.counts,
            output,
        };
        calls.push((call, room));
    };
    let (metadata, records, counts) = (&input.metadata, &input.records, input.counts);
    match write(metadata, records, counts, usize::MAX) {
        Ok(file) => {
            let whole = write_by(whole_record, metadata, records, counts, usize::MAX);
            let longer = whole.map_or(0, |whole| whole.len());
            if longer > file.len() {
                ask(longer - 1, Room::WholeShort);
            }
            ask(file.len() + 1 + random.below(99), Room::Plenty);
            ask(file.len(), Room::Exact);
            ask(file.len() - 1, Room::FirstShort);
            ask(random.below(file.len()), Room::Any);
        }
        Err(_) => {
            ask(random.below(20), Room::Any);
            ask(200 + random.below(800), Room::Any);
        }
    }
    calls
}

/// Draws all calls of the import on a dump: where it has records, with more bytes than needed, just enough, one less, none, and fewer.
pub fn draw_imports(random: &mut Random, dump: &Dump) -> Vec<Asked> {
    let mut calls = Vec::new();
    let mut ask = |output, room| {
        let name_length = dump.name_length;
        let call = Call::ImportSim {
            name_length,
            output,
        };
        calls.push((call, room));
    };
    ask(0, Room::Any);
    let imported = import(&dump.bytes, dump.name_length, usize::MAX);
    match imported.map_or(0, |records| records.len()) {
        0 => {
            ask(1 + random.below(20), Room::Any);
            ask(200 + random.below(800), Room::Any);
        }
        length => {
            ask(length + 1 + random.below(99), Room::Plenty);
            ask(length, Room::Exact);
            ask(length - 1, Room::FirstShort);
            ask(random.below(length), Room::Any);
        }
    }
    calls
}

/// Draws all calls on a file, with queries near the given strings.
pub fn draw_calls(random: &mut Random, file: &[u8], strings: &[Vec<u8>]) -> Vec<Asked> {
    let mut calls = Vec::new();
    let checked = check(file, usize::MAX);
    add_checks(random, &checked, &mut calls);
    for query in &draw_queries(random, &checked, strings) {
        add_searches(random, file, query, &mut calls);
        add_reads(random, file, query, &mut calls);
    }
    add_records(random, file, &mut calls);
    calls.push((Call::Metadata, Room::Any));
    calls.extend(draw_stores(random, 1));
    calls
}

/// Everything, and some queries near the given strings.
fn draw_queries(random: &mut Random, checked: &Checked, strings: &[Vec<u8>]) -> Vec<Query> {
    if checked.records > AMPLE as u64 {
        return vec![narrow_range(random, strings)];
    }
    let mut queries = vec![Query::default()];
    for _ in 0..if checked.number == 0 { 4 } else { 1 } {
        queries.push(query(random, strings));
    }
    queries
}

/// Adds checks with more places than needed, just enough, one short, and any number.
fn add_checks(random: &mut Random, checked: &Checked, calls: &mut Vec<Asked>) {
    let mut ask = |work, room| calls.push((Call::Check { work }, room));
    if checked.number == 0 {
        let blocks = checked.blocks as usize;
        ask(blocks + 1 + random.below(9), Room::Plenty);
        ask(blocks, Room::Exact);
        ask(blocks - 1, Room::FirstShort);
    } else {
        ask(AMPLE, Room::Any);
    }
    ask(random.below(40), Room::Any);
}

/// Adds searches, the same way with both lists. A refused one gets lists that end before, at and after the fault.
fn add_searches(random: &mut Random, file: &[u8], query: &Query, calls: &mut Vec<Asked>) {
    let answer = search(file, query, AMPLE, AMPLE);
    let mut ask = |opened, results, room| {
        let query = query.clone();
        let call = Call::Search {
            query,
            opened,
            results,
        };
        calls.push((call, room));
    };
    if answer.number == 0 {
        let (opened, results) = (answer.opened as usize, answer.matches as usize);
        let (more, further) = (1 + random.below(9), 1 + random.below(9));
        ask(opened + more, results + further, Room::Plenty);
        ask(opened, results, Room::Exact);
        ask(opened - 1, results + random.below(3), Room::FirstShort);
        if results > 0 {
            ask(opened + random.below(3), results - 1, Room::ResultsShort);
        }
    } else {
        let opened = least_places(|places| search(file, query, places, AMPLE).number != 26);
        let results = least_places(|places| search(file, query, AMPLE, places).number != 27);
        ask(AMPLE, AMPLE, Room::Any);
        ask(opened, results, Room::Any);
        if opened > 0 {
            ask(opened - 1, results, Room::Any);
        }
        if results > 0 {
            ask(opened, results - 1, Room::Any);
        }
    }
    if random.once_in(2) {
        ask(random.below(12), random.below(6), Room::Any);
    }
}

/// The least number of places that is enough, `AMPLE` where none is.
fn least_places(enough: impl Fn(usize) -> bool) -> usize {
    let (mut low, mut high) = (0, AMPLE);
    while low < high {
        let middle = (low + high) / 2;
        if enough(middle) {
            high = middle;
        } else {
            low = middle + 1;
        }
    }
    low
}

/// Adds reads, the same way with the result list.
fn add_reads(random: &mut Random, file: &[u8], query: &Query, calls: &mut Vec<Asked>) {
    let answer = read(file, query, AMPLE);
    let mut ask = |results, room| {
        let query = query.clone();
        calls.push((Call::Read { query, results }, room));
    };
    if answer.number == 0 {
        let results = answer.matches as usize;
        ask(results + 1 + random.below(9), Room::Plenty);
        ask(results, Room::Exact);
        if results > 0 {
            ask(results - 1, Room::ResultsShort);
        }
    } else {
        ask(random.pick(&[AMPLE, 0, 1, 2]), Room::Any);
    }
    if random.once_in(2) {
        ask(random.below(6), Room::Any);
    }
}

/// Adds parts of the file: a record that is found, parts about the end, and very far ones.
fn add_records(random: &mut Random, file: &[u8], calls: &mut Vec<Asked>) {
    let end = file.len() as u64;
    let mut ask = |offset, length| calls.push((Call::Record { offset, length }, Room::Any));
    let answer = read(file, &Query::default(), AMPLE);
    if answer.matches > 0 {
        let (offset, length) = unpack(answer.results[random.below(answer.matches as usize)]);
        ask(offset, length);
    }
    let back = random.below(20) as u64;
    let near = end.saturating_sub(back) + random.below(3) as u64;
    ask(near, (end + random.below(3) as u64).saturating_sub(near));
    let offset = random.pick(&[0, 1, near, end, end + 1, 1 << 32, u64::MAX - back]);
    let length = random.pick(&[
        0,
        1,
        back,
        end,
        end + 1,
        1 << 63,
        u64::MAX - back,
        !offset,
        offset.wrapping_neg(),
    ]);
    ask(offset, length);
}
