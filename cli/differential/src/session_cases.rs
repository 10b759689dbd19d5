//! Cases of sessions: both implementations take the same steps, and after each of them everything is compared.

use crate::compare::read_back;
use crate::lent::Lent;
use crate::outcome::Outcome;
use crate::strangers::try_stranger;
use zs_library as library;
use zs_library::refusals;
use zs_reference::maker::random::Random;
use zs_reference::maker::Plan;
use zs_reference::reader;
use zs_reference::session::{figures, Figures, Session, Step};
use zs_reference::writer::Counts;

/// Bytes on each side of an output, none of which may change.
const APART: usize = 600;
/// After so many steps comes one with another session or output, on average.
const STRANGERS: usize = 3;

/// The session of the proved library with its output, as the last step handed them back.
struct Given {
    session: library::Session,
    output: Vec<u8>,
}

/// Takes all steps with both implementations, up to the first one that differs.
pub fn compare_steps(random: &mut Random, steps: &[Step]) -> Outcome {
    let mut outcome = Outcome::of(0, 0);
    let mut due = Session::afresh(0);
    let mut given = Given {
        session: library::Session::afresh(&mut []),
        output: Vec::new(),
    };
    let mut begun = None;
    for (at, step) in steps.iter().enumerate() {
        let number = due.take(step).err().unwrap_or(0);
        match step {
            Step::Begin { metadata, counts } if number == 0 => begun = Some((metadata, *counts)),
            _ => {}
        }
        take(&mut outcome, random, step, &mut given, number);
        compare_all(&mut outcome, &due, &given);
        if let (Step::Finish, 0, Some((metadata, counts))) = (step, number, begun) {
            compare_finished(&mut outcome, &due, &given, metadata, counts);
        }
        if random.once_in(STRANGERS) {
            try_stranger(&mut outcome, random, &given.session, &given.output);
        }
        if !outcome.differences.is_empty() {
            let lines = outcome.differences.iter();
            let named = lines.map(|line| format!("step {at}: {line}"));
            outcome.differences = named.collect();
            break;
        }
    }
    outcome
}

/// Takes a step with the proved library, and compares its answer, for which this number is due.
fn take(outcome: &mut Outcome, random: &mut Random, step: &Step, given: &mut Given, number: u64) {
    let (session, before) = (given.session, given.output.clone());
    match step {
        Step::Grow(bytes) => return given.output.resize(before.len() + bytes, 0),
        Step::Afresh { room } => return start_afresh(outcome, random, *room, given),
        _ => {}
    }
    let (call, stepped, output) = lend_step(outcome, random, step, session, &before);
    outcome.steps.push((call, number));
    outcome.compare("number", number, stepped.number);
    outcome.compare("place", 0, stepped.place);
    if number != 0 {
        let is_same = stepped.session == session && output == before;
        outcome.require(is_same, "a refused step changed something");
    }
    given.session = stepped.session;
    given.output = output;
}

/// Starts afresh, on an output with any bytes, or on that of the session.
fn start_afresh(outcome: &mut Outcome, random: &mut Random, room: usize, given: &mut Given) {
    let mut output = if room == given.output.len() && random.once_in(2) {
        Lent::bytes(random, &given.output)
    } else {
        Lent::output(random, room)
    };
    given.session = library::Session::afresh(output.part_mut());
    outcome.require(output.guards_hold(), "output: written outside");
    given.output = output.part().to_vec();
    outcome.afresh += 1;
}

/// Takes a step with any session and a copy of any output. What it is lent must stay as it is, but for the output, which is given too.
pub fn lend_step(
    outcome: &mut Outcome,
    random: &mut Random,
    step: &Step,
    session: library::Session,
    output: &[u8],
) -> (refusals::Call, library::Stepped, Vec<u8>) {
    let bytes = match step {
        Step::Begin { metadata, .. } => metadata,
        Step::Add(record) => record,
        _ => &[][..],
    };
    let bytes = Lent::bytes(random, bytes);
    let mut lent = Lent::far_apart(random, output, APART);
    let (call, stepped) = match step {
        Step::Begin { counts, .. } => {
            let counts = library_counts(*counts);
            let stepped = session.begin(bytes.part(), counts, lent.part_mut());
            (refusals::Call::Begin, stepped)
        }
        Step::Add(_) => {
            let stepped = session.add(bytes.part(), lent.part_mut());
            (refusals::Call::Add, stepped)
        }
        Step::Close => {
            let stepped = session.close_block(lent.part());
            outcome.require(lent.is_unchanged(), "closing changed the output");
            (refusals::Call::Close, stepped)
        }
        _ => (refusals::Call::Finish, session.finish(lent.part_mut())),
    };
    outcome.require(lent.guards_hold(), "output: written outside");
    outcome.require(bytes.is_unchanged(), "metadata or record were changed");
    (call, stepped, lent.part().to_vec())
}

fn library_counts(counts: Counts) -> library::Counts {
    library::Counts {
        per_block: counts.per_block,
        per_index: counts.per_index,
    }
}

/// Compares the output and the figures, which are also those counted from the bytes given; and the check's number: 3 before a file is begun,
/// 2 before it is finished.
fn compare_all(outcome: &mut Outcome, due: &Session, given: &Given) {
    outcome.compare_each("output", &due.output(), &given.output);
    compare_figures(outcome, "", due.figures(), given.session);
    let counted = figures(&given.output);
    compare_figures(outcome, " by the bytes", counted, given.session);
    if !due.is_finished() {
        let number = if due.is_begun() { 2 } else { 3 };
        let checked = library::check(&given.output, &mut []);
        outcome.compare("check before the end", number, checked.number);
    }
}

fn compare_figures(outcome: &mut Outcome, way: &str, due: Figures, given: library::Session) {
    outcome.compare(&format!("records{way}"), due.records, given.records);
    outcome.compare(&format!("last{way}"), due.last, given.last);
    outcome.compare(&format!("next{way}"), due.next, given.next);
}

/// What holds of a finished file, whatever the second session says: both checks accept it, its records are those that were added, and it is
/// the writer's unless a block was closed early.
fn compare_finished(
    outcome: &mut Outcome,
    due: &Session,
    given: &Given,
    metadata: &[u8],
    counts: Counts,
) {
    let end = given.session.next as usize;
    let file = given.output.get(..end).unwrap_or(&[]);
    let records: Vec<Vec<u8>> = due.blocks().concat();
    let input = Plan::data(&records).payload(&[]);
    read_back(outcome, file, &input);
    outcome.compare("other check", 0, reader::check(file, file.len()).number);
    let mut output = vec![7; given.output.len()];
    let written = library::write(metadata, &input, library_counts(counts), &mut output);
    let is_same = written.number == 0 && output == given.output;
    if due.has_short_block() {
        outcome.require(!is_same, "the writer's file in spite of a short block");
    } else {
        outcome.require(is_same, "not the writer's file");
    }
}
