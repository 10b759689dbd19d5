//! Counts of cases.

use std::collections::BTreeMap;

use crate::call::{Call, Room};
use crate::drawing::Drawing;
use crate::dump_kinds;
use crate::keys;
use crate::outcome::Outcome;
use crate::pair_kinds;
use crate::session_kinds;
use crate::show_kinds;
use crate::store_kinds;
use zs_library::refusals;

/// Counts which of the kinds there are.
fn count<const N: usize>(counts: &mut [u64; N], kinds: &[bool; N]) {
    for (count, holds) in counts.iter_mut().zip(kinds) {
        *count += u64::from(*holds);
    }
}

/// The steps of sessions that can refuse, in the order of their columns.
pub const STEPS: [refusals::Call; 4] = [
    refusals::Call::Begin,
    refusals::Call::Add,
    refusals::Call::Close,
    refusals::Call::Finish,
];

/// Counts steps in their columns.
fn add_each(columns: &mut [Column; 4], steps: &[(refusals::Call, u64)]) {
    for (call, number) in steps {
        let named = STEPS.iter().zip(columns.iter_mut());
        for (_, column) in named.filter(|(step, _)| *step == call) {
            *column.numbers.entry(*number).or_default() += 1;
        }
    }
}

/// Counts of one call.
#[derive(Debug, Clone, Default)]
pub struct Column {
    /// Cases by number.
    pub numbers: BTreeMap<u64, u64>,
    /// Answers with more room than needed, on accepted files, sound inputs and sound dumps.
    pub answered: u64,
    /// Those of them with matches.
    pub matched: u64,
    /// Answers with just enough room, on the same.
    pub exact: u64,
    /// Refusals 18 or 26 on accepted files, by a work list or opened list that is one place short; 31 by such an output.
    pub first_short: u64,
    /// Refusals 27 or 35 on accepted files, by a result list or a list of differences that is one place short.
    pub results_short: u64,
    /// Files written into an output that is one byte too short for the longer file with whole records as keys.
    pub whole_short: u64,
}

impl Column {
    /// Counts a case on what is accepted by how much room it had.
    fn add_room(&mut self, room: Room, outcome: &Outcome) {
        let number = outcome.number;
        match room {
            Room::Plenty => {
                self.answered += 1;
                self.matched += u64::from(outcome.matches > 0);
            }
            Room::FirstShort => self.first_short += u64::from([18, 26, 31].contains(&number)),
            Room::ResultsShort => self.results_short += u64::from([27, 35].contains(&number)),
            Room::WholeShort => self.whole_short += u64::from(number == 0),
            Room::Exact => self.exact += u64::from(number == 0),
            Room::Any => {}
        }
    }

    /// Cases with this number.
    pub fn count(&self, number: u64) -> u64 {
        self.numbers.get(&number).copied().unwrap_or(0)
    }
}

/// Counts of a run.
#[derive(Debug, Clone, Default)]
pub struct Tally {
    /// Numbers drawn: files for the readers, inputs for the writers, dumps for the imports, sessions, rows of texts, and rows of bytes that may
    /// have stores.
    pub steps: u64,
    /// Of the check.
    pub check: Column,
    /// Of reading front to back.
    pub read: Column,
    /// Of the search.
    pub search: Column,
    /// Of the writer.
    pub write: Column,
    /// Of the import of SIM phonebooks.
    pub import: Column,
    /// Of the comparison.
    pub compare: Column,
    /// Of the steps of sessions: begin, add, close and finish.
    pub steps_of_sessions: [Column; 4],
    /// Of such steps with sessions and outputs that no step handed back.
    pub strangers: [Column; 4],
    /// How often a session was started afresh.
    pub afresh: u64,
    /// Comparisons in which the second file is refused, by number.
    pub compare_second: BTreeMap<u64, u64>,
    /// Records within the file, and others.
    pub records: [u64; 2],
    /// Files with metadata, and others.
    pub metadata: [u64; 2],
    /// Texts that are metadata, and others.
    pub texts: [u64; 2],
    /// Stores asked for that there are, and others.
    pub stores: [u64; 2],
    /// Parts of two files that are there, and others.
    pub shown: [u64; 2],
    /// Cuts by how many whole stores arrive and what the check gives then.
    pub cuts: BTreeMap<(usize, u64), u64>,
    /// Inputs written, by what their records are like where data blocks meet.
    pub kinds: [u64; keys::COUNT],
    /// Dumps imported, by what their records are like.
    pub dump_kinds: [u64; dump_kinds::COUNT],
    /// Files by what the stores asked for and the cuts are like.
    pub store_kinds: [u64; store_kinds::COUNT],
    /// Pairs of files by what they are like.
    pub pair_kinds: [u64; pair_kinds::COUNT],
    /// Sessions by what their steps are like.
    pub session_kinds: BTreeMap<&'static str, u64>,
    /// Pairs of files by what the parts asked for are like.
    pub show_kinds: [u64; show_kinds::COUNT],
    /// The lengths of name fields that came up, and how many dumps with records were imported with each.
    pub name_lengths: BTreeMap<u64, u64>,
    /// Searches of accepted files with two or more levels below the root, one for each query.
    pub deep: u64,
    /// Those of them with matches.
    pub deep_matched: u64,
    /// Cases in which something differed.
    pub differing: u64,
}

impl Tally {
    /// Counts one case. The level is the root's, where the file is accepted.
    pub fn add(&mut self, accepted: Option<u8>, call: &Call, room: Room, outcome: &Outcome) {
        self.differing += u64::from(!outcome.differences.is_empty());
        let number = outcome.number;
        let parity = (number % 2) as usize;
        let column = match call {
            Call::Check { .. } => &mut self.check,
            Call::Read { .. } => &mut self.read,
            Call::Search { .. } => &mut self.search,
            Call::Write { .. } => &mut self.write,
            Call::ImportSim { name_length, .. } => {
                let imported = self.name_lengths.entry(*name_length).or_default();
                *imported += u64::from(room == Room::Plenty);
                &mut self.import
            }
            Call::Compare { .. } => {
                if outcome.second {
                    *self.compare_second.entry(number).or_default() += 1;
                }
                &mut self.compare
            }
            Call::Record { .. } => return self.records[parity] += 1,
            Call::Metadata => return self.metadata[parity] += 1,
            Call::IsMetadata => return self.texts[parity] += 1,
            Call::Store { .. } => return self.stores[parity] += 1,
            Call::Show { .. } => return self.shown[parity] += 1,
            Call::Cut { whole, .. } => return *self.cuts.entry((*whole, number)).or_default() += 1,
            Call::Session { .. } => return self.add_steps(outcome),
        };
        *column.numbers.entry(number).or_default() += 1;
        let level = match accepted {
            Some(level) => level,
            None => return,
        };
        column.add_room(room, outcome);
        if level >= 2 && room == Room::Plenty && matches!(call, Call::Search { .. }) {
            self.deep += 1;
            self.deep_matched += u64::from(outcome.matches > 0);
        }
    }

    /// Counts the steps of a session.
    fn add_steps(&mut self, outcome: &Outcome) {
        self.afresh += outcome.afresh;
        add_each(&mut self.steps_of_sessions, &outcome.steps);
        add_each(&mut self.strangers, &outcome.strangers);
    }

    /// Counts what a drawing is like.
    pub fn add_kinds(&mut self, drawing: &Drawing) {
        count(&mut self.kinds, &drawing.kinds);
        count(&mut self.dump_kinds, &drawing.dump_kinds);
        let (bytes, calls) = (&drawing.bytes, &drawing.calls);
        count(&mut self.store_kinds, &store_kinds::kinds(bytes, calls));
        count(&mut self.pair_kinds, &pair_kinds::kinds(bytes, calls));
        count(&mut self.show_kinds, &show_kinds::kinds(bytes, calls));
        for name in session_kinds::kinds(calls) {
            *self.session_kinds.entry(name).or_default() += 1;
        }
    }

    /// The kinds of steps of sessions, and how many sessions have each.
    pub fn session_kinds(&self) -> impl Iterator<Item = (&'static str, u64)> + '_ {
        let count = |name| self.session_kinds.get(name).copied().unwrap_or(0);
        session_kinds::names().map(move |name| (name, count(name)))
    }

    /// The calls that can refuse, and their counts.
    pub fn columns(&self) -> [(refusals::Call, &Column); 10] {
        let [begin, add, close, finish] = &self.steps_of_sessions;
        [
            (refusals::Call::Check, &self.check),
            (refusals::Call::Read, &self.read),
            (refusals::Call::Search, &self.search),
            (refusals::Call::Write, &self.write),
            (refusals::Call::ImportSim, &self.import),
            (refusals::Call::Compare, &self.compare),
            (refusals::Call::Begin, begin),
            (refusals::Call::Add, add),
            (refusals::Call::Close, close),
            (refusals::Call::Finish, finish),
        ]
    }

    /// All cases.
    pub fn cases(&self) -> u64 {
        let columns = self.columns();
        let counted = columns
            .iter()
            .flat_map(|(_, column)| column.numbers.values());
        let others = [
            self.records,
            self.metadata,
            self.texts,
            self.stores,
            self.shown,
        ];
        let strangers = self.strangers.iter();
        let strangers = strangers.flat_map(|column| column.numbers.values());
        let others = others.iter().flatten().chain(self.cuts.values());
        self.afresh + counted.chain(strangers).chain(others).sum::<u64>()
    }
}
