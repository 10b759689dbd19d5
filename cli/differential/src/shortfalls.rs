//! The least that a run of the tests must reach.

use crate::dump_faults::FAR;
use crate::dump_kinds;
use crate::dumps::FIELDS;
use crate::keys;
use crate::pair_kinds;
use crate::show_kinds;
use crate::store_kinds;
use crate::tally::{Tally, STEPS};
use zs_library::refusals;

/// The refusal that no drawn file gets: it takes more than 2^30 bytes.
const TOO_LONG: u64 = 1;
/// The least count of each number that a call can give.
const LEAST: u64 = 100;
/// The least count of searches in accepted files with two or more levels below the root.
const LEAST_DEEP: u64 = 5000;
/// The least count of texts that are metadata, and of others.
const LEAST_TEXTS: u64 = 25_000;

/// How many whole stores arrive before a cut, and what the check can give then: 0 for the finished file.
const CUTS: [(usize, u64); 8] = [
    (0, 3),
    (0, 2),
    (1, 2),
    (2, 2),
    (3, 2),
    (3, 3),
    (3, 0),
    (4, 0),
];

/// The numbers that a call must give: 0, for no refusal, and its refusals.
fn due_numbers(call: refusals::Call) -> impl Iterator<Item = u64> {
    let refusals = refusals::numbers(call).filter(|number| *number != TOO_LONG);
    std::iter::once(0).chain(refusals)
}

/// Those that came up too rarely.
fn rare<T>(counts: impl Iterator<Item = (T, u64)>) -> impl Iterator<Item = (T, u64)> {
    counts.filter(|(_, count)| *count < LEAST)
}

impl Tally {
    /// Cuts after so many whole stores with which the check gave this number.
    fn cut(&self, cut: (usize, u64)) -> u64 {
        self.cuts.get(&cut).copied().unwrap_or(0)
    }

    /// Numbers that a call can give and didn't give often enough.
    fn rare_numbers(&self) -> Vec<String> {
        let mut numbers = Vec::new();
        for (call, column) in self.columns() {
            let counts = due_numbers(call).map(|number| (number, column.count(number)));
            let few = rare(counts);
            numbers.extend(few.map(|(number, count)| format!("{call:?} {number}: {count} times")));
        }
        numbers
    }

    /// Numbers that a step can give, and didn't give often enough with a session or an output that no step handed back.
    fn rare_strangers(&self) -> Vec<String> {
        let mut numbers = Vec::new();
        for (call, column) in STEPS.iter().zip(&self.strangers) {
            let counts = due_numbers(*call).map(|number| (number, column.count(number)));
            let few = rare(counts);
            let few =
                few.map(|(number, count)| format!("{call:?} {number} of strangers: {count} times"));
            numbers.extend(few);
        }
        numbers
    }

    /// Numbers of the check that a comparison didn't give often enough for the first file, or for the second.
    fn rare_refusals_of_pairs(&self) -> Vec<String> {
        let mut numbers = Vec::new();
        for number in refusals::numbers(refusals::Call::Check).filter(|n| *n != TOO_LONG) {
            let second = self.compare_second.get(&number).copied().unwrap_or(0);
            let first = self.compare.count(number) - second;
            let few = rare([("first", first), ("second", second)].into_iter());
            numbers
                .extend(few.map(|(file, count)| format!("{number} of the {file}: {count} times")));
        }
        numbers
    }

    /// Kinds that didn't come up often enough.
    fn rare_kinds(&self) -> Vec<String> {
        let borders = rare(keys::names().zip(self.kinds));
        let dumps = rare(dump_kinds::names().zip(self.dump_kinds));
        let stores = rare(store_kinds::names().zip(self.store_kinds));
        let pairs = rare(pair_kinds::names().zip(self.pair_kinds));
        let parts = rare(show_kinds::names().zip(self.show_kinds));
        let borders =
            borders.map(|(name, count)| format!("{name} where blocks meet: {count} times"));
        let dumps = dumps.map(|(name, count)| format!("dumps with {name}: {count} times"));
        let stores = stores.map(|(name, count)| format!("stores with {name}: {count} times"));
        let pairs = pairs.map(|(name, count)| format!("pairs with {name}: {count} times"));
        let parts = parts.map(|(name, count)| format!("pairs asked for {name}: {count} times"));
        let sessions = rare(self.session_kinds());
        let sessions = sessions.map(|(name, count)| format!("sessions with {name}: {count} times"));
        let files = borders.chain(dumps).chain(stores);
        files.chain(pairs).chain(parts).chain(sessions).collect()
    }

    /// What the run falls short of.
    pub fn shortfalls(&self) -> Vec<String> {
        let mut missing = self.rare_numbers();
        missing.extend(self.rare_strangers());
        missing.extend(self.rare_refusals_of_pairs());
        missing.extend(self.rare_kinds());
        let cuts = rare(CUTS.map(|cut| (cut, self.cut(cut))).into_iter());
        missing.extend(cuts.map(|((whole, number), count)| {
            format!("{number} after {whole} stores: {count} times")
        }));
        missing.extend(self.missing_lengths());
        missing.extend(self.missing_exact());
        let unmet = self.demands().into_iter().filter(|(met, _)| !met);
        missing.extend(unmet.map(|(_, what)| what.to_string()));
        missing
    }

    /// Lengths of name fields that didn't come up, or with which nothing was imported though they are allowed.
    fn missing_lengths(&self) -> Option<String> {
        let (seen, longest) = (&self.name_lengths, FIELDS - 2);
        let is_missing = |length: &u64| match seen.get(length) {
            Some(imported) => *length <= longest && *imported == 0,
            None => true,
        };
        let first = (0..FIELDS).chain(FAR).find(is_missing);
        first.map(|length| format!("name fields of {length} bytes"))
    }

    /// Calls that weren't answered with just enough room as often as with more.
    fn missing_exact(&self) -> Vec<String> {
        let columns = self.columns().into_iter();
        let missed = columns.filter(|(_, column)| column.exact != column.answered);
        missed
            .map(|(call, column)| format!("{call:?} with just enough room: {} times", column.exact))
            .collect()
    }

    /// What a run has to reach besides the count of each number, and whether it did.
    fn demands(&self) -> [(bool, &'static str); 15] {
        [
            (self.records.iter().all(|n| *n >= LEAST), "records"),
            (self.metadata.iter().all(|n| *n >= LEAST), "metadata"),
            (self.shown.iter().all(|n| *n >= LEAST), "parts of two files"),
            (self.texts.iter().all(|n| *n >= LEAST_TEXTS), "texts"),
            (self.deep >= LEAST_DEEP, "searches below two levels"),
            (
                self.deep_matched * 3 >= self.deep,
                "matches below two levels",
            ),
            (
                self.check.first_short == self.check.answered,
                "short work lists",
            ),
            (
                self.search.first_short == self.search.answered,
                "short opened lists",
            ),
            (
                self.compare.first_short == self.compare.answered,
                "short work lists of comparisons",
            ),
            (
                self.write.first_short == self.write.answered,
                "short outputs",
            ),
            (
                self.import.first_short == self.import.answered,
                "short outputs of imports",
            ),
            (
                self.write.whole_short >= LEAST,
                "outputs too short with whole records as keys",
            ),
            (
                self.search.results_short == self.search.matched,
                "short result lists of searches",
            ),
            (
                self.read.results_short == self.read.matched,
                "short result lists of reads",
            ),
            (
                self.compare.results_short == self.compare.matched,
                "short lists of differences",
            ),
        ]
    }
}
