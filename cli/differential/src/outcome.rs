//! What a case gave: the answer due, and everything that differs from it.

use crate::lent::Lent;
use zs_library::refusals::Call;

/// So many places of a list are printed one by one.
const MOST_PRINTED: usize = 3;

/// What a case gave.
#[derive(Debug, Clone, Default)]
pub struct Outcome {
    /// The refusal that is due, or 0. For a record 0 if it lies within the file and 1 if not; for metadata 0 if there are any and 1 if not;
    /// for a text 0 if it is metadata and 1 if not; for a store 0 if there is one and 1 if not; for a cut what the check gives then; for a part
    /// of one of two files as for a record; for a session 0.
    pub number: u64,
    /// Whether the refusal is of the second of two files.
    pub second: bool,
    /// How many matches, or differences of two files, are due.
    pub matches: u64,
    /// The steps of a session, and the refusal that is due for each, or 0.
    pub steps: Vec<(Call, u64)>,
    /// Steps with a session or an output that no step handed back, and the number that each gave.
    pub strangers: Vec<(Call, u64)>,
    /// How often a session was started afresh.
    pub afresh: u64,
    /// What differs, one line for each thing.
    pub differences: Vec<String>,
}

impl Outcome {
    /// Nothing has differed so far.
    pub fn of(number: u64, matches: u64) -> Self {
        Outcome {
            number,
            matches,
            ..Outcome::default()
        }
    }

    /// Compares one number.
    pub fn compare(&mut self, what: &str, due: u64, given: u64) {
        if due != given {
            let line = format!("{what}: due {due}, given {given}");
            self.differences.push(line);
        }
    }

    /// Notes what doesn't hold.
    pub fn require(&mut self, holds: bool, otherwise: &str) {
        if !holds {
            self.differences.push(otherwise.to_string());
        }
    }

    /// Compares every place of a list or an output, and its guards.
    pub fn compare_places<T>(&mut self, what: &str, due: &[T], given: &Lent<T>)
    where
        T: Copy + PartialEq + Into<u64>,
    {
        self.require(given.guards_hold(), &format!("{what}: written outside"));
        self.compare_each(what, due, given.part());
    }

    /// Compares every place. The first places that differ are printed.
    pub fn compare_each<T>(&mut self, what: &str, due: &[T], given: &[T])
    where
        T: Copy + PartialEq + Into<u64>,
    {
        if due == given {
            return;
        }
        self.compare("places", due.len() as u64, given.len() as u64);
        let places = due.iter().zip(given).enumerate();
        let unequal: Vec<_> = places.filter(|(_, (due, given))| due != given).collect();
        for (place, (due, given)) in unequal.iter().take(MOST_PRINTED) {
            let (due, given) = ((**due).into(), (**given).into());
            self.compare(&format!("{what}, place {place}"), due, given);
        }
        if unequal.len() > MOST_PRINTED {
            let line = format!("{what}: {} places in all", unequal.len());
            self.differences.push(line);
        }
    }
}
