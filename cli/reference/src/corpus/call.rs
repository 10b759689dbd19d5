//! The functions that cases call.

/// Which function a case calls.
#[derive(Debug, Clone, Copy, PartialEq, Eq)]
pub enum Call {
    /// Reading front to back.
    Read,
    /// The check.
    Check,
    /// The search.
    Search,
    /// Handing back a record.
    Record,
    /// Writing the records that the file holds.
    Write,
    /// Importing the SIM phonebook of which the file is a dump.
    ImportSim,
    /// Where a store of the file goes.
    Store,
    /// Comparing the file with a second one.
    Compare,
    /// Handing back a part of the file or of a second one.
    Shown,
    /// Taking the steps of a session that the file holds.
    Session,
}

/// Every call, in the order of their numbers.
pub const ALL_CALLS: [Call; 10] = [
    Call::Read,
    Call::Check,
    Call::Search,
    Call::Record,
    Call::Write,
    Call::ImportSim,
    Call::Store,
    Call::Compare,
    Call::Shown,
    Call::Session,
];

impl Call {
    /// The number that stands for the call in a stored case.
    pub fn number(self) -> u8 {
        match self {
            Call::Read => 1,
            Call::Check => 2,
            Call::Search => 3,
            Call::Record => 4,
            Call::Write => 5,
            Call::ImportSim => 6,
            Call::Store => 7,
            Call::Compare => 8,
            Call::Shown => 9,
            Call::Session => 10,
        }
    }

    /// The word that stands for the call in a line and on the command line.
    pub fn word(self) -> &'static str {
        match self {
            Call::Read => "read",
            Call::Check => "check",
            Call::Search => "search",
            Call::Record => "record",
            Call::Write => "write",
            Call::ImportSim => "import_sim",
            Call::Store => "store",
            Call::Compare => "compare",
            Call::Shown => "shown",
            Call::Session => "session",
        }
    }

    /// Whether the call is lent lists.
    pub fn has_lists(self) -> bool {
        !matches!(
            self,
            Call::Write | Call::ImportSim | Call::Shown | Call::Session
        )
    }

    /// Whether the call is one on two files.
    pub fn takes_two(self) -> bool {
        matches!(self, Call::Compare | Call::Shown)
    }
}
