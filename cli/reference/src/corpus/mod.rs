//! The stored corpus: named files, cases to run on them, and the lines due.
//!
//! Each file carries a claim of its maker, so that the tests can compare what the
//! maker meant with what the reader says. Lines come from this library alone,
//! but for writes whose file docs/FORMAT.md has: those come from that page.

mod build;
mod call;
mod case;
mod compared;
mod drawn;
mod examples;
mod framing_faults;
mod header_faults;
mod hostile;
mod imported;
mod metadata;
mod naming_faults;
mod order_faults;
mod pair;
mod payload_faults;
mod queried;
mod sessions;
mod sound;
mod steps;
mod stored;
mod two_faults;
mod written;

pub use call::{Call, ALL_CALLS};
pub use case::Case;
pub use steps::{decode_steps, encode_steps};
pub use written::published_file;

use std::collections::HashMap;

/// No data file and no list of cases is longer.
pub const LONGEST_DATA: usize = 65_536;
/// No file name is longer.
pub const LONGEST_NAME: usize = 40;
/// No list of a case is longer.
pub const MOST_PLACES: u16 = 128;

/// The file that holds the cases of the readers, as many as fit.
const CASES: &str = "cases";
/// The file that holds the rest of them.
const MORE_CASES: &str = "more-cases";
/// The file that holds those of the writer.
const WRITE_CASES: &str = "write-cases";
/// The file that holds those of the import.
const IMPORT_CASES: &str = "import-cases";
/// The file that holds those of sessions.
const SESSION_CASES: &str = "session-cases";
/// The file that holds those on two files.
const COMPARE_CASES: &str = "compare-cases";

/// What the maker of a file says that the check must answer, given room.
#[derive(Debug, Clone, Copy, PartialEq, Eq)]
pub enum Claim {
    /// The file is accepted.
    Sound,
    /// Refused with this number and place, and no other refusal applies.
    Only(u64, u64),
    /// Refused with this number and place; later ones apply too.
    First(u64, u64),
    /// Nothing is claimed.
    Nothing,
    /// Records for the writer. With sound metadata and counts, and with room, it gives this number.
    Records(u64),
    /// A dump for the import. With name fields of this length, and with room, it gives this number.
    Dump(u64, u64),
    /// The steps of a session.
    Steps,
}

/// A named file of the corpus.
#[derive(Debug, Clone)]
pub struct File {
    /// Its name, of small letters, digits, `-` and `_`.
    pub name: String,
    /// Its bytes.
    pub bytes: Vec<u8>,
    /// What its maker says of it.
    pub claim: Claim,
}

/// The whole corpus.
#[derive(Debug, Clone, Default)]
pub struct Corpus {
    /// The files in the order of their making.
    pub files: Vec<File>,
    /// The cases, those of one file together; after all others those on two files, with the first file's together.
    pub cases: Vec<Case>,
}

impl Corpus {
    /// All files and all cases.
    pub fn whole() -> Self {
        let mut corpus = Corpus::default();
        examples::add(&mut corpus);
        sound::add(&mut corpus);
        queried::add(&mut corpus);
        header_faults::add(&mut corpus);
        framing_faults::add(&mut corpus);
        payload_faults::add(&mut corpus);
        naming_faults::add(&mut corpus);
        order_faults::add(&mut corpus);
        two_faults::add(&mut corpus);
        hostile::add(&mut corpus);
        drawn::add(&mut corpus);
        stored::add(&mut corpus);
        written::add(&mut corpus);
        imported::add(&mut corpus);
        compared::add(&mut corpus);
        sessions::add(&mut corpus);
        corpus.gather();
        corpus
    }

    /// Brings the cases of one file together, in the order of the files, those on two files last.
    fn gather(&mut self) {
        let names = self.files.iter().enumerate();
        let order: HashMap<&str, usize> = names
            .map(|(number, file)| (file.name.as_str(), number))
            .collect();
        let position = |case: &Case| {
            let number = order.get(case.name.as_str()).copied();
            (case.call.takes_two(), number)
        };
        self.cases.sort_by_key(position);
    }

    /// The same corpus with the cases of some calls only, and the files they name.
    pub fn with_calls(mut self, calls: &[Call]) -> Self {
        self.cases.retain(|case| calls.contains(&case.call));
        let names = |case: &Case| [Some(case.name.clone()), case.second().map(str::to_string)];
        let named: Vec<String> = self.cases.iter().flat_map(names).flatten().collect();
        self.files.retain(|file| named.contains(&file.name));
        self
    }

    /// The files with the cases, by name, in the order in which they are run.
    pub fn case_files(&self) -> [(&'static str, Vec<u8>); 6] {
        let (mut cases, mut more) = (Vec::new(), Vec::new());
        let (mut writes, mut imports) = (Vec::new(), Vec::new());
        let (mut sessions, mut pairs) = (Vec::new(), Vec::new());
        for case in &self.cases {
            let encoded = case.encode();
            let fits = more.is_empty() && cases.len() + encoded.len() <= LONGEST_DATA;
            match case.call {
                Call::Write => writes.extend(encoded),
                Call::ImportSim => imports.extend(encoded),
                Call::Session => sessions.extend(encoded),
                Call::Compare | Call::Shown => pairs.extend(encoded),
                _ if fits => cases.extend(encoded),
                _ => more.extend(encoded),
            }
        }
        [
            (CASES, cases),
            (MORE_CASES, more),
            (WRITE_CASES, writes),
            (IMPORT_CASES, imports),
            (SESSION_CASES, sessions),
            (COMPARE_CASES, pairs),
        ]
    }

    /// The output due, one line for each case, and of a session one for each step.
    pub fn lines(&self) -> String {
        let files = self.files.iter();
        let bytes: HashMap<&str, &[u8]> = files
            .map(|file| (file.name.as_str(), file.bytes.as_slice()))
            .collect();
        let mut out = String::new();
        for case in &self.cases {
            let file = bytes.get(case.name.as_str()).copied().unwrap_or(&[]);
            let second = case.second().and_then(|name| bytes.get(name));
            let line = match published_file(case) {
                Some(published) => case.line_of_file(published),
                None => case.line(file, second.copied().unwrap_or(&[])),
            };
            out.push_str(&line);
            out.push('\n');
        }
        out
    }

    /// The first limit of the format of cases that is exceeded, in words.
    pub fn broken_limit(&self) -> Option<String> {
        let long = self
            .files
            .iter()
            .find(|file| file.bytes.len() > LONGEST_DATA);
        if let Some(file) = long {
            return Some(format!("{} is too long", file.name));
        }
        if let Some(file) = self.files.iter().find(|file| !is_good_name(&file.name)) {
            return Some(format!("{} is no good name", file.name));
        }
        let mut lists = self.cases.iter().filter(|case| case.call.has_lists());
        let wide = |case: &&Case| case.result_places.max(case.other_places) > MOST_PLACES;
        if let Some(case) = lists.find(wide) {
            return Some(format!("a case of {} has too many places", case.name));
        }
        let files = self.case_files();
        let long = files.iter().find(|(_, cases)| cases.len() > LONGEST_DATA);
        long.map(|(name, cases)| format!("{name} takes {} bytes", cases.len()))
    }
}

/// Whether a name may stand in a case.
fn is_good_name(name: &str) -> bool {
    let good = |byte: u8| matches!(byte, b'a'..=b'z' | b'0'..=b'9' | b'_' | b'-');
    let taken = [
        CASES,
        MORE_CASES,
        WRITE_CASES,
        IMPORT_CASES,
        SESSION_CASES,
        COMPARE_CASES,
    ];
    let taken = taken.contains(&name);
    (1..=LONGEST_NAME).contains(&name.len()) && !taken && name.bytes().all(good)
}
