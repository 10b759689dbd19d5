//! Adding files and cases to the corpus.

use super::{Call, Case, Claim, Corpus, File, MOST_PLACES};
use crate::maker::{Image, Tree};
use crate::reader::{check, read, search, unpack, Query};
use crate::sim::import;
use crate::writer::{write, Counts};

/// Places given where a refusal is due, unless it takes more of them to come to it.
const FEW: usize = 12;

/// A query from its three parts; a stop of `None` isn't given.
pub fn query(start: &[u8], stop: Option<&[u8]>, prefix: &[u8]) -> Query {
    Query {
        start: start.to_vec(),
        stop: stop.map(<[u8]>::to_vec),
        prefix: prefix.to_vec(),
    }
}

/// The query that every record matches.
pub fn everything() -> Query {
    Query::default()
}

/// A query by prefix only.
pub fn prefix(prefix: &[u8]) -> Query {
    query(b"", None, prefix)
}

/// A query by start only.
pub fn start(start: &[u8]) -> Query {
    query(start, None, b"")
}

/// A query by stop only.
pub fn stop(stop: &[u8]) -> Query {
    query(b"", Some(stop), b"")
}

/// So many records in a data block and so many entries in an index block.
pub const fn counts(per_block: u64, per_index: u64) -> Counts {
    Counts {
        per_block,
        per_index,
    }
}

/// Three data blocks under one root: blocks 0, 1 and 2, and the root 3.
pub fn plain() -> Tree {
    Tree::new(&[&["ab", "b"], &["b", "ca"], &["d", "e"]])
}

/// Four data blocks 0 to 3, level 1 in blocks 4 and 5, the root 6 on level 2.
pub fn two_levels() -> Tree {
    let mut tree = Tree::new(&[&["a", "b"], &["c", "d"], &["f", "g"], &["h", "i"]]);
    tree.fan_out = vec![2];
    tree
}

/// Gives the image of a tree with one thing changed.
pub fn alter(tree: &Tree, change: impl FnOnce(&mut Image)) -> Image {
    let mut image = tree.image();
    change(&mut image);
    image
}

impl Corpus {
    /// Adds a file without cases.
    pub fn add_file(&mut self, name: &str, bytes: Vec<u8>, claim: Claim) {
        let name = name.to_string();
        self.files.push(File { name, bytes, claim });
    }

    /// Adds an accepted file with its usual cases.
    pub fn add_sound(&mut self, name: &str, bytes: Vec<u8>) {
        self.add_file(name, bytes, Claim::Sound);
        self.ask_usual(name);
    }

    /// Adds a file with one fault and its usual cases.
    pub fn add_refused(&mut self, name: &str, bytes: Vec<u8>, number: u64, place: u64) {
        self.add_file(name, bytes, Claim::Only(number, place));
        self.ask_usual(name);
    }

    /// Adds a file with several faults and its usual cases. The claim is of the first one.
    pub fn add_refused_first(&mut self, name: &str, bytes: Vec<u8>, number: u64, place: u64) {
        self.add_file(name, bytes, Claim::First(number, place));
        self.ask_usual(name);
    }

    /// The bytes of a file added before.
    pub(super) fn bytes_of(&self, name: &str) -> Vec<u8> {
        let file = self.files.iter().find(|file| file.name == name);
        file.map_or_else(Vec::new, |file| file.bytes.clone())
    }

    /// Asks for everything by all calls but record, and checks.
    pub fn ask_usual(&mut self, name: &str) {
        self.ask(name, &everything());
        let file = self.bytes_of(name);
        let checked = check(&file, usize::from(MOST_PLACES));
        let fitting = match checked.number {
            0 => checked.blocks,
            number if check(&file, FEW).number == number => FEW as u64,
            _ => u64::from(MOST_PLACES),
        };
        self.check(name, fitting);
    }

    /// Reads and searches with a query, with just enough room or a little more.
    pub fn ask(&mut self, name: &str, query: &Query) {
        self.ask_read(name, query);
        self.ask_search(name, query);
    }

    /// Reads with a query, with fitting room.
    pub fn ask_read(&mut self, name: &str, query: &Query) {
        let answer = read(&self.bytes_of(name), query, usize::from(MOST_PLACES));
        let spare = self.spare_places();
        let places = match answer.number {
            0 => answer.matches + spare,
            _ => 4 + spare,
        };
        self.read(name, query, places);
    }

    /// Searches with a query, with fitting room.
    pub fn ask_search(&mut self, name: &str, query: &Query) {
        let most = usize::from(MOST_PLACES);
        let file = self.bytes_of(name);
        let answer = search(&file, query, most, most);
        let few = search(&file, query, FEW, FEW);
        let spare = self.spare_places();
        let (opened, results) = match answer.number {
            0 => (answer.opened + spare, answer.matches + spare),
            number if few.number == number => (FEW as u64, FEW as u64 + spare),
            _ => (most as u64, most as u64),
        };
        self.search(name, query, opened, results);
    }

    /// Reads and searches an accepted file with just enough result places, one less and one more. Some record must match.
    pub fn ask_result_places(&mut self, name: &str, query: &Query) {
        let most = usize::from(MOST_PLACES);
        let found = search(&self.bytes_of(name), query, most, most);
        for places in [found.matches, found.matches - 1, found.matches + 1] {
            self.read(name, query, places);
            self.search(name, query, found.opened, places);
        }
    }

    /// Places beyond those needed: none, one or two, by turns.
    fn spare_places(&self) -> u64 {
        self.cases.len() as u64 % 3
    }

    /// Reads with so many result places.
    pub fn read(&mut self, name: &str, query: &Query, result_places: u64) {
        let mut case = Case::new(name, Call::Read).with_query(query);
        case.result_places = places(result_places);
        self.cases.push(case);
    }

    /// Searches with so many opened and result places.
    pub fn search(&mut self, name: &str, query: &Query, opened_places: u64, result_places: u64) {
        let mut case = Case::new(name, Call::Search).with_query(query);
        case.other_places = places(opened_places);
        case.result_places = places(result_places);
        self.cases.push(case);
    }

    /// Checks with so many work places.
    pub fn check(&mut self, name: &str, work_places: u64) {
        let mut case = Case::new(name, Call::Check);
        case.other_places = places(work_places);
        self.cases.push(case);
    }

    /// Asks for a part of the file.
    pub fn record(&mut self, name: &str, offset: u64, length: u64) {
        let mut case = Case::new(name, Call::Record);
        case.offset = offset;
        case.length = length;
        self.cases.push(case);
    }

    /// Writes with so many bytes of output.
    pub fn write(&mut self, name: &str, metadata: &[u8], counts: Counts, output: u16) {
        self.cases.push(Case::write(name, metadata, counts, output));
    }

    /// Writes records with just enough bytes of output, one less, and some more. Without room for the file nothing is asked.
    pub fn ask_write(&mut self, name: &str, per_block: u64, per_index: u64) {
        let counts = counts(per_block, per_index);
        let most = usize::from(u16::MAX) - 3;
        if let Ok(file) = write(b"{}", &self.bytes_of(name), counts, most) {
            let length = file.len() as u16;
            let longer = length + 1 + self.spare_places() as u16;
            for output in [length, length - 1, longer] {
                self.write(name, b"{}", counts, output);
            }
        }
    }

    /// Imports with so many bytes of output.
    pub fn import(&mut self, name: &str, name_length: u64, output: u16) {
        self.cases.push(Case::import(name, name_length, output));
    }

    /// Imports a dump with just enough bytes of output, one less, some more, and none. Where it is refused or has no records, with some
    /// and with none.
    pub fn ask_import(&mut self, name: &str, name_length: u64) {
        let most = usize::from(u16::MAX) - 3;
        let more = 1 + self.spare_places() as u16;
        let imported = import(&self.bytes_of(name), name_length, most);
        let outputs = match imported.map(|records| records.len() as u16) {
            Ok(0) => vec![0, more],
            Ok(length) => vec![length, length - 1, length + more, 0],
            Err(_) => vec![200 + more, 0],
        };
        for output in outputs {
            self.import(name, name_length, output);
        }
    }

    /// Asks for store `i`.
    pub fn store(&mut self, name: &str, i: u64) {
        self.cases.push(Case::store(name, i));
    }

    /// Asks for the records that a query finds, some of them.
    pub fn ask_records(&mut self, name: &str, query: &Query, some: usize) {
        let answer = read(&self.bytes_of(name), query, usize::from(MOST_PLACES));
        let matches = answer.matches as usize;
        for number in answer.results.into_iter().take(some.min(matches)) {
            let (offset, length) = unpack(number);
            self.record(name, offset, length);
        }
    }
}

/// A number of places as a case stores it, at most 128.
fn places(number: u64) -> u16 {
    number.min(u64::from(MOST_PLACES)) as u16
}
