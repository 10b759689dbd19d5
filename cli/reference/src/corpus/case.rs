//! One case: a call on a named file, how it is stored, and the line due.

use super::call::Call;
use crate::checksums::sha256;
use crate::reader::{check, read, record, search, within, Query};
use crate::sim::import;
use crate::stores::store_part;
use crate::writer::{write, Counts};

/// A case. What its call doesn't use is zero or empty. A write, an import, a store and a call on two files have some of the fields for
/// their own, as [`Case::write`], [`Case::import`], [`Case::store`], [`Case::compare`] and [`Case::shown`] say.
#[derive(Debug, Clone, PartialEq, Eq)]
pub struct Case {
    /// Name of the file.
    pub name: String,
    /// The call.
    pub call: Call,
    /// Start of the query.
    pub start: Vec<u8>,
    /// Whether a stop is given. If not, the bytes of `stop` mean nothing.
    pub stop_given: bool,
    /// Stop of the query.
    pub stop: Vec<u8>,
    /// Prefix of the query.
    pub prefix: Vec<u8>,
    /// Places of the result list.
    pub result_places: u16,
    /// Places of the opened list, or of the work list.
    pub other_places: u16,
    /// Offset of a record.
    pub offset: u64,
    /// Length of a record.
    pub length: u64,
}

impl Case {
    /// A case that asks for nothing and gives no room.
    pub fn new(name: &str, call: Call) -> Self {
        Case {
            name: name.to_string(),
            call,
            start: Vec::new(),
            stop_given: false,
            stop: Vec::new(),
            prefix: Vec::new(),
            result_places: 0,
            other_places: 0,
            offset: 0,
            length: 0,
        }
    }

    /// A write. Its metadata stand for the start, the bytes of its output for the places of the result list, and its counts for offset
    /// and length.
    pub fn write(name: &str, metadata: &[u8], counts: Counts, output: u16) -> Self {
        let mut case = Case::new(name, Call::Write);
        case.start = metadata.to_vec();
        case.result_places = output;
        case.offset = counts.per_block;
        case.length = counts.per_index;
        case
    }

    /// An import. Its name length stands for the offset, and the bytes of its output for the places of the result list.
    pub fn import(name: &str, name_length: u64, output: u16) -> Self {
        let mut case = Case::new(name, Call::ImportSim);
        case.result_places = output;
        case.offset = name_length;
        case
    }

    /// A store. Its number stands for the offset.
    pub fn store(name: &str, i: u64) -> Self {
        let mut case = Case::new(name, Call::Store);
        case.offset = i;
        case
    }

    /// The same case under a query.
    pub fn with_query(mut self, query: &Query) -> Self {
        self.start = query.start.clone();
        self.stop_given = query.stop.is_some();
        self.stop = query.stop.clone().unwrap_or_default();
        self.prefix = query.prefix.clone();
        self
    }

    /// The query of the case.
    pub fn query(&self) -> Query {
        Query {
            start: self.start.clone(),
            stop: self.stop_given.then(|| self.stop.clone()),
            prefix: self.prefix.clone(),
        }
    }

    /// Gives the case as `data/cases` stores it.
    pub fn encode(&self) -> Vec<u8> {
        let mut out = Vec::new();
        put_short(&mut out, self.name.as_bytes());
        out.push(self.call.number());
        put_short(&mut out, &self.start);
        out.push(u8::from(self.stop_given));
        put_short(&mut out, &self.stop);
        put_short(&mut out, &self.prefix);
        out.extend(self.result_places.to_le_bytes());
        out.extend(self.other_places.to_le_bytes());
        out.extend(self.offset.to_le_bytes());
        out.extend(self.length.to_le_bytes());
        out
    }

    /// The line due for the case, or one for each step of a session, given the bytes of its file, and those of the second one where it has two.
    pub fn line(&self, file: &[u8], second: &[u8]) -> String {
        let answer = match self.call {
            Call::Read => self.read_line(file),
            Call::Check => self.check_line(file),
            Call::Search => self.search_line(file),
            Call::Record => self.record_line(file),
            Call::Write => self.write_line(self.written(file)),
            Call::ImportSim => self.import_line(file),
            Call::Store => self.store_line(file),
            Call::Compare => self.compare_line(file, second),
            Call::Shown => self.shown_line(file, second),
            Call::Session => return self.session_lines(file),
        };
        self.line_with(&answer)
    }

    /// The line due for a write of which the file is known.
    pub fn line_of_file(&self, file: Vec<u8>) -> String {
        let fits = file.len() <= usize::from(self.result_places);
        let answer = self.write_line(if fits { Ok(file) } else { Err(31) });
        self.line_with(&answer)
    }

    fn line_with(&self, answer: &str) -> String {
        format!("{} {} {answer}", self.name, self.call.word())
    }

    fn read_line(&self, file: &[u8]) -> String {
        let answer = read(file, &self.query(), usize::from(self.result_places));
        format!(
            "{}: number {} place {} matches {} results{}",
            self.query_words(),
            answer.number,
            answer.place,
            answer.matches,
            list(&answer.results),
        )
    }

    fn check_line(&self, file: &[u8]) -> String {
        let places = usize::from(self.other_places);
        let answer = check(file, places);
        format!(
            "{places}: number {} place {} blocks {} records {} work{}",
            answer.number,
            answer.place,
            answer.blocks,
            answer.records,
            list(&vec![0; places]),
        )
    }

    fn search_line(&self, file: &[u8]) -> String {
        let opened_places = usize::from(self.other_places);
        let result_places = usize::from(self.result_places);
        let answer = search(file, &self.query(), opened_places, result_places);
        format!(
            "{}: number {} place {} matches {} opened {} openedlist{} results{}",
            self.query_words(),
            answer.number,
            answer.place,
            answer.matches,
            answer.opened,
            list(&answer.opened_list),
            list(&answer.results),
        )
    }

    fn record_line(&self, file: &[u8]) -> String {
        let inside = if within(file, self.offset, self.length) {
            "yes"
        } else {
            "no"
        };
        let (offset, length) = record(file, self.offset, self.length);
        let rest = file.get(offset as usize..).unwrap_or(&[]);
        let part = rest.get(..length as usize).unwrap_or(&[]);
        format!(
            "{} {}: within {inside} part {offset} {length} bytes {}",
            self.offset,
            self.length,
            hex(part),
        )
    }

    /// What the second writer makes of these records.
    fn written(&self, records: &[u8]) -> Result<Vec<u8>, u64> {
        let counts = Counts {
            per_block: self.offset,
            per_index: self.length,
        };
        let room = usize::from(self.result_places);
        write(&self.start, records, counts, room)
    }

    fn write_line(&self, answer: Result<Vec<u8>, u64>) -> String {
        format!(
            "{} {} {} {}",
            hex(&self.start),
            self.offset,
            self.length,
            self.output_words(answer)
        )
    }

    fn import_line(&self, dump: &[u8]) -> String {
        let room = usize::from(self.result_places);
        let answer = import(dump, self.offset, room);
        format!("{} {}", self.offset, self.output_words(answer))
    }

    fn store_line(&self, file: &[u8]) -> String {
        let (offset, length) = store_part(file, self.offset);
        format!("{}: offset {offset} length {length}", self.offset)
    }

    /// The bytes of the output, and the answer of a call that fills one.
    fn output_words(&self, answer: Result<Vec<u8>, u64>) -> String {
        let room = usize::from(self.result_places);
        let number = answer.as_ref().err().copied().unwrap_or(0);
        let mut output = answer.unwrap_or_default();
        let length = output.len();
        output.resize(room, 0);
        let hash = hex(&sha256([&output[..]]));
        format!("{room}: number {number} place 0 length {length} output {hash}")
    }

    /// Start, stop and prefix as a line shows them.
    fn query_words(&self) -> String {
        let stop = match (self.stop_given, self.stop.is_empty()) {
            (false, _) => "-".to_string(),
            (true, true) => "empty".to_string(),
            (true, false) => hex(&self.stop),
        };
        format!("{} {stop} {}", hex(&self.start), hex(&self.prefix))
    }
}

/// Puts a string of at most 255 bytes with its length in front.
fn put_short(out: &mut Vec<u8>, bytes: &[u8]) {
    let bytes = bytes.get(..255).unwrap_or(bytes);
    out.push(bytes.len() as u8);
    out.extend(bytes);
}

/// The numbers of a list, each after a space.
pub(super) fn list(numbers: &[u64]) -> String {
    numbers.iter().map(|number| format!(" {number}")).collect()
}

/// Bytes in hex, `-` for none.
pub(super) fn hex(bytes: &[u8]) -> String {
    if bytes.is_empty() {
        "-".to_string()
    } else {
        bytes.iter().map(|byte| format!("{byte:02x}")).collect()
    }
}
