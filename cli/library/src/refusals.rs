//! The refusals in words: what each number means, what to do about it, what its place is, and which calls give it.
//!
//! The command prints these words, the drawn comparison takes the numbers of each call from here, and tests hold README.md and
//! include/zs.h, which repeat them, to this table. A new refusal is a new row.

/// A call that can refuse.
#[derive(Clone, Copy, Debug, PartialEq, Eq)]
pub enum Call {
    /// [`check`](crate::check).
    Check,
    /// [`read`](crate::read), front to back.
    Read,
    /// [`search`](crate::search), through the index.
    Search,
    /// [`write`](crate::write).
    Write,
    /// [`import_sim`](crate::import_sim).
    ImportSim,
    /// [`compare`](crate::compare), which checks both files.
    Compare,
    /// [`begin`](crate::Session::begin), of a session.
    Begin,
    /// [`add`](crate::Session::add), of a session.
    Add,
    /// [`close_block`](crate::Session::close_block), of a session.
    Close,
    /// [`finish`](crate::Session::finish), of a session.
    Finish,
}

/// A refusal.
#[derive(Clone, Copy, Debug, PartialEq, Eq)]
pub struct Row {
    /// Its number.
    pub number: u64,
    /// The calls that give it.
    pub calls: &'static [Call],
    /// What its place is.
    pub place: &'static str,
    /// What is wrong. "This block" is the one at the place.
    pub sentence: &'static str,
    /// What to do about it.
    pub advice: &'static str,
}

const READERS: &[Call] = &[Call::Check, Call::Read, Call::Search, Call::Compare];
const WITH_METADATA: &[Call] = &[
    Call::Check,
    Call::Read,
    Call::Search,
    Call::Write,
    Call::Compare,
    Call::Begin,
];
const CHECK: &[Call] = &[Call::Check, Call::Compare];
const SEARCH: &[Call] = &[Call::Search];
const CHECK_AND_SEARCH: &[Call] = &[Call::Check, Call::Search, Call::Compare];
const READ_AND_SEARCH: &[Call] = &[Call::Read, Call::Search];
const WRITE_AND_STEPS: &[Call] = &[
    Call::Write,
    Call::Begin,
    Call::Add,
    Call::Close,
    Call::Finish,
];
const WRITE_AND_ADD: &[Call] = &[Call::Write, Call::Add];
const WRITE_AND_BEGIN: &[Call] = &[Call::Write, Call::Begin];
const OUTPUTS: &[Call] = &[
    Call::Write,
    Call::ImportSim,
    Call::Begin,
    Call::Add,
    Call::Finish,
];
const IMPORT_SIM: &[Call] = &[Call::ImportSim];
const COMPARE: &[Call] = &[Call::Compare];

const ZERO: &str = "0";
const BLOCK: &str = "the block's first byte";
const INDEX_BLOCK: &str = "the index block's first byte";
const DATA_BLOCK: &str = "the data block's first byte";
const FIRST_BLOCK: &str = "the first byte of the first such block";

/// Where bytes are missing or were changed.
const COPY: &str = "get an undamaged copy of the file";
/// Where the checksums are right, so that the bytes are those that were written.
const MAKE: &str = "make the archive again: its writer broke a rule of the format";
/// Where the bytes at fault may have been changed or written so.
const COPY_OR_MAKE: &str = "get an undamaged copy of the file, or make the archive again";

/// All refusals, by rising numbers.
#[rustfmt::skip]
pub const TABLE: &[Row] = &[
    row(1, READERS, ZERO, "the file is longer than 1073741824 bytes (2^30)",
        "put the records into several archives"),
    row(2, READERS, ZERO, "the file isn't finished: its writer is still at work, or has stopped before the end",
        "wait for its writer, or make the archive again"),
    row(3, READERS, ZERO, "this is no ZS file: it doesn't begin as one",
        "make sure that this is the right file"),
    row(4, READERS, ZERO, "the header doesn't fit in the file",
        COPY),
    row(5, READERS, ZERO, "the header's checksum is wrong: its bytes were changed",
        COPY),
    row(6, READERS, ZERO, "the header is too short for its fields or its metadata",
        MAKE),
    row(7, READERS, ZERO, "the codec isn't `none`, the only one that is read",
        "make the archive again with the codec `none`"),
    row(8, READERS, ZERO, "the file's length isn't the one that its header states",
        COPY),
    row(9, WITH_METADATA, ZERO, "the metadata isn't one JSON object from { to }, in UTF-8 and nested at most 64 deep",
        "make the archive again with metadata that is one JSON object, with nothing before or after it"),
    row(10, READERS, BLOCK, "this block is cut off: its number or its bytes run past the end of the file",
        COPY_OR_MAKE),
    row(11, READERS, BLOCK, "a number in this block takes more than nine bytes",
        COPY_OR_MAKE),
    row(12, READERS, BLOCK, "a number in this block isn't written in its shortest form",
        COPY_OR_MAKE),
    row(13, READERS, BLOCK, "this block has the length 0",
        COPY_OR_MAKE),
    row(14, READERS, BLOCK, "this block's checksum is wrong: its bytes were changed",
        COPY),
    row(15, READERS, BLOCK, "this block holds nothing, or something in it runs past its end",
        MAKE),
    row(16, READERS, BLOCK, "the records of this block are out of order",
        MAKE),
    row(17, CHECK_AND_SEARCH, ZERO, "the header doesn't name an index block as the root",
        MAKE),
    row(18, CHECK, ZERO, "there are more data and index blocks than the work list has places",
        "give a work list with a place for each data and index block"),
    row(19, CHECK_AND_SEARCH, INDEX_BLOCK, "an entry of this index block names no block that fits it",
        MAKE),
    row(20, CHECK, FIRST_BLOCK, "this block is named by no entry or by more than one, or is the root and is named",
        MAKE),
    row(21, READERS, INDEX_BLOCK, "the keys of this index block are out of order",
        MAKE),
    row(22, CHECK, DATA_BLOCK, "the index leads to this data block after one that comes later in the file",
        MAKE),
    row(23, CHECK, DATA_BLOCK, "a record of this data block is less than one of the data block before it",
        MAKE),
    row(24, CHECK, INDEX_BLOCK, "a key of this index block is greater than the first record it leads to, or less than a record before that",
        MAKE),
    row(25, CHECK, ZERO, "the SHA-256 of the data isn't the one that the header states",
        COPY_OR_MAKE),
    row(26, SEARCH, ZERO, "the search opens more blocks than the opened list has places",
        "check the file, then give an opened list with a place for each data and index block"),
    row(27, READ_AND_SEARCH, ZERO, "more records match than there is room for",
        "ask for fewer records, or give a greater --max-results or a result list with a place for each match"),
    row(28, WRITE_AND_STEPS, ZERO, "the records to be written aren't each a length and as many bytes, or there are none, or a session's step is out of turn",
        "give one record or more, each after its length, a number in shortest form; in a session begin once, then add records, and finish last"),
    row(29, WRITE_AND_ADD, ZERO, "the records to be written are out of order",
        "sort the records as unsigned bytes"),
    row(30, WRITE_AND_BEGIN, ZERO, "a count is out of range: 1 to 65535 records in a data block, 2 to 65535 entries in an index block",
        "give counts within these ranges"),
    row(31, OUTPUTS, ZERO, "the output is too short, or the file would be longer than 1073741824 bytes (2^30)",
        "give a longer output, or put the records into several archives"),
    row(32, IMPORT_SIM, ZERO, "the dump isn't whole records: its length is no multiple of the name length plus 14, or the name length is above 241",
        "give the length of the name field, which is the length of a record on the card less 14, and the whole dump"),
    row(33, IMPORT_SIM, ZERO, "the name of a record isn't formed as one, or isn't followed by FF bytes to the end of its field",
        "give the right length of the name field, or read the card again"),
    row(34, IMPORT_SIM, ZERO, "a record states a number of more than 11 bytes",
        "give the right length of the name field, or read the card again"),
    row(35, COMPARE, ZERO, "there are more differences than the list has room for",
        "give a list with five places per difference"),
];

const fn row(
    number: u64,
    calls: &'static [Call],
    place: &'static str,
    sentence: &'static str,
    advice: &'static str,
) -> Row {
    Row {
        number,
        calls,
        place,
        sentence,
        advice,
    }
}

/// The greatest number.
pub const GREATEST: u64 = TABLE[TABLE.len() - 1].number;

/// The row of a number, if it is that of a refusal.
pub fn find(number: u64) -> Option<&'static Row> {
    TABLE.iter().find(|row| row.number == number)
}

/// The numbers that a call gives, rising.
pub fn numbers(call: Call) -> impl Iterator<Item = u64> {
    let rows = TABLE.iter().filter(move |row| row.calls.contains(&call));
    rows.map(|row| row.number)
}
