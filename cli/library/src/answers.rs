//! What the calls are given and what they answer. Answers are C's structs, as include/zs.h has them: 64-bit numbers in this order.

/// What a reader asks for: a start, a stop that is given or not, and a prefix.
pub struct Query<'a> {
    /// A match is at least this.
    pub start: &'a [u8],
    /// Where given, a match is less than this.
    pub stop: Option<&'a [u8]>,
    /// A match begins with this.
    pub prefix: &'a [u8],
}

/// Number and place of a refusal, both 0 without one, and what the file holds.
#[repr(C)]
#[derive(Clone, Copy, Debug, PartialEq, Eq)]
pub struct Checked {
    /// The refusal, or 0.
    pub number: u64,
    /// Its place, or 0.
    pub place: u64,
    /// How many ordinary blocks there are.
    pub blocks: u64,
    /// How many records there are.
    pub records: u64,
}

/// Number and place of a refusal, both 0 without one, and how many records match.
#[repr(C)]
#[derive(Clone, Copy, Debug, PartialEq, Eq)]
pub struct ReadAnswer {
    /// The refusal, or 0.
    pub number: u64,
    /// Its place, or 0.
    pub place: u64,
    /// How many records match.
    pub matches: u64,
}

/// Number and place of a refusal, both 0 without one, how many records match, and how many blocks were opened.
#[repr(C)]
#[derive(Clone, Copy, Debug, PartialEq, Eq)]
pub struct Found {
    /// The refusal, or 0.
    pub number: u64,
    /// Its place, or 0.
    pub place: u64,
    /// How many records match.
    pub matches: u64,
    /// How many blocks were opened.
    pub opened: u64,
}

/// Number and place of a refusal, both 0 without one, and how many bytes of an output were written.
#[repr(C)]
#[derive(Clone, Copy, Debug, PartialEq, Eq)]
pub struct Written {
    /// The refusal, or 0.
    pub number: u64,
    /// Its place, or 0.
    pub place: u64,
    /// The length of the file, or of the records.
    pub length: u64,
}

/// Number and place of a refusal, both 0 without one, which of two files is refused, and how the files differ.
#[repr(C)]
#[derive(Clone, Copy, Debug, PartialEq, Eq)]
pub struct Compared {
    /// The refusal, or 0.
    pub number: u64,
    /// Its place, or 0.
    pub place: u64,
    /// The file that is refused, 1 or 2, or 0.
    pub which: u64,
    /// How many records are stored a different number of times.
    pub differences: u64,
    /// The copies of these in the second file less those in the first, added up.
    pub sum: i64,
}

/// A session of writing a file one record at a time: three figures, all 0 before a file is begun, and what the next step needs.
#[repr(C)]
#[derive(Clone, Copy, Debug, PartialEq, Eq)]
pub struct Session {
    /// How many records the file has.
    pub records: u64,
    /// The offset of the last record, 0 where there is none.
    pub last: u64,
    /// The offset of the next block, which is the end of all that stands in the output.
    pub next: u64,
    pub(crate) rest: [u64; 8],
}

/// Number and place of a refusal, both 0 without one, and the session after the step, which a refused one leaves as it was.
#[repr(C)]
#[derive(Clone, Copy, Debug, PartialEq, Eq)]
pub struct Stepped {
    /// The refusal, or 0.
    pub number: u64,
    /// Its place, or 0.
    pub place: u64,
    /// The session to hand to the next step.
    pub session: Session,
}

/// Number and place of a refusal.
#[derive(Clone, Copy, Debug, PartialEq, Eq)]
pub struct Refused {
    /// The refusal.
    pub number: u64,
    /// Its place, or 0.
    pub place: u64,
}

/// How many records a data block holds, and how many entries an index block.
#[derive(Clone, Copy, Debug, PartialEq, Eq)]
pub struct Counts {
    /// Records in a data block, 1 to 65,535.
    pub per_block: u64,
    /// Entries in an index block, 2 to 65,535.
    pub per_index: u64,
}

/// A part of a file.
#[repr(C)]
#[derive(Clone, Copy, Debug, PartialEq, Eq)]
pub struct Part {
    /// The offset of its first byte.
    pub offset: u64,
    /// Its length.
    pub length: u64,
}

impl Part {
    /// Where a match lies, from its number on a result list: the offset times 2^32, plus the length.
    pub const fn of_match(number: u64) -> Self {
        Part {
            offset: number >> 32,
            length: number & 0xffff_ffff,
        }
    }
}

/// A part of one of two files.
#[repr(C)]
#[derive(Clone, Copy, Debug, PartialEq, Eq)]
pub struct Shown {
    /// The file, 1 or 2.
    pub which: u64,
    /// The offset of the part's first byte.
    pub offset: u64,
    /// Its length.
    pub length: u64,
}
