//! What the parts of two files that are asked for are like.

use crate::call::Call;
use crate::calls::Asked;

/// What a part may be like, in words, and the test.
type Kind = (&'static str, fn(&Seen) -> bool);

const KINDS: [Kind; 15] = [
    ("the number 0", |part| part.which == 0),
    ("the number 3", |part| part.which == 3),
    ("a far number that ends like 1 or 2", |part| {
        part.which > 3 && [1, 2].contains(&(part.which % 256))
    }),
    ("a part of the first", |part| {
        part.which == 1 && part.is_within(1)
    }),
    ("a part of the second", |part| {
        part.which == 2 && part.is_within(2)
    }),
    ("a part of the first that isn't there", |part| {
        part.which == 1 && !part.is_within(1)
    }),
    ("a part of the second that isn't there", |part| {
        part.which == 2 && !part.is_within(2)
    }),
    ("a part of the second alone, of the first", |part| {
        part.which == 1 && !part.is_within(1) && part.is_within(2)
    }),
    ("a part of the first alone, of the second", |part| {
        part.which == 2 && !part.is_within(2) && part.is_within(1)
    }),
    ("the empty part at the end of the first", |part| {
        part.which == 1 && part.length == 0 && part.excess(1) == 0
    }),
    ("the empty part at the end of the second", |part| {
        part.which == 2 && part.length == 0 && part.excess(2) == 0
    }),
    ("a part one byte past the first", |part| {
        part.which == 1 && part.excess(1) == 1
    }),
    ("a part one byte past the second", |part| {
        part.which == 2 && part.excess(2) == 1
    }),
    ("a part that ends at 2^64", |part| {
        part.end() == 1 << 64 && [1, 2].contains(&part.which)
    }),
    ("a part that ends beyond 2^64", |part| {
        part.end() > 1 << 64 && [1, 2].contains(&part.which)
    }),
];

/// How many kinds there are.
pub const COUNT: usize = KINDS.len();

/// Which of the kinds the calls on two files have.
pub type Kinds = [bool; COUNT];

/// The kinds in words.
pub fn names() -> impl Iterator<Item = &'static str> {
    KINDS.iter().map(|(name, _)| *name)
}

/// The kinds that the calls on a file and a second one have.
pub fn kinds(first: &[u8], calls: &[Asked]) -> Kinds {
    let seen: Vec<Seen> = calls
        .iter()
        .filter_map(|(call, _)| Seen::new(first, call))
        .collect();
    KINDS.map(|(_, holds)| seen.iter().any(holds))
}

/// A part that is asked for.
struct Seen {
    lengths: [usize; 2],
    which: u64,
    offset: u64,
    length: u64,
}

impl Seen {
    fn new(first: &[u8], call: &Call) -> Option<Self> {
        match call {
            Call::Show {
                second,
                which,
                offset,
                length,
            } => Some(Seen {
                lengths: [first.len(), second.len()],
                which: *which,
                offset: *offset,
                length: *length,
            }),
            _ => None,
        }
    }

    /// Where the part ends.
    fn end(&self) -> i128 {
        i128::from(self.offset) + i128::from(self.length)
    }

    /// By how many bytes the part ends past a file, 1 or 2.
    fn excess(&self, file: usize) -> i128 {
        self.end() - self.lengths[file - 1] as i128
    }

    fn is_within(&self, file: usize) -> bool {
        self.excess(file) <= 0
    }
}
