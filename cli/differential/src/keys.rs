//! Where the data blocks of a written file meet: what the records there are like, of which the keys are made.

use crate::inputs::Input;
use zs_reference::writer::shortest_key;

/// What may be so where two data blocks meet, in words, and the test.
type Kind = (&'static str, fn(&Border) -> bool);

const KINDS: [Kind; 13] = [
    ("equal records", |at| at.before == at.first()),
    ("no other record in the next block", |at| {
        at.block.iter().all(|record| record == at.before)
    }),
    ("two empty records", |at| at.first().is_empty()),
    ("an empty record before another", |at| {
        at.before.is_empty() && !at.first().is_empty()
    }),
    ("a beginning before a longer record", |at| {
        !at.parts() && !at.before.is_empty() && at.before != at.first()
    }),
    ("parting at the first byte", |at| {
        at.parts() && at.agreeing == 0
    }),
    ("parting within the second record", |at| {
        at.parts() && at.agreeing + 1 < at.first().len()
    }),
    ("parting at its last byte", |at| {
        at.parts() && at.agreeing + 1 == at.first().len()
    }),
    ("parting at its byte FF", |at| {
        at.parts() && at.first()[at.agreeing] == 0xff
    }),
    ("FF in the first record after that", |at| {
        at.parts() && at.before.get(at.agreeing + 1) == Some(&0xff)
    }),
    ("a key of 128 bytes and more", |at| at.key.len() >= 128),
    ("a shorter key of such a record", |at| {
        at.key.len() < 128 && at.first().len() >= 128
    }),
    ("an index block's key that isn't empty", |at| {
        at.begins_index && !at.key.is_empty()
    }),
];

/// How many kinds there are.
pub const COUNT: usize = KINDS.len();

/// Which of the kinds an input has.
pub type Kinds = [bool; COUNT];

/// The kinds in words.
pub fn names() -> impl Iterator<Item = &'static str> {
    KINDS.iter().map(|(name, _)| *name)
}

/// The kinds that an input has, which must be one that is written.
pub fn kinds(input: &Input) -> Kinds {
    KINDS.map(|(_, holds)| borders(input).any(|border| holds(&border)))
}

/// The keys of all data blocks but the first.
pub fn keys(input: &Input) -> Vec<Vec<u8>> {
    borders(input).map(|border| border.key.to_vec()).collect()
}

/// Where two data blocks meet.
struct Border<'a> {
    /// The last record of the first block.
    before: &'a [u8],
    /// The records of the second.
    block: &'a [Vec<u8>],
    /// The key of its entry.
    key: &'a [u8],
    /// How many bytes `before` and the first record of `block` begin with alike.
    agreeing: usize,
    /// Whether that entry is the first of an index block.
    begins_index: bool,
}

impl Border<'_> {
    fn first(&self) -> &[u8] {
        &self.block[0]
    }

    /// Whether the records differ at a byte; if not, `before` is a beginning of the other.
    fn parts(&self) -> bool {
        self.agreeing < self.before.len()
    }
}

fn borders(input: &Input) -> impl Iterator<Item = Border<'_>> {
    let per_block = input.counts.per_block as usize;
    let blocks = input.strings.chunks(per_block).enumerate();
    blocks.skip(1).map(move |(number, block)| {
        let before = &input.strings[number * per_block - 1];
        let pairs = before.iter().zip(&block[0]);
        Border {
            before,
            block,
            key: shortest_key(Some(before), &block[0]),
            agreeing: pairs.take_while(|(one, other)| one == other).count(),
            begins_index: number as u64 % input.counts.per_index == 0,
        }
    })
}
