//! What two files that are compared are like.

use std::collections::BTreeMap;

use crate::call::Call;
use crate::calls::Asked;
use crate::frames::{frames, header_end};
use zs_reference::reader::{check, read, unpack, Query};

/// What a pair may be like, in words, and the test.
type Kind = (&'static str, fn(&Seen) -> bool);

const KINDS: [Kind; 28] = [
    ("the same file twice", |pair| pair.is_same),
    ("the same records in another shape", |pair| {
        !pair.is_same && pair.has_all() && pair.differing().next().is_none()
    }),
    ("a record in the first alone", |pair| {
        pair.differs(|string| string.copies(1) == 0)
    }),
    ("a record in the second alone", |pair| {
        pair.differs(|string| string.copies(0) == 0)
    }),
    ("more copies in the first and some in the second", |pair| {
        pair.differs(|string| string.less() < 0 && string.copies(1) > 0)
    }),
    ("more copies in the second and some in the first", |pair| {
        pair.differs(|string| string.less() > 0 && string.copies(0) > 0)
    }),
    ("differences in copies alone", |pair| {
        let is_in_both = |string: &Held| string.copies(0) > 0 && string.copies(1) > 0;
        pair.differs(|_| true) && pair.strings.iter().all(is_in_both)
    }),
    ("no record in common", |pair| {
        let is_in_one = |string: &Held| string.copies(0) == 0 || string.copies(1) == 0;
        pair.has_all() && pair.strings.iter().all(is_in_one)
    }),
    ("all of the first before all of the second", |pair| {
        pair.is_before(0, 1)
    }),
    ("all of the second before all of the first", |pair| {
        pair.is_before(1, 0)
    }),
    ("an empty record that differs", |pair| {
        pair.differs(|string| string.bytes.is_empty())
    }),
    ("a record that differs and ends with FF", |pair| {
        pair.differs(|string| string.bytes.ends_with(&[0xff]))
    }),
    ("a record of 128 bytes and more that differs", |pair| {
        pair.differs(|string| string.bytes.len() >= 128)
    }),
    ("a difference that begins the next one", |pair| {
        let strings: Vec<&Held> = pair.differing().collect();
        let begins = |two: &[&Held]| two[1].bytes.starts_with(&two[0].bytes);
        strings.windows(2).any(begins)
    }),
    ("a difference over block ends in the first", |pair| {
        pair.differs(|string| string.blocks(0) > 1)
    }),
    ("a difference over block ends in the second", |pair| {
        pair.differs(|string| string.blocks(1) > 1)
    }),
    ("a difference over block ends in both", |pair| {
        pair.differs(|string| string.blocks(0) > 1 && string.blocks(1) > 1)
    }),
    ("a difference in three blocks and more", |pair| {
        pair.differs(|string| string.blocks(0).max(string.blocks(1)) > 2)
    }),
    (
        "as many copies in both, over block ends in one alone",
        |pair| {
            let parts = |string: &Held| (string.blocks(0) > 1) != (string.blocks(1) > 1);
            let mut even = pair.strings.iter().filter(|string| string.less() == 0);
            even.any(parts)
        },
    ),
    ("a difference between records that don't differ", |pair| {
        let differs: Vec<bool> = pair.strings.iter().map(|s| s.less() != 0).collect();
        differs
            .windows(3)
            .any(|three| three == [false, true, false])
    }),
    ("differences and the sum 0", |pair| {
        pair.differs(|_| true) && pair.sum() == 0
    }),
    ("a sum below 0", |pair| pair.sum() < 0),
    ("a sum above 0", |pair| pair.sum() > 0),
    ("ten differences and more", |pair| {
        pair.differing().count() >= 10
    }),
    ("one difference", |pair| pair.differing().count() == 1),
    ("too few work places for the second alone", |pair| {
        let [one, two] = pair.blocks;
        let is_between = |work: &usize| pair.has_all() && one <= *work && *work < two;
        pair.works.iter().any(is_between)
    }),
    ("both files refused", |pair| !pair.numbers.contains(&0)),
    ("both files refused, with other numbers", |pair| {
        !pair.numbers.contains(&0) && pair.numbers[0] != pair.numbers[1]
    }),
];

/// How many kinds there are.
pub const COUNT: usize = KINDS.len();

/// Which of the kinds a pair has.
pub type Kinds = [bool; COUNT];

/// The kinds in words.
pub fn names() -> impl Iterator<Item = &'static str> {
    KINDS.iter().map(|(name, _)| *name)
}

/// The kinds that a file has together with the one that these calls compare it with; none where they don't.
pub fn kinds(first: &[u8], calls: &[Asked]) -> Kinds {
    let mut works = Vec::new();
    let mut second = None;
    for (call, _) in calls {
        if let Call::Compare {
            second: file, work, ..
        } = call
        {
            works.push(*work);
            second = Some(file);
        }
    }
    match second {
        Some(second) => {
            let seen = Seen::new([first, second], works);
            KINDS.map(|(_, holds)| holds(&seen))
        }
        None => [false; COUNT],
    }
}

/// A string that either file holds.
struct Held {
    bytes: Vec<u8>,
    /// For each file and each copy in it the number of its block.
    places: [Vec<usize>; 2],
}

impl Held {
    fn copies(&self, file: usize) -> usize {
        self.places[file].len()
    }

    /// Second less first copies.
    fn less(&self) -> i64 {
        self.copies(1) as i64 - self.copies(0) as i64
    }

    /// How many blocks of a file have a copy.
    fn blocks(&self, file: usize) -> usize {
        let mut blocks = self.places[file].clone();
        blocks.dedup();
        blocks.len()
    }
}

/// Two files.
struct Seen {
    is_same: bool,
    /// What the check gives for each.
    numbers: [u64; 2],
    /// The ordinary blocks of each.
    blocks: [usize; 2],
    /// All strings in rising order, where both files are accepted.
    strings: Vec<Held>,
    /// The places of the work lists.
    works: Vec<usize>,
}

impl Seen {
    fn new(files: [&[u8]; 2], works: Vec<usize>) -> Self {
        let checked = files.map(|file| check(file, usize::MAX));
        let numbers = checked.map(|checked| checked.number);
        let mut held: BTreeMap<Vec<u8>, [Vec<usize>; 2]> = BTreeMap::new();
        if numbers == [0, 0] {
            for (at, file) in files.iter().enumerate() {
                for (block, record) in records(file, checked[at].records) {
                    held.entry(record.to_vec()).or_default()[at].push(block);
                }
            }
        }
        let strings = held
            .into_iter()
            .map(|(bytes, places)| Held { bytes, places });
        Seen {
            is_same: files[0] == files[1],
            numbers,
            blocks: checked.map(|checked| checked.blocks as usize),
            strings: strings.collect(),
            works,
        }
    }

    /// Whether both files are accepted.
    fn has_all(&self) -> bool {
        self.numbers == [0, 0]
    }

    fn differing(&self) -> impl Iterator<Item = &Held> {
        self.strings.iter().filter(|string| string.less() != 0)
    }

    /// Whether there is a difference for which the test holds.
    fn differs(&self, holds: impl Fn(&Held) -> bool) -> bool {
        self.differing().any(holds)
    }

    fn sum(&self) -> i64 {
        self.strings.iter().map(Held::less).sum()
    }

    /// Whether every string of one file is less than every one of the other.
    fn is_before(&self, one: usize, other: usize) -> bool {
        let last = self
            .strings
            .iter()
            .rposition(|string| string.copies(one) > 0);
        let first = self
            .strings
            .iter()
            .position(|string| string.copies(other) > 0);
        self.has_all() && last < first
    }
}

/// The records of an accepted file, each with the number of its block.
fn records(file: &[u8], count: u64) -> impl Iterator<Item = (usize, &[u8])> {
    let frames = header_end(file).map_or_else(Vec::new, |end| frames(file, end));
    let all = read(file, &Query::default(), count as usize).results;
    all.into_iter().map(unpack).map(move |(offset, length)| {
        let offset = offset as usize;
        let block = frames.partition_point(|frame| frame.start < offset);
        (block, &file[offset..][..length as usize])
    })
}
