//! What the records of an imported dump are like: their names, and how they stand to one another.

use crate::dumps::{Dump, Entry};

/// What a dump may have, in words, and the test.
type Kind = (&'static str, fn(&Seen) -> bool);

const KINDS: [Kind; 20] = [
    ("free records", |dump| dump.stored > dump.entries.len()),
    ("no record that isn't free", |dump| dump.entries.is_empty()),
    ("100 records and more", |dump| dump.entries.len() >= 100),
    ("an empty name", |dump| {
        dump.any_name(&[], |name| name.is_empty())
    }),
    ("a name of bytes below 80", |dump| {
        dump.any_name(&[], |name| name.first() < Some(&0x80) && !name.is_empty())
    }),
    ("a name as long as its field", |dump| {
        dump.any_name(&[], |name| name.len() == dump.field && !name.is_empty())
    }),
    ("80 and no pair", |dump| {
        dump.any_name(&[0x80], |name| name.len() == 1)
    }),
    ("80 with FF", |dump| dump.any_name(&[0x80], has_filling)),
    ("80 with FF FF across two pairs", |dump| {
        dump.any_name(&[0x80], |name| name.windows(2).any(|two| two == [0xff; 2]))
    }),
    ("80 and a lone last byte", |dump| {
        dump.any_name(&[0x80], |name| {
            name.len() > 1 && name.len() + 1 == dump.field
        })
    }),
    ("81 and no character", |dump| {
        dump.any_name(&[0x81, 0x00], |_| true)
    }),
    ("81 with FF", |dump| dump.any_name(&[0x81], has_filling)),
    ("82 and no character", |dump| {
        dump.any_name(&[0x82, 0x00], |_| true)
    }),
    ("82 with FF", |dump| dump.any_name(&[0x82], has_filling)),
    ("81 or 82 that ends with FF before filling", |dump| {
        let ends = |name: &[u8]| name.ends_with(&[0xff]) && name.len() < dump.field;
        dump.any_name(&[0x81], ends) || dump.any_name(&[0x82], ends)
    }),
    ("records of 127 or 128 bytes", |dump| {
        dump.any_name(&[], |name| [113, 114].contains(&name.len()))
    }),
    ("equal records", |dump| dump.any_two(|one, two| one == two)),
    ("one name twice with other bytes after it", |dump| {
        dump.any_two(|one, two| one.name == two.name && one != two)
    }),
    ("a record that begins the next one", |dump| {
        dump.any_two(|one, two| one != two && two.record().starts_with(&one.record()))
    }),
    ("records in another order than their names", |dump| {
        dump.any_two(|one, two| one.name > two.name)
    }),
];

/// How many kinds there are.
pub const COUNT: usize = KINDS.len();

/// Which of the kinds a dump has.
pub type Kinds = [bool; COUNT];

/// The kinds in words.
pub fn names() -> impl Iterator<Item = &'static str> {
    KINDS.iter().map(|(name, _)| *name)
}

/// The kinds that a dump has; none where it has a fault.
pub fn kinds(dump: &Dump) -> Kinds {
    let mut entries = match &dump.entries {
        Some(entries) => entries.clone(),
        None => return Kinds::default(),
    };
    entries.sort_by_key(Entry::record);
    let field = dump.name_length as usize;
    let seen = Seen {
        field,
        stored: dump.bytes.len() / (field + 14),
        entries,
    };
    KINDS.map(|(_, holds)| holds(&seen))
}

/// A dump without faults.
struct Seen {
    /// Bytes of a name field.
    field: usize,
    /// How many records it has, free ones too.
    stored: usize,
    /// Those that aren't free, sorted as the import does.
    entries: Vec<Entry>,
}

impl Seen {
    /// Whether there is a name that begins so and for which the test holds.
    fn any_name(&self, beginning: &[u8], holds: impl Fn(&[u8]) -> bool) -> bool {
        let mut names = self.entries.iter().map(|entry| &entry.name[..]);
        names.any(|name| name.starts_with(beginning) && holds(name))
    }

    /// Whether there are two neighbours for which the test holds.
    fn any_two(&self, holds: impl Fn(&Entry, &Entry) -> bool) -> bool {
        self.entries.windows(2).any(|two| holds(&two[0], &two[1]))
    }
}

fn has_filling(name: &[u8]) -> bool {
    name.contains(&0xff)
}
