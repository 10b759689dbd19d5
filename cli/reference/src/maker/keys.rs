//! Keys for the entries of a sound file.

use super::random::Random;

/// How an entry's key is chosen. Each way keeps the key rule.
#[derive(Debug, Clone, Copy, PartialEq, Eq)]
pub enum Keys {
    /// The first record that the block leads to.
    FirstRecord,
    /// The shortest beginning of that record which keeps the rule.
    Separator,
    /// The last record before that one; empty where there is none.
    LastBefore,
    /// Empty where there is no record before, else the first record.
    EmptyFirst,
    /// Any of the above, and others between, drawn from this seed.
    Mixed(u64),
    /// Any string between the record before and the first one, drawn from this seed.
    Between(u64),
}

impl Keys {
    /// A key for the block `node`, given the record before those that it leads to, and the first of them.
    pub(super) fn choose(self, node: usize, before: Option<Vec<u8>>, first: Vec<u8>) -> Vec<u8> {
        match self {
            Keys::FirstRecord => first,
            Keys::Separator => separator(before.as_deref(), &first),
            Keys::LastBefore => before.unwrap_or_default(),
            Keys::EmptyFirst if before.is_none() => Vec::new(),
            Keys::EmptyFirst => first,
            Keys::Mixed(seed) => mixed_key(seed ^ node as u64, before.as_deref(), first),
            Keys::Between(seed) => {
                key_between(seed ^ node as u64, before.unwrap_or_default(), first)
            }
        }
    }
}

/// The shortest beginning of `first` that is at least `before`.
fn separator(before: Option<&[u8]>, first: &[u8]) -> Vec<u8> {
    let at_least = before.unwrap_or(&[]);
    let beginnings = (0..=first.len()).map(|length| &first[..length]);
    let shortest = beginnings.into_iter().find(|key| *key >= at_least);
    shortest.unwrap_or(first).to_vec()
}

/// Some key between `before` and `first`, both allowed.
fn mixed_key(seed: u64, before: Option<&[u8]>, first: Vec<u8>) -> Vec<u8> {
    let mut random = Random::new(seed);
    let before = before.unwrap_or(&[]).to_vec();
    let mut longer = before.clone();
    longer.push(random.next() as u8);
    match random.below(4) {
        0 => separator(Some(&before), &first),
        1 => before,
        2 if longer <= first => longer,
        _ => first,
    }
}

/// One of the two, cut, lowered or made longer; unchanged where that breaks the rule.
fn key_between(seed: u64, before: Vec<u8>, first: Vec<u8>) -> Vec<u8> {
    let mut random = Random::new(seed);
    let chosen = if random.once_in(2) {
        before.clone()
    } else {
        first.clone()
    };
    let mut key = chosen.clone();
    key.truncate(random.below(key.len() + 2));
    if let Some(last) = key.last_mut() {
        *last = last.saturating_sub(random.below(2) as u8);
    }
    for _ in 0..random.below(4) {
        key.push(random.pick(&[0x00, 0x61, 0xff]));
    }
    if before <= key && key <= first {
        key
    } else {
        chosen
    }
}
