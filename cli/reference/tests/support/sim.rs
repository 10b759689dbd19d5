//! The rules of a SIM phonebook, each by itself. Which beginning of a field is its name is found by trying all of them.

use std::collections::BTreeSet;

/// Whether bytes are filling, or a record is free.
pub fn is_filling(bytes: &[u8]) -> bool {
    bytes.iter().all(|byte| *byte == 0xff)
}

/// All beginnings of a field that are a name with nothing but filling after it.
pub fn names(field: &[u8]) -> Vec<&[u8]> {
    let cuts = (0..=field.len()).map(|at| field.split_at(at));
    let fitting = cuts.filter(|(name, after)| is_name(name) && is_filling(after));
    fitting.map(|(name, _)| name).collect()
}

/// Whether bytes are a name from the first to the last.
fn is_name(bytes: &[u8]) -> bool {
    match bytes {
        [0x80, pairs @ ..] => pairs.len() % 2 == 0 && pairs.chunks(2).all(|pair| !is_filling(pair)),
        [0x81, count, _, characters @ ..] => characters.len() == usize::from(*count),
        [0x82, count, _, _, characters @ ..] => characters.len() == usize::from(*count),
        _ => bytes.iter().all(|byte| *byte < 0x80),
    }
}

/// The refusals that a record has a fault for.
pub fn faults(field: &[u8], rest: &[u8]) -> BTreeSet<u64> {
    let mut faults = BTreeSet::new();
    if names(field).is_empty() {
        faults.insert(33);
    }
    if rest[0] > 11 {
        faults.insert(34);
    }
    faults
}
