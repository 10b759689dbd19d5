//! Cases of stores: both implementations give them, and both check what a cut leaves of them.

use crate::outcome::Outcome;
use zs_library as library;
use zs_reference::reader;
use zs_reference::stores::{after, cut, store_part, stores, Store};

/// Asks for a store.
pub fn compare_store(file: &[u8], i: u64) -> Outcome {
    let (offset, length) = store_part(file, i);
    let given = library::store_part(file, i);
    let has_store = i < stores(file).len() as u64;
    let mut outcome = Outcome::of(u64::from(!has_store), 0);
    outcome.compare("store's offset", offset, given.offset);
    outcome.compare("store's length", length, given.length);
    compare_stores(&mut outcome, file);
    outcome
}

/// Compares all stores, and their bytes.
fn compare_stores(outcome: &mut Outcome, file: &[u8]) {
    let own = |store: library::Store| Store {
        offset: store.offset as usize,
        bytes: store.bytes.to_vec(),
    };
    let given: Vec<Store> = library::stores(file).map(own).collect();
    outcome.require(given == stores(file), "other stores");
}

/// Carries out the stores of a written file up to a cut. What is there then is refused with 2 or 3, or is the file.
pub fn compare_cut(file: &[u8], whole: usize, bytes: usize) -> Outcome {
    let left = after(&cut(&stores(file), whole, bytes));
    let places = left.len() / 11;
    let due = reader::check(&left, places);
    let given = library::check(&left, &mut vec![7; places]);
    let mut outcome = Outcome::of(due.number, 0);
    compare_stores(&mut outcome, file);
    outcome.compare("number after the cut", due.number, given.number);
    outcome.compare("place after the cut", due.place, given.place);
    let is_safe = [2, 3].contains(&given.number) || left == file;
    outcome.require(is_safe, "a wrong file isn't refused with 2 or 3");
    outcome
}

/// What holds of stores after a write, whatever the second writer says: all together give the file that was written, and after a refusal there
/// are none, neither of the bytes written, which are none, nor of the whole output.
pub fn compare_after_write(outcome: &mut Outcome, file: &[u8], output: &[u8]) {
    compare_stores(outcome, file);
    compare_stores(outcome, output);
    outcome.require(after(&stores(file)) == file, "the stores give another file");
    if outcome.number != 0 {
        let count = library::stores(file).chain(library::stores(output)).count();
        outcome.compare("stores after a refusal", 0, count as u64);
    }
}
