//! What the maker of dumps promises: those without a fault hold what they were meant to, and every fault comes up.

use std::collections::BTreeMap;

use zs_differential::dump_faults::FAR;
use zs_differential::dumps::{draw_dump, Dump, Entry, FIELDS};
use zs_library::refusals::{numbers, Call};
use zs_reference::maker::random::Random;
use zs_reference::maker::Plan;
use zs_reference::sim::import;

/// So many dumps are drawn.
const TURNS: u64 = 3000;

fn dumps(seed: u64) -> impl Iterator<Item = Dump> {
    let mut random = Random::new(seed);
    (0..TURNS).map(move |turn| draw_dump(&mut random, turn))
}

/// The number that the second import gives, with all the room that it asks for.
fn number_of(dump: &Dump) -> u64 {
    let given = import(&dump.bytes, dump.name_length, usize::MAX);
    given.err().unwrap_or(0)
}

/// Their names are those that the maker put into the fields, so this holds the second import to another's idea of a name.
#[test]
fn dumps_without_faults_hold_their_entries() {
    let mut imported = 0;
    for dump in dumps(1) {
        if let Some(entries) = &dump.entries {
            let mut records: Vec<Vec<u8>> = entries.iter().map(Entry::record).collect();
            records.sort();
            let due = Plan::data(&records).payload(&[]);
            let given = import(&dump.bytes, dump.name_length, usize::MAX);
            assert_eq!(given, Ok(due), "{dump:?}");
            imported += 1;
        }
    }
    assert!(imported > TURNS / 3, "{imported} dumps");
}

#[test]
fn every_length_of_the_name_field() {
    let mut lengths: Vec<u64> = dumps(2).map(|dump| dump.name_length).collect();
    lengths.sort_unstable();
    lengths.dedup();
    let due: Vec<u64> = (0..FIELDS).chain(FAR).collect();
    assert_eq!(lengths, due);
}

/// 31 is of short outputs.
#[test]
fn every_refusal_of_a_dump_has_its_fault() {
    let mut times: BTreeMap<u64, u64> = BTreeMap::new();
    for dump in dumps(3) {
        *times.entry(number_of(&dump)).or_default() += 1;
    }
    let due = numbers(Call::ImportSim).filter(|number| *number != 31);
    let due: Vec<u64> = std::iter::once(0).chain(due).collect();
    let given: Vec<u64> = times.keys().copied().collect();
    assert_eq!(given, due);
    assert!(times.values().all(|count| *count > 200), "{times:?}");
}

/// Faults one after the other: with its first record left out as often as it is refused, a dump shows both orders of 33 and 34.
#[test]
fn faults_in_both_orders() {
    let mut seen: BTreeMap<(u64, u64), u64> = BTreeMap::new();
    let short = dumps(4).filter(|dump| dump.bytes.len() < 10_000 && dump.name_length < 242);
    for mut dump in short {
        let first = number_of(&dump);
        let size = dump.name_length as usize + 14;
        while number_of(&dump) == first && first > 32 {
            dump.bytes.drain(..size);
        }
        *seen.entry((first, number_of(&dump))).or_default() += 1;
    }
    for due in [(33, 0), (33, 34), (34, 0), (34, 33)] {
        assert!(seen.get(&due) > Some(&10), "{due:?} of {seen:?}");
    }
}
