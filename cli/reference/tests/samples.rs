//! The samples in the repository are those that the maker makes, and sound.

use std::collections::BTreeSet;

use zs_reference::reader::{check, search, Query};
use zs_reference::samples::{self, NAME_LENGTH};

#[test]
fn stored_samples_are_those_made() {
    for sample in samples::all() {
        let path = format!(
            "{}/../../samples/{}",
            env!("CARGO_MANIFEST_DIR"),
            sample.name
        );
        let stored = std::fs::read(&path).expect("a stored sample");
        assert!(
            stored == sample.bytes,
            "{path}: make it again with make-samples"
        );
    }
}

#[test]
fn sample_archives_are_sound_and_deep() {
    for sample in samples::archives() {
        let checked = check(&sample.bytes, 1000);
        assert_eq!((checked.number, checked.place), (0, 0), "{}", sample.name);
        assert!(sample.bytes.len() < 200_000);
        let all = Query::default();
        let found = search(&sample.bytes, &all, 1000, 10_000);
        assert_eq!(found.matches, checked.records);
        assert_eq!(found.opened, checked.blocks);
        let repeated = Query {
            prefix: b"Echo Repeated\t".to_vec(),
            ..Query::default()
        };
        let found = search(&sample.bytes, &repeated, 1000, 10_000);
        assert!(found.matches >= 3);
    }
}

/// Whether a record of the phonebook begins with this byte, and has a byte FF in its name's own part.
fn is_coded_with_ff(record: &[u8], coding: u8) -> bool {
    let name = &record[..NAME_LENGTH];
    let filled = name.iter().rev().take_while(|byte| **byte == 0xff).count();
    name[0] == coding && name[..NAME_LENGTH - filled].contains(&0xff)
}

#[test]
fn the_sample_phonebook_has_records_of_every_kind() {
    let records = samples::phonebook();
    assert!(records
        .iter()
        .all(|record| record.len() == NAME_LENGTH + 14));
    for coding in [0x80, 0x81, 0x82] {
        let coded = |record: &&Vec<u8>| is_coded_with_ff(record, coding);
        assert!(records.iter().any(|record| coded(&record)), "{coding:x}");
    }
    let is_plain = |record: &&Vec<u8>| record[0] < 0x80;
    assert!(records.iter().filter(is_plain).count() > 3);
    let kinds: BTreeSet<&Vec<u8>> = records.iter().collect();
    let is_free = |record: &&&Vec<u8>| record.iter().all(|byte| *byte == 0xff);
    let free = records.iter().filter(|record| is_free(&record)).count();
    // Beside the free ones one record is there three times.
    assert_eq!((free, records.len() - kinds.len()), (4, 3 + 2));
}
