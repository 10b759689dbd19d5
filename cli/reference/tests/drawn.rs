//! Files drawn from a fixed seed: what must hold of all of them.

use std::collections::BTreeSet;

use crate::support::results::records_at;
use crate::support::tree::{faults, Tree as Seen};
use zs_reference::maker::random::{bend, break_bytes, query, tree, Random};
use zs_reference::maker::{Keys, Tree};
use zs_reference::reader::{check, read, search, Found, Query};

const AMPLE: usize = 1000;

#[test]
fn sound_files_are_accepted() {
    let mut random = Random::new(1);
    for _ in 0..1500 {
        let tree = tree(&mut random, 9);
        let file = tree.bytes();
        let checked = check(&file, AMPLE);
        assert_eq!((checked.number, checked.place), (0, 0), "{tree:?}");
        let records: usize = tree.groups.iter().map(Vec::len).sum();
        assert_eq!(checked.records, records as u64);
        assert_eq!(faults(&file), BTreeSet::new());
        assert_eq!(check(&file, checked.blocks as usize), checked);
        assert_eq!(check(&file, checked.blocks as usize - 1).number, 18);
    }
}

#[test]
fn search_finds_what_reading_finds() {
    let mut random = Random::new(2);
    for _ in 0..1000 {
        let tree = tree(&mut random, 9);
        let file = tree.bytes();
        for _ in 0..6 {
            let query = query(&mut random);
            let found = search(&file, &query, AMPLE, AMPLE);
            let answer = read(&file, &query, AMPLE);
            assert_eq!((found.number, found.place), (0, 0));
            assert_eq!(found.matches, answer.matches);
            assert_eq!(found.results, answer.results);
            compare_with_records(&tree, &file, &query, &found);
            compare_opened(&file, &query, &found);
            compare_short_lists(&file, &query, &found);
        }
    }
}

/// The results are the records that match, byte for byte.
fn compare_with_records(tree: &Tree, file: &[u8], query: &Query, found: &Found) {
    let records = tree.groups.iter().flatten();
    let due: Vec<&[u8]> = records
        .map(Vec::as_slice)
        .filter(|record| query.matches(record))
        .collect();
    let numbers = &found.results[..found.matches as usize];
    assert_eq!(records_at(file, numbers), due);
}

/// Opened exactly by the rule, and at most two in vain on each level below the root.
fn compare_opened(file: &[u8], query: &Query, found: &Found) {
    let apart = crate::support::take_apart(file);
    let seen = Seen::of(&apart).expect("a sound file");
    let must = seen.must_open(query);
    let starts: Vec<u64> = must.iter().map(|block| block.start).collect();
    assert_eq!(found.opened_list[..found.opened as usize], starts);
    let once: BTreeSet<u64> = starts.iter().copied().collect();
    assert_eq!(once.len(), starts.len());
    let root_level = must[0].level;
    for level in 0..root_level {
        let in_vain = must.iter().filter(|block| {
            let leaves = seen.leaves(block);
            let mut records = leaves.iter().flat_map(|leaf| &leaf.items);
            block.level == level && !records.any(|record| query.matches(&record.bytes))
        });
        assert!(in_vain.count() <= 2);
    }
}

/// With exactly the places needed the answer stays; with one less it is 26 or 27.
fn compare_short_lists(file: &[u8], query: &Query, found: &Found) {
    let (opened, results) = (found.opened as usize, found.matches as usize);
    let fitting = search(file, query, opened, results);
    assert_eq!(fitting.number, 0);
    assert_eq!(fitting.results, found.results[..results]);
    assert_eq!(search(file, query, opened - 1, results).number, 26);
    if results > 0 {
        let short = search(file, query, opened, results - 1);
        assert_eq!((short.number, short.matches, short.opened), (27, 0, 0));
        assert_eq!(short.results, vec![0; results - 1]);
        assert_eq!(read(file, query, results - 1).number, 27);
    }
}

#[test]
fn every_flipped_bit_is_refused() {
    let mut wide = Tree::new(&[&["", "a"], &["b", "c\u{ff}"]]);
    wide.keys = Keys::Separator;
    wide.fan_out = vec![1];
    wide.reserved = vec![(1, 64, b"kept".to_vec()), (9, 255, Vec::new())];
    wide.extra = b"extra".to_vec();
    for tree in [Tree::new(&[&[""]]), wide] {
        let file = tree.bytes();
        assert_eq!(check(&file, AMPLE).number, 0);
        for bit in 0..file.len() * 8 {
            let mut flipped = file.clone();
            flipped[bit / 8] ^= 1 << (bit % 8);
            assert_ne!(check(&flipped, AMPLE).number, 0, "bit {bit}");
        }
        for length in 0..file.len() {
            assert_ne!(check(&file[..length], AMPLE).number, 0);
        }
    }
}

/// The first refusal that may be given, by the set of those that apply.
fn compare_number(number: u64, faults: &BTreeSet<u64>) {
    let first = faults.iter().next().copied().unwrap_or(0);
    let block_stage = |fault: &u64| (10..=16).contains(fault) || *fault == 21;
    match (first, faults.iter().any(block_stage)) {
        // Among header refusals and among those after the block stage the lowest decides.
        (0..=9, _) | (_, false) => assert_eq!(number, first, "{faults:?}"),
        // Which block comes first isn't told by the set.
        (_, true) => assert!(faults.contains(&number) && block_stage(&number)),
    }
}

/// Everything that must hold on any bytes at all.
fn compare_any(random: &mut Random, file: &[u8]) {
    let checked = check(file, AMPLE);
    compare_number(checked.number, &faults(file));
    let query = query(random);
    let (opened_places, result_places) = (random.below(40), random.below(10));
    let answer = read(file, &query, result_places);
    let found = search(file, &query, opened_places, result_places);
    assert_eq!(answer.results.len(), result_places);
    assert_eq!(found.results.len(), result_places);
    assert_eq!(found.opened_list.len(), opened_places);
    if found.number != 0 {
        assert!(found
            .results
            .iter()
            .chain(&found.opened_list)
            .all(|n| *n == 0));
        assert_eq!((found.matches, found.opened), (0, 0));
    }
    if answer.number != 0 {
        assert!(answer.results.iter().all(|n| *n == 0));
        assert_eq!(answer.matches, 0);
    }
    if checked.number == 0 && ![26, 27].contains(&found.number) {
        assert_eq!(found.results, answer.results);
        assert_eq!((found.number, found.matches), (0, answer.matches));
    }
    compare_local(random, file, &query, &found);
}

/// Bytes outside the header and the blocks opened have no influence on an answered search.
fn compare_local(random: &mut Random, file: &[u8], query: &Query, found: &Found) {
    if found.number != 0 {
        return;
    }
    let apart = crate::support::take_apart(file);
    let blocks = match &apart.blocks {
        Some(blocks) => blocks,
        None => return,
    };
    let opened = &found.opened_list[..found.opened as usize];
    let known: Vec<_> = blocks
        .iter()
        .filter(|b| opened.contains(&b.start))
        .collect();
    let distinct: BTreeSet<u64> = opened.iter().copied().collect();
    if known.len() != distinct.len() {
        return;
    }
    let header = 24 + u64::from_le_bytes(file[8..16].try_into().expect("eight bytes"));
    let mut changed = file.to_vec();
    for (at, byte) in changed.iter_mut().enumerate() {
        let at = at as u64;
        let inside = known.iter().any(|b| b.start <= at && at < b.start + b.size);
        if at >= header && !inside {
            *byte = random.next() as u8;
        }
    }
    let again = search(
        &changed,
        query,
        found.opened_list.len(),
        found.results.len(),
    );
    assert_eq!(&again, found);
}

#[test]
fn bent_files() {
    let mut random = Random::new(3);
    let mut seen = BTreeSet::new();
    for _ in 0..6000 {
        let mut image = tree(&mut random, 6).image();
        for _ in 0..1 + random.below(2) {
            bend(&mut random, &mut image);
        }
        let file = image.bytes();
        seen.insert(check(&file, AMPLE).number);
        compare_any(&mut random, &file);
    }
    for number in [0, 15, 16, 17, 19, 20, 21, 22, 23, 24] {
        assert!(seen.contains(&number), "{number} never came up");
    }
}

#[test]
fn broken_files() {
    let mut random = Random::new(4);
    for _ in 0..4000 {
        let mut file = tree(&mut random, 4).bytes();
        for _ in 0..1 + random.below(3) {
            break_bytes(&mut random, &mut file);
        }
        compare_any(&mut random, &file);
    }
}

#[test]
fn bytes_that_are_no_file() {
    let mut random = Random::new(5);
    for length in 0..300 {
        let mut file: Vec<u8> = (0..length).map(|_| random.next() as u8).collect();
        compare_any(&mut random, &file);
        let magic = b"\xabZSfiLe\x01";
        let known = magic.len().min(file.len());
        file[..known].copy_from_slice(&magic[..known]);
        compare_any(&mut random, &file);
    }
}
