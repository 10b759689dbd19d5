//! What include/zs.h says is always enough: lengths of lists, and a small stack.

use std::path::Path;
use std::thread;

use zs_library::{check, compare, import_sim, is_metadata, read, search, write, Counts, Query};
use zs_reference::maker::{adn, Image, Plan};

const STACK: usize = 64 << 10;
const ALL: Query = Query {
    start: &[],
    stop: None,
    prefix: &[],
};

/// So many empty records, and the counts that put the most levels over them.
static RECORDS: [u8; 5000] = [0; 5000];
const LEAST_COUNTS: Counts = Counts {
    per_block: 1,
    per_index: 2,
};

/// Data blocks of eleven bytes, one of them named by the root.
fn least_blocks(count: usize) -> Vec<u8> {
    let mut blocks = vec![Plan::data(&[""]); count];
    blocks.push(Plan::index(1, &[("", 0)]));
    Image::new(blocks).bytes()
}

/// One data block, and an index block on each of the 63 levels above it; in the metadata objects are nested as deep as they may be.
fn deepest_tree() -> Vec<u8> {
    let mut blocks = vec![Plan::data(&["a"])];
    blocks.extend((1..=63).map(|level| Plan::index(level, &[("", usize::from(level) - 1)])));
    let mut image = Image::new(blocks);
    image.metadata = format!("{}{{}}{}", "{\"\":".repeat(63), "}".repeat(63)).into_bytes();
    image.bytes()
}

/// An object in which arrays are nested, so many of both.
fn nested_arrays(depth: usize) -> Vec<u8> {
    let (open, close) = ("[".repeat(depth - 1), "]".repeat(depth - 1));
    format!("{{\"\":{open}{close}}}").into_bytes()
}

/// The stored files of every kind, and the two above.
fn files() -> Vec<Vec<u8>> {
    let folder = Path::new(env!("CARGO_MANIFEST_DIR")).join("../../crates/test_archives/data");
    let stored = std::fs::read_dir(folder).expect("the stored files");
    let paths = stored.map(|entry| entry.expect("a stored file").path());
    let mut files: Vec<Vec<u8>> = paths
        .map(|path| std::fs::read(path).expect("its bytes"))
        .collect();
    files.extend([least_blocks(1000), deepest_tree()]);
    files
}

#[test]
fn a_work_place_for_eleven_bytes() {
    for file in files() {
        assert_ne!(check(&file, &mut vec![7; file.len() / 11]).number, 18);
    }
    let file = least_blocks(1000);
    assert_eq!(check(&file, &mut [7; 1000]).number, 18);
    assert_eq!(check(&file, &mut [7; 1001]).number, 20);
}

#[test]
fn opened_and_result_places_by_the_counts_of_the_check() {
    let mut accepted = 0;
    for file in files() {
        let checked = check(&file, &mut vec![7; file.len() / 11]);
        if checked.number == 0 {
            let mut opened = vec![7; checked.blocks as usize];
            let mut results = vec![7; checked.records as usize];
            let found = search(&file, &ALL, &mut opened, &mut results);
            assert_eq!((found.number, found.matches), (0, checked.records));
            assert_eq!(read(&file, &ALL, &mut results).number, 0);
            let short = &mut results[1..];
            assert_eq!(search(&file, &ALL, &mut opened, short).number, 27);
            assert_eq!(read(&file, &ALL, short).number, 27);
            accepted += 1;
        }
    }
    assert!(accepted > 50, "{accepted} accepted files");
}

#[test]
fn five_places_for_each_record_of_two_files() {
    let files = files();
    let counted = files.iter().filter_map(|file| {
        let checked = check(file, &mut vec![7; file.len() / 11]);
        (checked.number == 0).then_some((file, checked.records))
    });
    let accepted: Vec<(&Vec<u8>, u64)> = counted.collect();
    assert!(accepted.len() > 50, "{} accepted files", accepted.len());
    for pair in accepted.windows(2) {
        let [(first, records), (second, others)] = [pair[0], pair[1]];
        let mut work = vec![7; first.len().max(second.len()) / 11];
        let mut list = vec![7; 5 * (records + others) as usize];
        let compared = compare(first, second, &mut work, &mut list);
        let sum = others as i64 - records as i64;
        assert_eq!((compared.number, compared.sum), (0, sum));
    }
}

#[test]
fn a_result_place_for_each_byte_when_reading_anything() {
    for file in files() {
        assert_ne!(read(&file, &ALL, &mut vec![7; file.len()]).number, 27);
    }
}

/// A phonebook of so many records with the longest names that the field takes, in falling order.
fn full_phonebook(field: usize, records: u8) -> Vec<u8> {
    let name = |number: u8| adn(&vec![records - number; field], field, [number % 12; 14]);
    (0..records).flat_map(name).collect()
}

#[test]
fn an_output_of_twice_the_dump() {
    for field in 0..=241 {
        let dump = full_phonebook(field, 40);
        let imported = import_sim(&dump, field as u64, &mut vec![7; 2 * dump.len()]);
        let number = if field + 14 < 128 { 1 } else { 2 };
        assert_eq!(
            (imported.number, imported.length),
            (0, (dump.len() + 40 * number) as u64)
        );
    }
    assert_eq!(import_sim(&[], 0, &mut []).number, 0);
}

#[test]
fn a_stack_of_64_kib() {
    let file = deepest_tree();
    let dump = full_phonebook(241, 100);
    let calls = move || {
        let checked = check(&file, &mut [7; 64]);
        let found = search(&file, &ALL, &mut [7; 64], &mut [7; 1]);
        let written = write(
            &nested_arrays(64),
            &RECORDS,
            LEAST_COUNTS,
            &mut vec![7; 100 * RECORDS.len()],
        );
        let imported = import_sim(&dump, 241, &mut vec![7; 2 * dump.len()]);
        let compared = compare(&file, &file, &mut [7; 64], &mut []);
        assert_eq!([checked.number, found.number, written.number], [0; 3]);
        assert_eq!([imported.number, compared.number], [0; 2]);
        assert!(!is_metadata(&nested_arrays(100_000)));
        (checked.blocks, found.opened)
    };
    let small = thread::Builder::new().stack_size(STACK);
    let answers = small.spawn(calls).expect("a thread").join();
    assert_eq!(answers.expect("its answers"), (64, 64));
}
