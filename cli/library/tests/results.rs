//! Result lists: a number for each match, of which `Part::of_match` says where it lies.

use zs_library::{bytes, check, read, search, Found, Part, Query};

const TWO_BLOCKS: &str = concat!(
    env!("CARGO_MANIFEST_DIR"),
    "/../../crates/test_archives/data/two-blocks"
);
const CONTACTS: &str = concat!(env!("CARGO_MANIFEST_DIR"), "/../../samples/contacts.zs");

fn beginning_with(prefix: &[u8]) -> Query<'_> {
    Query {
        start: &[],
        stop: None,
        prefix,
    }
}

/// A search with so many places: the answer, the opened list and the result list.
fn search_with(file: &[u8], prefix: &[u8], places: [usize; 2]) -> (Found, Vec<u64>, Vec<u64>) {
    let [mut opened, mut results] = places.map(|places| vec![7; places]);
    let found = search(file, &beginning_with(prefix), &mut opened, &mut results);
    (found, opened, results)
}

#[test]
fn a_number_is_the_offset_times_2_to_the_32_plus_the_length() {
    let greatest = (1 << 30) - 1;
    for (offset, length) in [
        (111, 2),
        (109, 0),
        (96, greatest),
        (greatest, 0),
        (greatest, greatest),
    ] {
        let part = Part::of_match(offset * 4_294_967_296 + length);
        assert_eq!(part, Part { offset, length });
    }
}

#[test]
fn the_example_with_two_data_blocks() {
    let file = std::fs::read(TWO_BLOCKS).expect("the example");
    let part = |offset, length| Part { offset, length };
    let (found, opened, results) = search_with(&file, b"b", [3, 2]);
    assert_eq!((found.number, found.matches, found.opened), (0, 2, 3));
    assert_eq!(opened, [136, 106, 121]);
    assert_eq!(results, [476_741_369_858, 532_575_944_706]);
    let parts: Vec<Part> = results.iter().copied().map(Part::of_match).collect();
    assert_eq!(parts, [part(111, 2), part(124, 2)]);
    let (found, _, results) = search_with(&file, b"a", [3, 2]);
    assert_eq!((found.number, found.matches), (0, 1));
    assert_eq!(results, [468_151_435_265, 0]);
    assert_eq!(Part::of_match(results[0]), part(109, 1));
}

#[test]
fn one_place_too_few() {
    let file = std::fs::read(TWO_BLOCKS).expect("the example");
    for (places, number) in [([3, 1], 27), ([2, 2], 26)] {
        let (found, opened, results) = search_with(&file, b"b", places);
        let counts = (found.place, found.matches, found.opened);
        assert_eq!((found.number, counts), (number, (0, 0, 0)));
        assert!(opened.iter().chain(&results).all(|number| *number == 0));
    }
    let mut results = [7];
    let answer = read(&file, &beginning_with(b"b"), &mut results);
    assert_eq!((answer.number, answer.matches, results), (27, 0, [0]));
}

#[test]
fn every_match_of_the_sample() {
    let file = std::fs::read(CONTACTS).expect("the sample");
    let checked = check(&file, &mut vec![7; file.len() / 11]);
    let mut results = vec![7; checked.records as usize];
    assert_eq!(read(&file, &beginning_with(b""), &mut results).number, 0);
    let (found, _, by_index) = search_with(&file, b"", [checked.blocks as usize, results.len()]);
    assert_eq!((found.number, &by_index), (0, &results));
    assert!(results.iter().all(|number| *number != 0));
    let parts: Vec<Part> = results.into_iter().map(Part::of_match).collect();
    for pair in parts.windows(2) {
        assert!(pair[0].offset + pair[0].length < pair[1].offset);
        let [first, second] = [pair[0], pair[1]].map(|part| bytes(&file, part.offset, part.length));
        assert!(first.len() == pair[0].length as usize && first <= second);
    }
}
