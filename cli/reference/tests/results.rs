//! Result lists: the numbers of both readers against the matches as pairs, and the places that they take.

use crate::support::results::pairs;
use zs_reference::maker::random::{query, tree, Random};
use zs_reference::maker::Tree;
use zs_reference::reader::{read, search, unpack, Query};

const AMPLE: usize = 1000;

/// Offset and length by the number's bytes: the upper four and the lower four.
fn halves(number: u64) -> [u64; 2] {
    let bytes = number.to_be_bytes();
    let half = |from| u32::from_be_bytes([0, 1, 2, 3].map(|at: usize| bytes[from + at]));
    [half(0), half(4)].map(u64::from)
}

/// The list holds these matches and then zeros, and no match has the number 0.
fn compare_list(list: &[u64], matches: u64, due: &[[u64; 2]]) {
    assert_eq!(matches, due.len() as u64);
    let (numbers, rest) = list.split_at(due.len());
    assert!(numbers.iter().all(|number| *number != 0));
    assert!(rest.iter().all(|number| *number == 0));
    let given: Vec<[u64; 2]> = numbers.iter().copied().map(halves).collect();
    assert_eq!(given, due);
    let unpacked = numbers.iter().map(|number| unpack(*number));
    let unpacked: Vec<[u64; 2]> = unpacked.map(|(offset, length)| [offset, length]).collect();
    assert_eq!(unpacked, due);
}

/// Both readers with this many result places: 27 and zeros where more records match, else the matches.
fn compare_room(file: &[u8], query: &Query, places: usize, due: &[[u64; 2]]) {
    let answer = read(file, query, places);
    let found = search(file, query, AMPLE, places);
    assert_eq!((answer.place, found.place), (0, 0));
    assert_eq!(
        (answer.results.len(), found.results.len()),
        (places, places)
    );
    if due.len() > places {
        assert_eq!((answer.number, found.number), (27, 27));
        compare_list(&answer.results, answer.matches, &[]);
        compare_list(&found.results, found.matches, &[]);
    } else {
        assert_eq!((answer.number, found.number), (0, 0));
        compare_list(&answer.results, answer.matches, due);
        compare_list(&found.results, found.matches, due);
    }
}

#[test]
fn one_number_for_each_match() {
    let mut random = Random::new(6);
    let (mut several, mut empty) = (0, 0);
    for _ in 0..800 {
        let file = tree(&mut random, 9).bytes();
        for query in [Query::default(), query(&mut random), query(&mut random)] {
            let due = pairs(&file, &query);
            for places in 0..due.len() + 3 {
                compare_room(&file, &query, places, &due);
            }
            several += u32::from(due.len() > 1);
            empty += u32::from(due.iter().any(|pair| pair[1] == 0));
        }
    }
    assert!(several > 800 && empty > 100, "{several} {empty}");
}

/// Lengths and offsets of more than 16 bits.
#[test]
fn long_records() {
    let long = |letter: u8, length: usize| vec![letter; length];
    let first = [long(b'a', 65_535), long(b'b', 65_536)];
    let second = [long(b'c', (1 << 20) + 1), Vec::from(*b"d")];
    let file = Tree::new(&[&first[..], &second[..]]).bytes();
    let everything = Query::default();
    let due = pairs(&file, &everything);
    let lengths: Vec<u64> = due.iter().map(|pair| pair[1]).collect();
    assert_eq!(lengths, [65_535, 65_536, 1_048_577, 1]);
    for places in 0..6 {
        compare_room(&file, &everything, places, &due);
    }
}

/// Reading a file with a fault gives the fault's number however many places there are; the search gives 27 where a match finds no place
/// before it comes to the fault.
#[test]
fn faults_and_places() {
    let mut image = Tree::new(&[&["a", "b"], &["c"], &["d"]]).image();
    image.blocks[2].crc_flips = 1;
    let (file, fault) = (image.bytes(), image.start(2));
    for places in 0..6 {
        let answer = read(&file, &Query::default(), places);
        assert_eq!((answer.number, answer.place), (14, fault));
        let found = search(&file, &Query::default(), AMPLE, places);
        let due = if places < 3 { (27, 0) } else { (14, fault) };
        assert_eq!((found.number, found.place), due);
    }
}

#[test]
fn any_number_is_taken_apart() {
    let greatest = (1 << 32) - 1;
    assert_eq!(unpack(0), (0, 0));
    assert_eq!(unpack(greatest), (0, greatest));
    assert_eq!(unpack(1 << 32), (1, 0));
    assert_eq!(unpack((1 << 62) + (1 << 30)), (1 << 30, 1 << 30));
    assert_eq!(unpack(u64::MAX), (greatest, greatest));
}
