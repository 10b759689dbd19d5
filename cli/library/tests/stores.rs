//! The stores of a file: what the writer makes comes about by them, and bytes of other kinds have none.

use zs_library::{check, store_part, stores, write, Counts, Part, Store, STORES, UNFINISHED};
use zs_reference::maker::Tree;

const METADATA: &[u8] = b"{\"about\": \"stores\"}";
const RECORDS: &[u8] = b"\x01a\x02b\xff\x02b\xff\x01c";
const COUNTS: Counts = Counts {
    per_block: 2,
    per_index: 2,
};
const NONE: Part = Part {
    offset: 0,
    length: 0,
};

/// A file of the writer.
fn written() -> Vec<u8> {
    let mut output = vec![0; 1000];
    let answer = write(METADATA, RECORDS, COUNTS, &mut output);
    assert_eq!(answer.number, 0);
    output.truncate(answer.length as usize);
    output
}

/// Carries a store out; bytes that are leapt over are zeros.
fn carry_out(disk: &mut Vec<u8>, store: Store) {
    let (from, to) = (
        store.offset as usize,
        store.offset as usize + store.bytes.len(),
    );
    disk.resize(disk.len().max(to), 0);
    disk[from..to].copy_from_slice(store.bytes);
}

/// Holds a file to its four stores, and to the number of the check before and after the last.
fn expect_stores(file: &[u8]) {
    let all: Vec<Store> = stores(file).collect();
    assert_eq!(all.len() as u64, STORES);
    // Magic, a length, as many bytes, and the CRC.
    let blocks = 24 + u64::from_le_bytes(file[8..16].try_into().expect("eight bytes")) as usize;
    let due = [
        (0, &UNFINISHED[..]),
        (blocks, &file[blocks..]),
        (8, &file[8..blocks]),
        (0, &file[..8]),
    ];
    let mut disk = Vec::new();
    for (at, (store, (offset, bytes))) in all.iter().zip(due).enumerate() {
        assert_eq!((store.offset, store.bytes), (offset as u64, bytes));
        let part = store_part(file, at as u64);
        assert_eq!(part.offset, store.offset);
        assert_eq!(part.length, bytes.len() as u64);
        assert_eq!(
            check(&disk, &mut []).number,
            if disk.is_empty() { 3 } else { 2 }
        );
        carry_out(&mut disk, *store);
    }
    assert!(disk == file);
    assert_eq!(check(&disk, &mut vec![0; file.len() / 11]).number, 0);
}

#[test]
fn a_finished_file_comes_about_by_its_stores() {
    expect_stores(&written());
    // Another writer's file has stores as well.
    expect_stores(&Tree::new(&[&["a", "b"], &["c"]]).bytes());
}

#[test]
fn there_are_four() {
    let file = written();
    for i in [STORES, 5, 1 << 32, u64::MAX] {
        assert_eq!(store_part(&file, i), NONE, "{i}");
    }
}

#[test]
fn after_a_refusal_there_are_none() {
    let length = written().len();
    let mut output = vec![7; length - 1];
    let answer = write(METADATA, RECORDS, COUNTS, &mut output);
    assert_eq!(answer.number, 31);
    for bytes in [&output[..], &output[..answer.length as usize]] {
        assert_eq!(stores(bytes).count(), 0);
        assert!((0..STORES).all(|i| store_part(bytes, i) == NONE));
    }
}

#[test]
fn what_is_no_finished_file_has_none() {
    let file = written();
    let blocks = 24 + u64::from_le_bytes(file[8..16].try_into().expect("eight bytes")) as usize;
    for length in 0..blocks {
        assert_eq!(stores(&file[..length]).count(), 0, "{length}");
    }
    for at in 0..8 {
        let mut other = file.clone();
        other[at] ^= 1;
        assert_eq!(stores(&other).count(), 0, "{at}");
    }
    // A header longer than any file.
    let mut other = file;
    other[8..16].copy_from_slice(&u64::MAX.to_le_bytes());
    assert_eq!(stores(&other).count(), 0);
}
