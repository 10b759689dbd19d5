//! Stores: those of the example of docs/FORMAT.md by hand, bytes that have none, and every cut.

use std::collections::BTreeMap;

use zs_reference::corpus::Corpus;
use zs_reference::maker::random::{tree, Random};
use zs_reference::maker::Plan;
use zs_reference::reader::check;
use zs_reference::stores::{after, carry_out, cut, store_part, stores, Store};
use zs_reference::writer::{write, Counts};

/// The example with two data blocks, 154 bytes: the header ends at 106.
fn example() -> Vec<u8> {
    let corpus = Corpus::whole();
    let file = corpus.files.iter().find(|file| file.name == "two-blocks");
    file.expect("the example").bytes.clone()
}

/// A store whose bytes are given in hex.
fn store(offset: usize, hex: &str) -> Store {
    let pairs = hex.as_bytes().chunks(2);
    let byte = |pair: &[u8]| {
        let digits = std::str::from_utf8(pair).expect("digits");
        u8::from_str_radix(digits, 16).expect("a byte")
    };
    let bytes = pairs.map(byte).collect();
    Store { offset, bytes }
}

#[test]
fn stores_of_the_example() {
    let due = [
        store(0, "ab5a53746f426501"),
        store(
            106,
            "060001610262ffd6b5633b79cd7edc\
             06000262ff0163ea05b28ba1c5e0cc\
             0901006a0f0262ff790fc9ca9e52c2973e86",
        ),
        store(
            8,
            "5200000000000000\
             88000000000000001200000000000000\
             9a0000000000000036d084f06260a0c6\
             bcb8aa9150e1ef4910be942e1bb1e624\
             e918bb056b0a3c406e6f6e6500000000\
             00000000000000000200000000000000\
             7b7d4804e1ff342a142b",
        ),
        store(0, "ab5a5366694c6501"),
    ];
    let file = example();
    assert_eq!(stores(&file), due);
    assert_eq!(after(&due), file);
    let parts = [0, 1, 2, 3, 4, 5, 1 << 32, u64::MAX].map(|i| store_part(&file, i));
    let none = (0, 0);
    let due = [(0, 8), (106, 48), (8, 98), (0, 8), none, none, none, none];
    assert_eq!(parts, due);
}

/// The example with H replaced, cut to so many bytes.
fn with_extent(extent: u64, length: usize) -> Vec<u8> {
    let mut file = example();
    file[8..16].copy_from_slice(&extent.to_le_bytes());
    file.truncate(length);
    file
}

#[test]
fn bytes_without_stores() {
    let file = example();
    for length in 0..=154 {
        let count = if length < 106 { 0 } else { 4 };
        assert_eq!(stores(&file[..length]).len(), count, "{length} bytes");
    }
    for at in 0..8 {
        let mut other = file.clone();
        other[at] ^= 1;
        assert_eq!(stores(&other), [], "byte {at} of the magic");
    }
    let mut unfinished = file;
    unfinished[..8].copy_from_slice(b"\xabZStoBe\x01");
    assert_eq!(stores(&unfinished), []);
    assert_eq!(stores(&[0; 154]), []);
}

/// 24+H at the end of the file, one byte past it, and beyond 64 bits.
#[test]
fn headers_about_the_end() {
    for length in [24, 25, 40, 105, 154] {
        let most = length as u64 - 24;
        for extent in [0, most / 2, most] {
            let file = with_extent(extent, length);
            let blocks = (24 + extent, most - extent);
            assert_eq!(store_part(&file, 1), blocks);
            assert_eq!(store_part(&file, 2), (8, 16 + extent));
            assert_eq!(after(&stores(&file)), file);
        }
        for extent in [
            most + 1,
            most + 2,
            1 << 32,
            1 << 63,
            u64::MAX - 24,
            u64::MAX - 23,
            u64::MAX - 15,
            u64::MAX - 14,
            u64::MAX,
        ] {
            assert_eq!(stores(&with_extent(extent, length)), [], "{extent}");
        }
    }
}

#[test]
fn carrying_out() {
    let mut file = Vec::new();
    carry_out(&mut file, &store(9, ""));
    assert_eq!(file, b"");
    carry_out(&mut file, &store(3, "0102"));
    assert_eq!(file, [0, 0, 0, 1, 2]);
    carry_out(&mut file, &store(4, "0708"));
    assert_eq!(file, [0, 0, 0, 1, 7, 8]);
    carry_out(&mut file, &store(0, "09"));
    assert_eq!(file, [9, 0, 0, 1, 7, 8]);
    carry_out(&mut file, &store(7, "05"));
    assert_eq!(file, [9, 0, 0, 1, 7, 8, 0, 5]);
}

#[test]
fn cutting() {
    let whole = [store(1, "0102"), store(0, "03")];
    assert_eq!(cut(&whole, 0, 0), [store(1, "")]);
    assert_eq!(cut(&whole, 0, 1), [store(1, "01")]);
    assert_eq!(cut(&whole, 0, 2), [store(1, "0102")]);
    assert_eq!(cut(&whole, 1, 0), [store(1, "0102"), store(0, "")]);
    assert_eq!(cut(&whole, 1, 9), whole);
    assert_eq!(cut(&whole, 2, 0), whole);
    assert_eq!(cut(&[], 0, 1), []);
}

/// What a cut leaves.
#[derive(Debug, Clone, Copy, PartialEq, Eq, PartialOrd, Ord)]
enum Left {
    /// A file that is refused with this number.
    Refused(u64),
    Finished,
}

/// What a cut of the stores of a file leaves.
fn left(file: &[u8], whole: usize, bytes: usize) -> Left {
    let state = after(&cut(&stores(file), whole, bytes));
    if state == file {
        return Left::Finished;
    }
    Left::Refused(check(&state, usize::MAX).number)
}

/// What each cut within a store leaves, from 0 bytes of it to all.
fn left_within(file: &[u8], whole: usize) -> Vec<Left> {
    let bytes = stores(file)[whole].bytes.len();
    (0..=bytes).map(|bytes| left(file, whole, bytes)).collect()
}

/// The two magics differ in bytes 3, 4 and 5 alone.
#[test]
fn every_cut_of_the_example() {
    use Left::{Finished, Refused};
    let file = example();
    let first = [3, 3, 3, 3, 3, 3, 3, 3, 2].map(Refused);
    assert_eq!(left_within(&file, 0), first);
    assert_eq!(left_within(&file, 1), [Refused(2); 49]);
    assert_eq!(left_within(&file, 2), [Refused(2); 99]);
    let refused = [2, 2, 2, 2, 3, 3].map(Refused);
    assert_eq!(left_within(&file, 3)[..6], refused);
    assert_eq!(left_within(&file, 3)[6..], [Finished; 3]);
    assert_eq!(left(&file, 4, 0), Finished);
}

/// Every cut of drawn files that are written, by how many leave what. Only the last store may finish a file.
#[test]
fn every_cut_of_drawn_files() {
    let mut random = Random::new(6);
    for _ in 0..60 {
        let file = draw_written(&mut random);
        assert_eq!(after(&stores(&file)), file);
        let mut counts: BTreeMap<Left, usize> = BTreeMap::new();
        for whole in 0..4 {
            for left in left_within(&file, whole) {
                *counts.entry(left).or_default() += 1;
            }
        }
        // Of the magics 1 + 4 cuts leave 2, 8 + 2 leave 3 and 3 leave the file; of all else each cut leaves 2.
        let unfinished = 5 + (file.len() - 8 + 2);
        let due = [
            (Left::Refused(2), unfinished),
            (Left::Refused(3), 10),
            (Left::Finished, 3),
        ];
        assert_eq!(counts, BTreeMap::from(due));
    }
}

fn draw_written(random: &mut Random) -> Vec<u8> {
    let records: Vec<Vec<u8>> = tree(random, 6).groups.concat();
    let metadata = format!("{{{}}}", " ".repeat(random.below(50)));
    let counts = Counts {
        per_block: 1 + random.below(4) as u64,
        per_index: 2 + random.below(3) as u64,
    };
    let input = Plan::data(&records).payload(&[]);
    write(metadata.as_bytes(), &input, counts, 1 << 20).expect("a file")
}
