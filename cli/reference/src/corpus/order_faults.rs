//! Files refused for orders, keys or the hash: 22 to 25.

use super::build::{alter, plain, prefix, query, start, stop, two_levels};
use super::Corpus;
use crate::checksums::sha256;
use crate::maker::{Content, Image, Plan, Target};

/// Adds the files.
pub fn add(corpus: &mut Corpus) {
    add_walk_order(corpus);
    add_neighbours(corpus);
    add_keys_of_one_level(corpus);
    add_keys_of_two_levels(corpus);
    add_keys_by_file_order(corpus);
    add_hashes(corpus);
}

/// 22 alone needs equal keys and equal records.
fn add_walk_order(corpus: &mut Corpus) {
    let image = Image::new(vec![
        Plan::data(&["x"]),
        Plan::data(&["x"]),
        Plan::data(&["x"]),
        Plan::index(1, &[("x", 0), ("x", 2), ("x", 1)]),
    ]);
    corpus.add_refused("22-last-two", image.bytes(), 22, image.start(1));
    corpus.ask("22-last-two", &prefix(b"x"));

    let image = Image::new(vec![
        Plan::data(&["w", "x"]),
        Plan::data(&["x"]),
        Plan::data(&["x"]),
        Plan::data(&["x", "y"]),
        Plan::index(1, &[("x", 1), ("x", 2)]),
        Plan::index(1, &[("w", 0), ("x", 3)]),
        Plan::index(2, &[("w", 5), ("x", 4)]),
    ]);
    corpus.add_refused("22-interlocked", image.bytes(), 22, image.start(1));

    let image = Image::new(vec![
        Plan::index(2, &[("", 5), ("", 4)]),
        Plan::data(&[""]),
        Plan::data(&["", "z"]),
        Plan::bytes(64, b"between"),
        Plan::index(1, &[("", 1)]),
        Plan::index(1, &[("", 2)]),
    ]);
    let image = Image {
        root: Target::Block(0),
        ..image
    };
    corpus.add_refused("22-subtrees", image.bytes(), 22, image.start(1));
    corpus.ask("22-subtrees", &start(b"z"));
}

/// The records of three data blocks.
type ThreeGroups<'a> = [&'a [&'a [u8]]; 3];

/// 23 always brings 24 with it, or 22.
fn add_neighbours(corpus: &mut Corpus) {
    let groups: [(&str, ThreeGroups, usize); 6] = [
        ("23-falling", [&[b"b"], &[b"a"], &[b"c"]], 1),
        ("23-last", [&[b"a"], &[b"c"], &[b"b"]], 2),
        ("23-overlap", [&[b"a", b"c"], &[b"b", b"d"], &[b"d"]], 1),
        ("23-signed", [&[b"\x80"], &[b"a"], &[b"\xff"]], 1),
        ("23-beginning", [&[b"a"], &[b"b\0"], &[b"b"]], 2),
        ("23-two-pairs", [&[b"c"], &[b"b"], &[b"a"]], 1),
    ];
    for (name, records, fault) in groups {
        let image = Image::new(vec![
            Plan::data(records[0]),
            Plan::bytes(200, b""),
            Plan::data(records[1]),
            Plan::data(records[2]),
            Plan::index(1, &[("", 0), ("", 2), ("", 3)]),
        ]);
        let place = image.start([0, 2, 3][fault]);
        corpus.add_refused_first(name, image.bytes(), 23, place);
    }
    corpus.ask("23-falling", &prefix(b"a"));
}

/// Changes the key of one entry.
fn set_key(image: &mut Image, block: usize, entry: usize, key: &[u8]) {
    if let Content::Entries(entries) = &mut image.blocks[block].content {
        entries[entry].key = key.to_vec();
    }
}

/// In the plain file the keys may be: up to `ab`; `b` alone; `ca` to `d`.
fn add_keys_of_one_level(corpus: &mut Corpus) {
    let keys: [(&str, usize, &[u8]); 6] = [
        ("24-first-high", 0, b"ab\0"),
        ("24-middle-low", 1, b"ab\xff"),
        ("24-middle-high", 1, b"b\0"),
        ("24-last-low", 2, b"c"),
        ("24-last-high", 2, b"d\0"),
        ("24-last-over", 2, b"f"),
    ];
    for (name, entry, key) in keys {
        let image = alter(&plain(), |image| set_key(image, 3, entry, key));
        corpus.add_refused(name, image.bytes(), 24, image.start(3));
        corpus.ask_search(name, &start(b"b"));
    }
    corpus.ask("24-last-over", &prefix(b"d"));
    corpus.ask("24-middle-high", &query(b"b", Some(b"b\0"), b""));
}

/// In the file of two levels the records go `a` to `d`, then `f` to `i`.
fn add_keys_of_two_levels(corpus: &mut Corpus) {
    let keys: [(&str, usize, usize, &[u8]); 5] = [
        ("24-root-high", 6, 1, b"g"),
        ("24-root-low", 6, 1, b"cc"),
        ("24-inner-low", 4, 1, b"aa"),
        ("24-inner-high", 5, 0, b"ff"),
        // Below the last record under the neighbour, though its own block keeps order.
        ("24-neighbour", 5, 0, b"c"),
    ];
    for (name, block, entry, key) in keys {
        let image = alter(&two_levels(), |image| set_key(image, block, entry, key));
        corpus.add_refused(name, image.bytes(), 24, image.start(block));
        corpus.ask_search(name, &query(b"c", Some(b"g"), b""));
    }
}

/// 24 is looked for in file order of the index blocks, not in the walk's order.
fn add_keys_by_file_order(corpus: &mut Corpus) {
    let image = Image::new(vec![
        Plan::index(1, &[("d", 2)]),
        Plan::data(&["a"]),
        Plan::data(&["c"]),
        Plan::index(1, &[("b", 1)]),
        Plan::index(2, &[("a", 3), ("c", 0)]),
    ]);
    let name = "24-backwards";
    corpus.add_refused(name, image.bytes(), 24, image.start(0));

    let image = Image {
        root: Target::Block(0),
        ..Image::new(vec![
            Plan::index(2, &[("a", 2), ("d", 4)]),
            Plan::data(&["a"]),
            Plan::index(1, &[("b", 1)]),
            Plan::data(&["c"]),
            Plan::index(1, &[("d", 3)]),
        ])
    };
    corpus.add_refused("24-two-levels", image.bytes(), 24, image.start(0));
}

fn add_hashes(corpus: &mut Corpus) {
    let mut tree = plain();
    tree.reserved = vec![(1, 64, b"\x01c".to_vec())];
    let records = [&b"ab"[..], b"b", b"b", b"ca", b"d", b"e"];
    let payloads = [&b"\x02ab\x01b"[..], b"\x01b\x02ca", b"\x01d\x01e"];
    let with_levels = [
        &b"\0"[..],
        payloads[0],
        b"\0",
        payloads[1],
        b"\0",
        payloads[2],
    ];
    let with_reserved = [payloads[0], b"\x01c", payloads[1], payloads[2]];
    let mut low_bit = sha256(payloads);
    low_bit[31] ^= 1;
    let mut high_bit = sha256(payloads);
    high_bit[0] ^= 0x80;
    for (name, hash) in [
        ("25-zero", [0; 32]),
        ("25-last-bit", low_bit),
        ("25-first-bit", high_bit),
        ("25-nothing", sha256([])),
        ("25-bare", sha256(records)),
        ("25-levels", sha256(with_levels)),
        ("25-reserved", sha256(with_reserved)),
        ("25-first-only", sha256([payloads[0]])),
    ] {
        let image = alter(&tree, |image| image.hash = Some(hash));
        corpus.add_refused(name, image.bytes(), 25, 0);
    }
    corpus.ask("25-zero", &stop(b"c"));
}
