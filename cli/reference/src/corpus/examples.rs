//! The whole files of docs/FORMAT.md, section 8, with its queries, and records cut from them.

use super::build::{everything, prefix, query, start, stop};
use super::Corpus;
use crate::maker::{Image, Plan, Tree};

/// Adds the examples of docs/FORMAT.md.
pub fn add(corpus: &mut Corpus) {
    add_smallest(corpus);
    add_two_blocks(corpus);
    add_later_named_first(corpus);
    add_beginnings(corpus);
}

/// One empty record at 106, the root at 117, 130 bytes in all.
pub fn smallest_file() -> Vec<u8> {
    Tree::new(&[&[""]]).bytes()
}

/// Data blocks at 106 and 121, the root at 136, 154 bytes in all.
pub fn two_block_image() -> Image {
    Image::new(vec![
        Plan::data(&[&b"a"[..], b"b\xff"]),
        Plan::data(&[&b"b\xff"[..], b"c"]),
        Plan::index(1, &[(&b""[..], 0), (b"b\xff", 1)]),
    ])
}

fn add_smallest(corpus: &mut Corpus) {
    let name = "smallest";
    corpus.add_sound(name, smallest_file());
    for result_places in [1, 0, 2] {
        corpus.read(name, &everything(), result_places);
        corpus.search(name, &everything(), 2, result_places);
    }
    for places in [0, 1, 3] {
        corpus.check(name, places);
        corpus.search(name, &everything(), places, 1);
    }
    for query in [
        start(b""),
        start(b"\0"),
        stop(b""),
        stop(b"\0"),
        prefix(b"\0"),
        query(b"", Some(b"\xff"), b""),
    ] {
        corpus.ask(name, &query);
    }
    for (offset, length) in parts_around(130) {
        corpus.record(name, offset, length);
    }
}

/// Parts inside, at the end of and beyond a file, and parts whose end doesn't fit 64 bits.
fn parts_around(length: u64) -> Vec<(u64, u64)> {
    vec![
        (0, 0),
        (0, 8),
        (109, 0),
        (length - 1, 1),
        (length, 0),
        (length, 1),
        (length + 1, 0),
        (0, length),
        (0, length + 1),
        (1, length),
        (1, u64::MAX),
        (u64::MAX, 0),
        (u64::MAX, 1),
        (u64::MAX, u64::MAX),
        (1 << 63, 1 << 63),
        (u64::MAX - 19, 20),
    ]
}

fn add_two_blocks(corpus: &mut Corpus) {
    let name = "two-blocks";
    corpus.add_sound(name, two_block_image().bytes());
    for work_places in [0, 2, 4] {
        corpus.check(name, work_places);
    }
    let both = prefix(b"b");
    for result_places in [2, 1, 3, 0] {
        corpus.read(name, &both, result_places);
        corpus.search(name, &both, 3, result_places);
    }
    for opened_places in [0, 1, 2, 4] {
        corpus.search(name, &both, opened_places, 2);
    }
    for query in two_block_queries() {
        corpus.ask(name, &query);
    }
    add_ungiven_stop(corpus, name);
    corpus.ask_records(name, &everything(), 4);
    for (offset, length) in [(0, 154), (109, 46), (154, 0), (154, 1)] {
        corpus.record(name, offset, length);
    }
}

fn two_block_queries() -> Vec<crate::reader::Query> {
    vec![
        prefix(b"a"),
        prefix(b"b\xff"),
        prefix(b"b\xff\0"),
        prefix(b"c"),
        start(b"b\xff"),
        start(b"b\xff\0"),
        start(b"c"),
        start(b"d"),
        stop(b""),
        stop(b"a"),
        stop(b"a\0"),
        stop(b"b\xff"),
        stop(b"b\xff\0"),
        query(b"b", Some(b"c"), b""),
        query(b"c", Some(b"b"), b""),
        query(b"b\xff", Some(b"b\xff"), b""),
        query(b"a", Some(b"c"), b"b\xff"),
        query(b"", Some(b""), b"b"),
        query(b"b\xff", None, b"b"),
    ]
}

/// Where no stop is given, its bytes mean nothing.
fn add_ungiven_stop(corpus: &mut Corpus, name: &str) {
    corpus.read(name, &everything(), 4);
    corpus.search(name, &everything(), 3, 4);
    let added = corpus.cases.len();
    for case in &mut corpus.cases[added - 2..] {
        case.stop = b"a".to_vec();
    }
}

/// Both keys `78`, the later block named first: refusal 22 at the earlier block.
fn add_later_named_first(corpus: &mut Corpus) {
    let image = Image::new(vec![
        Plan::data(&["x", "x"]),
        Plan::data(&["x", "y"]),
        Plan::index(1, &[("x", 1), ("x", 0)]),
    ]);
    let name = "22-paper";
    corpus.add_refused(name, image.bytes(), 22, image.start(0));
    corpus.ask(name, &prefix(b"y"));
    corpus.ask(name, &prefix(b"x"));
}

/// The first 0 to 24 bytes of a good file.
fn add_beginnings(corpus: &mut Corpus) {
    let whole = two_block_image().bytes();
    for length in 0..=24 {
        let name = format!("first-{length:02}");
        let beginning = whole[..length].to_vec();
        if length < 8 {
            corpus.add_refused_first(&name, beginning, 3, 0);
        } else {
            corpus.add_refused(&name, beginning, 4, 0);
        }
    }
    for (offset, length) in [(0, 0), (0, 1), (1, 0)] {
        corpus.record("first-00", offset, length);
    }
    for (offset, length) in [(0, 7), (0, 8), (7, 0)] {
        corpus.record("first-07", offset, length);
    }
}
