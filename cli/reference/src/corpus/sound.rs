//! Accepted files that a careless reader would refuse or misread.

use super::build::{plain, prefix, query, start, stop, two_levels};
use super::metadata::accepted;
use super::Corpus;
use crate::maker::{Image, Keys, Placing, Plan, Target, Tree};

/// Adds the unusual but accepted files.
pub fn add(corpus: &mut Corpus) {
    add_headers(corpus);
    add_reserved(corpus);
    add_placings(corpus);
    add_keys(corpus);
    add_shapes(corpus);
    add_chains(corpus);
    add_long_numbers(corpus);
    add_full_size(corpus);
}

fn add_headers(corpus: &mut Corpus) {
    let mut tree = plain();
    tree.extra = b"\0\xffignored\x80".to_vec();
    corpus.add_sound("extra-header", tree.bytes());
    tree.extra = Image::new(vec![Plan::data(&["zz"])]).bytes();
    corpus.add_sound("extra-file", tree.bytes());
    tree.extra = b", {oops} \xff}".to_vec();
    corpus.add_sound("extra-no-json", tree.bytes());
    tree.extra = Vec::new();
    tree.metadata = format!("{{\"text\": \"{}\"}}", "m".repeat(300)).into_bytes();
    corpus.add_sound("meta-long", tree.bytes());
    for (name, text) in accepted() {
        tree.metadata = text;
        corpus.add_sound(&format!("meta-{name}"), tree.bytes());
    }
}

fn add_reserved(corpus: &mut Corpus) {
    let mut tree = plain();
    tree.reserved = vec![(1, 64, Vec::new())];
    corpus.add_sound("reserved-l1", tree.bytes());
    tree.reserved = vec![
        (0, 64, b"\xff\xff\xff\xff\xff\xff\xff\xff\xff\xff".to_vec()),
        (1, 255, Vec::new()),
        (1, 128, b"\x05ab".to_vec()),
        (3, 65, b"\x01b\x01a".to_vec()),
        (9, 200, b"\x80\0".to_vec()),
    ];
    corpus.add_sound("reserved-all", tree.bytes());
    corpus.ask("reserved-all", &prefix(b"b"));
    corpus.ask("reserved-all", &stop(b"b"));
    corpus.ask_records("reserved-all", &prefix(b"c"), 1);
    tree.reserved = vec![(4, 64, b"".to_vec()), (4, 64, b"zz".to_vec())];
    corpus.add_sound("reserved-end", tree.bytes());
}

fn add_placings(corpus: &mut Corpus) {
    let placings = [
        ("index-after", Placing::After),
        ("index-before", Placing::Before),
        ("index-behind", Placing::AfterChildren),
        ("index-ahead", Placing::BeforeChildren),
        ("index-between", Placing::AfterFirst),
    ];
    for (name, placing) in placings {
        let mut tree = two_levels();
        tree.placing = placing;
        corpus.add_sound(name, tree.bytes());
        corpus.ask_search(name, &query(b"d", Some(b"f\0"), b""));
        corpus.ask_search(name, &prefix(b"h"));
    }
}

fn add_keys(corpus: &mut Corpus) {
    let choices = [
        ("keys-first", Keys::FirstRecord),
        ("keys-short", Keys::Separator),
        ("keys-last", Keys::LastBefore),
        ("keys-empty", Keys::EmptyFirst),
    ];
    for (name, keys) in choices {
        let mut tree = Tree::new(&[&["apple", "ash"], &["ash", "beech"], &["birch", "elm"]]);
        tree.keys = keys;
        corpus.add_sound(name, tree.bytes());
        corpus.ask_search(name, &prefix(b"ash"));
        corpus.ask_search(name, &query(b"be", Some(b"bir"), b""));
        corpus.ask_search(name, &query(b"beecha", Some(b"birc"), b""));
    }
    let empty = Tree::new(&[&[""], &["", ""], &["", "a"]]);
    corpus.add_sound("keys-all-empty", empty.bytes());
    corpus.ask("keys-all-empty", &stop(b"a"));
    corpus.ask("keys-all-empty", &prefix(b"a"));
    add_keys_outside_parent(corpus);
}

/// The record before is `b`, the first one below is `t`; keys between them may go either way.
fn add_keys_outside_parent(corpus: &mut Corpus) {
    for (name, outer, inner) in [
        ("key-under-parent", "m", "c"),
        ("key-over-parent", "c", "m"),
    ] {
        let image = Image::new(vec![
            Plan::data(&["a", "b"]),
            Plan::data(&["t", "u"]),
            Plan::data(&["v", "w"]),
            Plan::index(1, &[("", 0)]),
            Plan::index(1, &[(inner, 1), ("v", 2)]),
            Plan::index(2, &[("a", 3), (outer, 4)]),
        ]);
        corpus.add_sound(name, image.bytes());
        for stop in [b"c", b"d", b"m", b"n"] {
            corpus.ask_search(name, &query(b"b\0", Some(&stop[..]), b""));
        }
        corpus.ask_search(name, &start(b"n"));
        corpus.ask_search(name, &prefix(b"m"));
    }
}

fn add_shapes(corpus: &mut Corpus) {
    let mut tree = two_levels();
    tree.fan_out = vec![1, 1, 2];
    corpus.add_sound("one-entry", tree.bytes());
    corpus.ask_search("one-entry", &prefix(b"f"));
    tree.root_level = 9;
    corpus.add_sound("one-entry-top", tree.bytes());
    corpus.ask_search("one-entry-top", &prefix(b"c"));

    let records: Vec<Vec<u8>> = (b'a'..=b'x').map(|letter| vec![letter; 2]).collect();
    let groups: Vec<&[Vec<u8>]> = records.chunks(2).collect();
    let mut tree = Tree::new(&groups);
    tree.fan_out = vec![3, 2, 2];
    tree.keys = Keys::Separator;
    tree.placing = Placing::AfterChildren;
    corpus.add_sound("three-levels", tree.bytes());
    for query in [
        query(b"f", Some(b"q"), b""),
        query(b"ef", Some(b"eg"), b""),
        prefix(b"m"),
        start(b"w"),
        stop(b"b"),
    ] {
        corpus.ask("three-levels", &query);
    }
    corpus.ask_result_places("three-levels", &query(b"f", Some(b"q"), b""));
    let single = Tree::new(&[&["only"]]);
    corpus.add_sound("one-record", single.bytes());
}

fn add_chains(corpus: &mut Corpus) {
    let mut tree = Tree::new(&[&["a", "b"]]);
    tree.root_level = 63;
    corpus.add_sound("chain-63", tree.bytes());
    corpus.ask_search("chain-63", &stop(b"a"));
    corpus.ask_search("chain-63", &prefix(b"b"));
    corpus.search("chain-63", &prefix(b"b"), 63, 1);
    corpus.check("chain-63", 63);

    tree.groups.push(vec![b"c".to_vec()]);
    tree.fan_out = vec![1; 62];
    tree.placing = Placing::BeforeChildren;
    corpus.add_sound("two-chains-63", tree.bytes());
    corpus.ask_search("two-chains-63", &start(b"b\0"));
    corpus.ask_search("two-chains-63", &stop(b"b"));
    tree.fan_out = vec![2];
    tree.placing = Placing::Before;
    corpus.add_sound("root-first-63", tree.bytes());
}

fn add_long_numbers(corpus: &mut Corpus) {
    let long = |letter: u8, length: usize| vec![letter; length];
    let records = [long(b'a', 127), long(b'a', 128), long(b'b', 20_000)];
    let last = [long(b'b', 20_001)];
    let mut tree = Tree::new(&[&records[..], &last[..]]);
    tree.keys = Keys::Separator;
    corpus.add_sound("long-records", tree.bytes());
    corpus.ask("long-records", &prefix(b"b"));
    corpus.ask("long-records", &stop(b"b"));
    corpus.ask_search("long-records", &start(&long(b'b', 255)));
    corpus.ask_result_places("long-records", &prefix(b"b"));

    let records = [long(b'k', 130)];
    let tree = Tree::new(&[&records[..], &records[..], &records[..]]);
    corpus.add_sound("long-keys", tree.bytes());
    corpus.ask("long-keys", &prefix(&long(b'k', 130)));
    corpus.ask_search("long-keys", &stop(&long(b'k', 130)));
}

/// A file of exactly 65,536 bytes, with numbers of one, two and three bytes.
fn add_full_size(corpus: &mut Corpus) {
    let records: Vec<Vec<u8>> = (0..93_u32).map(numbered_record).collect();
    let groups: Vec<&[Vec<u8>]> = records.chunks(1).collect();
    let mut tree = Tree::new(&groups);
    tree.fan_out = vec![4];
    tree.keys = Keys::Separator;
    tree.placing = Placing::AfterChildren;
    let mut image = tree.image();
    let length = image.bytes().len();
    // A reserved block of a three-byte number: 3 + 1 + payload + 8 bytes.
    let room = super::LONGEST_DATA.saturating_sub(length + 12);
    image.blocks.push(Plan::bytes(99, &vec![0x5a; room]));
    corpus.add_sound("full-size", image.bytes());
    corpus.ask("full-size", &prefix(b"record 04"));
    corpus.ask("full-size", &query(b"record 012", Some(b"record 031"), b""));
    corpus.ask("full-size", &stop(b"record 000"));
    corpus.ask_records("full-size", &query(b"", Some(b"record 001"), b"record"), 1);

    image.root = Target::Beside(0, 0, 0);
    let place = 0;
    corpus.add_refused("17-full-size", image.bytes(), 17, place);
}

/// A record of 20 to 450 bytes.
fn numbered_record(number: u32) -> Vec<u8> {
    let mut record = format!("record {number:03} ").into_bytes();
    let longer = 20 + (number as usize * 37) % 430;
    record.resize(longer, b'.');
    record
}
