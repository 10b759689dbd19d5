//! Accepted files made for their queries: orders, equal records, prefixes and bytes FF.

use super::build::{everything, prefix, query, start, stop};
use super::Corpus;
use crate::maker::{Keys, Tree};
use crate::reader::Query;

/// Adds the files and their queries.
pub fn add(corpus: &mut Corpus) {
    add_asked(corpus, "all-ff", all_ff(), &ff_queries());
    add_asked(corpus, "end-of-prefix", end_of_prefix(), &prefix_queries());
    add_asked(corpus, "empty-records", empty_records(), &empty_queries());
    corpus.ask_result_places("empty-records", &stop(b"a"));
    add_asked(corpus, "unsigned-order", unsigned(), &unsigned_queries());
    add_asked(corpus, "beginning-first", beginning(), &beginning_queries());
    for keys in [Keys::FirstRecord, Keys::LastBefore, Keys::Separator] {
        add_equal_records(corpus, keys);
    }
    add_opened_in_vain(corpus);
}

fn add_asked(corpus: &mut Corpus, name: &str, tree: Tree, queries: &[Query]) {
    corpus.add_sound(name, tree.bytes());
    for query in queries {
        corpus.ask(name, query);
    }
    corpus.ask_records(name, &everything(), 2);
}

fn all_ff() -> Tree {
    let groups: [&[&[u8]]; 4] = [
        &[b"\xfe\xff", b"\xff"],
        &[b"\xff", b"\xff\x00"],
        &[b"\xff\xff"],
        &[b"\xff\xff", b"\xff\xff\xff"],
    ];
    Tree::new(&groups)
}

fn ff_queries() -> Vec<Query> {
    vec![
        prefix(b"\xff"),
        prefix(b"\xff\xff"),
        prefix(b"\xff\xff\xff"),
        prefix(b"\xff\xff\xff\xff"),
        prefix(b"\xfe"),
        start(b"\xff\xff"),
        stop(b"\xff\xff"),
        stop(b"\xff"),
        query(b"\xff\x00", Some(b"\xff\xff\x00"), b""),
        query(b"", Some(b"\xff\xff\xff"), b"\xff\xff"),
    ]
}

fn end_of_prefix() -> Tree {
    let groups: [&[&[u8]]; 4] = [
        &[b"a", b"a\xfe"],
        &[b"a\xff", b"a\xff\x00"],
        &[b"a\xff\xff", b"b"],
        &[b"b\x00", b"c"],
    ];
    Tree::new(&groups)
}

fn prefix_queries() -> Vec<Query> {
    vec![
        prefix(b"a\xff"),
        prefix(b"a\xff\xff"),
        prefix(b"a"),
        prefix(b"b"),
        prefix(b"a\xfe"),
        prefix(b"\xff\xff"),
        query(b"a\xff\x00", None, b"a\xff"),
        query(b"", Some(b"b"), b"a\xff"),
        query(b"b", None, b"a\xff"),
        query(b"a", Some(b"a\xff"), b""),
        stop(b"b"),
    ]
}

fn empty_records() -> Tree {
    Tree::new(&[&["", ""], &[""], &["", "a"], &["a", "b"]])
}

fn empty_queries() -> Vec<Query> {
    vec![
        stop(b""),
        stop(b"\0"),
        stop(b"a"),
        start(b"\0"),
        start(b"a"),
        prefix(b"a"),
        query(b"", Some(b""), b"a"),
    ]
}

fn unsigned() -> Tree {
    let groups: [&[&[u8]]; 3] = [
        &[b"\x00", b"\x7f"],
        &[b"\x80", b"\x81\x00"],
        &[b"\xc0", b"\xff"],
    ];
    Tree::new(&groups)
}

fn unsigned_queries() -> Vec<Query> {
    vec![
        start(b"\x80"),
        stop(b"\x80"),
        start(b"\x7f\xff"),
        query(b"\x7f", Some(b"\x81"), b""),
        query(b"\x82", Some(b"\xff"), b""),
        prefix(b"\xff"),
    ]
}

fn beginning() -> Tree {
    Tree::new(&[
        &["", "\0", "\0\0"],
        &["a", "a\0"],
        &["a\0\0", "aa"],
        &["ab", "b"],
    ])
}

fn beginning_queries() -> Vec<Query> {
    vec![
        prefix(b"\0"),
        prefix(b"a\0"),
        start(b"a\0"),
        stop(b"a\0"),
        query(b"a", Some(b"a\0"), b""),
        query(b"a\0", Some(b"a\0\0"), b""),
        query(b"a\0\0\0", Some(b"ab"), b"a"),
    ]
}

/// Equal records in several blocks: a search must begin in the first of them.
fn add_equal_records(corpus: &mut Corpus, keys: Keys) {
    let mut tree = Tree::new(&[&["a", "b"], &["b", "b"], &["b", "c"], &["c"], &["c", "d"]]);
    tree.keys = keys;
    tree.fan_out = vec![2];
    let name = match keys {
        Keys::FirstRecord => "equal-first",
        Keys::LastBefore => "equal-last",
        _ => "equal-short",
    };
    let queries = [
        start(b"b"),
        query(b"b", Some(b"b\0"), b""),
        query(b"b", Some(b"b"), b""),
        prefix(b"c"),
        stop(b"c"),
        stop(b"b"),
    ];
    corpus.add_sound(name, tree.bytes());
    for query in &queries {
        corpus.ask_search(name, query);
    }
}

/// On each level below the root, the first and the last block opened hold no match.
fn add_opened_in_vain(corpus: &mut Corpus) {
    let records: Vec<Vec<u8>> = (0..16_u8).map(|n| vec![b'a' + n]).collect();
    let groups: Vec<&[Vec<u8>]> = records.chunks(1).collect();
    let mut tree = Tree::new(&groups);
    tree.fan_out = vec![2];
    tree.keys = Keys::LastBefore;
    let queries = [
        query(b"d\0", Some(b"d\x01"), b""),
        query(b"h", Some(b"h\0"), b""),
        query(b"d\0", Some(b"l\0"), b""),
        query(b"h\0", Some(b"i"), b""),
        query(b"", None, b"hh"),
    ];
    add_asked(corpus, "in-vain", tree, &queries);
}
