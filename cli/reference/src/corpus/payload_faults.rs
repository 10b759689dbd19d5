//! Files refused for a payload: 11, 12, 15, 16 and 21. The place is the block's start.

use super::build::{alter, plain, prefix, stop};
use super::Corpus;
use crate::maker::{encode, Content, Plan};

/// Adds the files.
pub fn add(corpus: &mut Corpus) {
    add_data_payloads(corpus);
    add_index_payloads(corpus);
    add_records_not_rising(corpus);
    add_keys_not_rising(corpus);
}

/// Adds the plain file with other bytes in one payload, refused at that block.
fn add_with_payload(corpus: &mut Corpus, name: &str, block: usize, payload: &[u8], number: u64) {
    let content = Content::Bytes(payload.to_vec());
    let image = alter(&plain(), |image| image.blocks[block].content = content);
    corpus.add_refused(name, image.bytes(), number, image.start(block));
}

/// Names, which block, its payload, and the refusal.
const DATA_PAYLOADS: [(&str, usize, &[u8], u64); 13] = [
    ("15-data-empty", 0, b"", 15),
    ("15-last-empty", 2, b"", 15),
    ("15-rec-short", 1, b"\x01b\x03ca", 15),
    ("15-rec-none", 1, b"\x01b\x01", 15),
    ("15-rec-cut", 1, b"\x01b\x80", 15),
    (
        "15-rec-cut-8",
        2,
        b"\x01d\xff\xff\xff\xff\xff\xff\xff\xff",
        15,
    ),
    (
        "15-rec-2e63",
        0,
        b"\xff\xff\xff\xff\xff\xff\xff\xff\x7f",
        15,
    ),
    (
        "15-rec-2e62",
        0,
        b"\x80\x80\x80\x80\x80\x80\x80\x80\x40ab",
        15,
    ),
    (
        "11-rec",
        0,
        b"\x02ab\xff\xff\xff\xff\xff\xff\xff\xff\xff",
        11,
    ),
    (
        "11-rec-more",
        1,
        b"\x80\x80\x80\x80\x80\x80\x80\x80\x80\x01",
        11,
    ),
    ("12-rec", 0, b"\x82\x00ab\x01b", 12),
    ("12-rec-three", 2, b"\x01d\x81\x80\x00e", 12),
    ("15-rec-crc", 2, b"\x01d\x09e", 15),
];

fn add_data_payloads(corpus: &mut Corpus) {
    for (name, block, payload, number) in DATA_PAYLOADS {
        add_with_payload(corpus, name, block, payload, number);
    }
    corpus.ask_search("15-last-empty", &stop(b"b"));
    corpus.ask_search("11-rec", &prefix(b"c"));
}

/// Index payloads in which only the form of a number or the length is wrong.
fn add_index_payloads(corpus: &mut Corpus) {
    let image = plain().image();
    let good = image.blocks[3].payload(&image.places());
    let with = |more: &[u8]| [&good[..], more].concat();
    let offset = encode(image.start(0));
    let with_number = |number: &[u8]| {
        let rest = &good[3 + offset.len()..];
        [&good[..3], number, rest].concat()
    };
    let mut long_offset = offset.clone();
    if let Some(last) = long_offset.last_mut() {
        *last |= 0x80;
    }
    long_offset.push(0);
    let long_size = [&good[..good.len() - 1], &[good[good.len() - 1] | 0x80, 0]].concat();
    let long_key = [b"\x82\x00", &good[1..]].concat();
    let short_by_one = good[..good.len() - 1].to_vec();
    let cases: [(&str, Vec<u8>, u64); 12] = [
        ("15-index-empty", Vec::new(), 15),
        ("15-no-size", short_by_one, 15),
        ("15-no-offset", with(b"\x01e"), 15),
        ("15-key-short", with(b"\x03ez"), 15),
        ("15-key-cut", with(b"\x80"), 15),
        ("15-offset-cut", with(b"\x01e\xff\xff"), 15),
        ("15-size-cut", with(b"\x01e\x6a\x80"), 15),
        ("11-key", with(&[0x80; 9]), 11),
        ("11-offset", with_number(&[0xff; 9]), 11),
        ("12-offset", with_number(&long_offset), 12),
        ("12-size", long_size, 12),
        ("12-key", long_key, 12),
    ];
    for (name, payload, number) in cases {
        add_with_payload(corpus, name, 3, &payload, number);
    }
}

fn add_records_not_rising(corpus: &mut Corpus) {
    let cases: [(&str, usize, &[&[u8]]); 6] = [
        ("16-falling", 0, &[b"b", b"ab"]),
        ("16-beginning", 1, &[b"b\0", b"b"]),
        ("16-signed", 2, &[b"\xff", b"e"]),
        ("16-third", 1, &[b"b", b"ca", b"c"]),
        ("16-empty", 0, &[b"ab", b""]),
        ("16-last-byte", 0, &[b"ac", b"ab"]),
    ];
    for (name, block, records) in cases {
        let image = alter(&plain(), |image| image.blocks[block] = Plan::data(records));
        corpus.add_refused(name, image.bytes(), 16, image.start(block));
    }
    corpus.ask_search("16-falling", &prefix(b"e"));
}

/// Keys, and the blocks that they stand for.
type ThreeEntries<'a> = [(&'a [u8], usize); 3];

/// Keys that don't rise break the key rule or the walk's order too: 21 is only the first.
fn add_keys_not_rising(corpus: &mut Corpus) {
    let cases: [(&str, ThreeEntries); 4] = [
        ("21-falling", [(b"b", 0), (b"ab", 1), (b"d", 2)]),
        ("21-blocks", [(b"ab", 0), (b"d", 2), (b"b", 1)]),
        ("21-signed", [(b"\x80", 0), (b"b", 1), (b"d", 2)]),
        ("21-beginning", [(b"b\0", 0), (b"b", 1), (b"d", 2)]),
    ];
    for (name, entries) in cases {
        let image = alter(&plain(), |image| image.blocks[3] = Plan::index(1, &entries));
        corpus.add_refused_first(name, image.bytes(), 21, image.start(3));
    }
}
