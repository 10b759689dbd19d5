//! Files refused for their header: 2 to 9. All these refusals have place 0.

use super::build::{alter, plain};
use super::examples::{smallest_file, two_block_image};
use super::metadata::refused;
use super::Corpus;
use crate::checksums::crc64;
use crate::maker::{Image, Placing};

/// Adds the files.
pub fn add(corpus: &mut Corpus) {
    add_magic(corpus);
    add_too_short(corpus);
    add_header_crc(corpus);
    add_field_lengths(corpus);
    add_codec(corpus);
    add_total(corpus);
    add_metadata(corpus);
}

fn add_magic(corpus: &mut Corpus) {
    let unfinished = *b"\xabZStoBe\x01";
    let mut image = plain().image();
    image.magic = unfinished;
    corpus.add_refused("2-plain", image.bytes(), 2, 0);
    let mut file = smallest_file();
    file[..8].copy_from_slice(&unfinished);
    corpus.add_refused("2-smallest", file, 2, 0);
    let others = [
        ("3-version", *b"\xabZSfiLe\x02"),
        ("3-letter", *b"\xabZSfile\x01"),
        ("3-first-byte", *b"\x2bZSfiLe\x01"),
        ("3-unfinished-v2", *b"\xabZStoBe\x02"),
    ];
    for (name, magic) in others {
        image.magic = magic;
        corpus.add_refused(name, image.bytes(), 3, 0);
    }
    // Parts are handed back of any bytes.
    corpus.record("3-letter", 1, 7);
    corpus.record("2-smallest", 0, 8);
}

/// 24+H past the end, also where 24+H doesn't fit 64 bits.
fn add_too_short(corpus: &mut Corpus) {
    let file = smallest_file();
    let length = file.len() as u64;
    let lengths = [
        ("4-one-past", length - 23),
        ("4-length", length),
        ("4-2e63", 1 << 63),
        ("4-2e64", u64::MAX),
        ("4-wraps-24", u64::MAX - 23),
        ("4-wraps-16", u64::MAX - 15),
    ];
    for (name, header_length) in lengths {
        let mut file = file.clone();
        file[8..16].copy_from_slice(&header_length.to_le_bytes());
        corpus.add_refused(name, file, 4, 0);
    }
    let cut = plain().bytes();
    corpus.add_refused("4-cut", cut[..105].to_vec(), 4, 0);
}

fn add_header_crc(corpus: &mut Corpus) {
    for (name, flips) in [
        ("5-low-bit", 1),
        ("5-high-bit", 1 << 63),
        ("5-no-mask", u64::MAX),
    ] {
        let image = alter(&plain(), |image| image.header_crc_flips = flips);
        corpus.add_refused(name, image.bytes(), 5, 0);
    }
    let mut file = plain().bytes();
    let crc = crc64(&file[8..98]).to_le_bytes();
    file[98..106].copy_from_slice(&crc);
    corpus.add_refused("5-with-h", file, 5, 0);
    let mut file = plain().bytes();
    file[98..106].reverse();
    corpus.add_refused("5-big-endian", file, 5, 0);
}

fn add_field_lengths(corpus: &mut Corpus) {
    for cut in [0, 1, 72, 79] {
        let image = alter(&plain(), |image| image.header_cut = Some(cut));
        corpus.add_refused(&format!("6-h-{cut}"), image.bytes(), 6, 0);
    }
    let nothing = alter(&plain(), |image| {
        image.header_cut = Some(0);
        image.blocks.clear();
    });
    corpus.add_refused("6-h-0-alone", nothing.bytes(), 6, 0);
    for (name, length) in [
        ("6-m-one-more", 3),
        ("6-m-2e64", u64::MAX),
        ("6-m-2e63", 1 << 63),
    ] {
        let image = alter(&plain(), |image| image.metadata_length = Some(length));
        corpus.add_refused(name, image.bytes(), 6, 0);
    }
    let image = alter(&plain(), |image| {
        image.extra = b"}".to_vec();
        image.metadata_length = Some(4);
    });
    corpus.add_refused("6-m-past-extra", image.bytes(), 6, 0);
}

fn add_codec(corpus: &mut Corpus) {
    for (name, codec) in [
        ("7-deflate", *b"deflate\0\0\0\0\0\0\0\0\0"),
        ("7-lzma2", *b"lzma2;dsize=2^20"),
        ("7-last-byte", *b"none\0\0\0\0\0\0\0\0\0\0\0\x01"),
        ("7-capital", *b"None\0\0\0\0\0\0\0\0\0\0\0\0"),
        ("7-empty", [0; 16]),
    ] {
        let image = alter(&plain(), |image| image.codec = codec);
        corpus.add_refused(name, image.bytes(), 7, 0);
    }
}

fn add_total(corpus: &mut Corpus) {
    let length = plain().bytes().len() as u64;
    for (name, total) in [
        ("8-one-more", length + 1),
        ("8-one-less", length - 1),
        ("8-zero", 0),
        ("8-2e32-more", length + (1 << 32)),
    ] {
        let image = alter(&plain(), |image| image.total = Some(total));
        corpus.add_refused(name, image.bytes(), 8, 0);
    }
    add_cut_at_block_end(corpus);
}

/// Cut where a block ends: every CRC is right and the whole tree is there.
fn add_cut_at_block_end(corpus: &mut Corpus) {
    let mut tree = plain();
    tree.reserved = vec![(9, 64, b"lost".to_vec())];
    let image = tree.image();
    let mut file = image.bytes();
    file.truncate(image.start(4) as usize);
    corpus.add_refused("8-cut-block", file, 8, 0);

    let mut tree = plain();
    tree.placing = Placing::Before;
    let image = tree.image();
    let mut file = image.bytes();
    file.truncate(image.start(3) as usize);
    corpus.add_refused_first("8-cut-data", file, 8, 0);

    let mut file = two_block_image().bytes();
    file.push(0);
    corpus.add_refused_first("8-byte-behind", file, 8, 0);
}

fn add_metadata(corpus: &mut Corpus) {
    for (name, text) in refused() {
        let image = alter(&plain(), |image| image.metadata = text);
        corpus.add_refused(&format!("9-{name}"), image.bytes(), 9, 0);
    }
    let image: Image = alter(&plain(), |image| image.metadata_length = Some(1));
    corpus.add_refused("9-cut-by-m", image.bytes(), 9, 0);
    let image = alter(&plain(), |image| {
        image.metadata = b"{ ".to_vec();
        image.extra = b"}".to_vec();
    });
    corpus.add_refused("9-behind-m", image.bytes(), 9, 0);
}
