//! Files refused for the framing of a block: 10 to 14. The place is the block's start.

use super::build::{alter, plain, prefix, stop};
use super::Corpus;
use crate::checksums::crc64;
use crate::maker::{encode, Content, Image, Plan};

/// Adds the files.
pub fn add(corpus: &mut Corpus) {
    add_tails_cut_off(corpus);
    add_past_the_end(corpus);
    add_wide_numbers(corpus);
    add_long_numbers(corpus);
    add_zero_lengths(corpus);
    add_wrong_crcs(corpus);
}

/// Adds the plain file with these bytes at its end, refused at their start.
fn add_with_tail(corpus: &mut Corpus, name: &str, tail: &[u8], number: u64) {
    let place = plain().bytes().len() as u64;
    let image = alter(&plain(), |image| image.tail = tail.to_vec());
    corpus.add_refused(name, image.bytes(), number, place);
}

/// Adds the plain file with one block changed, refused at that block.
fn add_with_block(
    corpus: &mut Corpus,
    name: &str,
    block: usize,
    number: u64,
    change: impl FnOnce(&mut Plan),
) {
    let image = alter(&plain(), |image| change(&mut image.blocks[block]));
    corpus.add_refused(name, image.bytes(), number, image.start(block));
}

fn add_tails_cut_off(corpus: &mut Corpus) {
    add_with_tail(corpus, "10-cut", b"\x80", 10);
    add_with_tail(corpus, "10-cut-8", &[0xff; 8], 10);
    add_with_tail(corpus, "10-no-more", b"\x01", 10);
    add_with_tail(
        corpus,
        "10-nine",
        b"\xff\xff\xff\xff\xff\xff\xff\xff\x7f",
        10,
    );
    let widest = b"\x80\x80\x80\x80\x80\x80\x80\x80\x7f and more bytes";
    add_with_tail(corpus, "10-nine-more", widest, 10);
}

fn add_past_the_end(corpus: &mut Corpus) {
    let reserved = Image::new(vec![Plan::bytes(70, b"abc")]).bytes();
    let block = &reserved[106..];
    let shorter = &block[..block.len() - 1];
    add_with_tail(corpus, "10-short", shorter, 10);
    add_with_tail(corpus, "10-no-crc", &block[..5], 10);
    let lengths = [("10-last", 3, 1), ("10-first", 0, 1000)];
    for (name, block, more) in lengths {
        let image = plain().image();
        let size = image.places()[block].size;
        // The full size is one byte of number, L, and 8 of CRC.
        let number = encode(size - 9 + more);
        add_with_block(corpus, name, block, 10, |plan| plan.number = Some(number));
    }
}

fn add_wide_numbers(corpus: &mut Corpus) {
    add_with_tail(corpus, "11-end", &[0xff; 9], 11);
    add_with_tail(corpus, "11-of-80", &[0x80; 9], 11);
    add_with_tail(
        corpus,
        "11-more",
        b"\xff\xff\xff\xff\xff\xff\xff\xff\xff\x01",
        11,
    );
    let ten = b"\x81\x80\x80\x80\x80\x80\x80\x80\x80\x00";
    add_with_block(corpus, "11-ten", 1, 11, |plan| {
        plan.number = Some(ten.to_vec());
    });
}

/// The framing is sound but for the form of the number.
fn add_long_numbers(corpus: &mut Corpus) {
    add_with_block(corpus, "12-data", 0, 12, |plan| {
        plan.number = Some(b"\x86\x00".to_vec());
    });
    add_with_block(corpus, "12-index", 3, 12, |plan| {
        plan.number = Some(b"\x8f\x80\x00".to_vec());
    });
    let reserved = Plan::bytes(64, b"x").with_number(b"\x82\x80\x80\x80\x80\x80\x80\x80\x00");
    let image = alter(&plain(), |image| image.blocks.push(reserved));
    corpus.add_refused("12-reserved", image.bytes(), 12, image.start(4));
}

fn add_zero_lengths(corpus: &mut Corpus) {
    add_with_tail(corpus, "13-last-nine", &[0; 9], 13);
    let nothing = Plan::new(None, Content::Bytes(Vec::new()));
    let mut tree = plain();
    tree.reserved = vec![(1, 64, Vec::new())];
    let image = alter(&tree, |image| image.blocks[1] = nothing);
    corpus.add_refused("13-between", image.bytes(), 13, image.start(1));
    corpus.ask("13-between", &prefix(b"d"));
}

fn add_wrong_crcs(corpus: &mut Corpus) {
    for (name, block, flips) in [
        ("14-low-bit", 0, 1),
        ("14-all-bits", 1, u64::MAX),
        ("14-last-data", 2, 1 << 40),
        ("14-index", 3, 1 << 63),
    ] {
        add_with_block(corpus, name, block, 14, |plan| plan.crc_flips = flips);
        corpus.ask_search(name, &stop(b"b"));
    }
    let mut tree = plain();
    tree.reserved = vec![(2, 64, b"kept".to_vec())];
    let image = alter(&tree, |image| image.blocks[2].crc_flips = 2);
    corpus.add_refused("14-reserved", image.bytes(), 14, image.start(2));
    corpus.ask_search("14-reserved", &prefix(b"d"));

    // The CRC of the number too, and the CRC of the payload without the level byte.
    let places = plain().image().places();
    let first = places[0].offset as usize;
    let end = first + places[0].size as usize;
    let file = plain().bytes();
    let crcs = [
        ("14-with-number", crc64(&file[first..end - 8])),
        ("14-no-level", crc64(&file[first + 2..end - 8])),
    ];
    for (name, crc) in crcs {
        let mut file = file.clone();
        file[end - 8..end].copy_from_slice(&crc.to_le_bytes());
        corpus.add_refused(name, file, 14, first as u64);
    }
}
