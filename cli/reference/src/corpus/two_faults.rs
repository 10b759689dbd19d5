//! Files with two faults or more, which show the order of refusals.

use super::build::{alter, plain, two_levels};
use super::Corpus;
use crate::maker::{Content, Image, Plan, Target};

/// Adds the files.
pub fn add(corpus: &mut Corpus) {
    add_header_pairs(corpus);
    add_header_and_blocks(corpus);
    add_inside_a_block(corpus);
    add_between_blocks(corpus);
    add_roots_and_names(corpus);
    add_lowest_and_first(corpus);
    add_trees(corpus);
    add_hashes(corpus);
}

const UNFINISHED: [u8; 8] = *b"\xabZStoBe\x01";
const DEFLATE: [u8; 16] = *b"deflate\0\0\0\0\0\0\0\0\0";

/// A change made to an image.
type Change = fn(&mut Image);

/// Names, the first refusal, and both faults.
const HEADER_PAIRS: [(&str, u64, Change); 11] = [
    ("2-then-4", 2, |i| {
        (i.magic, i.header_length) = (UNFINISHED, Some(u64::MAX));
    }),
    ("2-then-5", 2, |i| {
        (i.magic, i.header_crc_flips) = (UNFINISHED, 1);
    }),
    ("3-then-4", 3, |i| {
        (i.magic, i.header_length) = ([0; 8], Some(u64::MAX));
    }),
    ("5-then-6", 5, |i| {
        (i.header_crc_flips, i.header_cut) = (1, Some(79));
    }),
    ("5-then-8", 5, |i| {
        (i.header_crc_flips, i.total) = (1, Some(1));
    }),
    ("6-then-7", 6, |i| {
        (i.metadata_length, i.codec) = (Some(3), DEFLATE);
    }),
    ("6-then-8", 6, |i| {
        (i.metadata_length, i.total) = (Some(3), Some(0));
    }),
    ("7-then-8", 7, |i| {
        (i.codec, i.total) = (DEFLATE, Some(0));
    }),
    ("7-then-9", 7, |i| {
        (i.codec, i.metadata) = (DEFLATE, b"{oops}".to_vec());
    }),
    ("8-then-9", 8, |i| {
        (i.total, i.metadata) = (Some(0), b"{oops}".to_vec());
    }),
    ("9-then-14", 9, |i| {
        (i.metadata, i.blocks[0].crc_flips) = (b"{oops}".to_vec(), 1);
    }),
];

fn add_header_pairs(corpus: &mut Corpus) {
    for (name, number, change) in HEADER_PAIRS {
        let image = alter(&plain(), change);
        corpus.add_refused_first(name, image.bytes(), number, 0);
    }
}

fn add_header_and_blocks(corpus: &mut Corpus) {
    corpus.add_refused_first("2-no-more", UNFINISHED.to_vec(), 2, 0);
    corpus.add_refused_first("3-fifteen", vec![0x5a; 15], 3, 0);
    let mut cut = plain().bytes();
    cut.pop();
    corpus.add_refused_first("8-cut-byte", cut, 8, 0);
    let mut cut = plain().bytes();
    cut.truncate(106);
    corpus.add_refused_first("8-cut-blocks", cut, 8, 0);
}

fn add_inside_a_block(corpus: &mut Corpus) {
    let wrong_crc = |payload: &[u8]| Plan::bytes(0, payload).with_crc_flips(1);
    let plans = [
        (
            "12-then-10",
            Plan::bytes(0, b"\x01b").with_number(b"\xff\x80\x00"),
            12,
        ),
        ("14-then-15", wrong_crc(b""), 14),
        ("14-then-15-rec", wrong_crc(b"\x05b"), 14),
        ("14-then-16", wrong_crc(b"\x01c\x01b"), 14),
        ("15-then-16", Plan::bytes(0, b"\x01c\x01b\x01"), 15),
        ("12-then-16", Plan::bytes(0, b"\x01c\x81\x00b"), 12),
        ("12-then-15", Plan::bytes(0, b"\x01b\x8a\x00c"), 12),
        (
            "12-then-11",
            Plan::bytes(0, b"\x81\x00b\x80\x80\x80\x80\x80\x80\x80\x80\x80"),
            12,
        ),
        (
            "11-then-16",
            Plan::bytes(0, b"\x01c\x01b\x80\x80\x80\x80\x80\x80\x80\x80\x80"),
            11,
        ),
        (
            "15-then-21",
            Plan::bytes(1, b"\x01c\x6a\x0f\x01b\x6a\x0f\x01"),
            15,
        ),
    ];
    for (name, plan, number) in plans {
        let image = alter(&plain(), |image| image.blocks[1] = plan);
        corpus.add_refused_first(name, image.bytes(), number, image.start(1));
    }
}

fn add_between_blocks(corpus: &mut Corpus) {
    let falling = || Plan::data(&["b", "ab"]);
    let cases: [(&str, usize, u64, Change); 6] = [
        ("16-then-14-later", 0, 16, |i| {
            i.blocks[1].crc_flips = 1;
        }),
        ("16-then-10-later", 0, 16, |i| i.tail = vec![0x80]),
        ("16-then-17", 0, 16, |i| {
            i.root = Target::Beside(3, 1, 0);
        }),
        ("16-then-25", 0, 16, |i| i.hash = Some([0; 32])),
        ("16-then-21-later", 0, 16, |i| {
            i.blocks[3] = Plan::index(1, &[("d", 2), ("b", 1), ("ab", 0)]);
        }),
        ("16-then-15-later", 0, 16, |i| {
            i.blocks[2] = Plan::bytes(0, b"");
        }),
    ];
    for (name, block, number, change) in cases {
        let image = alter(&plain(), |image| {
            image.blocks[0] = falling();
            change(image);
        });
        corpus.add_refused_first(name, image.bytes(), number, image.start(block));
    }
    let image = alter(&plain(), |image| {
        image.blocks[0].crc_flips = 1;
        image.blocks[1] = Plan::data(&["c", "b"]);
    });
    corpus.add_refused_first("14-then-16-later", image.bytes(), 14, image.start(0));
}

fn add_roots_and_names(corpus: &mut Corpus) {
    let falling = Plan::index(1, &[("d", 2), ("b", 1), ("ab", 0)]);
    let image = alter(&plain(), |image| {
        image.blocks[3] = falling;
        image.root = Target::Block(0);
    });
    corpus.add_refused_first("21-then-17", image.bytes(), 21, image.start(3));

    let image = alter(&plain(), |image| {
        image.root = Target::Beside(3, 0, 1);
        image.tail = vec![0];
    });
    let place = plain().bytes().len() as u64;
    corpus.add_refused_first("13-then-17", image.bytes(), 13, place);
    let tails: [(&str, &[u8], u64); 2] =
        [("12-then-13", b"\x80\x00", 12), ("13-then-10", b"\x00", 13)];
    for (name, tail, number) in tails {
        let image = alter(&plain(), |image| image.tail = tail.to_vec());
        corpus.add_refused_first(name, image.bytes(), number, place);
    }

    let bad_entry = Plan::naming(1, &[("", Target::Exactly(7, 7))]);
    let image = alter(&plain(), |image| {
        image.blocks[3] = bad_entry.clone();
        image.root = Target::Beside(3, 0, 1);
    });
    corpus.add_refused_first("17-then-19", image.bytes(), 17, 0);
    corpus.check("17-then-19", 0);

    let image = alter(&plain(), |image| image.blocks[3] = bad_entry);
    corpus.add_refused_first("19-then-20", image.bytes(), 19, image.start(3));
    corpus.check("19-then-20", 3);
    corpus.check("20-last", 3);
    corpus.check("22-paper", 2);
    corpus.check("25-zero", 3);
}

/// The first index block in file order for 19, the lowest block for 20.
fn add_lowest_and_first(corpus: &mut Corpus) {
    let nowhere = Target::Exactly(9, 9);
    let image = Image::new(vec![
        Plan::naming(1, &[("c", Target::Block(2)), ("c", nowhere)]),
        Plan::data(&["a"]),
        Plan::data(&["c"]),
        Plan::naming(1, &[("a", Target::Block(1)), ("b", nowhere)]),
        Plan::index(2, &[("a", 3), ("c", 0)]),
    ]);
    let name = "19-backwards";
    corpus.add_refused(name, image.bytes(), 19, image.start(0));

    let image = alter(&plain(), |image| {
        image.blocks.push(Plan::naming(7, &[("", nowhere)]));
    });
    let name = "19-unnamed";
    corpus.add_refused_first(name, image.bytes(), 19, image.start(4));

    let image = alter(&plain(), |image| {
        image.blocks[3] = Plan::index(1, &[("ab", 0), ("d", 2), ("d", 2)]);
    });
    corpus.add_refused("20-lowest-none", image.bytes(), 20, image.start(1));

    let image = alter(&plain(), |image| {
        image.blocks[3] = Plan::index(1, &[("ab", 0), ("ab", 0), ("b", 1)]);
    });
    corpus.add_refused("20-lowest-twice", image.bytes(), 20, image.start(0));

    let image = alter(&two_levels(), |image| {
        image.blocks[6] = Plan::index(2, &[("a", 4)]);
        image.blocks[4] = Plan::index(1, &[("a", 0)]);
    });
    corpus.add_refused("20-two-levels", image.bytes(), 20, image.start(1));
}

fn add_trees(corpus: &mut Corpus) {
    let backwards = |first: &[&str], second: &[&str]| {
        Image::new(vec![
            Plan::data(first),
            Plan::data(second),
            Plan::index(1, &[("", 1), ("", 0)]),
        ])
    };
    let image = backwards(&["y"], &["x"]);
    corpus.add_refused_first("22-then-23", image.bytes(), 22, image.start(0));
    let image = backwards(&["x"], &["y"]);
    corpus.add_refused_first("22-then-24", image.bytes(), 22, image.start(0));

    let unnamed = |index: Plan| {
        let falling = [Plan::data(&["c"]), Plan::data(&["b"]), Plan::data(&["a"])];
        let mut blocks = falling.to_vec();
        blocks.push(index);
        Image::new(blocks)
    };
    let image = unnamed(Plan::index(1, &[("", 0), ("", 2)]));
    corpus.add_refused_first("20-then-23", image.bytes(), 20, image.start(1));
    let image = unnamed(Plan::index(1, &[("", 2), ("", 1)]));
    corpus.add_refused_first("20-then-22", image.bytes(), 20, image.start(0));
    let image = unnamed(Plan::index(1, &[("z", 0), ("z", 1), ("z", 2)]));
    corpus.add_refused_first("23-then-24", image.bytes(), 23, image.start(1));
}

/// The hash comes last of all.
fn add_hashes(corpus: &mut Corpus) {
    let root = |entries: &[(&str, usize)]| {
        let mut image = plain().image();
        image.blocks[3] = Plan::index(1, entries);
        image.hash = Some([0; 32]);
        image
    };
    let image = root(&[("ab", 0), ("bb", 1), ("d", 2)]);
    corpus.add_refused_first("24-then-25", image.bytes(), 24, image.start(3));
    let image = root(&[("ab", 0), ("d", 2)]);
    corpus.add_refused_first("20-then-25", image.bytes(), 20, image.start(1));
    let image = root(&[("", 1), ("", 0), ("d", 2)]);
    corpus.add_refused_first("22-then-25", image.bytes(), 22, image.start(0));
    let mut image = root(&[("ab", 0), ("b", 1), ("d", 2)]);
    image.root = Target::Block(2);
    corpus.add_refused_first("17-then-25", image.bytes(), 17, 0);
    image.root = Target::Block(3);
    image.blocks[1].content = Content::Records(vec![b"a".to_vec()]);
    corpus.add_refused_first("23-then-25", image.bytes(), 23, image.start(1));
}
