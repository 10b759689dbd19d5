//! Records for the writer, sound and faulty, with metadata, counts and outputs of many kinds.

use super::build::counts;
use super::metadata::{accepted, refused};
use super::{Case, Claim, Corpus};
use crate::maker::{encode, Plan};
use crate::writer::Counts;

/// Metadata of most cases.
const BRACES: &[u8] = b"{}";

/// The smallest file of docs/FORMAT.md, as it stands there.
const SMALLEST: &str = "
    ab 5a 53 66 69 4c 65 01  52 00 00 00 00 00 00 00
    75 00 00 00 00 00 00 00  0d 00 00 00 00 00 00 00
    82 00 00 00 00 00 00 00  6e 34 0b 9c ff b3 7a 98
    9c a5 44 e6 bb 78 0a 2c  78 90 1d 3f b3 37 38 76
    85 11 a3 06 17 af a0 1d  6e 6f 6e 65 00 00 00 00
    00 00 00 00 00 00 00 00  02 00 00 00 00 00 00 00
    7b 7d  9d 1a a8 b3 53 c4 52 7e
    02 00 00  87 5a 4a 51 97 4d 10 42
    04 01 00 6a 0b  9c c4 01 24 89 27 29 21";

/// The file with two data blocks of docs/FORMAT.md, as it stands there.
const TWO_BLOCKS: &str = "
    ab 5a 53 66 69 4c 65 01  52 00 00 00 00 00 00 00
    88 00 00 00 00 00 00 00  12 00 00 00 00 00 00 00
    9a 00 00 00 00 00 00 00  36 d0 84 f0 62 60 a0 c6
    bc b8 aa 91 50 e1 ef 49  10 be 94 2e 1b b1 e6 24
    e9 18 bb 05 6b 0a 3c 40  6e 6f 6e 65 00 00 00 00
    00 00 00 00 00 00 00 00  02 00 00 00 00 00 00 00
    7b 7d  48 04 e1 ff 34 2a 14 2b
    06 00 01 61 02 62 ff  d6 b5 63 3b 79 cd 7e dc
    06 00 02 62 ff 01 63  ea 05 b2 8b a1 c5 e0 cc
    09 01 00 6a 0f 02 62 ff 79 0f  c9 ca 9e 52 c2 97 3e 86";

/// Records of which docs/FORMAT.md has the file that the writer makes with these counts, and that file.
const PUBLISHED: [(&str, Counts, &str); 2] = [
    ("write-smallest", counts(1, 2), SMALLEST),
    ("write-two-blocks", counts(2, 2), TWO_BLOCKS),
];

/// The file that a write makes, given room, where docs/FORMAT.md has it.
pub fn published_file(case: &Case) -> Option<Vec<u8>> {
    let is_due = |(name, counts, _): &&(&str, Counts, &str)| {
        Case::write(name, BRACES, *counts, case.result_places) == *case
    };
    let bytes = PUBLISHED.iter().find(is_due)?.2.split_whitespace();
    bytes
        .map(|byte| u8::from_str_radix(byte, 16).ok())
        .collect()
}

/// Adds the inputs and their cases.
pub fn add(corpus: &mut Corpus) {
    add_examples(corpus);
    add_shapes(corpus);
    add_keys(corpus);
    add_long_records(corpus);
    add_metadata(corpus);
    add_counts(corpus);
    add_malformed(corpus);
    add_falling(corpus);
    add_two_faults(corpus);
}

/// Records in the form that the writer takes.
fn input<R: AsRef<[u8]>>(records: &[R]) -> Vec<u8> {
    Plan::data(records).payload(&[])
}

/// The records of the smallest file of docs/FORMAT.md and of its file with two data blocks.
fn add_examples(corpus: &mut Corpus) {
    let name = "write-smallest";
    corpus.add_input(name, b"\0".to_vec(), 0);
    corpus.ask_write(name, 1, 2);
    for output in [0, 1, 105, 106, 117, 1000, u16::MAX] {
        corpus.write(name, BRACES, counts(1, 2), output);
    }
    let name = "write-two-blocks";
    let records = input(&[&b"a"[..], b"b\xff", b"b\xff", b"c"]);
    corpus.add_input(name, records, 0);
    for (per_block, per_index) in [(2, 2), (1, 2), (1, 3), (3, 2), (4, 2), (65_535, 65_535)] {
        corpus.ask_write(name, per_block, per_index);
    }
}

/// One record, empty ones, equal ones, and many under several levels.
fn add_shapes(corpus: &mut Corpus) {
    corpus.add_input("write-one", input(&["only"]), 0);
    corpus.ask_write("write-one", 1, 2);
    corpus.add_input("write-empty-records", input(&["", "", ""]), 0);
    corpus.ask_write("write-empty-records", 1, 2);
    corpus.ask_write("write-empty-records", 2, 2);
    corpus.add_input("write-equal", input(&[b"\xff\xff"; 5]), 0);
    corpus.ask_write("write-equal", 2, 2);

    let records: Vec<Vec<u8>> = (0..40).map(|n: u8| vec![b'a' + n / 4, n]).collect();
    for (name, number) in [("write-eight", 8), ("write-nine", 9), ("write-forty", 40)] {
        corpus.add_input(name, input(&records[..number]), 0);
        corpus.ask_write(name, 1, 2);
    }
    for (per_block, per_index) in [(1, 3), (2, 2), (7, 5), (1, 40), (1, 39), (40, 2), (39, 2)] {
        corpus.ask_write("write-forty", per_block, per_index);
    }
}

/// Blocks that begin with a record of which the key takes nothing, some or all.
fn add_keys(corpus: &mut Corpus) {
    let stem = [b'k'; 200];
    let after = |ending: &[u8]| [&stem[..], ending].concat();
    for (name, records) in [
        (
            "write-keys-equal",
            &[&b"a"[..], b"ab", b"ab", b"ab", b"ab", b"b"][..],
        ),
        (
            "write-keys-beginning",
            &[b"a", b"ab", b"abc", b"abc\0", b"abc\0\0"],
        ),
        ("write-keys-first-byte", &[b"abc", b"bca", b"cab", b"d"]),
        ("write-keys-last-byte", &[b"aba", b"abb", b"abc", b"abd"]),
        ("write-keys-empty-first", &[b"", b"", b"ab", b"abc", b"b"]),
        (
            "write-keys-ff",
            &[
                b"a\xfe\xff",
                b"a\xff\xfe",
                b"a\xff\xff",
                b"b\xff",
                b"\xff",
                b"\xff\xff\0",
            ],
        ),
        (
            "write-keys-signed",
            &[b"\x7e\x80", b"\x7f\xff", b"\x80\x7f", b"\x80\x80"],
        ),
        (
            "write-keys-long",
            &[
                &after(b""),
                &after(b"a\xff"),
                &after(b"bc"),
                &after(b"bd\xff"),
                b"l",
                &[0xff; 300],
            ],
        ),
    ] {
        corpus.add_input(name, input(records), 0);
        corpus.ask_write(name, 1, 2);
        corpus.ask_write(name, 2, 2);
        corpus.ask_write(name, 1, 65_535);
    }
}

/// Lengths at which a number takes a byte more: of records, of blocks with one of them, and of keys.
fn add_long_records(corpus: &mut Corpus) {
    let long = |length| vec![b'k'; length];
    let name = "write-lengths-127";
    corpus.add_input(name, input(&[125, 126, 127, 128, 129].map(long)), 0);
    corpus.ask_write(name, 1, 2);
    corpus.ask_write(name, 4, 2);
    corpus.ask_write(name, 5, 2);
    let name = "write-lengths-16383";
    corpus.add_input(name, input(&[0, 16_383, 16_384].map(long)), 0);
    corpus.ask_write(name, 3, 2);
    corpus.ask_write(name, 2, 2);
    let name = "write-lengths-16384";
    corpus.add_input(name, input(&[16_384, 16_385].map(long)), 0);
    corpus.ask_write(name, 1, 2);
}

/// Metadata that move the blocks, and metadata that are refused: 9.
fn add_metadata(corpus: &mut Corpus) {
    let name = "write-metadata";
    corpus.add_input(name, input(&["a", "b"]), 0);
    let longest = format!("{{{}}}", " ".repeat(253)).into_bytes();
    corpus.write(name, &longest, counts(1, 2), 600);
    for (_, metadata) in accepted().into_iter().chain(refused()) {
        corpus.write(name, &metadata, counts(1, 2), 600);
    }
}

/// The ends of both ranges, and counts beyond them: 30.
fn add_counts(corpus: &mut Corpus) {
    let name = "write-counts";
    corpus.add_input(name, input(&["a", "b"]), 0);
    for (per_block, per_index) in [(1, 65_535), (65_535, 2)] {
        corpus.ask_write(name, per_block, per_index);
    }
    for (per_block, per_index) in [
        (0, 2),
        (65_536, 2),
        (u64::MAX, 2),
        (1 << 32 | 1, 2),
        (1, 0),
        (1, 1),
        (1, 65_536),
        (1, u64::MAX),
        (1, 1 << 32 | 2),
        (0, 0),
    ] {
        corpus.write(name, BRACES, counts(per_block, per_index), 600);
    }
}

/// No records, or something that isn't one: 28.
fn add_malformed(corpus: &mut Corpus) {
    let widest = encode((1 << 63) - 1);
    for (name, records) in [
        ("write-28-empty", &b""[..]),
        ("write-28-cut", b"\x80"),
        (
            "write-28-cut-last",
            b"\x01a\xff\xff\xff\xff\xff\xff\xff\xff",
        ),
        ("write-28-nine", &[0x80; 9]),
        ("write-28-ten", b"\xff\xff\xff\xff\xff\xff\xff\xff\xff\x00"),
        ("write-28-not-shortest", b"\x80\x00"),
        ("write-28-not-shortest-2", b"\x01a\x81\x00b"),
        ("write-28-short", b"\x01"),
        ("write-28-short-last", b"\x01a\x03bc"),
        ("write-28-2e63", &widest),
    ] {
        corpus.add_input(name, records.to_vec(), 28);
        corpus.write(name, BRACES, counts(1, 2), 200);
    }
}

/// Records that don't rise: 29.
fn add_falling(corpus: &mut Corpus) {
    for (name, records) in [
        ("write-29-falling", &[&b"b"[..], b"a"][..]),
        ("write-29-beginning", &[b"a\0", b"a"]),
        ("write-29-empty", &[b"a", b""]),
        ("write-29-signed", &[b"\x80", b"\x7f"]),
        ("write-29-last", &[b"a", b"b", b"b", b"c", b"b\xff"]),
        ("write-29-first", &[b"b", b"a", b"b", b"c"]),
    ] {
        corpus.add_input(name, input(records), 29);
        corpus.write(name, BRACES, counts(2, 2), 200);
    }
}

/// Several faults at once: the first in the order 30, 9, 28, 29, 31 decides.
fn add_two_faults(corpus: &mut Corpus) {
    for (name, records, number) in [
        ("write-28-then-29", &b"\x01b\x01a\x80"[..], 28),
        ("write-28-then-29-late", b"\x01b\x01a\x01c\x02d", 28),
        ("write-29-then-31", b"\x01b\x01a", 29),
    ] {
        corpus.add_input(name, records.to_vec(), number);
        for (metadata, counts) in [
            (&b"["[..], counts(0, 2)),
            (BRACES, counts(1, 1)),
            (b"[", counts(1, 2)),
            (BRACES, counts(1, 2)),
        ] {
            corpus.write(name, metadata, counts, 200);
            corpus.write(name, metadata, counts, 0);
        }
    }
}

impl Corpus {
    /// Adds records without cases. With sound metadata and counts, and with room, the writer gives this number.
    fn add_input(&mut self, name: &str, records: Vec<u8>, number: u64) {
        self.add_file(name, records, Claim::Records(number));
    }
}
