//! Records and metadata of very many lengths: every one up to twice 512 bytes and some more, those around multiples of 64 and powers of
//! two, and drawn ones up to 70,000. The library's CRC takes bytes in other steps from some lengths on; here it is held to that of crate
//! `crc`, by which the second writer makes its files. A data block's CRC is taken over the whole block by the check and over its parts by
//! the writer; the header's over the whole header by both.

use std::collections::BTreeSet;
use std::ops::RangeInclusive;

use zs_library::{check, write, Counts};
use zs_reference::maker::encode;
use zs_reference::maker::random::Random;
use zs_reference::{reader, writer};

/// Bytes are drawn from this and the length, so a length alone gives its case again.
const SEED: u64 = 2010;
/// Every length up to here.
const DENSE: usize = 1100;
/// Lengths around every multiple of 64 up to here.
const MULTIPLES: usize = 1 << 13;
/// The longest, and how many lengths up to it are drawn for records and for metadata.
const LONGEST: usize = 70_000;
const DRAWN_RECORDS: usize = 3000;
const DRAWN_METADATA: usize = 300;
/// How many bytes more than a record the CRC of its block covers: the level and the record's length.
const BESIDE_RECORD: RangeInclusive<usize> = 2..=4;
/// How many bytes more than the metadata the CRC of the header covers.
const BESIDE_METADATA: RangeInclusive<usize> = 80..=80;
const COUNTS: Counts = Counts {
    per_block: 1,
    per_index: 2,
};

/// All lengths that are tried, as many of them drawn as said. A CRC covers `beside` bytes more: those lengths are among them with which it
/// covers a multiple of 64 or a power of two, one less or one more.
fn lengths(drawn: usize, beside: RangeInclusive<usize>) -> BTreeSet<usize> {
    let mut random = Random::new(SEED);
    let multiples = (64..=MULTIPLES).step_by(64);
    let covered = multiples.chain((0..=16).map(|power| 1 << power));
    let around = covered.flat_map(|length: usize| {
        let least = length.saturating_sub(beside.end() + 1);
        least..=(length + 1).saturating_sub(*beside.start())
    });
    let drawn = (0..drawn).map(|_| random.below(LONGEST + 1));
    (0..=DENSE).chain(around).chain(drawn).collect()
}

/// So many random bytes; every other time some runs of zeros or of ones are laid over them.
fn bytes(random: &mut Random, length: usize) -> Vec<u8> {
    let mut bytes = Vec::with_capacity(length + 8);
    while bytes.len() < length {
        bytes.extend_from_slice(&random.next().to_le_bytes());
    }
    bytes.truncate(length);
    for _ in 0..random.pick(&[0, 0, 0, 1, 2, 4]) {
        let start = random.below(length);
        let run = random.below(length - start + 1);
        bytes[start..start + run].fill(random.pick(&[0x00, 0xff]));
    }
    bytes
}

/// An object of so many bytes, six at least, with random letters and digits.
fn metadata(random: &mut Random, length: usize) -> Vec<u8> {
    let mut name = bytes(random, length - br#"{"":0}"#.len());
    for byte in &mut name {
        *byte = b"abcdefghijklmnopqrstuvwxyz012345"[usize::from(*byte % 32)];
    }
    [br#"{""#, name.as_slice(), br#"":0}"#].concat()
}

/// The second writer's file, which the proved writer makes too and the check accepts. With any one bit changed, the check refuses it as the
/// independent reader does.
fn compare(metadata: &[u8], record: &[u8], random: &mut Random, case: &str) {
    let input = [&encode(record.len() as u64), record].concat();
    let counts = writer::Counts {
        per_block: COUNTS.per_block,
        per_index: COUNTS.per_index,
    };
    let mut file = writer::write(metadata, &input, counts, usize::MAX).expect(case);
    let mut output = vec![7; file.len()];
    let written = write(metadata, &input, COUNTS, &mut output);
    assert_eq!(written.number, 0, "{case}");
    assert!(output == file, "{case}: the writers differ");
    assert_eq!(check(&file, &mut [7; 2]).number, 0, "{case}");

    let at = random.below(file.len());
    file[at] ^= 1 << random.below(8);
    let answer = check(&file, &mut [7; 2]);
    let other = reader::check(&file, 2);
    assert_ne!(answer.number, 0, "{case}, byte {at} changed");
    let both = [(answer.number, answer.place), (other.number, other.place)];
    assert_eq!(both[0], both[1], "{case}, byte {at} changed");
}

#[test]
fn records_of_many_lengths() {
    for length in lengths(DRAWN_RECORDS, BESIDE_RECORD) {
        let mut random = Random::new(SEED + length as u64);
        let record = bytes(&mut random, length);
        let case = format!("seed {SEED}, a record of {length} bytes");
        compare(b"{}", &record, &mut random, &case);
    }
}

#[test]
fn metadata_of_many_lengths() {
    for length in lengths(DRAWN_METADATA, BESIDE_METADATA).range(6..) {
        let mut random = Random::new(SEED + *length as u64);
        let metadata = metadata(&mut random, *length);
        let case = format!("seed {SEED}, metadata of {length} bytes");
        compare(&metadata, b"record", &mut random, &case);
    }
}
