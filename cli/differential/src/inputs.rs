//! Inputs of the writers: sound ones of every shape, and ones with one fault or several.

use crate::faults::bad_metadata;
use crate::shapes::metadata;
use crate::strings::{row, Kind};
use zs_reference::maker::random::Random;
use zs_reference::maker::{encode, Plan};
use zs_reference::writer::Counts;

/// Of so many inputs one has very many records.
const LARGE: u64 = 200;

/// Lengths at which a record's number, or that of a block with one such record, takes one byte more.
const LENGTHS: [usize; 10] = [0, 1, 125, 126, 127, 128, 16_380, 16_381, 16_383, 16_384];

/// What a writer is given, but for the output.
#[derive(Debug, Clone)]
pub struct Input {
    /// The metadata.
    pub metadata: Vec<u8>,
    /// The records, each after its length.
    pub records: Vec<u8>,
    /// How many of them a data block holds, and how many entries an index block.
    pub counts: Counts,
    /// The records themselves, in order: for queries near them, and for what they are like where data blocks meet.
    pub strings: Vec<Vec<u8>>,
}

/// What is wrong with an input, in the order of the refusals.
const FAULTS: [Fault; 4] = [Fault::Counts, Fault::Metadata, Fault::Form, Fault::Order];

#[derive(Debug, Clone, Copy, PartialEq, Eq)]
enum Fault {
    /// 30: a count is out of range.
    Counts,
    /// 9: the metadata break their rule.
    Metadata,
    /// 28: there is no record, or something that isn't one.
    Form,
    /// 29: the records don't rise.
    Order,
}

/// Draws an input: by turns sound ones, and ones with each fault and some of those after it.
pub fn draw_input(random: &mut Random, turn: u64) -> Input {
    if turn % LARGE == 0 {
        return large_input(random, turn / LARGE);
    }
    // From the fifth turn on no fault is left.
    let later = FAULTS.iter().skip((turn % 8) as usize).enumerate();
    let drawn = later.filter(|(at, _)| *at == 0 || random.once_in(3));
    let faults: Vec<Fault> = drawn.map(|(_, fault)| *fault).collect();
    faulty_input(random, &faults)
}

/// Draws an input with these faults.
fn faulty_input(random: &mut Random, faults: &[Fault]) -> Input {
    let mut strings = strings(random);
    if faults.contains(&Fault::Order) {
        disorder(random, &mut strings);
    }
    let mut input = Input {
        metadata: metadata(random),
        records: encoded(&strings),
        counts: counts(random),
        strings,
    };
    if faults.contains(&Fault::Form) {
        malform(random, &mut input);
    }
    if faults.contains(&Fault::Metadata) {
        input.metadata = bad_metadata(random);
    }
    if faults.contains(&Fault::Counts) {
        spoil_counts(random, &mut input.counts);
    }
    input
}

/// Records in the form that a writer takes.
fn encoded(strings: &[Vec<u8>]) -> Vec<u8> {
    Plan::data(strings).payload(&[])
}

/// Records that rise: few of any kind, few of lengths that matter, many, or each made of the one before it.
fn strings(random: &mut Random) -> Vec<Vec<u8>> {
    let kind = Kind::draw(random);
    let mut strings: Vec<Vec<u8>> = match random.below(18) {
        0 => (0..1 + random.below(3)).map(|_| long(random)).collect(),
        1 if !kind.is_long() => (0..300).map(|_| kind.string(random)).collect(),
        2 => vec![kind.string(random)],
        3..=8 => row(random),
        _ => (0..1 + random.below(40))
            .map(|_| kind.string(random))
            .collect(),
    };
    strings.sort();
    strings
}

/// A record of a length that matters, of one byte repeated.
fn long(random: &mut Random) -> Vec<u8> {
    let byte = random.pick(&[0x00, 0x61, 0xff]);
    vec![byte; random.pick(&LENGTHS)]
}

/// Counts within their ranges, small ones mostly.
pub fn counts(random: &mut Random) -> Counts {
    let (some, more) = (1 + random.below(9), 2 + random.below(9));
    Counts {
        per_block: random.pick(&[1, 1, 2, 3, some as u64, 65_535]),
        per_index: random.pick(&[2, 2, 3, more as u64, 65_535]),
    }
}

/// 30: one count or both out of range.
pub fn spoil_counts(random: &mut Random, counts: &mut Counts) {
    let high = 1 << random.pick(&[16, 31, 32, 63]);
    let wrong = [0, 65_536, u64::MAX, counts.per_block | high];
    let which = random.below(3);
    if which != 0 {
        counts.per_block = random.pick(&wrong);
    }
    if which != 1 {
        counts.per_index = random.pick(&[0, 1, 65_536, u64::MAX, counts.per_index | high]);
    }
}

/// 29: records that differ change places, or one is followed by a beginning of it.
fn disorder(random: &mut Random, strings: &mut Vec<Vec<u8>>) {
    let last = strings.len() - 1;
    let here = random.below(last);
    match random.below(4) {
        0 => strings.swap(0, last),
        1 if last > 0 => strings.swap(here, here + 1),
        2 => strings.insert(0, vec![0xff; 200]),
        _ => {
            strings[last].push(0x00);
            let lower = strings[last][..random.below(strings[last].len())].to_vec();
            strings.push(lower);
        }
    }
}

/// 28: no records, or something among them that isn't one.
fn malform(random: &mut Random, input: &mut Input) {
    let bytes = &mut input.records;
    match random.below(8) {
        0 => bytes.clear(),
        1 => {
            bytes.extend(encode(200));
            bytes.extend(vec![0x7a; random.below(200)]);
        }
        _ => {
            let end = bytes.len();
            let before = encoded(&input.strings[..random.below(input.strings.len())]).len();
            let at = random.pick(&[0, before, end, end]).min(end);
            let wrong = no_record(random);
            bytes.splice(at..at, wrong);
        }
    }
}

/// Bytes that are no record, whatever follows them, or at least where nothing does.
fn no_record(random: &mut Random) -> Vec<u8> {
    let continued = vec![0x80 + random.below(128) as u8; 1 + random.below(11)];
    match random.below(4) {
        0 => continued,
        1 => [&continued[..], &[0x00]].concat(),
        2 => vec![0x81, 0x00, 0x7a],
        _ => encode(random.pick(&[1 << 20, 1 << 31, 1 << 32, 1 << 62, (1 << 63) - 1])),
    }
}

/// Very many records, equal ones among them: about the most that a data block and an index block hold, and under many levels.
fn large_input(random: &mut Random, turn: u64) -> Input {
    let (records, per_block, per_index) = match turn % 6 {
        0 => (65_535, 65_535, 2),
        1 => (65_536, 65_535, 2),
        2 => (65_535, 1, 65_535),
        3 => (65_536, 1, 65_535),
        4 => (100_000, 3, 2),
        _ => (100_000, 100, 100),
    };
    let step = 1 + random.below(3) as u32;
    let strings: Vec<Vec<u8>> = (0..records)
        .map(|number: u32| (number / step).to_be_bytes().to_vec())
        .collect();
    Input {
        metadata: metadata(random),
        records: encoded(&strings),
        counts: Counts {
            per_block,
            per_index,
        },
        strings,
    }
}
