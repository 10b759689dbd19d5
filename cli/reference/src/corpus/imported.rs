//! Dumps of SIM phonebooks, sound and faulty, for the import.

use super::{Claim, Corpus};
use crate::maker::adn;
use crate::maker::random::Random;

/// The 14 bytes of most records: a number of two bytes after its type.
const NUMBER: [u8; 14] = *b"\x03\x81\x21\x43\xff\xff\xff\xff\xff\xff\xff\xff\xff\xff";
/// Bytes below 80 alone, so that a name may hold them.
const LOW: [u8; 14] = *b"\x02\x10\x21\x43\x00\x00\x00\x00\x00\x00\x00\x00\x00\x00";
/// With the greatest length of a number.
const ELEVEN: [u8; 14] = *b"\x0b\x91\x12\x34\x56\x78\x90\x12\x34\x56\x78\x90\x00\x01";

/// Adds the dumps and their cases.
pub fn add(corpus: &mut Corpus) {
    add_example(corpus);
    add_without_records(corpus);
    add_codings(corpus);
    add_fields(corpus);
    add_order(corpus);
    add_many(corpus);
    add_sizes(corpus);
    add_bad_names(corpus);
    add_bad_numbers(corpus);
    add_two_faults(corpus);
}

impl Corpus {
    /// Adds a dump and imports it. With name fields of this length, and with room, it gives this number.
    fn add_dump(&mut self, name: &str, dump: Vec<u8>, name_length: u64, number: u64) {
        self.add_file(name, dump, Claim::Dump(name_length, number));
        self.ask_import(name, name_length);
    }

    /// Adds a dump of records with these names in fields of one length.
    fn add_names(&mut self, name: &str, names: &[&[u8]], field: usize, number: u64) {
        self.add_dump(name, dump_of(names, field), field as u64, number);
    }
}

/// A dump of records with these names.
fn dump_of(names: &[&[u8]], field: usize) -> Vec<u8> {
    let records = names.iter().map(|name| adn(name, field, NUMBER));
    records.flatten().collect()
}

/// The example of docs/FORMAT.md.
fn add_example(corpus: &mut Corpus) {
    let dump = [
        adn(b"\x80\x04\x10", 6, NUMBER),
        adn(b"Ada", 6, ELEVEN),
        vec![0xff; 20],
        adn(b"", 6, NUMBER),
    ];
    corpus.add_dump("import-example", dump.concat(), 6, 0);
}

/// Dumps of nothing, and of free records alone.
fn add_without_records(corpus: &mut Corpus) {
    let name = "import-empty";
    corpus.add_dump(name, Vec::new(), 0, 0);
    for name_length in [1, 3, 240, 241, 242, 1 << 32, u64::MAX - 13, u64::MAX] {
        corpus.import(name, name_length, 5);
    }
    corpus.add_dump("import-free", vec![0xff; 3 * 17], 3, 0);
    corpus.add_dump("import-free-0", vec![0xff; 2 * 14], 0, 0);
    corpus.add_dump("import-free-241", vec![0xff; 2 * 255], 241, 0);
}

/// Names of each coding: with FF where it is no filling, with none, and as long as the field.
fn add_codings(corpus: &mut Corpus) {
    let plain: &[&[u8]] = &[b"Ned", b"", b"Ada Blank", b"\x00\x7f", b"A", b"\x7f"];
    corpus.add_names("import-plain", plain, 9, 0);
    let pairs: &[&[u8]] = &[
        b"\x80\x04\x10\x04\x11\x04\x12",
        b"\x80",
        b"\x80\xff\x04",
        b"\x80\x04\xff",
        b"\x80\x04\xff\xff\x10",
        b"\x80\x80\x81\x82\xff\xff\x00",
    ];
    corpus.add_names("import-80-odd", pairs, 7, 0);
    corpus.add_names("import-80-even", pairs, 8, 0);
    corpus.add_names("import-80-more", pairs, 9, 0);
    let counted: &[&[u8]] = &[
        b"\x81\x02\x08\x90\x41",
        b"\x81\x00\x08",
        b"\x81\x00\xff",
        b"\x81\x02\xff\xff\xff",
        b"\x81\x01\x08\xff",
        b"\x81\x03\x08\xff\xff\x41",
    ];
    corpus.add_names("import-81", counted, 6, 0);
    corpus.add_names("import-81-more", counted, 8, 0);
    let counted: &[&[u8]] = &[
        b"\x82\x02\x05\x30\x82\x41",
        b"\x82\x00\x05\x30",
        b"\x82\x00\xff\xff",
        b"\x82\x02\x05\x30\xff\xff",
        b"\x82\x01\xff\xff\xff",
        b"\x82\x03\x05\xff\x00\xff\x41",
    ];
    corpus.add_names("import-82", counted, 7, 0);
    corpus.add_names("import-82-more", counted, 10, 0);
}

/// Fields of the least and the greatest lengths, and names at which a record's length takes two bytes.
fn add_fields(corpus: &mut Corpus) {
    let dump = [ELEVEN, NUMBER, LOW, [0xff; 14], [0; 14]].concat();
    corpus.add_dump("import-0", dump, 0, 0);
    corpus.add_names("import-1", &[b"b", b"\x80", b"", b"a", b"\x7f"], 1, 0);
    corpus.add_names("import-2", &[b"b", b"\x80", b"", b"ab", b"aa"], 2, 0);
    corpus.add_names(
        "import-3",
        &[b"\x81\x00\xff", b"\x80\xff\x00", b"abc"],
        3,
        0,
    );
    corpus.add_names(
        "import-4",
        &[b"\x82\x00\xff\xff", b"\x81\x01\xff\xff"],
        4,
        0,
    );

    let longest = |first: &[u8]| [first, &[b'n'; 241][first.len()..]].concat();
    let [plain, pairs] = [longest(b"a"), longest(b"\x80")];
    let [short, long] = [longest(b"\x81\xee\xff"), longest(b"\x82\xed\xff\xff")];
    let names: &[&[u8]] = &[&plain, &pairs, &short, &long, b"a", &plain[..240]];
    corpus.add_names("import-241", names, 241, 0);

    let name = [b'n'; 115];
    let names: &[&[u8]] = &[&name[..114], &name[..113], &name, &name[..112]];
    corpus.add_names("import-lengths-127", names, 115, 0);
}

/// Equal records, records that begin others, and those for which comparing names first is wrong.
fn add_order(corpus: &mut Corpus) {
    let equal: &[&[u8]] = &[b"Bo", b"Ada", b"Bo", b"Ada", b"Bo", b"", b""];
    corpus.add_names("import-equal", equal, 4, 0);
    let one = |name: &[u8]| adn(name, 2, ELEVEN);
    let dump = [
        one(b"\x41"),
        one(b"\x41\x05"),
        one(b"\x41\x05"),
        one(b"\x41"),
    ];
    corpus.add_dump("import-names-first", dump.concat(), 2, 0);
    let begun = [&b"A"[..], &LOW].concat();
    let records = [&begun[..], b"A", &begun, &LOW, b"", b"A"];
    let dump = records.map(|name| adn(name, 20, LOW));
    corpus.add_dump("import-beginnings", dump.concat(), 20, 0);
    let dump = [NUMBER, LOW, ELEVEN].map(|rest| adn(b"Ada", 3, rest));
    corpus.add_dump("import-numbers", dump.concat(), 3, 0);
    let signed: &[&[u8]] = &[b"\x80\x00\x41", b"\x7f\x7f\x7f", b"\x81\x00\x80", b"\x00"];
    corpus.add_names("import-signed", signed, 3, 0);
}

/// Many records: every number of falling ones up to nine, and drawn ones with few names.
fn add_many(corpus: &mut Corpus) {
    let falling = b"ihgfedcba".map(|letter| adn(&[letter], 1, NUMBER));
    for count in [2, 3, 4, 5, 6, 7, 8, 9] {
        let name = format!("import-falling-{count}");
        corpus.add_dump(&name, falling[9 - count..].concat(), 1, 0);
    }
    let mut random = Random::new(51_011);
    for (name, count, field) in [("import-drawn", 200, 3), ("import-drawn-0", 1000, 0)] {
        let mut draw = || {
            let mut rest = LOW;
            rest[1..3].copy_from_slice(&[random.next() as u8, random.next() as u8]);
            let letters = random.pick(&[&b"AAA"[..], b"AAB", b"ABA", b"B\x02\x02", b"A\x02\x21"]);
            match random.below(9) {
                0 => vec![0xff; field + 14],
                _ => adn(&letters[..random.below(field + 1)], field, rest),
            }
        };
        let dump: Vec<Vec<u8>> = (0..count).map(|_| draw()).collect();
        corpus.add_dump(name, dump.concat(), field as u64, 0);
    }
}

/// 32: dumps that aren't whole records, and name fields that are too long.
fn add_sizes(corpus: &mut Corpus) {
    let dump = dump_of(&[b"Bo", b"Ada"], 3);
    corpus.add_dump("import-32-less", dump[1..].to_vec(), 3, 32);
    corpus.add_dump("import-32-more", [&dump[..], &[0xff]].concat(), 3, 32);
    corpus.add_dump("import-32-13", vec![0xff; 13], 0, 32);
    corpus.add_dump("import-32-14", vec![0xff; 14], 1, 32);
    corpus.add_dump("import-32-242", vec![0xff; 2 * 256], 242, 32);
    let name = "import-name-lengths";
    corpus.add_dump(name, dump, 3, 0);
    for name_length in [
        2,
        4,
        20,
        0,
        242,
        256 + 3,
        (1 << 16) + 3,
        (1 << 32) + 3,
        u64::MAX - 13,
        u64::MAX - 12,
        u64::MAX,
    ] {
        corpus.import(name, name_length, 200);
        corpus.import(name, name_length, 0);
    }
}

/// 33: names that aren't formed as one, after a record with a sound name.
fn add_bad_names(corpus: &mut Corpus) {
    for (name, field) in [
        ("import-33-after-plain", &b"A\xff\xffa"[..]),
        ("import-33-after-filling", b"\xff\xff\xffa"),
        ("import-33-high", b"A\x80\xff\xff"),
        ("import-33-high-last", b"abc\xfe"),
        ("import-33-83", b"\x83\xff\xff\xff"),
        ("import-33-fe", b"\xfe\xff\xff\xff"),
        ("import-33-80-lone", b"\x80\x04\x10\x00"),
        ("import-33-80-lone-only", b"\x80\x04"),
        ("import-33-80-after", b"\x80\xff\xff\x04\x10"),
        ("import-33-80-half", b"\x80\x04\x10\xff\xff\xff\x04"),
        ("import-33-81-alone", b"\x81"),
        ("import-33-81-no-base", b"\x81\x00"),
        ("import-33-81-past", b"\x81\x02\x08\x90"),
        ("import-33-81-filling", b"\x81\xff\xff\xff"),
        ("import-33-81-after", b"\x81\x01\x08\x90\x41"),
        ("import-33-82-alone", b"\x82"),
        ("import-33-82-no-base", b"\x82\x00\x05"),
        ("import-33-82-past", b"\x82\x02\x05\x30\x82"),
        ("import-33-82-filling", b"\x82\xff\xff\xff"),
        ("import-33-82-after", b"\x82\x01\x05\x30\x82\xff\x41"),
    ] {
        corpus.add_names(name, &[b"b", field], field.len(), 33);
    }
}

/// 34: a number of more than eleven bytes, or none with a name.
fn add_bad_numbers(corpus: &mut Corpus) {
    for (name, length) in [
        ("import-34-12", 12),
        ("import-34-127", 127),
        ("import-34-128", 128),
        ("import-34-ff", 0xff),
    ] {
        let mut rest = NUMBER;
        rest[0] = length;
        let dump = [adn(b"b", 2, ELEVEN), adn(b"a", 2, rest)];
        corpus.add_dump(name, dump.concat(), 2, 34);
    }
    corpus.add_dump("import-34-unset", adn(b"a", 2, [0xff; 14]), 2, 34);
    let mut nearly_free = vec![0xff; 16];
    nearly_free[15] = 0xfe;
    corpus.add_dump("import-34-nearly-free", nearly_free, 2, 34);
}

/// Several faults at once: 32 before all, then the first record that has one, and of that its name.
fn add_two_faults(corpus: &mut Corpus) {
    let sound = adn(b"b", 2, NUMBER);
    let name = adn(b"b\x80", 2, NUMBER);
    let number = adn(b"b", 2, [12; 14]);
    let both = adn(b"b\x80", 2, [12; 14]);
    for (case, records, due) in [
        ("import-33-then-34", &[&sound, &name, &number][..], 33),
        ("import-34-then-33", &[&sound, &number, &name], 34),
        ("import-33-and-34", &[&sound, &both], 33),
        ("import-34-then-both", &[&number, &both], 34),
        ("import-33-then-more", &[&both, &number, &name], 33),
    ] {
        let dump: Vec<u8> = records.iter().flat_map(|record| record.to_vec()).collect();
        corpus.add_dump(case, dump.clone(), 2, due);
        corpus.import(case, 242, 200);
        let cut = case.replace("import-", "import-32-then-");
        corpus.add_dump(&cut, dump[..dump.len() - 1].to_vec(), 2, 32);
    }
}
