//! Pairs of files: the same records in other shapes, copies over block ends, records of one file only, refused files, and parts of two files.

use super::{Case, Claim, Corpus, MOST_PLACES};
use crate::compare::compare;
use crate::maker::Tree;
use crate::reader::check;

/// Adds the files, and cases on these and on files added before.
pub fn add(corpus: &mut Corpus) {
    add_examples(corpus);
    add_shapes(corpus);
    add_copies(corpus);
    add_strings(corpus);
    add_drawn(corpus);
    add_refused(corpus);
    add_short_work(corpus);
    add_parts(corpus);
}

impl Corpus {
    /// Adds an accepted file of these groups of records, without other cases.
    fn add_groups(&mut self, name: &str, groups: &[&[&[u8]]]) {
        self.add_file(name, Tree::new(groups).bytes(), Claim::Sound);
    }

    /// Compares with so many places of the work list and of the list.
    fn compare(&mut self, first: &str, second: &str, work: u64, list: u64) {
        let [work, list] = [work, list].map(|places| places.min(MOST_PLACES.into()) as u16);
        self.cases.push(Case::compare(first, second, work, list));
    }

    /// Compares accepted files with just enough places, one less for each list, and some more.
    fn ask_compare(&mut self, first: &str, second: &str) {
        let (one, two) = (self.bytes_of(first), self.bytes_of(second));
        let most = usize::from(MOST_PLACES);
        let blocks = [&one, &two].map(|file| check(file, most).blocks);
        let blocks = blocks[0].max(blocks[1]);
        let places = 5 * compare(&one, &two, most, most).differences;
        let more = 1 + self.cases.len() as u64 % 7;
        self.compare(first, second, blocks, places);
        self.compare(first, second, blocks - 1, places);
        self.compare(first, second, blocks + more, places + more);
        if places > 0 {
            self.compare(first, second, blocks, places - 1);
        }
    }

    /// Compares accepted files, each as the first one.
    fn ask_both(&mut self, one: &str, other: &str) {
        self.ask_compare(one, other);
        self.ask_compare(other, one);
    }

    /// Asks for what the list of a comparison shows, and for the same part of the other file.
    fn ask_shown(&mut self, first: &str, second: &str) {
        let (one, two) = (self.bytes_of(first), self.bytes_of(second));
        let most = usize::from(MOST_PLACES);
        let compared = compare(&one, &two, most, most);
        let rows = compared.list.chunks_exact(5);
        for row in rows.take(compared.differences as usize) {
            for which in [row[0] as u16, 3 - row[0] as u16] {
                self.shown(first, second, which, row[1], row[2]);
            }
        }
    }

    /// Asks for a part of one of two files.
    fn shown(&mut self, first: &str, second: &str, which: u16, offset: u64, length: u64) {
        let case = Case::shown(first, second, which, offset, length);
        self.cases.push(case);
    }
}

/// The examples of docs/FORMAT.md with every length of the list, and with themselves.
fn add_examples(corpus: &mut Corpus) {
    for places in 0..=21 {
        corpus.compare("two-blocks", "smallest", 3, places);
    }
    corpus.ask_compare("smallest", "two-blocks");
    for name in ["smallest", "two-blocks"] {
        corpus.ask_compare(name, name);
    }
    corpus.ask_shown("two-blocks", "smallest");
    corpus.ask_shown("smallest", "two-blocks");
}

/// The same records with other blocks, keys and places of the index, with reserved blocks, and under other headers: nothing differs.
fn add_shapes(corpus: &mut Corpus) {
    let groups: [&[&str]; 8] = [
        &["keys-first", "keys-short", "keys-last", "keys-empty"],
        &["equal-first", "equal-last", "equal-short"],
        &["index-after", "index-before", "one-entry-top"],
        &["index-behind", "index-ahead", "index-between"],
        &["extra-header", "reserved-all", "reserved-l1"],
        &["meta-long", "reserved-end", "extra-file"],
        &["chain-63", "chain-63"],
        &["full-size", "full-size"],
    ];
    for names in groups {
        for pair in names.windows(2) {
            corpus.ask_both(pair[0], pair[1]);
        }
    }
}

/// One string with copies in one block or over the ends of several, at the front, in the middle and at the end of a file.
fn add_copies(corpus: &mut Corpus) {
    let files: [(&str, &[&[&[u8]]]); 7] = [
        (
            "compare-one",
            &[&[b"a", b"b", b"b", b"b", b"b", b"b", b"c"]],
        ),
        (
            "compare-over",
            &[&[b"a", b"b"], &[b"b", b"b"], &[b"b"], &[b"b", b"c"]],
        ),
        (
            "compare-more",
            &[&[b"a", b"b", b"b", b"b"], &[b"b", b"b", b"b"], &[b"c"]],
        ),
        ("compare-fewer", &[&[b"b"], &[b"b", b"b", b"c", b"c"]]),
        (
            "compare-all",
            &[&[b"b"], &[b"b"], &[b"b"], &[b"b"], &[b"b"]],
        ),
        ("compare-front", &[&[b"b"], &[b"b", b"c"]]),
        (
            "compare-end",
            &[&[b"a", b"b", b"b", b"b"], &[b"b"], &[b"b"]],
        ),
    ];
    for (name, groups) in files {
        corpus.add_groups(name, groups);
    }
    for (number, (one, _)) in files.iter().enumerate() {
        for (other, _) in &files[number + 1..] {
            corpus.ask_both(one, other);
        }
    }
    corpus.ask_shown("compare-over", "compare-fewer");
    corpus.ask_shown("compare-fewer", "compare-more");
}

/// Pairs of such files and of others, compared both ways.
const STRINGS: [(&str, &str); 18] = [
    ("compare-empty", "smallest"),
    ("compare-empty", "keys-all-empty"),
    ("compare-empty", "empty-records"),
    ("compare-ff", "unsigned-order"),
    ("compare-ff", "smallest"),
    ("compare-ff", "compare-signed"),
    ("compare-signed", "two-blocks"),
    ("compare-begins", "compare-begun"),
    ("compare-begins", "beginning-first"),
    ("compare-even", "index-after"),
    ("compare-after", "index-ahead"),
    ("compare-after", "compare-begins"),
    ("compare-long", "long-keys"),
    ("reserved-all", "two-blocks"),
    ("reserved-all", "index-between"),
    ("keys-short", "seven-blocks"),
    ("one-record", "end-of-prefix"),
    ("long-records", "compare-begun"),
];

/// Empty records, bytes FF, strings that begin one another, and files that lie before, between and within one another.
fn add_strings(corpus: &mut Corpus) {
    let (long, longer) = ([b'k'; 130], [b'k'; 131]);
    let ff: &[&[&[u8]]] = &[
        &[b"\xff"],
        &[b"\xff\xff", b"\xff\xff\xff"],
        &[b"\xff\xff\xff"],
    ];
    let files: [(&str, &[&[&[u8]]]); 8] = [
        ("compare-empty", &[&[b"", b""], &[b"", b"", b"b"]]),
        ("compare-ff", ff),
        (
            "compare-signed",
            &[&[b"a\x7f", b"a\x80"], &[b"a\xff", b"\x80"]],
        ),
        ("compare-begins", &[&[b"a", b"aa"], &[b"aaa", b"aaaa"]]),
        ("compare-begun", &[&[b"a"], &[b"aa\0", b"aaa"], &[b"aab"]]),
        ("compare-even", &[&[b"b", b"d"], &[b"f"], &[b"h", b"j"]]),
        ("compare-after", &[&[b"x", b"y"], &[b"z", b"z"]]),
        ("compare-long", &[&[&long, &long], &[&longer]]),
    ];
    for (name, groups) in files {
        corpus.add_groups(name, groups);
    }
    for (one, other) in STRINGS {
        corpus.ask_both(one, other);
    }
    for (one, other) in [
        ("compare-empty", "smallest"),
        ("compare-ff", "compare-signed"),
        ("compare-begins", "compare-begun"),
        ("compare-long", "long-keys"),
    ] {
        corpus.ask_shown(one, other);
    }
}

/// Drawn files, each with the next.
fn add_drawn(corpus: &mut Corpus) {
    for number in 0..10 {
        let next = (number + 1) % 10;
        corpus.ask_both(&format!("drawn-{number:02}"), &format!("drawn-{next:02}"));
    }
}

/// A file for each refusal of the check.
const REFUSED: [&str; 23] = [
    "2-smallest",
    "3-version",
    "4-cut",
    "5-low-bit",
    "6-h-79",
    "7-lzma2",
    "8-one-less",
    "9-oops",
    "10-cut",
    "11-rec",
    "12-key",
    "13-between",
    "14-late",
    "15-rec-cut",
    "16-falling",
    "17-late",
    "19-late",
    "20-middle",
    "21-falling",
    "22-paper",
    "23-last",
    "24-last-low",
    "25-last-bit",
];

/// Refused files as the first, as the second, and as both: the first decides.
fn add_refused(corpus: &mut Corpus) {
    for (number, name) in REFUSED.into_iter().enumerate() {
        let next = REFUSED[(number + 1) % REFUSED.len()];
        corpus.compare(name, "two-blocks", 12, 6);
        corpus.compare("two-blocks", name, 12, 6);
        corpus.compare(name, next, 12, 1);
        corpus.compare(next, name, 12, 0);
    }
    for name in ["first-00", "first-07", "14-late", "25-last-bit", "3-zeros"] {
        corpus.compare(name, name, 12, 3);
    }
}

/// 18 for the first file and for the second, before and after other refusals.
fn add_short_work(corpus: &mut Corpus) {
    for places in 0..3 {
        corpus.compare("two-blocks", "smallest", places, 20);
        corpus.compare("smallest", "two-blocks", places, 20);
        corpus.compare("smallest", "two-blocks", places, 19);
    }
    // The second has 126 blocks, and the first 64; then the other way round.
    for places in [63, 64, 65, 125] {
        corpus.compare("chain-63", "full-size", places, 5);
        corpus.compare("full-size", "chain-63", places, 5);
    }
    for name in ["14-late", "17-late", "19-late", "22-paper", "25-last-bit"] {
        corpus.compare("smallest", name, 1, 5);
        corpus.compare("smallest", name, 2, 5);
        corpus.compare(name, "smallest", 1, 5);
    }
}

/// Parts inside, at the end of and beyond each of two files, parts whose end doesn't fit 64 bits, and numbers of no file.
fn add_parts(corpus: &mut Corpus) {
    for (first, second) in [("two-blocks", "smallest"), ("smallest", "two-blocks")] {
        for which in [1, 2] {
            for (offset, length) in parts_around(&[130, 154]) {
                corpus.shown(first, second, which, offset, length);
            }
        }
        for which in [0, 3, 4, 255, 256, 257, 258, 513, 65_535] {
            corpus.shown(first, second, which, 96, 2);
            corpus.shown(first, second, which, 0, 0);
        }
    }
    for (first, second) in [("first-00", "first-07"), ("first-07", "first-00")] {
        for which in [0, 1, 2, 3] {
            for (offset, length) in [(0, 0), (0, 1), (0, 7), (7, 0), (7, 1), (6, 2)] {
                corpus.shown(first, second, which, offset, length);
            }
        }
    }
}

/// Parts about the ends of files of these lengths, and far ones.
fn parts_around(lengths: &[u64]) -> Vec<(u64, u64)> {
    let mut parts = vec![
        (0, 0),
        (0, 8),
        (96, 2),
        (109, 1),
        (1, u64::MAX),
        (u64::MAX, 0),
        (u64::MAX, 1),
        (u64::MAX, u64::MAX),
        (1 << 63, 1 << 63),
        (u64::MAX - 19, 20),
        (109, u64::MAX - 108),
        (1 << 32, 1),
        (96, (1 << 32) + 2),
    ];
    for length in lengths {
        parts.extend([
            (length - 1, 1),
            (length - 1, 2),
            (*length, 0),
            (*length, 1),
            (length + 1, 0),
            (0, *length),
            (0, length + 1),
        ]);
    }
    parts
}
