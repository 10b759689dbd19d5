//! Archives that are compared, and what differs between them by the independent reader.

use std::collections::BTreeMap;
use std::fs;

use super::{accepted, records_of, u64le, zs, Folder};

/// A record, and its copies in two archives.
pub type Copies = (Vec<u8>, [u64; 2]);

/// Makes an archive of records in order, with so many to a block, and gives its name.
pub fn make(folder: &Folder, name: &str, records: &[Vec<u8>], per_block: usize) -> String {
    let name = folder.name(name);
    let per_block = per_block.to_string();
    let about = format!("{{\"about\": \"{per_block} to a block\"}}");
    let words = ["make", &about, "-", &name, "--length-prefixed=u64le"];
    let more = ["--records-per-block", &per_block, "--force"];
    accepted(&name, &[&words[..], &more].concat(), &u64le(records));
    name
}

/// Records of these texts.
pub fn bytes(records: &[&str]) -> Vec<Vec<u8>> {
    records
        .iter()
        .map(|record| record.as_bytes().to_vec())
        .collect()
}

/// What differs between two archives, by the independent reader.
fn due_differences(first: &[u8], second: &[u8]) -> Vec<Copies> {
    let mut copies: BTreeMap<Vec<u8>, [u64; 2]> = BTreeMap::new();
    for (number, file) in [first, second].iter().enumerate() {
        for record in records_of(file) {
            copies.entry(record).or_default()[number] += 1;
        }
    }
    copies.retain(|_, copies| copies[0] != copies[1]);
    copies.into_iter().collect()
}

/// The differences that lines show.
fn shown_differences(out: &[u8]) -> Vec<Copies> {
    let lines = out.split_inclusive(|byte| *byte == b'\n');
    lines.map(shown_difference).collect()
}

fn shown_difference(line: &[u8]) -> Copies {
    let line = line.strip_suffix(b"\n").expect("a whole line");
    let fields: Vec<&[u8]> = line.split(|byte| *byte == b'\t').collect();
    assert_eq!(fields.len(), 3, "{line:?}");
    let number = |field: &[u8]| {
        let text = std::str::from_utf8(field).expect("digits");
        text.parse().expect("a number")
    };
    (unescape(fields[2]), [number(fields[0]), number(fields[1])])
}

/// The bytes that escapes stand for.
fn unescape(text: &[u8]) -> Vec<u8> {
    let mut bytes = Vec::new();
    let mut rest = text;
    while let [first, after @ ..] = rest {
        rest = after;
        let byte = match (first, after) {
            (b'\\', [b'x', high, low, ..]) => {
                rest = &after[3..];
                let digits = [*high, *low];
                let digits = std::str::from_utf8(&digits).expect("digits");
                u8::from_str_radix(digits, 16).expect("a byte")
            }
            (b'\\', [letter, ..]) => {
                rest = &after[1..];
                let known = [(b't', b'\t'), (b'n', b'\n'), (b'r', b'\r'), (b'\\', b'\\')];
                let escape = known.iter().find(|(name, _)| name == letter);
                escape.expect("a known escape").1
            }
            _ => *first,
        };
        bytes.push(byte);
    }
    bytes
}

/// Compares two archives, and holds lines, count and status to the independent reader.
pub fn expect_differences(first: &str, second: &str) -> Vec<Copies> {
    let files = [first, second].map(|name| fs::read(name).expect("an archive"));
    let due = due_differences(&files[0], &files[1]);
    let status = if due.is_empty() { 0 } else { 3 };
    let run = zs(&["compare", first, second]);
    assert_eq!((run.status, run.err.as_str()), (status, ""));
    assert!(shown_differences(&run.out) == due, "{}", run.text());
    let lengths = files.map(|file| records_of(&file).len() as i64);
    let sum = lengths[1] - lengths[0];
    let sign = if sum > 0 { "+" } else { "" };
    let ending = if due.len() == 1 { "" } else { "s" };
    let line = format!("{} difference{ending}, sum {sign}{sum}\n", due.len());
    let run = zs(&["compare", first, second, "--count"]);
    assert_eq!(
        (run.status, run.text(), run.err.as_str()),
        (status, line, "")
    );
    due
}
