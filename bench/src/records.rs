//! Fictitious records in order: a name and a number that no other record has, a telephone number that is reserved for fiction, an
//! address; and notes, which have a long text after the name and the number.

use zs_reference::maker::random::Random;

const GIVEN: [&str; 12] = [
    "Ada", "Bram", "Cleo", "Dov", "Edda", "Fenn", "Greta", "Hob", "Ines", "Jory", "Nell", "Otto",
];
const FAMILY: [&str; 12] = [
    "Anyname",
    "Blank",
    "Dummy",
    "Exampleton",
    "Fictional",
    "Imagine",
    "Invented",
    "Madeup",
    "Mockley",
    "Nobody",
    "Pretend",
    "Unreal",
];
const STREETS: [&str; 6] = [
    "Nowhere Lane",
    "Sample Street",
    "Placeholder Road",
    "Template Avenue",
    "Example Crescent",
    "Blueprint Way",
];

/// The same records each time, all of them different, sorted.
pub fn records(count: usize) -> Vec<Vec<u8>> {
    let mut random = Random::new(2010);
    let mut records: Vec<Vec<u8>> = (0..count)
        .map(|number| record(&mut random, number))
        .collect();
    records.sort();
    records
}

/// A name that others have too.
pub fn draw_name(random: &mut Random) -> String {
    format!("{} {}", random.pick(&GIVEN), random.pick(&FAMILY))
}

fn record(random: &mut Random, number: usize) -> Vec<u8> {
    let name = draw_name(random);
    let telephone = format!("555-01{:02}", random.below(100));
    let address = format!("{} {}", 1 + random.below(999), random.pick(&STREETS));
    let code = random.below(1_000_000);
    format!("{name} {number:07}\t{telephone}\t{address}\tNoplace {code:06}").into_bytes()
}

/// Notes of two to six KiB of text, the same each time, all of them different, sorted. Each begins with `head`.
pub fn notes(count: usize, head: &str) -> Vec<Vec<u8>> {
    let mut random = Random::new(2011);
    let note = |number| {
        let name = draw_name(&mut random);
        let text = text(&mut random);
        format!("{head}{name} {number:07}\t{text}").into_bytes()
    };
    let mut notes: Vec<Vec<u8>> = (0..count).map(note).collect();
    notes.sort();
    notes
}

/// A text of two to six KiB.
fn text(random: &mut Random) -> String {
    let length = 2048 + random.below(4096);
    let mut text = String::new();
    while text.len() < length {
        text += random.pick(&STREETS);
        text += ", ";
    }
    text
}

/// The records as lines.
pub fn lines<R: AsRef<[u8]>>(records: &[R]) -> Vec<u8> {
    let mut lines = Vec::new();
    for record in records {
        lines.extend(record.as_ref());
        lines.push(b'\n');
    }
    lines
}

/// The same records without their addresses: still all different, and sorted.
pub fn without_addresses(records: &[Vec<u8>]) -> Vec<Vec<u8>> {
    records
        .iter()
        .map(|record| without_address(record))
        .collect()
}

/// The name, the number and the telephone number.
fn without_address(record: &[u8]) -> Vec<u8> {
    let fields: Vec<&[u8]> = record.splitn(3, |byte| *byte == b'\t').take(2).collect();
    fields.join(&b'\t')
}

/// What only this record begins with: the name and the number.
pub fn key(record: &[u8]) -> &[u8] {
    let end = record.iter().position(|byte| *byte == b'\t');
    &record[..end.unwrap_or(record.len())]
}

/// Draws some of the records.
pub fn draw(records: &[Vec<u8>], count: usize) -> Vec<&[u8]> {
    let mut random = Random::new(64);
    let draw = |_| records[random.below(records.len())].as_slice();
    (0..count).map(draw).collect()
}
