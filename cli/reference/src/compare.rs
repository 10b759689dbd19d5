//! Comparing two files, by request L7: which byte strings have more copies in one of them than in the other.
//!
//! Each record of either file is counted under its bytes in one map, whose keys rise; what was counted unevenly is a difference.

use std::collections::BTreeMap;

use crate::reader::{check, read, unpack, within, Query};

/// The answer of the comparison. Its work list is all zeros after every call.
#[derive(Debug, Clone, Default, PartialEq, Eq)]
pub struct Compared {
    /// The refusal, or 0.
    pub number: u64,
    /// Place of the refusal, or 0.
    pub place: u64,
    /// The file that is refused, 1 or 2, or 0.
    pub which: u64,
    /// How many differences there are.
    pub differences: u64,
    /// Second less first copies, over all differences.
    pub sum: i64,
    /// The whole list: five numbers for each difference, then zeros.
    pub list: Vec<u64>,
}

/// How often a file has a byte string, and where first.
#[derive(Debug, Clone, Copy, Default)]
struct Copies {
    count: u64,
    lowest: u64,
}

/// The copies of each byte string in the first file and in the second.
type Counted<'a> = BTreeMap<&'a [u8], [Copies; 2]>;

/// Compares two files, as if with a work list of `work_places` places and a list of `list_places`.
pub fn compare(first: &[u8], second: &[u8], work_places: usize, list_places: usize) -> Compared {
    let answer = differences(first, second, work_places, list_places);
    let mut answer = answer.unwrap_or_else(|refused| refused);
    answer.list.resize(list_places, 0);
    answer
}

/// The answer with the numbers that are listed, or the refusal.
fn differences(
    first: &[u8],
    second: &[u8],
    work_places: usize,
    list_places: usize,
) -> Result<Compared, Compared> {
    let mut counted = Counted::new();
    let records = [
        records(first, 1, work_places)?,
        records(second, 2, work_places)?,
    ];
    for (at, file) in [first, second].into_iter().enumerate() {
        count(&mut counted, at, file, records[at]);
    }
    let uneven = counted.into_iter().filter(is_uneven);
    let rows: Vec<[u64; 5]> = uneven.map(row).collect();
    if rows.len() * 5 > list_places {
        return Err(Compared {
            number: 35,
            ..Compared::default()
        });
    }
    Ok(Compared {
        differences: rows.len() as u64,
        sum: rows.iter().map(|row| row[4] as i64 - row[3] as i64).sum(),
        list: rows.concat(),
        ..Compared::default()
    })
}

/// How many records a file has, or the check's refusal of this one of the files.
fn records(file: &[u8], which: u64, work_places: usize) -> Result<usize, Compared> {
    let checked = check(file, work_places);
    match checked.number {
        0 => Ok(checked.records as usize),
        number => Err(Compared {
            number,
            place: checked.place,
            which,
            ..Compared::default()
        }),
    }
}

/// Counts all records of a file.
fn count<'a>(counted: &mut Counted<'a>, at: usize, file: &'a [u8], records: usize) {
    let all = read(file, &Query::default(), records);
    for (offset, length) in all.results.into_iter().map(unpack) {
        let copies = &mut counted.entry(part(file, offset, length)).or_default()[at];
        if copies.count == 0 || offset < copies.lowest {
            copies.lowest = offset;
        }
        copies.count += 1;
    }
}

fn is_uneven((_, [first, second]): &(&[u8], [Copies; 2])) -> bool {
    first.count != second.count
}

/// The five numbers of a difference.
fn row((bytes, [first, second]): (&[u8], [Copies; 2])) -> [u64; 5] {
    let (which, lowest) = match first.count {
        0 => (2, second.lowest),
        _ => (1, first.lowest),
    };
    let length = bytes.len() as u64;
    [which, lowest, length, first.count, second.count]
}

/// Which file, offset and length of the part that is handed back: the very part asked for, or the first file's empty one at 0.
pub fn show(first: &[u8], second: &[u8], which: u64, offset: u64, length: u64) -> (u64, u64, u64) {
    let file = match which {
        1 => Some(first),
        2 => Some(second),
        _ => None,
    };
    match file.filter(|file| within(file, offset, length)) {
        Some(_) => (which, offset, length),
        None => (1, 0, 0),
    }
}

/// The bytes of that part.
pub fn shown<'a>(
    first: &'a [u8],
    second: &'a [u8],
    which: u64,
    offset: u64,
    length: u64,
) -> &'a [u8] {
    let (which, offset, length) = show(first, second, which, offset, length);
    let file = if which == 2 { second } else { first };
    part(file, offset, length)
}

/// The bytes of a part that lies within the file.
fn part(file: &[u8], offset: u64, length: u64) -> &[u8] {
    let rest = file.get(offset as usize..).unwrap_or(&[]);
    rest.get(..length as usize).unwrap_or(&[])
}
