//! Pairs of files to be compared: a drawn file, and a second one that has its records in another shape, or others near them.

use crate::faults::{draw_faulty, NUMBERS};
use crate::shapes::{reshape, shape};
use crate::strings::vary;
use zs_reference::maker::random::Random;
use zs_reference::reader::{check, read, unpack, Query};

/// A file and the one that it is compared with.
pub type Pair = [Vec<u8>; 2];

/// Files with more records are compared with nothing.
const MOST_RECORDS: u64 = 1000;

/// Draws pairs with this file: where it is accepted, it comes first or second; where it is refused, it does both.
pub fn draw_pairs(random: &mut Random, file: &[u8]) -> Vec<Pair> {
    let checked = check(file, usize::MAX);
    if checked.records > MOST_RECORDS {
        return Vec::new();
    }
    if checked.number != 0 {
        let other = draw_any(random);
        return vec![[file.to_vec(), other.clone()], [other, file.to_vec()]];
    }
    let other = draw_related(random, file);
    if random.once_in(2) {
        vec![[file.to_vec(), other]]
    } else {
        vec![[other, file.to_vec()]]
    }
}

/// Draws a file that has nothing to do with another: a sound one mostly, and a refused one at times.
fn draw_any(random: &mut Random) -> Vec<u8> {
    if random.once_in(8) {
        let number = random.pick(&NUMBERS);
        return draw_faulty(random, number).1;
    }
    let records = (0..1 + random.below(3)).map(|_| random.string(3)).collect();
    reshape(random, records).bytes()
}

/// Draws a second file for an accepted one: itself, or one with the same records, with other copies of them, with some more or fewer, with none
/// of them, or with greater ones only.
fn draw_related(random: &mut Random, file: &[u8]) -> Vec<u8> {
    let mut records = records_of(file);
    match random.below(9) {
        0 => return file.to_vec(),
        1 => {}
        2 => change_copies(random, &mut records),
        3 | 4 => records = greater(&records),
        5 => return shape(random).bytes(),
        6 => thin_out(random, &mut records),
        _ => {
            for _ in 0..1 + random.below(4) {
                change(random, &mut records);
            }
        }
    }
    reshape(random, records).bytes()
}

/// The records of an accepted file.
pub fn records_of(file: &[u8]) -> Vec<Vec<u8>> {
    let places = check(file, usize::MAX).records as usize;
    let all = read(file, &Query::default(), places);
    let parts = all.results.into_iter().map(unpack);
    let bytes = |(offset, length)| file[offset as usize..][..length as usize].to_vec();
    parts.map(bytes).collect()
}

/// Gives some of the strings other numbers of copies; none is lost and none is new.
fn change_copies(random: &mut Random, records: &mut Vec<Vec<u8>>) {
    let mut strings = records.clone();
    strings.dedup();
    let certain = random.below(strings.len());
    for (at, string) in strings.into_iter().enumerate() {
        if at == certain || random.once_in(3) {
            records.retain(|record| *record != string);
            let copies = 1 + random.below(6);
            records.extend(vec![string; copies]);
        }
    }
}

/// Takes records away, but for one.
fn thin_out(random: &mut Random, records: &mut Vec<Vec<u8>>) {
    let certain = records[random.below(records.len())].clone();
    records.retain(|_| random.once_in(2));
    records.push(certain);
}

/// Takes a record away, changes it, adds copies of it, or adds one near it, a long one or an empty one.
fn change(random: &mut Random, records: &mut Vec<Vec<u8>>) {
    let at = random.below(records.len());
    let record = records[at].clone();
    match random.below(6) {
        0 if records.len() > 1 => drop(records.remove(at)),
        1 => {
            let copies = 1 + random.below(5);
            records.extend(vec![record; copies]);
        }
        2 => records.push(Vec::new()),
        3 => records[at] = vary(random, &record),
        4 => records.push([&record[..], &[0x61; 128]].concat()),
        _ => records.push(vary(random, &record)),
    }
}

/// The same strings after one that is greater than all of them.
fn greater(records: &[Vec<u8>]) -> Vec<Vec<u8>> {
    let last = records.iter().max().cloned().unwrap_or_default();
    let behind = |record: &Vec<u8>| [&last[..], &[0x00], record].concat();
    records.iter().map(behind).collect()
}
