//! What the makers of files and inputs promise: sound shapes are accepted and every unusual one comes up, and nothing depends on chance.

use std::collections::BTreeSet;

use zs_differential::damage::{repair, Repair};
use zs_differential::drawing::{draw, Drawing};
use zs_differential::faults::{bad_metadata, draw_faulty, NUMBERS};
use zs_differential::inputs::{draw_input, Input};
use zs_differential::shapes::shape;
use zs_library::refusals::{numbers, Call};
use zs_reference::maker::random::Random;
use zs_reference::maker::{Content, Entry, Image, Plan, Target};
use zs_reference::reader::check;
use zs_reference::writer::write;

const AMPLE: usize = 1000;

#[test]
fn sound_shapes_are_accepted_and_none_is_missing() {
    let mut random = Random::new(1);
    let mut seen = BTreeSet::new();
    for _ in 0..600 {
        let image = shape(&mut random).image();
        assert_eq!(check(&image.bytes(), AMPLE).number, 0, "{image:?}");
        note_blocks(&image, &mut seen);
        note_keys(&image, &mut seen);
        note_records(&image, &mut seen);
        let length = image.metadata.len();
        note(&mut seen, (3..100).contains(&length), "small metadata");
        note(&mut seen, length > 255, "long metadata");
    }
    assert_eq!(seen.len(), 17, "{seen:?}");
}

type Seen = BTreeSet<&'static str>;

fn note(seen: &mut Seen, holds: bool, what: &'static str) {
    if holds {
        seen.insert(what);
    }
}

/// Levels in file order: where index blocks and reserved blocks stand, and how high the tree is.
fn note_blocks(image: &Image, seen: &mut Seen) {
    let levels: Vec<u8> = image.blocks.iter().filter_map(|plan| plan.level).collect();
    let first = levels.iter().position(|level| *level == 0).unwrap_or(0);
    let last = levels.iter().rposition(|level| *level == 0).unwrap_or(0);
    let is_index = |level: &u8| (1..64).contains(level);
    note(seen, levels[..first].iter().any(is_index), "index before");
    note(
        seen,
        levels[first..last].iter().any(is_index),
        "index between",
    );
    note(seen, levels[last..].iter().any(is_index), "index after");
    note(
        seen,
        levels[first..last].iter().any(|l| *l >= 64),
        "reserved between",
    );
    note(seen, levels.contains(&63), "level 63");
    note(seen, levels.len() > 15, "many blocks");
}

fn note_keys(image: &Image, seen: &mut Seen) {
    for plan in &image.blocks {
        if let Content::Entries(entries) = &plan.content {
            note(seen, entries.len() == 1, "one entry");
            let equal = entries.windows(2).any(|pair| pair[0].key == pair[1].key);
            note(seen, equal, "equal keys");
            note(seen, entries.iter().any(|e| e.key.is_empty()), "empty key");
            for pair in entries.windows(2) {
                note_child(image, &pair[0], &pair[1].key, seen);
            }
        }
    }
}

/// Keys of a child that lie outside its own bounds.
fn note_child(image: &Image, entry: &Entry, upper: &[u8], seen: &mut Seen) {
    if let Target::Block(child) = entry.target {
        if let Content::Entries(below) = &image.blocks[child].content {
            let under = below.iter().any(|e| e.key < entry.key);
            note(seen, under, "key under its parent's");
            let over = below.iter().any(|e| e.key.as_slice() > upper);
            assert!(!over, "the key rule keeps keys at or under the upper bound");
        }
    }
}

fn note_records(image: &Image, seen: &mut Seen) {
    let mut before: Option<Vec<u8>> = None;
    for plan in &image.blocks {
        if let Content::Records(records) = &plan.content {
            let equal = records.windows(2).any(|pair| pair[0] == pair[1]);
            note(seen, equal, "equal records");
            note(
                seen,
                before.as_ref() == records.first(),
                "equal across blocks",
            );
            note(seen, records.iter().any(Vec::is_empty), "empty record");
            note(
                seen,
                records.iter().any(|r| r.ends_with(&[0xff, 0xff])),
                "tail of FF",
            );
            note(seen, records.iter().any(|r| r.len() >= 128), "long record");
            before = records.last().cloned();
        }
    }
}

#[test]
fn inputs_of_every_shape() {
    let mut random = Random::new(6);
    let mut seen = BTreeSet::new();
    for turn in 1..1000 {
        let input = draw_input(&mut random, turn);
        if number_of(&input) == 0 {
            note_counts(&input, &mut seen);
            note_strings(&input, &mut seen);
        }
    }
    assert_eq!(seen.len(), 13, "{seen:?}");
}

/// The number that the second writer gives, with all the room that it asks for.
fn number_of(input: &Input) -> u64 {
    let given = write(&input.metadata, &input.records, input.counts, usize::MAX);
    given.err().unwrap_or(0)
}

fn note_counts(input: &Input, seen: &mut Seen) {
    let (records, per_block) = (input.strings.len() as u64, input.counts.per_block);
    note(seen, records == 1, "one record");
    note(seen, per_block == 1, "one record in a block");
    note(seen, per_block == 65_535, "most records in a block");
    note(seen, input.counts.per_index == 2, "two entries in a block");
    note(seen, input.counts.per_index == 65_535, "most entries");
    note(seen, records > 1 && records % per_block == 0, "full blocks");
    note(seen, records % per_block == 1, "one record in the last");
}

fn note_strings(input: &Input, seen: &mut Seen) {
    for (length, what) in [
        (0, "0 bytes"),
        (127, "127 bytes"),
        (128, "128 bytes"),
        (16_383, "16,383 bytes"),
        (16_384, "16,384 bytes"),
    ] {
        let has = input.strings.iter().any(|string| string.len() == length);
        note(seen, has, what);
    }
    let blocks: Vec<_> = input
        .strings
        .chunks(input.counts.per_block as usize)
        .collect();
    let across = |pair: &[&[Vec<u8>]]| pair[0].last() == pair[1].first();
    note(seen, blocks.windows(2).any(across), "equal across blocks");
}

/// Each fault alone, and each before each that comes after it: mended, an input has the later one or none.
#[test]
fn inputs_with_every_two_faults() {
    let mut random = Random::new(7);
    let mut seen = BTreeSet::new();
    for turn in 1..1000 {
        let mut input = draw_input(&mut random, turn);
        let number = number_of(&input);
        match number {
            30 => (input.counts.per_block, input.counts.per_index) = (1, 2),
            9 => input.metadata = b"{}".to_vec(),
            28 => input.records = Plan::data(&input.strings).payload(&[]),
            _ => continue,
        }
        seen.insert((number, number_of(&input)));
    }
    for due in [
        (30, 0),
        (30, 9),
        (30, 28),
        (30, 29),
        (9, 0),
        (9, 28),
        (9, 29),
        (28, 0),
        (28, 29),
    ] {
        assert!(seen.contains(&due), "{due:?} of {seen:?}");
    }
}

#[test]
fn large_inputs_are_sound() {
    let mut random = Random::new(8);
    for turn in (0..1200).step_by(200) {
        let input = draw_input(&mut random, turn);
        assert!(input.strings.len() >= 65_535);
        assert_eq!(number_of(&input), 0);
    }
}

#[test]
fn every_refusal_of_a_file_has_its_fault() {
    // 1 takes a file above 2^30 bytes, 18 a short work list.
    let due = numbers(Call::Check).filter(|number| ![1, 18].contains(number));
    assert_eq!(due.collect::<Vec<_>>(), NUMBERS);
}

#[test]
fn every_fault_can_be_made() {
    let mut random = Random::new(2);
    for number in NUMBERS {
        for _ in 0..20 {
            let (_, file) = draw_faulty(&mut random, number);
            assert_eq!(check(&file, AMPLE).number, number);
        }
    }
}

#[test]
fn texts_that_break_each_part_of_the_metadata_rule() {
    let mut random = Random::new(9);
    let mut seen = BTreeSet::new();
    for _ in 0..1000 {
        let text = bad_metadata(&mut random);
        let in_braces = text.starts_with(b"{") && text.ends_with(b"}");
        let is_utf8 = std::str::from_utf8(&text).is_ok();
        let is_deep = text.iter().filter(|byte| b"{[".contains(byte)).count() > 64;
        note(&mut seen, !in_braces, "no braces");
        note(&mut seen, in_braces && !is_utf8, "no UTF-8");
        note(&mut seen, in_braces && is_utf8 && is_deep, "too deep");
        note(&mut seen, in_braces && is_utf8 && !is_deep, "no JSON");
    }
    assert_eq!(seen.len(), 4, "{seen:?}");
}

#[test]
fn repairing_a_sound_file_changes_nothing() {
    let mut random = Random::new(3);
    for _ in 0..200 {
        let file = shape(&mut random).bytes();
        let mut repaired = file.clone();
        let what = Repair {
            blocks: true,
            hash: true,
            total: true,
        };
        repair(&mut repaired, what);
        assert_eq!(repaired, file);
    }
}

#[test]
fn a_seed_and_a_number_give_one_drawing() {
    for number in 0..200 {
        let (one, other) = (draw(4, number), draw(4, number));
        let told = |drawings: Vec<Drawing>| -> Vec<_> {
            let told = drawings.into_iter();
            told.map(|drawing| (drawing.bytes, drawing.calls)).collect()
        };
        assert_eq!(told(one), told(other));
        assert!(draw(5, number)
            .iter()
            .all(|drawing| !drawing.calls.is_empty()));
    }
}
