//! The second import of SIM phonebooks on fields of a few bytes by enumeration, and on drawn records.

use std::collections::{BTreeMap, BTreeSet};

use crate::sim::{form, import_field, named, AMPLE, NUMBER};
use crate::support::sim::{faults, is_filling, names};
use zs_reference::maker::adn;
use zs_reference::maker::random::Random;
use zs_reference::sim::import;
use zs_reference::writer::{write, Counts};

/// Every field of at most four bytes among those that matter, and what stands in it when every cut is tried.
#[test]
fn names_by_enumeration() {
    let letters = [
        0x00, 0x01, 0x02, 0x41, 0x7f, 0x80, 0x81, 0x82, 0x83, 0xfe, 0xff,
    ];
    let mut fields: Vec<Vec<u8>> = vec![Vec::new()];
    let mut sound = 0;
    for at in 0.. {
        let field = match fields.get(at) {
            Some(field) => field.clone(),
            None => break,
        };
        if field.len() < 4 {
            let longer = letters
                .iter()
                .map(|letter| [&field[..], &[*letter]].concat());
            fields.extend(longer);
        }
        let names = names(&field);
        assert!(names.len() <= 1, "{names:02x?}");
        let due = names.first().map_or(Err(33), |name| named(name));
        sound += usize::from(due.is_ok());
        assert_eq!(import_field(&field), due, "{field:02x?}");
    }
    assert!(sound > 400, "{sound} names");
}

/// Records drawn of few bytes, most of them with faults: each is refused for the first that it has, and is imported where it has none.
/// Two give equal records exactly if their names and the 14 bytes are equal.
#[test]
fn drawn_records() {
    let mut random = Random::new(5);
    let (mut seen, mut made) = (BTreeSet::new(), BTreeMap::new());
    for _ in 0..200_000 {
        let record = draw_record(&mut random);
        let length = record.len() - 14;
        let (field, rest) = record.split_at(length);
        let given = import(&record, length as u64, AMPLE);
        if is_filling(&record) {
            assert_eq!(given, Ok(Vec::new()));
            continue;
        }
        let faults = faults(field, rest);
        assert_eq!(given.as_ref().err(), faults.iter().next(), "{record:02x?}");
        seen.insert(faults);
        if let Ok(output) = given {
            let parts = (names(field)[0].to_vec(), rest.to_vec());
            assert_eq!(output, form(&[[&parts.0[..], &parts.1].concat()]));
            let other = made.entry(output).or_insert_with(|| parts.clone());
            assert_eq!(*other, parts);
        }
    }
    assert_eq!(seen.len(), 4);
}

fn draw_record(random: &mut Random) -> Vec<u8> {
    let length = random.below(8);
    let letters = [0x00, 0x01, 0x02, 0x03, 0x80, 0x81, 0x82, 0xff, 0xff, 0xff];
    let mut record: Vec<u8> = (0..length).map(|_| random.pick(&letters)).collect();
    record.resize(length + 14, random.pick(&[0x00, 0xff]));
    record[length] = random.pick(&[0, 1, 11, 12, 0xff]);
    record
}

/// What is imported, if anything is, the writer takes.
#[test]
fn the_writer_takes_what_is_imported() {
    let counts = Counts {
        per_block: 2,
        per_index: 2,
    };
    let mut random = Random::new(6);
    for records in 1..200 {
        let mut dump = Vec::new();
        for _ in 0..records {
            let mut rest = NUMBER;
            rest[1] = random.next() as u8;
            let name = vec![b'A' + random.below(3) as u8; random.below(4)];
            dump.extend(adn(&name, 3, rest));
        }
        let output = import(&dump, 3, AMPLE).expect("records");
        assert!(write(b"{}", &output, counts, AMPLE).is_ok());
    }
    assert_eq!(write(b"{}", &[], counts, AMPLE), Err(28));
}
