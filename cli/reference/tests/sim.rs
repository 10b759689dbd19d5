//! The second import of SIM phonebooks: dumps that can be worked out by hand, and its refusals in order.

use zs_reference::corpus::Corpus;
use zs_reference::maker::{adn, Plan};
use zs_reference::sim::import;

pub const AMPLE: usize = 1 << 20;

/// A number of two bytes, which all others of these tests are made of.
pub const NUMBER: [u8; 14] = *b"\x03\x81\x21\x43\xff\xff\xff\xff\xff\xff\xff\xff\xff\xff";

/// Records in the form that the writer takes.
pub fn form<R: AsRef<[u8]>>(records: &[R]) -> Vec<u8> {
    Plan::data(records).payload(&[])
}

/// What a dump of one record gives whose name field is these bytes.
pub fn import_field(field: &[u8]) -> Result<Vec<u8>, u64> {
    import(&[field, &NUMBER].concat(), field.len() as u64, AMPLE)
}

/// The answer due where the name is these bytes.
pub fn named(name: &[u8]) -> Result<Vec<u8>, u64> {
    Ok(form(&[[name, &NUMBER].concat()]))
}

/// The dump of docs/FORMAT.md, which is a stored one too.
const EXAMPLE: &str = "
    80 04 10 ff ff ff  03 81 21 43 ff ff ff ff ff ff ff ff ff ff
    41 64 61 ff ff ff  0b 91 12 34 56 78 90 12 34 56 78 90 00 01
    ff ff ff ff ff ff  ff ff ff ff ff ff ff ff ff ff ff ff ff ff
    ff ff ff ff ff ff  03 81 21 43 ff ff ff ff ff ff ff ff ff ff";

/// What docs/FORMAT.md says is imported of it.
const IMPORTED: &str = "
    0e  03 81 21 43 ff ff ff ff ff ff ff ff ff ff
    11  41 64 61  0b 91 12 34 56 78 90 12 34 56 78 90 00 01
    11  80 04 10  03 81 21 43 ff ff ff ff ff ff ff ff ff ff";

fn bytes_of(page: &str) -> Vec<u8> {
    let bytes = page.split_whitespace();
    bytes
        .map(|byte| u8::from_str_radix(byte, 16).expect("two digits"))
        .collect()
}

#[test]
fn example_of_the_page() {
    let (dump, due) = (bytes_of(EXAMPLE), bytes_of(IMPORTED));
    assert_eq!((dump.len(), due.len()), (80, 51));
    assert_eq!(import(&dump, 6, 51), Ok(due));
    assert_eq!(import(&dump, 6, 50), Err(31));
    let files = Corpus::whole().files;
    let stored = files.iter().find(|file| file.name == "import-example");
    assert_eq!(stored.expect("a stored dump").bytes, dump);
}

/// Bytes below 80 up to the first FF or the field's end.
#[test]
fn plain_names() {
    for (field, name) in [
        (&b"Ada"[..], &b"Ada"[..]),
        (b"Ada\xff\xff", b"Ada"),
        (b"\x00\x7f\xff", b"\x00\x7f"),
        (b"\xff\xff\xff", b""),
        (b"\xff", b""),
        (b"", b""),
    ] {
        assert_eq!(import_field(field), named(name), "{field:02x?}");
    }
    for field in [
        &b"A\xffa"[..],
        b"\xff\xffa",
        b"A\x80",
        b"A\xfe\xff",
        b"A\x81\x00\x00",
        b"\xff\x80",
    ] {
        assert_eq!(import_field(field), Err(33), "{field:02x?}");
    }
    for first in 0x83..=0xfe {
        assert_eq!(import_field(&[first]), Err(33));
        assert_eq!(import_field(&[first, 0xff, 0xff, 0xff]), Err(33));
        assert_eq!(import_field(&[first, 0x00, 0x00, 0xff]), Err(33));
    }
}

/// 80: pairs from the second byte on, up to the first pair FF FF or the end. A lone last byte is FF.
#[test]
fn names_of_pairs() {
    for (field, name) in [
        (&b"\x80"[..], &b"\x80"[..]),
        (b"\x80\xff", b"\x80"),
        (b"\x80\xff\xff", b"\x80"),
        (b"\x80\xff\xff\xff", b"\x80"),
        (b"\x80\x04\x10", b"\x80\x04\x10"),
        (b"\x80\x04\x10\xff", b"\x80\x04\x10"),
        (b"\x80\x04\xff\xff\xff", b"\x80\x04\xff"),
        (b"\x80\x04\xff\xff\xff\xff", b"\x80\x04\xff"),
        (b"\x80\xff\x04\x04\x10", b"\x80\xff\x04\x04\x10"),
        (b"\x80\x04\xff\xff\x10\xff\xff", b"\x80\x04\xff\xff\x10"),
        (b"\x80\x80\x81\x82\xff", b"\x80\x80\x81\x82\xff"),
    ] {
        assert_eq!(import_field(field), named(name), "{field:02x?}");
    }
    for field in [
        &b"\x80\x04"[..],
        b"\x80\x00",
        b"\x80\xff\xff\x04",
        b"\x80\x04\x10\x04",
        b"\x80\x04\x10\xff\xff\x04\x10",
        b"\x80\x04\x10\xff\xff\xff\x04",
    ] {
        assert_eq!(import_field(field), Err(33), "{field:02x?}");
    }
}

/// 81 and 82: a count, a base of one byte or two, and so many bytes, any of which may be FF.
#[test]
fn counted_names() {
    for (field, name) in [
        (&b"\x81\x00\x08"[..], &b"\x81\x00\x08"[..]),
        (b"\x81\x00\xff\xff", b"\x81\x00\xff"),
        (b"\x81\x02\x08\x96\x41", b"\x81\x02\x08\x96\x41"),
        (b"\x81\x02\x08\xff\xff", b"\x81\x02\x08\xff\xff"),
        (b"\x81\x01\x08\xff\xff", b"\x81\x01\x08\xff"),
        (b"\x81\x01\xff\x00\xff\xff", b"\x81\x01\xff\x00"),
        (b"\x82\x00\x05\x30", b"\x82\x00\x05\x30"),
        (b"\x82\x00\xff\xff\xff", b"\x82\x00\xff\xff"),
        (b"\x82\x02\x05\x30\x82\x41", b"\x82\x02\x05\x30\x82\x41"),
        (b"\x82\x02\x05\xff\xff\xff", b"\x82\x02\x05\xff\xff\xff"),
        (b"\x82\x01\xff\xff\xff\xff\xff", b"\x82\x01\xff\xff\xff"),
    ] {
        assert_eq!(import_field(field), named(name), "{field:02x?}");
    }
    for field in [
        &b"\x81"[..],
        b"\x81\x00",
        b"\x81\xff",
        b"\x81\x01\x08",
        b"\x81\xff\xff",
        b"\x81\x03\x08\x96\x41",
        b"\x81\x01\x08\x96\x41",
        b"\x81\x00\x08\x00",
        b"\x82",
        b"\x82\x00",
        b"\x82\x00\x05",
        b"\x82\x01\x05\x30",
        b"\x82\xff\xff\xff\xff",
        b"\x82\x01\x05\x30\x82\x41",
        b"\x82\x00\x05\x30\xfe",
    ] {
        assert_eq!(import_field(field), Err(33), "{field:02x?}");
    }
}

/// Counts as great as the longest field takes, and one more.
#[test]
fn greatest_counts() {
    for (coding, base) in [(0x81, 1), (0x82, 2)] {
        let most = 241 - 2 - base;
        let mut field = vec![0xff; 241];
        field[..2].copy_from_slice(&[coding, most as u8]);
        assert_eq!(import_field(&field), named(&field));
        field[1] += 1;
        assert_eq!(import_field(&field), Err(33));
        field[1] = 0xff;
        assert_eq!(import_field(&field), Err(33));
        field[1] = most as u8 - 1;
        assert_eq!(import_field(&field), named(&field[..240]));
    }
}

/// Names from 0 to 241 bytes; the length of a record takes two bytes from 128 on.
#[test]
fn every_length_of_the_field() {
    for length in 0..=241 {
        let field = vec![b'n'; length];
        let output = import_field(&field).expect("a record");
        assert_eq!(named(&field), Ok(output.clone()));
        assert_eq!(
            output.len(),
            if length < 114 {
                length + 15
            } else {
                length + 16
            }
        );
        let free = vec![0xff; length + 14];
        assert_eq!(import(&free, length as u64, 0), Ok(Vec::new()));
    }
    for length in [242, 243, 255, 256, 1 << 32, u64::MAX - 13, u64::MAX] {
        assert_eq!(import(&[], length, AMPLE), Err(32));
        assert_eq!(import(&[0xff; 256], length, AMPLE), Err(32));
    }
}

#[test]
fn sizes() {
    assert_eq!(import(&[], 0, 0), Ok(Vec::new()));
    assert_eq!(import(&[], 241, 0), Ok(Vec::new()));
    for size in 0..100 {
        let dump = vec![0xff; size];
        let due = if size % 17 == 0 {
            Ok(Vec::new())
        } else {
            Err(32)
        };
        assert_eq!(import(&dump, 3, AMPLE), due, "{size} bytes");
    }
    assert_eq!(import(&[0xff; 13], 0, AMPLE), Err(32));
    assert_eq!(import(&[0xff; 255], 241, AMPLE), Ok(Vec::new()));
    assert_eq!(import(&[0xff; 256], 242, AMPLE), Err(32));
}

/// Free records are nothing but FF. A field of FF with a number is an empty name, and no name with an unset number is refused.
#[test]
fn free_records() {
    let free = [0xff; 17];
    let nameless = adn(b"", 3, NUMBER);
    let dump = [&free, &nameless[..], &free, &free].concat();
    assert_eq!(import(&dump, 3, AMPLE), Ok(form(&[NUMBER])));
    assert_eq!(import(&[free; 3].concat(), 3, 0), Ok(Vec::new()));

    let mut last = free;
    last[16] = 0xfe;
    assert_eq!(import(&last, 3, AMPLE), Err(34));
    assert_eq!(import(&adn(b"A", 3, [0xff; 14]), 3, AMPLE), Err(34));
    assert_eq!(import(&NUMBER, 0, AMPLE), Ok(form(&[NUMBER])));
    assert_eq!(import(&[0xff; 14], 0, AMPLE), Ok(Vec::new()));
}

#[test]
fn lengths_of_numbers() {
    for length in 0..=255 {
        let mut rest = [0xff; 14];
        rest[0] = length;
        rest[1] = 0x81;
        let due = if length <= 11 {
            Ok(form(&[rest]))
        } else {
            Err(34)
        };
        assert_eq!(import(&rest, 0, AMPLE), due, "{length}");
    }
}

#[test]
fn equal_records_stay() {
    let (ada, bo) = (adn(b"Ada", 5, NUMBER), adn(b"Bo", 5, NUMBER));
    let dump = [&bo[..], &ada, &bo, &ada, &bo].concat();
    let record = |name: &[u8]| [name, &NUMBER].concat();
    let [ada, bo] = [record(b"Ada"), record(b"Bo")];
    let due = form(&[&ada, &ada, &bo, &bo, &bo]);
    assert_eq!(import(&dump, 5, AMPLE), Ok(due));
}

/// Records are compared whole: the 14 bytes of the one go against the name of the other.
#[test]
fn records_and_not_names_are_sorted() {
    let mut rest = NUMBER;
    rest[0] = 0x0b;
    let dump = [adn(b"\x41", 2, rest), adn(b"\x41\x05", 2, rest)].concat();
    let record = |name: &[u8]| [name, &rest].concat();
    let due = form(&[record(b"\x41\x05"), record(b"\x41")]);
    assert_eq!(import(&dump, 2, AMPLE), Ok(due.clone()));
    let dump = [adn(b"\x41\x05", 2, rest), adn(b"\x41", 2, rest)].concat();
    assert_eq!(import(&dump, 2, AMPLE), Ok(due));
}

/// A record may begin another: the shorter is the lesser. Bytes are compared without sign.
#[test]
fn beginnings_and_high_bytes() {
    let plain = *b"\x02\x10\x21\x43\x00\x00\x00\x00\x00\x00\x00\x00\x00\x00";
    let short = [&b"A"[..], &plain].concat();
    let long = [&short[..], &plain].concat();
    let pair = [&b"\x80\x00\x41"[..], &plain].concat();
    let field = |record: &[u8]| adn(&record[..record.len() - 14], 20, plain);
    let dump = [&field(&pair)[..], &field(&long), &field(&short)].concat();
    let due = form(&[&short, &long, &pair]);
    assert_eq!(import(&dump, 20, AMPLE), Ok(due));
}

/// 32 first; then record by record, a name before its number; 31 last.
#[test]
fn refusals_in_order() {
    let sound = adn(b"A", 2, NUMBER);
    let name = adn(b"A\x80", 2, NUMBER);
    let number = adn(b"A", 2, [12; 14]);
    let both = adn(b"A\x80", 2, [12; 14]);
    for (records, due) in [
        (&[&sound, &name, &number][..], 33),
        (&[&sound, &number, &name], 34),
        (&[&number, &both], 34),
        (&[&both, &number], 33),
        (&[&both], 33),
        (&[&sound, &sound], 31),
    ] {
        let dump: Vec<u8> = records.iter().flat_map(|record| record.to_vec()).collect();
        assert_eq!(import(&dump, 2, 0), Err(due));
        assert_eq!(import(&dump[1..], 2, 0), Err(32));
        if due != 31 {
            assert_eq!(import(&dump, 2, AMPLE), Err(due));
        }
    }
}

#[test]
fn room_from_both_sides() {
    let dump = [adn(b"Bo", 130, NUMBER), adn(&[b'A'; 130], 130, NUMBER)].concat();
    let output = import(&dump, 130, AMPLE).expect("two records");
    assert_eq!(output.len(), 1 + 2 + 14 + 2 + 130 + 14);
    assert_eq!(import(&dump, 130, output.len()), Ok(output.clone()));
    assert_eq!(import(&dump, 130, output.len() - 1), Err(31));
    assert_eq!(import(&dump, 130, 0), Err(31));
    assert_eq!(import(&dump, 130, usize::MAX), Ok(output));
}
