//! The samples: archives of invented contacts, and the phonebook of a SIM card, with telephone numbers that are reserved for fiction
//! (555-01xx, and 07700 900xxx in the United Kingdom).
//!
//! What is drawn is drawn from a fixed seed, so `samples/` in the repository can be made again byte for byte.

use crate::maker::random::Random;
use crate::maker::{Keys, Placing, Tree};

const GIVEN: [&str; 16] = [
    "Ada",
    "Bram",
    "Cleo",
    "Dov",
    "Edda",
    "Fenn",
    "Greta",
    "Hob",
    "Ines",
    "Jory",
    "Kip",
    "Lou\u{ff}se",
    "Mo",
    "Nell",
    "Otto",
    "Pia",
];
const FAMILY: [&str; 14] = [
    "Anyname",
    "Blank",
    "Dummy",
    "Exampleton",
    "Fictional",
    "Imagine",
    "Invented",
    "Madeup",
    "Mockley",
    "Nobody",
    "Placeholder",
    "Pretend",
    "Sample",
    "Unreal",
];
const AREAS: [&str; 6] = ["201", "305", "412", "503", "617", "808"];

/// Contacts that are drawn, and those whose names begin with bytes FF.
const DRAWN: usize = 1400;
const UNLISTED: usize = 60;
/// A record that stands in many blocks, to show that equal records are all found.
const REPEATED: &str = "Echo Repeated\t201-555-0100";
const TIMES_REPEATED: usize = 40;

/// The bytes for a name in a record of the phonebook.
pub const NAME_LENGTH: usize = 14;
/// The bytes for a number, and what belongs to it.
const NUMBER_LENGTH: usize = 14;
/// What fills a field after its contents, and a record that is free.
const FILLING: u8 = 0xff;

/// A name and the file of that name.
pub struct Sample {
    /// The file's name.
    pub name: &'static str,
    /// The file.
    pub bytes: Vec<u8>,
}

/// All samples.
pub fn all() -> Vec<Sample> {
    let mut samples = archives();
    samples.push(Sample {
        name: "sim-phonebook.adn",
        bytes: phonebook().concat(),
    });
    samples
}

/// Those that are archives.
pub fn archives() -> Vec<Sample> {
    let sample = |name, bytes| Sample { name, bytes };
    vec![
        sample("contacts.zs", contacts()),
        sample("contacts-older.zs", older_contacts()),
        sample("small.zs", small()),
    ]
}

/// About fifteen hundred contacts in four levels.
fn contacts() -> Vec<u8> {
    let about =
        br#"{"about": "invented sample contacts", "record": "name TAB number", "text": "Latin-1"}"#;
    tree(contact_records(), 12, 6, about).bytes()
}

/// An older backup of the contacts, in larger blocks: three were added since, one got another number, one was deleted, and the repeated record
/// was there less often.
fn older_contacts() -> Vec<u8> {
    let mut records = contact_records();
    records.truncate(DRAWN + UNLISTED + TIMES_REPEATED - 2);
    for added in [DRAWN + UNLISTED - 1, 1100, 700] {
        records.remove(added);
    }
    if let Some(digit) = records[300].last_mut() {
        *digit = b'0';
    }
    records.push(b"Greta Mockley\t617-555-0118".to_vec());
    let about = br#"{"about": "invented sample contacts, an older backup"}"#;
    tree(records, 50, 8, about).bytes()
}

/// The contacts in the order in which they are drawn.
fn contact_records() -> Vec<Vec<u8>> {
    let mut random = Random::new(1955);
    let mut records: Vec<Vec<u8>> = (0..DRAWN).map(|_| contact(&mut random)).collect();
    records.extend((0..UNLISTED).map(unlisted_contact));
    records.extend(vec![REPEATED.as_bytes().to_vec(); TIMES_REPEATED]);
    records
}

/// A few contacts, few enough for every bit to be flipped.
fn small() -> Vec<u8> {
    let mut random = Random::new(12);
    let mut records: Vec<Vec<u8>> = (0..9).map(|_| contact(&mut random)).collect();
    records.extend((0..2).map(unlisted_contact));
    records.extend(vec![REPEATED.as_bytes().to_vec(); 3]);
    let mut tree = tree(records, 2, 3, br#"{"about": "invented sample contacts"}"#);
    tree.reserved = vec![(3, 64, b"reserved, to be passed over".to_vec())];
    tree.bytes()
}

/// The records in order, so many to a block, with so many entries to an index block.
fn tree(mut records: Vec<Vec<u8>>, to_a_block: usize, fan_out: usize, metadata: &[u8]) -> Tree {
    records.sort();
    let mut tree = Tree::new::<Vec<u8>>(&[]);
    tree.groups = records.chunks(to_a_block).map(<[_]>::to_vec).collect();
    tree.fan_out = vec![fan_out];
    tree.keys = Keys::Separator;
    tree.placing = Placing::AfterChildren;
    tree.metadata = metadata.to_vec();
    tree
}

fn contact(random: &mut Random) -> Vec<u8> {
    let name = format!("{} {}", random.pick(&GIVEN), random.pick(&FAMILY));
    let mut record = latin_1(&name);
    record.extend(format!("\t{}-555-01{:02}", random.pick(&AREAS), random.below(100)).bytes());
    record
}

/// A contact whose name begins with bytes FF, which are above all letters.
fn unlisted_contact(number: usize) -> Vec<u8> {
    let mut record = vec![0xff; 1 + number % 3];
    record.extend(format!("unlisted {number:02}\t555-01{number:02}").bytes());
    record
}

/// One byte for each letter; none above FF stands in the names.
fn latin_1(text: &str) -> Vec<u8> {
    text.chars().map(|letter| letter as u8).collect()
}

/// The records of a phonebook as a SIM card has them (file EF ADN of 3GPP TS 51.011): names in every coding, with bytes FF in all but the
/// plain one, names that fill their field, none, records that are equal, and free ones.
pub fn phonebook() -> Vec<Vec<u8>> {
    let echo = || entry(b"Echo Repeated", "2015550100");
    let free = || vec![FILLING; NAME_LENGTH + NUMBER_LENGTH];
    vec![
        entry(b"Greta Mockley", "8085550136"),
        entry(b"Ada Blank", "4125550193"),
        echo(),
        free(),
        entry(&in_pairs("Lo\u{ff}se"), "2015550152"),
        entry(&above_page(0x01, "Lo\u{ff}se"), "2015550153"),
        entry(&above_base(0x0080, "Lo\u{ff}se"), "2015550154"),
        entry(b"", "5550147"),
        // The name ends with the second pair: FF FF stands across the two.
        entry(&in_pairs("\u{ff}\u{ff21}"), "3055550120"),
        entry(
            &in_pairs("\u{ff2f}\u{ff34}\u{ff34}\u{ff2f} \u{ff}"),
            "5035550132",
        ),
        echo(),
        free(),
        free(),
        entry(b"Fenn Fictional", "6175550118"),
        entry(
            &above_base(0xff00, "\u{ff21}\u{ff24}\u{ff21}"),
            "4125550193",
        ),
        entry(&above_page(0x01, "Hob Unreal\u{ff}"), "8085550191"),
        entry(b"Ines Pretend", "+447700900123"),
        entry(b"Greta Mockley", "2015550191"),
        echo(),
        free(),
    ]
}

/// A record: the name and the number, each in a field that is filled up.
fn entry(name: &[u8], number: &str) -> Vec<u8> {
    let mut record = name.to_vec();
    record.resize(NAME_LENGTH, FILLING);
    record.extend(dialled(number));
    record.resize(NAME_LENGTH + NUMBER_LENGTH, FILLING);
    record
}

/// Coding 80: two bytes for each letter.
fn in_pairs(name: &str) -> Vec<u8> {
    let letters = name.encode_utf16().flat_map(u16::to_be_bytes);
    std::iter::once(0x80).chain(letters).collect()
}

/// Coding 81: a byte for each letter, those from 80 up above the start of a half page of letters.
fn above_page(page: u8, name: &str) -> Vec<u8> {
    counted(
        &[0x81, name.chars().count() as u8, page],
        u32::from(page) << 7,
        name,
    )
}

/// Coding 82: the same above any letter.
fn above_base(base: u16, name: &str) -> Vec<u8> {
    let [high, low] = base.to_be_bytes();
    counted(
        &[0x82, name.chars().count() as u8, high, low],
        base.into(),
        name,
    )
}

fn counted(head: &[u8], base: u32, name: &str) -> Vec<u8> {
    let letters = name.chars().map(|letter| match u32::from(letter) {
        plain @ 0..=0x7f => plain as u8,
        other => 0x80 + (other - base) as u8,
    });
    head.iter().copied().chain(letters).collect()
}

/// A number as it is stored: the length of what follows, the kind of number, and two digits to a byte, the first one lower.
fn dialled(number: &str) -> Vec<u8> {
    let (kind, digits) = match number.strip_prefix('+') {
        Some(digits) => (0x91, digits),
        None => (0x81, number),
    };
    let digits: Vec<u8> = digits.bytes().map(|digit| digit - b'0').collect();
    let bytes = digits
        .chunks(2)
        .map(|pair| pair[0] | pair.get(1).unwrap_or(&0xf) << 4);
    let mut stored: Vec<u8> = std::iter::once(kind).chain(bytes).collect();
    stored.insert(0, stored.len() as u8);
    stored
}
