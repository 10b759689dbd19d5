//! Phonebooks of SIM cards, as their cards have them.

use std::iter::once;

use zs_reference::maker::random::Random;

/// The bytes for a name, where a test needs no other number.
pub const NAME_LENGTH: usize = 14;
/// The same as an argument.
pub const FOURTEEN: &[&str] = &["--name-length", "14", "--metadata", "{}"];
/// The bytes for a number, and what belongs to it.
pub const NUMBER_LENGTH: usize = 14;
/// 201-555-0152.
pub const NUMBER: [u8; NUMBER_LENGTH] =
    *b"\x06\x81\x02\x51\x55\x10\x25\xff\xff\xff\xff\xff\xff\xff";

/// A name and a number.
#[derive(Clone)]
pub struct Contact {
    pub name: Vec<u8>,
    pub number: [u8; NUMBER_LENGTH],
}

impl Contact {
    pub fn new(name: &[u8]) -> Self {
        Contact {
            name: name.to_vec(),
            number: NUMBER,
        }
    }

    /// Its record on a card with so many bytes for the name.
    pub fn on_card(&self, name_length: usize) -> Vec<u8> {
        let mut record = self.name.clone();
        record.resize(name_length, 0xff);
        [&record, &self.number[..]].concat()
    }

    /// Its record in an archive.
    pub fn in_archive(&self) -> Vec<u8> {
        [&self.name, &self.number[..]].concat()
    }

    /// Draws a contact whose name fits in so many bytes: of any coding, with bytes FF wherever there may be some.
    pub fn draw(random: &mut Random, name_length: usize) -> Self {
        let mut number = [0; NUMBER_LENGTH].map(|_| random.pick(&[0x00, 0x21, 0xff]));
        number[0] = random.below(12) as u8;
        let name = draw_name(random, name_length);
        Contact { name, number }
    }
}

/// A record that is free.
pub fn free(name_length: usize) -> Vec<u8> {
    vec![0xff; name_length + NUMBER_LENGTH]
}

/// The records of an archive of these contacts.
pub fn sorted(contacts: &[Contact]) -> Vec<Vec<u8>> {
    let mut records: Vec<Vec<u8>> = contacts.iter().map(Contact::in_archive).collect();
    records.sort();
    records
}

/// A dump of these contacts.
pub fn dump(contacts: &[Contact], name_length: usize) -> Vec<u8> {
    let records = contacts.iter().map(|contact| contact.on_card(name_length));
    records.collect::<Vec<_>>().concat()
}

fn draw_name(random: &mut Random, name_length: usize) -> Vec<u8> {
    let any = |random: &mut Random, most: usize| -> Vec<u8> {
        let length = random.below(most + 1);
        (0..length)
            .map(|_| random.pick(&[0x00, 0x41, 0x80, 0xff]))
            .collect()
    };
    // The bytes before the letters: coding, count and base.
    match (random.below(4), name_length) {
        (1, 1..) => draw_pairs(random, (name_length - 1) / 2),
        (2, 3..) => {
            let letters = any(random, name_length - 3);
            let head = [0x81, letters.len() as u8, random.pick(&[0x01, 0xff])];
            [&head[..], &letters].concat()
        }
        (3, 4..) => {
            let letters = any(random, name_length - 4);
            let head = [0x82, letters.len() as u8, 0xff, random.pick(&[0x00, 0xff])];
            [&head[..], &letters].concat()
        }
        _ => any(random, name_length)
            .iter()
            .map(|byte| byte % 0x80)
            .collect(),
    }
}

/// Coding 80, with any pairs but FF FF.
fn draw_pairs(random: &mut Random, most: usize) -> Vec<u8> {
    let pairs = [[0x00, 0x41], [0x00, 0xff], [0xff, 0x21], [0xff, 0x00]];
    let letters = (0..random.below(most + 1)).flat_map(|_| random.pick(&pairs));
    once(0x80).chain(letters).collect()
}
