//! Fictitious phonebooks of SIM cards, with their records in one order or another.

use zs_reference::maker::random::Random;

use crate::records::draw_name;

/// The bytes for a name in a record.
pub const NAME_LENGTH: usize = 24;
/// The bytes for a number, and what belongs to it.
const NUMBER_LENGTH: usize = 14;
/// What fills a field.
const FILLING: u8 = 0xff;

/// How the records of a phonebook stand.
#[derive(Debug, Clone, Copy, PartialEq, Eq)]
pub enum Order {
    /// As they were drawn.
    Random,
    /// The least first.
    Rising,
    /// The greatest first.
    Falling,
    /// One record, as often as the others have records.
    Equal,
}

impl Order {
    /// All of them, that which the others are held against first.
    pub const ALL: [Order; 4] = [Order::Random, Order::Rising, Order::Falling, Order::Equal];

    /// The order in a few words.
    pub fn name(self) -> &'static str {
        match self {
            Order::Random => "random order",
            Order::Rising => "rising",
            Order::Falling => "falling",
            Order::Equal => "all equal",
        }
    }

    /// Puts records, as they were drawn, into this order.
    pub fn arrange(self, records: &[Vec<u8>]) -> Vec<&[u8]> {
        let mut arranged: Vec<&[u8]> = records.iter().map(Vec::as_slice).collect();
        match self {
            Order::Random => {}
            Order::Rising => arranged.sort_unstable(),
            Order::Falling => arranged.sort_unstable_by(|one, other| other.cmp(one)),
            Order::Equal => arranged.fill(records[0].as_slice()),
        }
        arranged
    }
}

/// Draws records as an archive has them, all of them different, the same each time: a name, and 14 bytes for a number that is reserved for
/// fiction. None has the byte that ends a line.
pub fn records(count: usize) -> Vec<Vec<u8>> {
    let mut random = Random::new(2012);
    let mut record = |number| {
        let mut record = format!("{} {number:07}", draw_name(&mut random)).into_bytes();
        let digits = random.below(100) as u8;
        // Six bytes follow: the kind of number, and 201-555-01xx, two digits to a byte, the first one lower.
        record.extend([0x06, 0x81, 0x02, 0x51, 0x55, 0x10]);
        record.push(digits / 10 + digits % 10 * 16);
        record.resize(record.len() + 7, FILLING);
        record
    };
    (0..count).map(&mut record).collect()
}

/// The records as a card has them.
pub fn dump(records: &[&[u8]]) -> Vec<u8> {
    let mut dump = Vec::with_capacity(records.len() * (NAME_LENGTH + NUMBER_LENGTH));
    for record in records {
        let (name, number) = record.split_at(record.len() - NUMBER_LENGTH);
        dump.extend(name);
        dump.resize(dump.len() + NAME_LENGTH - name.len(), FILLING);
        dump.extend(number);
    }
    dump
}
