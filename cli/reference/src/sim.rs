//! Importing SIM phonebooks, by request L5: refusals 32, by record 33 and 34, then 31, each with place 0.
//!
//! A dump of EF ADN is records of X+14 bytes: a name in a field of X bytes, filled up with FF, and 14 bytes with the number. A name is
//! taken out of its field in the terms of its coding and put together again; it is formed as it must be exactly if its bytes, filled up
//! with FF, are the field.

use std::iter::repeat;

use crate::maker::encode;

const LONGEST_FIELD: u64 = 241;
/// Bytes of a record after its name field.
const REST: usize = 14;
/// The most bytes of a number. How many it has stands in the first byte after the name field.
const LONGEST_NUMBER: u8 = 11;
const FILLING: u8 = 0xff;

/// The records of a dump whose names have fields of this length, sorted and each after its length, for an output of `room` bytes.
///
/// # Errors
/// The number of the refusal.
pub fn import(dump: &[u8], name_length: u64, room: usize) -> Result<Vec<u8>, u64> {
    let field = Some(name_length).filter(|length| *length <= LONGEST_FIELD);
    let field = field.ok_or(32_u64)? as usize;
    let stored = dump.chunks_exact(field + REST);
    if !stored.remainder().is_empty() {
        return Err(32);
    }
    let occupied = stored.filter(|bytes| bytes.iter().any(|byte| *byte != FILLING));
    let records = occupied.map(|bytes| record(bytes.split_at(field)));
    let mut records = records.collect::<Result<Vec<Vec<u8>>, u64>>()?;
    records.sort();
    let strings = records
        .iter()
        .flat_map(|record| [&encode(record.len() as u64), &record[..]].concat());
    let output: Vec<u8> = strings.collect();
    if output.len() > room {
        return Err(31);
    }
    Ok(output)
}

/// Our record: the name and the rest as it is.
fn record((field, rest): (&[u8], &[u8])) -> Result<Vec<u8>, u64> {
    let name = Name::decode(field).map(|name| name.encode());
    let name = name.filter(|name| filled_up(name, field.len()).eq(field.iter().copied()));
    let name = name.ok_or(33_u64)?;
    match rest.first() {
        Some(0..=LONGEST_NUMBER) => Ok([&name, rest].concat()),
        _ => Err(34),
    }
}

/// A field of so many bytes that begins with a name.
fn filled_up(name: &[u8], length: usize) -> impl Iterator<Item = u8> + '_ {
    let bytes = name.iter().copied();
    bytes.chain(repeat(FILLING)).take(length)
}

/// A name in the terms of its coding.
enum Name {
    /// Bytes below 80.
    Plain(Vec<u8>),
    /// 80: characters of two bytes.
    Pairs(Vec<[u8; 2]>),
    /// 81: a base of one byte, and characters that count from there.
    ByteBase(u8, Vec<u8>),
    /// 82: a base of two bytes, and such characters.
    PairBase([u8; 2], Vec<u8>),
}

impl Name {
    /// The name at the front of a field, whatever follows it.
    fn decode(field: &[u8]) -> Option<Name> {
        match field {
            [0x80, characters @ ..] => {
                let pairs = characters.chunks_exact(2).map(|pair| [pair[0], pair[1]]);
                let named = pairs.take_while(|pair| *pair != [FILLING; 2]);
                Some(Name::Pairs(named.collect()))
            }
            [0x81, count, base, characters @ ..] => {
                let named = characters.get(..usize::from(*count))?;
                Some(Name::ByteBase(*base, named.to_vec()))
            }
            [0x82, count, high, low, characters @ ..] => {
                let named = characters.get(..usize::from(*count))?;
                Some(Name::PairBase([*high, *low], named.to_vec()))
            }
            [0x81 | 0x82, ..] => None,
            _ => {
                let named = field.split(|byte| *byte == FILLING).next()?;
                named.is_ascii().then(|| Name::Plain(named.to_vec()))
            }
        }
    }

    /// Its bytes, with those of the coding.
    fn encode(&self) -> Vec<u8> {
        match self {
            Name::Plain(characters) => characters.clone(),
            Name::Pairs(pairs) => [&[0x80], &pairs.concat()[..]].concat(),
            Name::ByteBase(base, characters) => {
                let count = characters.len() as u8;
                [&[0x81, count, *base], &characters[..]].concat()
            }
            Name::PairBase([high, low], characters) => {
                let count = characters.len() as u8;
                [&[0x82, count, *high, *low], &characters[..]].concat()
            }
        }
    }
}
