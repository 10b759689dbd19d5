//! Queries biased to the bounds of a file.

use crate::strings::vary;
use zs_reference::maker::random::Random;
use zs_reference::maker::{Content, Image};
use zs_reference::reader::Query;

/// All records and keys of a file.
pub fn strings_of(image: &Image) -> Vec<Vec<u8>> {
    let mut strings = Vec::new();
    for plan in &image.blocks {
        match &plan.content {
            Content::Bytes(_) => {}
            Content::Records(records) => strings.extend(records.iter().cloned()),
            Content::Entries(entries) => strings.extend(entries.iter().map(|e| e.key.clone())),
        }
    }
    strings
}

/// A query near the given strings.
pub fn query(random: &mut Random, strings: &[Vec<u8>]) -> Query {
    let mut query = Query::default();
    match random.below(10) {
        0 => {}
        1 => query.prefix = part(random, strings),
        2 => query.start = part(random, strings),
        3 => query.stop = Some(part(random, strings)),
        4 => query = narrow_range(random, strings),
        5 | 6 => query = range(random, strings),
        7 => {
            query.start = part(random, strings);
            query.prefix = beginning(random, strings);
        }
        8 => {
            query.stop = Some(part(random, strings));
            query.prefix = beginning(random, strings);
        }
        _ => {
            query = range(random, strings);
            query.prefix = beginning(random, strings);
        }
    }
    query
}

/// One of the strings or near one; sometimes empty, sometimes anything.
fn part(random: &mut Random, strings: &[Vec<u8>]) -> Vec<u8> {
    match random.below(16) {
        0 => Vec::new(),
        1 => random.string(3),
        _ => {
            let string = some_string(random, strings);
            vary(random, &string)
        }
    }
}

fn some_string(random: &mut Random, strings: &[Vec<u8>]) -> Vec<u8> {
    strings
        .get(random.below(strings.len()))
        .cloned()
        .unwrap_or_default()
}

/// A beginning of one of the strings, short more often than not.
fn beginning(random: &mut Random, strings: &[Vec<u8>]) -> Vec<u8> {
    let mut string = some_string(random, strings);
    let length = if random.once_in(2) {
        random.below(3)
    } else {
        random.below(string.len() + 1)
    };
    string.truncate(length);
    string
}

/// Two parts, the lower one as start; sometimes the other way round.
fn range(random: &mut Random, strings: &[Vec<u8>]) -> Query {
    let (one, other) = (part(random, strings), part(random, strings));
    let turned = random.once_in(12);
    let (start, stop) = if (one <= other) != turned {
        (one, other)
    } else {
        (other, one)
    };
    Query {
        start,
        stop: Some(stop),
        prefix: Vec::new(),
    }
}

/// One string alone: from itself, or one just below, up to the least string above it.
pub fn narrow_range(random: &mut Random, strings: &[Vec<u8>]) -> Query {
    let string = some_string(random, strings);
    let mut stop = string.clone();
    stop.push(0x00);
    let start = if random.once_in(2) {
        string.clone()
    } else {
        string[..string.len().saturating_sub(1)].to_vec()
    };
    let prefix = if random.once_in(3) {
        string
    } else {
        Vec::new()
    };
    Query {
        start,
        stop: Some(stop),
        prefix,
    }
}
