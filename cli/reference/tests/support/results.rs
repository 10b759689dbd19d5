//! Result lists: the records to which their numbers lead, and the matches due as pairs of numbers.

use super::compare::records;
use zs_reference::reader::{unpack, Query};

/// The records to which numbers of a result list lead.
pub fn records_at<'a>(file: &'a [u8], numbers: &[u64]) -> Vec<&'a [u8]> {
    let parts = numbers.iter().map(|number| unpack(*number));
    let bytes = |(offset, length): (u64, u64)| &file[offset as usize..][..length as usize];
    parts.map(bytes).collect()
}

/// Offset and length of each record that matches, in file order. Every record of the file is held to the query.
pub fn pairs(file: &[u8], query: &Query) -> Vec<[u64; 2]> {
    let matching = records(file).into_iter().filter(|record| {
        let is_before_stop = match &query.stop {
            Some(stop) => record.bytes < *stop,
            None => true,
        };
        query.start <= record.bytes && is_before_stop && record.bytes.starts_with(&query.prefix)
    });
    let pair = |record: super::Item| [record.at, record.bytes.len() as u64];
    matching.map(pair).collect()
}
