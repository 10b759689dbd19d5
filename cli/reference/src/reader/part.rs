//! Parts of the file: a record that is handed back, and the metadata.

use super::header::header;

/// Where the metadata begin.
const METADATA_AT: u64 = 96;

/// Whether the part lies within the file. The empty part at the very end does.
pub fn within(file: &[u8], offset: u64, length: u64) -> bool {
    u128::from(offset) + u128::from(length) <= file.len() as u128
}

/// Offset and length of the part handed back: the very part asked for, or the empty one at 0.
pub fn record(file: &[u8], offset: u64, length: u64) -> (u64, u64) {
    if within(file, offset, length) {
        (offset, length)
    } else {
        (0, 0)
    }
}

/// Offset and length of the metadata; those of the empty part at 0 where the header is refused.
pub fn metadata(file: &[u8]) -> (u64, u64) {
    header(file).map_or((0, 0), |header| (METADATA_AT, header.metadata_length))
}
