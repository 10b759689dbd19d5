//! The numbers on a result list: one for each match, the record's offset times 2^32 plus its length.

/// One more than the longest length that a number has room for.
const LENGTHS: u64 = 1 << 32;

/// The number of a match. No file is longer than 2^30 bytes, so length and offset both have room.
pub(super) fn pack(offset: usize, length: usize) -> u64 {
    offset as u64 * LENGTHS + length as u64
}

/// Offset and length of the match that has this number.
pub fn unpack(number: u64) -> (u64, u64) {
    (number / LENGTHS, number % LENGTHS)
}
