//! Writing ZS files, by requests L1 and L3: refusals 30, 9, 28, 29 and 31, in this order and each with place 0.
//!
//! The layout is fixed: a header without extra bytes, all data blocks, then index blocks level by
//! level, each full but the last of its level, until one stands alone, on level 1 or higher. Keys are
//! the shortest that their rule allows.

use std::ops::RangeInclusive;

use crate::checksums::{crc64, sha256};
use crate::maker::encode;
use crate::reader::{is_metadata, number};

const LONGEST_FILE: usize = 1 << 30;
const GOOD_MAGIC: &[u8] = b"\xabZSfiLe\x01";
pub(crate) const CODEC_NONE: &[u8] = b"none\0\0\0\0\0\0\0\0\0\0\0\0";

/// Bytes of a header whose metadata are empty.
const HEADER: usize = 104;

/// How many items the blocks hold.
#[derive(Debug, Clone, Copy, PartialEq, Eq)]
pub struct Counts {
    /// Records in a data block, 1 to 65,535.
    pub per_block: u64,
    /// Entries in an index block, 2 to 65,535.
    pub per_index: u64,
}

/// Gives the key of an entry, made of the record before its block, if there is one, and of the first record that its block leads to.
pub type KeyRule = for<'a> fn(before: Option<&[u8]>, first: &'a [u8]) -> &'a [u8];

/// The file of these records, for an output of `room` bytes. The input is records one after the
/// other, each a number and that many bytes.
///
/// # Errors
/// The number of the refusal.
pub fn write(metadata: &[u8], input: &[u8], counts: Counts, room: usize) -> Result<Vec<u8>, u64> {
    write_by(shortest_key, metadata, input, counts, room)
}

/// The same with keys by this rule.
///
/// # Errors
/// The number of the refusal.
pub fn write_by(
    rule: KeyRule,
    metadata: &[u8],
    input: &[u8],
    counts: Counts,
    room: usize,
) -> Result<Vec<u8>, u64> {
    let (per_block, per_index) = counts_in_range(counts)?;
    if !is_metadata(metadata) {
        return Err(9);
    }
    let records = parse(input).filter(|records| !records.is_empty());
    let records = records.ok_or(28_u64)?;
    if records.windows(2).any(|pair| pair[0] > pair[1]) {
        return Err(29);
    }
    let blocks: Vec<&[&[u8]]> = records.chunks(per_block).collect();
    fitting(lay_out(rule, metadata, &blocks, per_index), room)
}

/// 31: bytes that don't fit in an output of `room` bytes, or are more than a file may have.
pub(crate) fn fitting(bytes: Vec<u8>, room: usize) -> Result<Vec<u8>, u64> {
    let fits = bytes.len() <= room.min(LONGEST_FILE);
    Some(bytes).filter(|_| fits).ok_or(31)
}

/// Both counts, or 30: one is out of range.
pub(crate) fn counts_in_range(counts: Counts) -> Result<(usize, usize), u64> {
    let per_block = in_range(counts.per_block, 1..=65_535)?;
    let per_index = in_range(counts.per_index, 2..=65_535)?;
    Ok((per_block, per_index))
}

/// 30: a count out of range.
fn in_range(count: u64, range: RangeInclusive<u64>) -> Result<usize, u64> {
    let count = Some(count).filter(|count| range.contains(count));
    count.map(|count| count as usize).ok_or(30)
}

/// All records of the input, if it is nothing but records.
fn parse(input: &[u8]) -> Option<Vec<&[u8]>> {
    let mut records = Vec::new();
    let mut rest = input;
    while !rest.is_empty() {
        let (length, digits) = number(rest).ok()?;
        let length = usize::try_from(length).ok()?;
        let after = rest.get(digits..)?;
        records.push(after.get(..length)?);
        rest = after.get(length..)?;
    }
    Some(records)
}

/// A block that stands in the file, as an entry names it.
pub(crate) struct Named<'a> {
    key: &'a [u8],
    offset: u64,
    size: u64,
}

/// The shortest beginning of `first` that isn't less than `before`; empty where nothing is before. No byte string of fewer bytes keeps
/// the key rule there: those up to `first` are at most as great as its beginning of as many bytes.
///
/// A longer beginning is the greater one, so the length is found by halving.
pub fn shortest_key<'a>(before: Option<&[u8]>, first: &'a [u8]) -> &'a [u8] {
    let before = before.unwrap_or(&[]);
    let (mut least, mut most) = (0, first.len());
    while least < most {
        let middle = (least + most) / 2;
        if &first[..middle] < before {
            least = middle + 1;
        } else {
            most = middle;
        }
    }
    &first[..least]
}

/// The whole first record, as keys were before request L3: what shorter ones are compared with.
pub fn whole_record<'a>(_before: Option<&[u8]>, first: &'a [u8]) -> &'a [u8] {
    first
}

/// The whole file of these data blocks, each one record or more. An entry over an index block has the key of the block's own first entry.
pub(crate) fn lay_out(
    rule: KeyRule,
    metadata: &[u8],
    blocks: &[&[&[u8]]],
    per_index: usize,
) -> Vec<u8> {
    // The header's place; what it holds is known when all blocks stand.
    let mut file = vec![0; HEADER + metadata.len()];
    let payloads: Vec<Vec<u8>> = blocks.iter().map(|block| data_payload(block)).collect();
    let lasts = blocks.iter().map(|block| block.last().copied());
    let before = std::iter::once(None).chain(lasts);
    let keys = before
        .zip(blocks)
        .map(|(before, block)| rule(before, block[0]));
    let mut row: Vec<Named> = keys
        .zip(&payloads)
        .map(|(key, payload)| put_block(&mut file, 0, payload, key))
        .collect();
    let mut level = 0;
    while level == 0 || row.len() > 1 {
        level += 1;
        row = row
            .chunks(per_index)
            .map(|children| put_block(&mut file, level, &index_payload(children), children[0].key))
            .collect();
    }
    let hash = sha256(payloads.iter().map(Vec::as_slice));
    let header = header(metadata, &row[0], file.len(), &hash);
    file[..header.len()].copy_from_slice(&header);
    file
}

/// Puts a block at the end of the file.
pub(crate) fn put_block<'a>(
    file: &mut Vec<u8>,
    level: u8,
    payload: &[u8],
    key: &'a [u8],
) -> Named<'a> {
    let covered = [&[level], payload].concat();
    let block = [
        &encode(covered.len() as u64),
        &covered,
        &crc64(&covered).to_le_bytes()[..],
    ]
    .concat();
    let offset = file.len() as u64;
    file.extend(&block);
    Named {
        key,
        offset,
        size: block.len() as u64,
    }
}

/// Records, each after its length.
pub(crate) fn data_payload(records: &[&[u8]]) -> Vec<u8> {
    let strings: Vec<Vec<u8>> = records.iter().map(|record| string(record)).collect();
    strings.concat()
}

fn index_payload(children: &[Named]) -> Vec<u8> {
    let entry =
        |child: &Named| [string(child.key), encode(child.offset), encode(child.size)].concat();
    let entries: Vec<Vec<u8>> = children.iter().map(entry).collect();
    entries.concat()
}

/// A byte string after its length.
fn string(bytes: &[u8]) -> Vec<u8> {
    [&encode(bytes.len() as u64), bytes].concat()
}

/// The header of a file of `total` bytes, from its magic through its CRC.
fn header(metadata: &[u8], root: &Named, total: usize, hash: &[u8; 32]) -> Vec<u8> {
    let data = [
        &root.offset.to_le_bytes()[..],
        &root.size.to_le_bytes(),
        &(total as u64).to_le_bytes(),
        hash,
        CODEC_NONE,
        &(metadata.len() as u64).to_le_bytes(),
        metadata,
    ]
    .concat();
    [
        GOOD_MAGIC,
        &(data.len() as u64).to_le_bytes(),
        &data,
        &crc64(&data).to_le_bytes(),
    ]
    .concat()
}
