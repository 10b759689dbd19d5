//! The header: refusals 1 to 9, in that order, each with place 0.

use super::Refusal;
use crate::checksums::crc64;
use crate::json::is_object;

const LONGEST_FILE: usize = 1 << 30;
const GOOD_MAGIC: &[u8] = b"\xabZSfiLe\x01";
const UNFINISHED_MAGIC: &[u8] = b"\xabZStoBe\x01";
const CODEC_NONE: &[u8] = b"none\0\0\0\0\0\0\0\0\0\0\0\0";

/// Bytes of the header data before the metadata.
const FIXED_FIELDS: u64 = 80;

/// What is needed of a sound header.
pub struct Header {
    /// Where the blocks begin: 24+H.
    pub blocks_at: usize,
    /// Where the root block begins, as the header has it.
    pub root_offset: u64,
    /// Full size of the root block, as the header has it.
    pub root_size: u64,
    /// SHA-256 of all data payloads, as the header has it.
    pub hash: [u8; 32],
    /// How long the metadata are: M.
    pub metadata_length: u64,
}

/// Reads and tests the header.
pub fn header(file: &[u8]) -> Result<Header, Refusal> {
    if file.len() > LONGEST_FILE {
        return Err(Refusal::of_file(1));
    }
    test_magic(file)?;
    let data = header_data(file)?;
    if u64_at(file, 16 + data.len()) != Some(crc64(data)) {
        return Err(Refusal::of_file(5));
    }
    let metadata = metadata(data).ok_or_else(|| Refusal::of_file(6))?;
    test_fields(file, data, metadata)?;
    fields(data).ok_or_else(|| Refusal::of_file(6))
}

fn test_magic(file: &[u8]) -> Result<(), Refusal> {
    match file.get(..8) {
        Some(magic) if magic == GOOD_MAGIC => Ok(()),
        Some(magic) if magic == UNFINISHED_MAGIC => Err(Refusal::of_file(2)),
        _ => Err(Refusal::of_file(3)),
    }
}

/// The H bytes from 16 on, if they and their CRC lie within the file.
fn header_data(file: &[u8]) -> Result<&[u8], Refusal> {
    let short = Refusal::of_file(4);
    let length = u64_at(file, 8).ok_or(short)?;
    if u128::from(length) + 24 > file.len() as u128 {
        return Err(short);
    }
    let length = usize::try_from(length).map_err(|_| short)?;
    file.get(16..16 + length).ok_or(short)
}

/// The metadata, unless H is below 80 or M above H-80.
fn metadata(data: &[u8]) -> Option<&[u8]> {
    let rest = data.get(FIXED_FIELDS as usize..)?;
    let length = usize::try_from(u64_at(data, 72)?).ok()?;
    rest.get(..length)
}

fn test_fields(file: &[u8], data: &[u8], metadata: &[u8]) -> Result<(), Refusal> {
    if data.get(56..72) != Some(CODEC_NONE) {
        return Err(Refusal::of_file(7));
    }
    if u64_at(data, 16) != Some(file.len() as u64) {
        return Err(Refusal::of_file(8));
    }
    if !is_metadata(metadata) {
        return Err(Refusal::of_file(9));
    }
    Ok(())
}

/// Whether these bytes may be the metadata of a file: UTF-8 (RFC 3629), and one JSON object with nothing around it.
pub fn is_metadata(bytes: &[u8]) -> bool {
    std::str::from_utf8(bytes).map_or(false, is_object)
}

/// The fields that are needed. None only where H is below 80.
fn fields(data: &[u8]) -> Option<Header> {
    Some(Header {
        blocks_at: 24 + data.len(),
        root_offset: u64_at(data, 0)?,
        root_size: u64_at(data, 8)?,
        hash: data.get(24..56)?.try_into().ok()?,
        metadata_length: u64_at(data, 72)?,
    })
}

/// The eight bytes at a position as a little-endian number.
pub fn u64_at(bytes: &[u8], at: usize) -> Option<u64> {
    let eight = bytes.get(at..)?.get(..8)?;
    Some(u64::from_le_bytes(eight.try_into().ok()?))
}
