//! Fields of a file as they stand, for display and for the lengths of lists: what the header says, and what stands in blocks.
//!
//! Nothing here decides anything. Verdicts, matches and opened blocks are the proved library's; what can't be made out is left out.

use zs_library::Part;

/// Levels of index blocks. Greater ones are reserved.
pub const INDEX: std::ops::RangeInclusive<u8> = 1..=63;
/// How long a block's checksum is.
pub const CHECKSUM: u64 = 8;

/// What the header says.
pub struct Header<'a> {
    pub length: u64,
    pub root_offset: u64,
    pub root_length: u64,
    pub total_length: u64,
    pub hash: &'a [u8],
    pub codec: &'a [u8],
    pub metadata: &'a str,
}

/// A block: its level, its payload, and the position after its last byte.
pub struct Block<'a> {
    pub level: u8,
    pub payload: &'a [u8],
    pub end: u64,
}

/// An entry of an index block.
pub struct Entry<'a> {
    pub key: &'a [u8],
    pub offset: u64,
}

pub fn header(file: &[u8]) -> Option<Header<'_>> {
    Some(Header {
        length: u64_at(file, 8)?,
        root_offset: u64_at(file, 16)?,
        root_length: u64_at(file, 24)?,
        total_length: total_length(file)?,
        hash: file.get(40..72)?,
        codec: codec_name(file)?,
        metadata: std::str::from_utf8(zs_library::metadata(file)?).ok()?,
    })
}

/// Where the header ends, and blocks begin.
pub fn header_end(file: &[u8]) -> Option<u64> {
    u64_at(file, 8).map(|length| length.saturating_add(24))
}

/// The length of the file, as the header says.
pub fn total_length(file: &[u8]) -> Option<u64> {
    u64_at(file, 32)
}

/// The codec, without the zeros after it.
pub fn codec_name(file: &[u8]) -> Option<&[u8]> {
    let codec = file.get(72..88)?;
    let end = codec.iter().rposition(|byte| *byte != 0);
    codec.get(..end.map_or(0, |last| last + 1))
}

/// The metadata, as long as the header says, also where they are refused.
pub fn stored_metadata(file: &[u8]) -> Option<&[u8]> {
    let length = usize::try_from(u64_at(file, 88)?).ok()?;
    file.get(96..)?.get(..length)
}

pub fn block(file: &[u8], offset: u64) -> Option<Block<'_>> {
    let start = usize::try_from(offset).ok()?;
    let mut rest = file.get(start..)?;
    let length = take_number(&mut rest)?;
    let covered = rest.get(..usize::try_from(length).ok()?)?;
    let (level, payload) = covered.split_first()?;
    let end = (file.len() - rest.len() + covered.len()) as u64 + CHECKSUM;
    Some(Block {
        level: *level,
        payload,
        end,
    })
}

/// The blocks that follow one another after the header, up to the first that can't be made out.
fn blocks(file: &[u8]) -> impl Iterator<Item = Block<'_>> {
    let mut next = header_end(file);
    std::iter::from_fn(move || {
        let found = block(file, next?)?;
        next = Some(found.end);
        Some(found)
    })
}

/// How many data and index blocks these are. Only the front of each is looked at.
pub fn count_blocks(file: &[u8]) -> usize {
    let is_ordinary = |block: &Block| block.level <= *INDEX.end();
    blocks(file).filter(is_ordinary).count()
}

/// The records of the data blocks among them, in that order.
pub fn all_records(file: &[u8]) -> impl Iterator<Item = &[u8]> {
    let data = blocks(file).filter(|block| block.level == 0);
    data.flat_map(move |block| {
        records(&block).map(move |part| &file[part.offset as usize..][..part.length as usize])
    })
}

/// Where each record of a data block lies, up to the first that can't be made out.
pub fn records<'a>(block: &Block<'a>) -> impl Iterator<Item = Part> + 'a {
    let payload_end = block.end - CHECKSUM;
    let mut rest = block.payload;
    std::iter::from_fn(move || {
        let length = take_number(&mut rest)?;
        let offset = payload_end - rest.len() as u64;
        rest = rest.get(usize::try_from(length).ok()?..)?;
        Some(Part { offset, length })
    })
}

/// Takes the entry at the front of what is left of an index block's payload.
pub fn take_entry<'a>(rest: &mut &'a [u8]) -> Option<Entry<'a>> {
    let length = usize::try_from(take_number(rest)?).ok()?;
    let key = rest.get(..length)?;
    *rest = rest.get(length..)?;
    let offset = take_number(rest)?;
    take_number(rest)?;
    Some(Entry { key, offset })
}

/// Takes a uleb128 number of at most nine bytes.
pub fn take_number(rest: &mut &[u8]) -> Option<u64> {
    let last = rest.iter().take(9).position(|byte| *byte < 0x80)?;
    let digits = rest.get(..=last)?;
    *rest = rest.get(last + 1..)?;
    Some(
        digits
            .iter()
            .rev()
            .fold(0, |sum, digit| sum * 128 + u64::from(digit % 128)),
    )
}

/// The eight bytes at a position as a little-endian number.
fn u64_at(file: &[u8], at: usize) -> Option<u64> {
    let eight = file.get(at..)?.get(..8)?;
    Some(u64::from_le_bytes(eight.try_into().ok()?))
}

#[cfg(test)]
mod tests {
    use super::*;
    use zs_reference::maker::random::{tree, Random};
    use zs_reference::maker::{Image, Plan};

    /// No frame is shorter: a number, a level and a checksum.
    const SHORTEST_FRAME: usize = 10;

    /// Two data blocks and their root, with reserved blocks between them.
    fn file_with_reserved_blocks() -> Vec<u8> {
        let blocks = vec![
            Plan::data(&["a", "b"]),
            Plan::bytes(64, b""),
            Plan::data(&["c"]),
            Plan::bytes(255, b"\x05any"),
            Plan::index(1, &[("", 0), ("c", 2)]),
        ];
        Image::new(blocks).bytes()
    }

    #[test]
    fn the_blocks_counted_are_those_of_the_check() {
        let mut random = Random::new(5);
        for _ in 0..200 {
            let file = tree(&mut random, 200).bytes();
            let checked = zs_library::check(&file, &mut vec![0; file.len() / 11]);
            assert_eq!(checked.number, 0);
            assert_eq!(count_blocks(&file) as u64, checked.blocks);
        }
    }

    #[test]
    fn reserved_blocks_are_not_counted() {
        assert_eq!(count_blocks(&file_with_reserved_blocks()), 3);
    }

    #[test]
    fn a_cut_takes_blocks_from_the_count() {
        let mut file = tree(&mut Random::new(6), 50).bytes();
        let mut count = count_blocks(&file);
        while file.pop().is_some() {
            let left = count_blocks(&file);
            assert!(left <= count);
            count = left;
        }
        assert_eq!(count, 0);
    }

    #[test]
    fn damaged_bytes_are_counted_within_their_length() {
        let mut random = Random::new(7);
        let mut file = file_with_reserved_blocks();
        for _ in 0..100_000 {
            let at = random.below(file.len());
            file[at] = random.next() as u8;
            assert!(count_blocks(&file) <= file.len() / SHORTEST_FRAME);
        }
    }

    #[test]
    fn bytes_of_no_file_are_counted_within_their_length() {
        for byte in 0..=u8::MAX {
            for length in [0, 7, 15, 16, 17, 1000] {
                let mut file = vec![byte; length];
                assert!(count_blocks(&file) <= length / SHORTEST_FRAME);
                // Blocks from 24 on, and a header whose length is the greatest number.
                for header in [[0; 8], [0xff; 8]] {
                    file.splice(8.min(length)..16.min(length), header);
                    assert!(count_blocks(&file) <= file.len() / SHORTEST_FRAME);
                }
            }
        }
    }
}
