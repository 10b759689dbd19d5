//! A file field by field: what to write, and what to write wrongly.

use super::layout::{crc_bytes, data_payloads, frame, put_number, Place};
use crate::checksums::{crc64, sha256};

/// Begins every finished file.
const GOOD_MAGIC: [u8; 8] = *b"\xabZSfiLe\x01";
/// The only codec.
const CODEC_NONE: [u8; 16] = *b"none\0\0\0\0\0\0\0\0\0\0\0\0";

/// A whole file to be written. Fields that are `None` are worked out rightly.
#[derive(Debug, Clone)]
pub struct Image {
    /// The first eight bytes.
    pub magic: [u8; 8],
    /// H, where it isn't the true length of the header data.
    pub header_length: Option<u64>,
    /// Where the root is said to be.
    pub root: Target,
    /// Total length, where it isn't the true one.
    pub total: Option<u64>,
    /// SHA-256, where it isn't the true one.
    pub hash: Option<[u8; 32]>,
    /// The codec field.
    pub codec: [u8; 16],
    /// M, where it isn't the true length of the metadata.
    pub metadata_length: Option<u64>,
    /// The metadata.
    pub metadata: Vec<u8>,
    /// Header bytes after the metadata, to be ignored by readers.
    pub extra: Vec<u8>,
    /// Keeps only so many bytes of the header data, with H and CRC to fit.
    pub header_cut: Option<usize>,
    /// Flips these bits of the header's CRC.
    pub header_crc_flips: u64,
    /// The blocks in file order.
    pub blocks: Vec<Plan>,
    /// Bytes after the last block.
    pub tail: Vec<u8>,
}

/// A block to be written.
#[derive(Debug, Clone)]
pub struct Plan {
    /// The level byte; without one the payload stands alone.
    pub level: Option<u8>,
    /// What the payload holds.
    pub content: Content,
    /// The bytes of the number L, where they aren't the right ones.
    pub number: Option<Vec<u8>>,
    /// Flips these bits of the CRC.
    pub crc_flips: u64,
}

/// What a payload holds.
#[derive(Debug, Clone)]
pub enum Content {
    /// Just these bytes.
    Bytes(Vec<u8>),
    /// Records of a data block.
    Records(Vec<Vec<u8>>),
    /// Entries of an index block.
    Entries(Vec<Entry>),
}

/// An entry of an index block.
#[derive(Debug, Clone)]
pub struct Entry {
    /// The key.
    pub key: Vec<u8>,
    /// The block that it names.
    pub target: Target,
}

/// A block as an entry or the header names it. Blocks are counted from 0 in file order.
#[derive(Debug, Clone, Copy)]
pub enum Target {
    /// The true offset and full size of a block.
    Block(usize),
    /// So many bytes away from a block's true offset and full size.
    Beside(usize, i64, i64),
    /// Any offset and size.
    Exactly(u64, u64),
}

impl Target {
    /// Offset and size to be written. An unknown block is at 0.
    pub fn resolve(self, places: &[Place]) -> (u64, u64) {
        let place = |block: usize| places.get(block).copied().unwrap_or_default();
        match self {
            Target::Block(block) => (place(block).offset, place(block).size),
            Target::Beside(block, offset, size) => (
                place(block).offset.wrapping_add(offset as u64),
                place(block).size.wrapping_add(size as u64),
            ),
            Target::Exactly(offset, size) => (offset, size),
        }
    }
}

impl Plan {
    /// A block of any level with just these payload bytes.
    pub fn bytes(level: u8, payload: &[u8]) -> Self {
        Plan::new(Some(level), Content::Bytes(payload.to_vec()))
    }

    /// A data block.
    pub fn data<R: AsRef<[u8]>>(records: &[R]) -> Self {
        let records = records.iter().map(|record| record.as_ref().to_vec());
        Plan::new(Some(0), Content::Records(records.collect()))
    }

    /// An index block whose entries name blocks of the file truly.
    pub fn index<K: AsRef<[u8]>>(level: u8, entries: &[(K, usize)]) -> Self {
        let named = |(key, block): &(K, usize)| (key.as_ref().to_vec(), Target::Block(*block));
        let entries: Vec<_> = entries.iter().map(named).collect();
        Plan::naming(level, &entries)
    }

    /// An index block whose entries name anything.
    pub fn naming<K: AsRef<[u8]>>(level: u8, entries: &[(K, Target)]) -> Self {
        let entry = |(key, target): &(K, Target)| Entry {
            key: key.as_ref().to_vec(),
            target: *target,
        };
        let entries = entries.iter().map(entry).collect();
        Plan::new(Some(level), Content::Entries(entries))
    }

    /// A block with a right number and a right CRC.
    pub fn new(level: Option<u8>, content: Content) -> Self {
        Plan {
            level,
            content,
            number: None,
            crc_flips: 0,
        }
    }

    /// The same block with these bytes where its number L should be.
    pub fn with_number(mut self, number: &[u8]) -> Self {
        self.number = Some(number.to_vec());
        self
    }

    /// The same block with a wrong CRC.
    pub fn with_crc_flips(mut self, flips: u64) -> Self {
        self.crc_flips = flips;
        self
    }

    /// The payload, once the places of all blocks are known.
    pub fn payload(&self, places: &[Place]) -> Vec<u8> {
        let mut out = Vec::new();
        match &self.content {
            Content::Bytes(bytes) => out.extend(bytes),
            Content::Records(records) => {
                for record in records {
                    put_string(&mut out, record);
                }
            }
            Content::Entries(entries) => {
                for entry in entries {
                    let (offset, size) = entry.target.resolve(places);
                    put_string(&mut out, &entry.key);
                    put_number(&mut out, offset);
                    put_number(&mut out, size);
                }
            }
        }
        out
    }
}

fn put_string(out: &mut Vec<u8>, bytes: &[u8]) {
    put_number(out, bytes.len() as u64);
    out.extend(bytes);
}

impl Image {
    /// A file with metadata `{}`, these blocks, and the last of them as root.
    pub fn new(blocks: Vec<Plan>) -> Self {
        Image {
            magic: GOOD_MAGIC,
            header_length: None,
            root: Target::Block(blocks.len().saturating_sub(1)),
            total: None,
            hash: None,
            codec: CODEC_NONE,
            metadata_length: None,
            metadata: b"{}".to_vec(),
            extra: Vec::new(),
            header_cut: None,
            header_crc_flips: 0,
            blocks,
            tail: Vec::new(),
        }
    }

    /// Where the first block begins.
    pub fn blocks_at(&self) -> u64 {
        let whole = 80 + self.metadata.len() + self.extra.len();
        24 + self.header_cut.map_or(whole, |cut| cut.min(whole)) as u64
    }

    /// The file.
    pub fn bytes(&self) -> Vec<u8> {
        let places = self.places();
        let mut body = Vec::new();
        for plan in &self.blocks {
            body.extend(frame(plan, &places));
        }
        body.extend(&self.tail);

        let mut data = self.header_data(&places, body.len() as u64);
        data.truncate(self.header_cut.unwrap_or(usize::MAX));
        let length = self.header_length.unwrap_or(data.len() as u64);
        let crc = crc64(&data) ^ self.header_crc_flips;
        let mut out = self.magic.to_vec();
        out.extend(length.to_le_bytes());
        out.extend(data);
        out.extend(crc_bytes(crc));
        out.extend(body);
        out
    }

    /// The header from byte 16 up to its CRC, before any cut.
    fn header_data(&self, places: &[Place], body: u64) -> Vec<u8> {
        let (root_offset, root_size) = self.root.resolve(places);
        let payloads = data_payloads(&self.blocks, places);
        let hash = sha256(payloads.iter().map(Vec::as_slice));
        let metadata_length = self.metadata.len() as u64;
        let mut data = Vec::new();
        data.extend(root_offset.to_le_bytes());
        data.extend(root_size.to_le_bytes());
        data.extend(self.total.unwrap_or(self.blocks_at() + body).to_le_bytes());
        data.extend(self.hash.unwrap_or(hash));
        data.extend(self.codec);
        data.extend(
            self.metadata_length
                .unwrap_or(metadata_length)
                .to_le_bytes(),
        );
        data.extend(&self.metadata);
        data.extend(&self.extra);
        data
    }
}
