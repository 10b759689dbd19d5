//! Archives of the same records in different shapes: a plain one, and those that are awkward for a check.

use zs_reference::maker::{Keys, Placing, Tree};

use crate::input::METADATA;

/// Records of a data block of about 16 KiB.
pub const TO_A_BLOCK: usize = 224;
/// Entries of a usual index block.
pub const FAN_OUT: usize = 128;
/// No index block has a higher level.
const HIGHEST_LEVEL: u8 = 63;

/// How an archive is laid out.
#[derive(Debug, Clone, Copy, PartialEq, Eq)]
pub enum Shape {
    /// Data blocks of about 16 KiB, then index blocks of 128 entries.
    Plain,
    /// The same data blocks; index blocks of two entries, each before what it leads to.
    Interleaved,
    /// The same data blocks under one index block, under a chain up to level 63.
    Chain,
    /// The same data blocks, a chain up to level 62 over each.
    Chains,
    /// All records in one data block.
    Huge,
    /// A block for each record, index blocks of 128 entries.
    Tiny,
    /// A block for each record; index blocks of two entries, each before what it leads to.
    TinyInterleaved,
    /// A block for each record, all named by one index block.
    Wide,
}

impl Shape {
    /// All of them.
    pub const ALL: [Shape; 8] = [
        Shape::Plain,
        Shape::Interleaved,
        Shape::Chain,
        Shape::Chains,
        Shape::Huge,
        Shape::Tiny,
        Shape::TinyInterleaved,
        Shape::Wide,
    ];

    /// The shape in a few words.
    pub fn name(self) -> &'static str {
        match self {
            Shape::Plain => "plain, 16 KiB blocks",
            Shape::Interleaved => "16 KiB blocks, index blocks between them",
            Shape::Chain => "16 KiB blocks, chain of 63 levels",
            Shape::Chains => "16 KiB blocks, 62 levels over each",
            Shape::Huge => "one huge block",
            Shape::Tiny => "a block for each record",
            Shape::TinyInterleaved => "a block for each, index blocks between",
            Shape::Wide => "a block for each, one index block",
        }
    }

    /// The shapes it is held against, each with whether the blocks of both are alike, so that there is a goal for this pair.
    ///
    /// Tiny blocks have more bytes around each record, which the CRC covers and the SHA doesn't: their time per byte says little
    /// beside that of 16 KiB blocks.
    pub fn plainer_shapes(self) -> &'static [(Shape, bool)] {
        match self {
            Shape::Plain => &[],
            Shape::Interleaved | Shape::Chain | Shape::Huge => &[(Shape::Plain, true)],
            Shape::Chains | Shape::Tiny => &[(Shape::Plain, false)],
            Shape::TinyInterleaved | Shape::Wide => &[(Shape::Tiny, true), (Shape::Plain, false)],
        }
    }

    /// The archive of these records.
    pub fn archive(self, records: &[Vec<u8>]) -> Vec<u8> {
        let to_a_block = match self {
            Shape::Huge => records.len(),
            Shape::Tiny | Shape::TinyInterleaved | Shape::Wide => 1,
            _ => TO_A_BLOCK,
        };
        let mut tree = Tree::new::<Vec<u8>>(&[]);
        tree.groups = records.chunks(to_a_block).map(<[_]>::to_vec).collect();
        tree.fan_out = self.fan_out();
        tree.keys = Keys::Separator;
        if matches!(self, Shape::Interleaved | Shape::TinyInterleaved) {
            tree.placing = Placing::BeforeChildren;
        }
        if matches!(self, Shape::Chain | Shape::Chains) {
            tree.root_level = HIGHEST_LEVEL;
        }
        tree.metadata = METADATA.into();
        tree.bytes()
    }

    fn fan_out(self) -> Vec<usize> {
        match self {
            Shape::Plain | Shape::Tiny | Shape::Huge => vec![FAN_OUT],
            Shape::Interleaved | Shape::TinyInterleaved => vec![2],
            Shape::Chain | Shape::Wide => vec![usize::MAX],
            Shape::Chains => vec![1; usize::from(HIGHEST_LEVEL) - 1],
        }
    }
}
