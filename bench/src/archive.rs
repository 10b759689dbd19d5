//! What the measurements need to know of an archive: where its blocks are, and what its check and its lookups do.

use zs_library::{check, read, search, Checked, Part, Query};

/// Places of the lists of a lookup; the library clears and fills them within the time that is measured.
pub const OPENED_PLACES: usize = 256;
/// The same for the result list, a place for each record.
pub const RESULT_PLACES: usize = 8;

/// An archive with room for its check.
pub struct Archive {
    /// The file.
    pub bytes: Vec<u8>,
    work: Vec<u64>,
}

/// The bytes of a block that its CRC covers: level and payload.
struct Covered<'a> {
    bytes: &'a [u8],
    end: usize,
}

/// What a lookup found and opened.
pub struct Lookup<'a> {
    /// The records.
    pub records: Vec<&'a [u8]>,
    /// What the CRC of each opened block covers.
    pub opened: Vec<&'a [u8]>,
}

impl Archive {
    /// An archive that the check accepts, with as many records as it should have.
    pub fn new(bytes: Vec<u8>, records: usize) -> Self {
        let blocks = blocks(&bytes).count();
        let mut archive = Archive {
            bytes,
            work: vec![0; blocks],
        };
        let answer = archive.check();
        assert_eq!((answer.number, answer.place), (0, 0));
        assert_eq!(answer.records, records as u64);
        archive
    }

    /// Checks the file. The work list has just the places that are needed, and is cleared by the call.
    pub fn check(&mut self) -> Checked {
        check(&self.bytes, &mut self.work)
    }

    /// How many blocks there are.
    pub fn blocks(&self) -> usize {
        self.work.len()
    }

    /// The payloads of the data blocks, joined.
    pub fn payloads(&self) -> Vec<u8> {
        let data = blocks(&self.bytes).filter(|block| block.first() == Some(&0));
        data.flat_map(|block| &block[1..]).copied().collect()
    }

    /// Reads the file front to back, and gives how many records begin with `prefix`.
    pub fn read(&self, prefix: &[u8], lists: &mut Lists) -> u64 {
        let found = read(&self.bytes, &prefix_query(prefix), &mut lists.results);
        assert_eq!(found.number, 0);
        found.matches
    }

    /// Looks up the records that begin with `prefix`, into lists that are long enough.
    pub fn search(&self, prefix: &[u8], lists: &mut Lists) -> (usize, usize) {
        let query = prefix_query(prefix);
        let found = search(&self.bytes, &query, &mut lists.opened, &mut lists.results);
        assert_eq!(found.number, 0);
        (found.opened as usize, found.matches as usize)
    }

    /// The same, with what the lists say.
    pub fn lookup(&self, prefix: &[u8]) -> Lookup<'_> {
        let mut lists = Lists::default();
        let (opened, matches) = self.search(prefix, &mut lists);
        let parts = lists.results[..matches].iter().copied().map(Part::of_match);
        let starts = lists.opened[..opened].iter();
        Lookup {
            records: parts
                .map(|part| zs_library::bytes(&self.bytes, part.offset, part.length))
                .collect(),
            opened: starts
                .map(|start| block_at(&self.bytes, *start as usize).bytes)
                .collect(),
        }
    }
}

/// The question for all records that begin with `prefix`.
pub fn prefix_query(prefix: &[u8]) -> Query<'_> {
    Query {
        start: &[],
        stop: None,
        prefix,
    }
}

/// The lists that a lookup is lent.
pub struct Lists {
    /// The blocks opened.
    pub opened: Vec<u64>,
    /// The matches, a number for each.
    pub results: Vec<u64>,
}

impl Default for Lists {
    fn default() -> Self {
        Lists {
            opened: vec![0; OPENED_PLACES],
            results: vec![0; RESULT_PLACES],
        }
    }
}

/// Level and payload of every block, front to back. The file must be sound.
pub fn blocks(file: &[u8]) -> impl Iterator<Item = &[u8]> {
    let mut at = 24 + little_endian(&file[8..16]);
    std::iter::from_fn(move || {
        if at >= file.len() {
            return None;
        }
        let block = block_at(file, at);
        at = block.end;
        Some(block.bytes)
    })
}

/// The block that begins at `start`.
fn block_at(file: &[u8], start: usize) -> Covered<'_> {
    let (mut length, mut at, mut shift) = (0, start, 0);
    loop {
        let byte = usize::from(file[at]);
        length |= (byte & 0x7f) << shift;
        at += 1;
        shift += 7;
        if byte < 0x80 {
            break;
        }
    }
    Covered {
        bytes: &file[at..at + length],
        end: at + length + 8,
    }
}

fn little_endian(bytes: &[u8]) -> usize {
    bytes
        .iter()
        .rev()
        .fold(0, |value, byte| value << 8 | usize::from(*byte))
}
