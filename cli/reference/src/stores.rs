//! The stores of a finished file, by request L6: in which order it comes to a disk, so that a power cut leaves no wrong file.

const GOOD_MAGIC: &[u8] = b"\xabZSfiLe\x01";
const UNFINISHED_MAGIC: &[u8] = b"\xabZStoBe\x01";

/// Bytes, and where in a file they go.
#[derive(Debug, Clone, PartialEq, Eq)]
pub struct Store {
    /// Where the first byte goes.
    pub offset: usize,
    /// The bytes.
    pub bytes: Vec<u8>,
}

impl Store {
    fn new(offset: usize, bytes: &[u8]) -> Self {
        let bytes = bytes.to_vec();
        Store { offset, bytes }
    }
}

/// The stores of a finished file in their order: the unfinished magic, all blocks, the header from byte 8 through its CRC, the good magic.
/// None where the bytes don't begin with the good magic or are shorter than their header.
pub fn stores(file: &[u8]) -> Vec<Store> {
    let (header, blocks) = match split(file) {
        Some(parts) => parts,
        None => return Vec::new(),
    };
    vec![
        Store::new(0, UNFINISHED_MAGIC),
        Store::new(file.len() - blocks.len(), blocks),
        Store::new(GOOD_MAGIC.len(), header),
        Store::new(0, GOOD_MAGIC),
    ]
}

/// What comes after the good magic: the header from byte 8 through its CRC, and all blocks.
fn split(file: &[u8]) -> Option<(&[u8], &[u8])> {
    let rest = file.strip_prefix(GOOD_MAGIC)?;
    let digits = rest.get(..8)?.try_into().ok()?;
    let data = usize::try_from(u64::from_le_bytes(digits)).ok()?;
    // The number itself and the CRC take 8 bytes each.
    let header = rest.get(..data.checked_add(16)?)?;
    Some((header, rest.strip_prefix(header)?))
}

/// Offset and length of store `i`, 0 and 0 where there is none.
pub fn store_part(file: &[u8], i: u64) -> (u64, u64) {
    let numbered = (0..).zip(stores(file));
    let part = |store: Store| (store.offset as u64, store.bytes.len() as u64);
    let mut found = numbered.filter(|(number, _)| *number == i);
    found.next().map_or((0, 0), |(_, store)| part(store))
}

/// Carries a store out, byte by byte. Bytes that it leaps over at the end of the file are zeros.
pub fn carry_out(file: &mut Vec<u8>, store: &Store) {
    for (at, byte) in (store.offset..).zip(&store.bytes) {
        if file.len() <= at {
            file.resize(at + 1, 0);
        }
        file[at] = *byte;
    }
}

/// What an empty file holds after these stores, in their order.
pub fn after(stores: &[Store]) -> Vec<u8> {
    let mut file = Vec::new();
    for store in stores {
        carry_out(&mut file, store);
    }
    file
}

/// What of the stores has arrived at a cut: so many whole ones, and so many bytes of the next.
pub fn cut(stores: &[Store], whole: usize, bytes: usize) -> Vec<Store> {
    let mut arrived: Vec<Store> = stores
        .iter()
        .take(whole.saturating_add(1))
        .cloned()
        .collect();
    if let Some(next) = arrived.get_mut(whole) {
        next.bytes.truncate(bytes);
    }
    arrived
}
