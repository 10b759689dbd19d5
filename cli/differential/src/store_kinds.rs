//! What the calls for stores, and the cuts, are like.

use crate::call::Call;
use crate::calls::Asked;
use zs_reference::stores::stores;

/// What a call may be like, in words, and the test.
type Kind = (&'static str, fn(&Seen) -> bool);

const KINDS: [Kind; 28] = [
    ("store 0", |at| at.is_store(0)),
    ("store 1", |at| at.is_store(1)),
    ("store 2", |at| at.is_store(2)),
    ("store 3", |at| at.is_store(3)),
    ("store 1 without bytes", |at| {
        at.is_store(1) && at.excess() == Some(0)
    }),
    ("the number 4", |at| at.is_store(4)),
    ("a far number", |at| {
        at.has_stores() && at.number() >= Some(1 << 8)
    }),
    ("another magic", |at| at.is_asked() && !at.has_magic()),
    ("the unfinished magic", |at| {
        at.is_asked() && at.file.starts_with(b"\xabZStoBe\x01")
    }),
    ("the magic and fewer than 16 bytes", |at| {
        at.is_asked() && at.has_magic() && at.file.len() < 16
    }),
    ("the magic and 16 to 23 bytes", |at| {
        at.is_asked() && at.has_magic() && (16..24).contains(&at.file.len())
    }),
    ("one byte of blocks", |at| {
        at.is_asked() && at.excess() == Some(-1)
    }),
    ("a header that ends with the file", |at| {
        at.is_asked() && at.excess() == Some(0)
    }),
    ("a header that ends one byte past it", |at| {
        at.is_asked() && at.excess() == Some(1)
    }),
    ("a header that ends further past it", |at| {
        at.is_asked() && at.excess() > Some(1)
    }),
    ("24+H beyond 64 bits", |at| {
        at.is_asked() && at.header_end() > Some(u64::MAX.into())
    }),
    ("a cut before store 0", |at| at.is_cut(0, Bytes::None)),
    ("a cut before store 1", |at| at.is_cut(1, Bytes::None)),
    ("a cut before store 2", |at| at.is_cut(2, Bytes::None)),
    ("a cut before store 3", |at| at.is_cut(3, Bytes::None)),
    ("a cut within store 0", |at| at.is_cut(0, Bytes::Some)),
    ("a cut within store 1", |at| at.is_cut(1, Bytes::Some)),
    ("a cut within store 2", |at| at.is_cut(2, Bytes::Some)),
    ("a cut within store 3", |at| at.is_cut(3, Bytes::Some)),
    ("a cut after all bytes of store 0", |at| {
        at.is_cut(0, Bytes::All)
    }),
    ("a cut after all bytes of store 1", |at| {
        at.is_cut(1, Bytes::All)
    }),
    ("a cut after all bytes of store 2", |at| {
        at.is_cut(2, Bytes::All)
    }),
    ("a cut after all bytes of store 3", |at| {
        at.is_cut(3, Bytes::All)
    }),
];

/// How many kinds there are.
pub const COUNT: usize = KINDS.len();

/// Which of the kinds the calls on a file have.
pub type Kinds = [bool; COUNT];

/// The kinds in words.
pub fn names() -> impl Iterator<Item = &'static str> {
    KINDS.iter().map(|(name, _)| *name)
}

/// The kinds that the calls on a file have.
pub fn kinds(file: &[u8], calls: &[Asked]) -> Kinds {
    let lengths: Vec<usize> = stores(file).iter().map(|store| store.bytes.len()).collect();
    let seen = |call| Seen {
        file,
        lengths: &lengths,
        call,
    };
    KINDS.map(|(_, holds)| calls.iter().any(|(call, _)| holds(&seen(call))))
}

/// How many bytes of a store arrive.
#[derive(Debug, Clone, Copy, PartialEq, Eq)]
enum Bytes {
    None,
    Some,
    All,
}

/// A call on a file.
struct Seen<'a> {
    file: &'a [u8],
    /// The lengths of its stores.
    lengths: &'a [usize],
    call: &'a Call,
}

impl Seen<'_> {
    /// The number of the store that is asked for.
    fn number(&self) -> Option<u64> {
        match self.call {
            Call::Store { i } => Some(*i),
            _ => None,
        }
    }

    fn is_asked(&self) -> bool {
        self.number().is_some()
    }

    fn has_magic(&self) -> bool {
        self.file.starts_with(b"\xabZSfiLe\x01")
    }

    /// 24+H, after the good magic.
    fn header_end(&self) -> Option<i128> {
        let digits = self.file.get(8..16).filter(|_| self.has_magic())?;
        let extent = u64::from_le_bytes(digits.try_into().ok()?);
        Some(24 + i128::from(extent))
    }

    /// By how many bytes the header ends past the end of the file.
    fn excess(&self) -> Option<i128> {
        self.header_end().map(|end| end - self.file.len() as i128)
    }

    fn has_stores(&self) -> bool {
        self.excess().map_or(false, |excess| excess <= 0)
    }

    /// Whether this number is asked for, of a file that has stores.
    fn is_store(&self, i: u64) -> bool {
        self.has_stores() && self.number() == Some(i)
    }

    /// Whether the stores are cut in this one, so that as many of its bytes arrive.
    fn is_cut(&self, store: usize, arrive: Bytes) -> bool {
        let length = self.lengths.get(store).copied().unwrap_or(0);
        match *self.call {
            Call::Cut { whole, bytes } if whole == store => {
                arrive
                    == match bytes {
                        0 => Bytes::None,
                        bytes if bytes < length => Bytes::Some,
                        _ => Bytes::All,
                    }
            }
            _ => false,
        }
    }
}
