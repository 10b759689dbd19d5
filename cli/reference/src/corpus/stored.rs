//! Stores: of the example, of bytes about the edges of what has stores, and what cuts leave of the example.

use super::examples::two_block_image;
use super::{Claim, Corpus};
use crate::stores::{after, cut, stores};

/// Adds the files, and cases on files added before.
pub fn add(corpus: &mut Corpus) {
    add_numbers(corpus);
    add_magics(corpus);
    add_headers(corpus);
    add_cuts(corpus);
}

impl Corpus {
    /// Asks for every store of a file, and for one more.
    fn ask_stores(&mut self, name: &str) {
        for i in 0..=4 {
            self.store(name, i);
        }
    }
}

/// Every store of the example, and numbers of none.
fn add_numbers(corpus: &mut Corpus) {
    for i in [
        0,
        1,
        2,
        3,
        4,
        5,
        1 << 8,
        1 << 16,
        1 << 32,
        1 << 63,
        u64::MAX,
    ] {
        corpus.store("two-blocks", i);
    }
    corpus.ask_stores("smallest");
    corpus.ask_stores("meta-long");
}

/// The example with each byte of its magic changed, what a refused write leaves in an output, and unfinished files.
fn add_magics(corpus: &mut Corpus) {
    for at in 0..8 {
        let mut file = two_block_image().bytes();
        file[at] ^= 1;
        let name = format!("3-byte-{at}");
        corpus.add_refused(&name, file, 3, 0);
        corpus.ask_stores(&name);
    }
    corpus.add_refused_first("3-zeros", vec![0; 154], 3, 0);
    for name in ["3-zeros", "2-smallest", "2-no-more"] {
        corpus.ask_stores(name);
    }
}

/// Files that end before, with and after their header, and headers of any length.
fn add_headers(corpus: &mut Corpus) {
    let mut file = two_block_image().bytes();
    file[12] = 1;
    corpus.add_refused("4-2e32-more", file, 4, 0);
    for name in [
        "first-00",
        "first-07",
        "first-08",
        "first-15",
        "first-16",
        "first-23",
        "first-24",
        "4-cut",
        "8-cut-blocks",
        "17-no-blocks",
        "4-one-past",
        "4-length",
        "4-2e32-more",
        "4-2e63",
        "4-2e64",
        "4-wraps-16",
        "4-wraps-24",
        "6-h-0",
        "6-h-0-alone",
    ] {
        corpus.ask_stores(name);
    }
}

/// What is left of the example by a cut within each store and after it. In the last one the two magics differ in bytes 3, 4 and 5.
fn add_cuts(corpus: &mut Corpus) {
    let unfinished = Claim::First(2, 0);
    for (whole, bytes, claim) in [
        (0, 0, Claim::First(3, 0)),
        (0, 5, Claim::First(3, 0)),
        (1, 0, unfinished),
        (1, 20, unfinished),
        (2, 0, unfinished),
        (2, 40, unfinished),
        (3, 0, Claim::Only(2, 0)),
        (3, 1, Claim::Only(2, 0)),
        (3, 2, Claim::Only(2, 0)),
        (3, 3, Claim::Only(2, 0)),
        (3, 4, Claim::Only(3, 0)),
        (3, 5, Claim::Only(3, 0)),
        (3, 6, Claim::Sound),
        (3, 7, Claim::Sound),
        (3, 8, Claim::Sound),
    ] {
        let whole_stores = stores(&two_block_image().bytes());
        let left = after(&cut(&whole_stores, whole, bytes));
        let name = format!("cut-{whole}-{bytes}");
        corpus.add_file(&name, left, claim);
        corpus.check(&name, 3);
    }
}
