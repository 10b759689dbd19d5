//! Byte strings of different kinds: few letters, tails of FF, long ones, all the same.

use zs_reference::maker::random::Random;

/// A kind of byte string, from which the records of one file are drawn.
#[derive(Debug, Clone)]
pub struct Kind {
    /// Every string begins with this.
    stem: Vec<u8>,
    /// The bytes that follow; any byte where there are none.
    letters: Vec<u8>,
    /// The most bytes that follow.
    longest: usize,
}

impl Kind {
    /// Some kind. Few letters are the rule, so that equal strings and beginnings are common.
    pub fn draw(random: &mut Random) -> Self {
        let (stem, letters, longest): (Vec<u8>, &[u8], usize) = match random.below(12) {
            0 => (Vec::new(), &[0xff, 0x00], 4),
            1 => (Vec::new(), &[], 6),
            2 => (vec![0xff; 3], &[0xff, 0x61], 3),
            3 => (vec![0x6b; 124 + random.below(6)], &[0x00, 0xff], 3),
            4 => (Vec::new(), &[0x7f, 0x80], 2),
            5 => (random.string(2), &[0x61], 0),
            6 => (random.string(9), &[0x61, 0x62, 0xfe, 0xff], 3),
            7 => (Vec::new(), b"0123456789", 2),
            _ => (Vec::new(), &[0x00, 0x61, 0x62, 0xff], 3),
        };
        Kind {
            stem,
            letters: letters.to_vec(),
            longest,
        }
    }

    /// Whether strings of this kind are long, so that a file shouldn't have many.
    pub fn is_long(&self) -> bool {
        self.stem.len() > 20
    }

    /// A string of this kind.
    pub fn string(&self, random: &mut Random) -> Vec<u8> {
        let mut string = self.stem.clone();
        for _ in 0..random.below(self.longest + 1) {
            let any = random.next() as u8;
            string.push(if self.letters.is_empty() {
                any
            } else {
                random.pick(&self.letters)
            });
        }
        string
    }
}

/// Strings that rise, each made of the one before it: the same, a longer one, or one that parts from it somewhere.
pub fn row(random: &mut Random) -> Vec<Vec<u8>> {
    let stem = random.pick(&[0, 0, 1, 3, 126, 127, 200, 2000]);
    let (first, count) = (vec![0x6b; stem], 1 + random.below(40));
    let next = |string: &Vec<u8>| Some(follow(random, string));
    std::iter::successors(Some(first), next)
        .take(count)
        .collect()
}

/// A string that isn't less than this one.
fn follow(random: &mut Random, string: &[u8]) -> Vec<u8> {
    let mut next = string.to_vec();
    let way = random.below(5);
    if way >= 2 {
        raise(random, &mut next);
    }
    if way >= 1 {
        let byte = random.pick(&[0x00, 0x61, 0xff]);
        let times = random.pick(&[0, 1, 2, 130]);
        next.extend(vec![byte; times]);
    }
    next
}

/// Raises a byte, one of the last, the first or any, and may leave out what follows it. A byte FF stays, and all that follows it.
fn raise(random: &mut Random, string: &mut Vec<u8>) {
    let any = random.below(string.len());
    let back = random.pick(&[0, 0, 1, 2, any, string.len()]);
    let at = string.len().saturating_sub(1 + back);
    match string.get_mut(at) {
        Some(byte) if *byte < 0xff => {
            *byte = random.pick(&[*byte + 1, *byte + 1, *byte + 1, 0xff]);
            if random.once_in(2) {
                string.truncate(at + 1);
            }
        }
        _ => {}
    }
}

/// Gives a string near the given one: itself, a beginning, a little longer, or its last byte one more or less.
pub fn vary(random: &mut Random, string: &[u8]) -> Vec<u8> {
    let mut near = string.to_vec();
    match random.below(9) {
        0 => near.truncate(random.below(string.len() + 1)),
        1 => near.truncate(string.len().saturating_sub(1)),
        2 => near.push(0x00),
        3 => near.push(0xff),
        4 | 5 => {
            let step = random.pick(&[0x01, 0xff]);
            if let Some(last) = near.last_mut() {
                *last = last.wrapping_add(step);
            }
        }
        _ => {}
    }
    near
}
