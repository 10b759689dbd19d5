//! What a call is lent: a part in the middle of a larger buffer, with guards on both sides.

use zs_reference::maker::random::Random;

/// Guards on each side, unless more are asked for.
const GUARDS: usize = 4;

/// A lent part and its guards, and a copy of all of it.
#[derive(Debug)]
pub struct Lent<T> {
    all: Vec<T>,
    kept: Vec<T>,
    /// How many guards there are on each side.
    guards: usize,
}

impl Lent<u64> {
    /// A list of so many places with arbitrary numbers, none of them 0.
    pub fn list(random: &mut Random, places: usize) -> Self {
        let all = (0..places + 2 * GUARDS)
            .map(|_| random.next() | 1)
            .collect();
        Lent::of(all)
    }
}

impl Lent<u8> {
    /// A byte string, with arbitrary bytes around it.
    pub fn bytes(random: &mut Random, bytes: &[u8]) -> Self {
        let mut all = random.next().to_le_bytes()[..GUARDS].to_vec();
        all.extend(bytes);
        all.extend(&random.next().to_le_bytes()[..GUARDS]);
        Lent::of(all)
    }

    /// A byte string, with so many arbitrary bytes on each side.
    pub fn far_apart(random: &mut Random, bytes: &[u8], guards: usize) -> Self {
        let mut around = || random.next().to_le_bytes().into_iter().cycle();
        let mut all: Vec<u8> = around().take(guards).collect();
        all.extend(bytes);
        all.extend(around().take(guards));
        Lent {
            guards,
            ..Lent::of(all)
        }
    }

    /// An output of so many arbitrary bytes, none of them 0.
    pub fn output(random: &mut Random, length: usize) -> Self {
        let mut all = Vec::new();
        while all.len() < length + 2 * GUARDS {
            all.extend((random.next() | 0x0101_0101_0101_0101).to_le_bytes());
        }
        all.truncate(length + 2 * GUARDS);
        Lent::of(all)
    }
}

impl<T: Clone + PartialEq> Lent<T> {
    fn of(all: Vec<T>) -> Self {
        let kept = all.clone();
        Lent {
            all,
            kept,
            guards: GUARDS,
        }
    }

    /// The part that is lent.
    pub fn part(&self) -> &[T] {
        &self.all[self.guards..self.all.len() - self.guards]
    }

    /// The same part, to be written.
    pub fn part_mut(&mut self) -> &mut [T] {
        let end = self.all.len() - self.guards;
        &mut self.all[self.guards..end]
    }

    /// Whether the guards are as they were.
    pub fn guards_hold(&self) -> bool {
        let (start, end) = (self.guards, self.all.len() - self.guards);
        self.all[..start] == self.kept[..start] && self.all[end..] == self.kept[end..]
    }

    /// Whether everything is as it was.
    pub fn is_unchanged(&self) -> bool {
        self.all == self.kept
    }
}
