//! The calls to be made on two files: comparisons, and parts of either.

use crate::call::{Call, Room};
use crate::calls::Asked;
use crate::pairs::Pair;
use zs_reference::compare::compare;
use zs_reference::maker::random::Random;
use zs_reference::reader::check;

/// Room for the check of every file that is drawn here.
const AMPLE: usize = 200;

/// Draws all calls on two files, and tells whether both are accepted.
pub fn draw_on_pair(random: &mut Random, pair: &Pair) -> (Vec<Asked>, bool) {
    let checked = [0, 1].map(|file| check(&pair[file], usize::MAX));
    if checked.iter().any(|checked| checked.number != 0) {
        return (draw_refused(random, pair), false);
    }
    let records: u64 = checked.iter().map(|checked| checked.records).sum();
    let blocks = checked.map(|checked| checked.blocks as usize);
    let compared = compare(&pair[0], &pair[1], usize::MAX, 5 * records as usize);
    let rooms = rooms(random, blocks, 5 * compared.differences as usize);
    let mut calls: Vec<Asked> = rooms.into_iter().map(|room| ask(pair, room)).collect();
    if compared.differences > 0 {
        let row = 5 * random.below(compared.differences as usize);
        let [which, offset, length] = [0, 1, 2].map(|at| compared.list[row + at]);
        calls.push(ask_part(pair, [which, offset, length]));
        calls.push(ask_part(pair, [3 - which, offset, length]));
    }
    calls.push(ask_part(pair, near_part(random, pair)));
    calls.push(ask_part(pair, far_part(random, pair)));
    (calls, true)
}

/// Calls on two files of which one is refused or both: with room for the check, and at times with less.
fn draw_refused(random: &mut Random, pair: &Pair) -> Vec<Asked> {
    let mut calls = vec![ask(pair, (AMPLE, random.below(12), Room::Any))];
    if random.once_in(3) {
        calls.push(ask(pair, (random.below(6), random.below(6), Room::Any)));
    }
    if random.once_in(2) {
        let draw_part = random.pick(&[near_part, near_part, far_part]);
        calls.push(ask_part(pair, draw_part(random, pair)));
    }
    calls
}

/// A comparison with so many places of the work list and of the list.
fn ask(pair: &Pair, (work, list, room): (usize, usize, Room)) -> Asked {
    let second = pair[1].clone();
    (Call::Compare { second, work, list }, room)
}

/// A part of one of the files.
fn ask_part(pair: &Pair, [which, offset, length]: [u64; 3]) -> Asked {
    let call = Call::Show {
        second: pair[1].clone(),
        which,
        offset,
        length,
    };
    (call, Room::Any)
}

/// Places of the work list and of the list for files of so many blocks: more than needed, just enough, one short for each list, as many as
/// the file with fewer blocks needs, and fewer.
fn rooms(random: &mut Random, blocks: [usize; 2], list: usize) -> Vec<(usize, usize, Room)> {
    let work = blocks[0].max(blocks[1]);
    let (more, further) = (1 + random.below(9), 1 + random.below(9));
    let mut rooms = vec![
        (work + more, list + further, Room::Plenty),
        (work, list, Room::Exact),
        (work - 1, list + random.below(3), Room::FirstShort),
    ];
    if list > 0 {
        rooms.push((work + random.below(3), list - 1, Room::ResultsShort));
        rooms.push((work, random.below(list), Room::Any));
    }
    if blocks[0] != blocks[1] {
        let fewer = random.pick(&[0, 1]);
        let work = blocks[0].min(blocks[1]) - fewer;
        rooms.push((work, random.pick(&[list, 0]), Room::Any));
    }
    rooms
}

/// A part about the end of either file.
fn near_part(random: &mut Random, pair: &Pair) -> [u64; 3] {
    let end = pair[random.below(2)].len() as u64;
    let some = random.below(20) as u64;
    let from = end.saturating_sub(random.pick(&[0, 0, some])) + random.pick(&[0, 0, 1, 2]);
    let length = (end + random.pick(&[0, 0, 1, 2])).saturating_sub(from);
    [draw_which(random), from, length]
}

/// A part that ends anywhere, beyond 64 bits too.
fn far_part(random: &mut Random, pair: &Pair) -> [u64; 3] {
    let end = pair[random.below(2)].len() as u64;
    let back = random.below(20) as u64;
    let offset = random.pick(&[0, 1, end, end + 1, 1 << 32, u64::MAX - back]);
    let length = random.pick(&[0, 1, end, 1 << 63, u64::MAX - back, offset.wrapping_neg()]);
    [draw_which(random), offset, length]
}

/// Draws 1 and 2 most times, else a number of no file, which may agree with these in its last bits.
fn draw_which(random: &mut Random) -> u64 {
    let near = random.pick(&[1, 2]);
    let far = random.pick(&[1 << 8, 1 << 16, 1 << 32, 1 << 63]);
    random.pick(&[near, near, near, near, near, 0, 3, far + near, u64::MAX])
}
