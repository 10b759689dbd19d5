//! Sound files of every unusual shape.

use crate::strings::Kind;
use zs_reference::maker::random::Random;
use zs_reference::maker::texts::grow;
use zs_reference::maker::{Keys, Placing, Tree};

/// A sound file.
pub fn shape(random: &mut Random) -> Tree {
    let kind = Kind::draw(random);
    let mut tree = Tree::new::<Vec<u8>>(&[]);
    match random.below(14) {
        0 => fill_chain(random, &kind, &mut tree),
        1 => fill_wide(random, &kind, &mut tree),
        _ => fill_usual(random, &kind, &mut tree),
    }
    finish(random, tree)
}

/// A sound file of these records, one or more.
pub fn reshape(random: &mut Random, mut records: Vec<Vec<u8>>) -> Tree {
    let mut tree = Tree::new::<Vec<u8>>(&[]);
    records.sort();
    let most = 1 + random.below(5);
    while !records.is_empty() {
        let size = 1 + random.below(most.min(records.len()));
        tree.groups.push(records.drain(..size).collect());
    }
    draw_levels(random, &mut tree);
    finish(random, tree)
}

/// Draws all that isn't the records and how many levels there are.
fn finish(random: &mut Random, mut tree: Tree) -> Tree {
    if random.once_in(2) {
        tree.ragged = Some(random.next());
    }
    tree.keys = keys(random);
    tree.placing = placing(random);
    add_reserved(random, &mut tree);
    tree.metadata = metadata(random);
    let longest = random.pick(&[0, 0, 4, 40]);
    tree.extra = random.string(longest);
    tree
}

/// Fills a tree with a few data blocks under one to four levels.
fn fill_usual(random: &mut Random, kind: &Kind, tree: &mut Tree) {
    let most = if kind.is_long() { 4 } else { 9 };
    tree.groups = groups(random, kind, most, 4);
    draw_levels(random, tree);
}

/// One to four levels, or as many as the blocks need.
fn draw_levels(random: &mut Random, tree: &mut Tree) {
    tree.fan_out = (0..1 + random.below(3))
        .map(|_| 1 + random.below(4))
        .collect();
    tree.root_level = 1 + random.below(4) as u8;
}

/// Fills a tree with one to three data blocks under many levels, most of them of one entry.
fn fill_chain(random: &mut Random, kind: &Kind, tree: &mut Tree) {
    tree.groups = groups(random, kind, 3, 2);
    tree.root_level = if random.once_in(3) {
        63
    } else {
        5 + random.below(58) as u8
    };
    tree.fan_out = if kind.is_long() {
        vec![3]
    } else {
        vec![1; random.below(usize::from(tree.root_level))]
    };
}

/// Fills a tree with many data blocks.
fn fill_wide(random: &mut Random, kind: &Kind, tree: &mut Tree) {
    let most = if kind.is_long() { 6 } else { 24 };
    tree.groups = groups(random, kind, most, 3);
    tree.fan_out = vec![2 + random.below(5)];
}

/// Records in order, in at most so many blocks of at most so many records each.
fn groups(random: &mut Random, kind: &Kind, blocks: usize, records: usize) -> Vec<Vec<Vec<u8>>> {
    let sizes: Vec<usize> = (0..1 + random.below(blocks))
        .map(|_| 1 + random.below(records))
        .collect();
    let count = sizes.iter().sum();
    let mut strings: Vec<Vec<u8>> = (0..count).map(|_| kind.string(random)).collect();
    strings.sort();
    let mut rest = strings.into_iter();
    sizes
        .iter()
        .map(|size| rest.by_ref().take(*size).collect())
        .collect()
}

fn keys(random: &mut Random) -> Keys {
    let seed = random.next();
    random.pick(&[
        Keys::FirstRecord,
        Keys::Separator,
        Keys::LastBefore,
        Keys::EmptyFirst,
        Keys::Mixed(seed),
        Keys::Between(seed),
        Keys::Between(seed),
    ])
}

fn placing(random: &mut Random) -> Placing {
    let seed = random.next();
    random.pick(&[
        Placing::After,
        Placing::Before,
        Placing::AfterChildren,
        Placing::BeforeChildren,
        Placing::AfterFirst,
        Placing::Scattered(seed),
        Placing::Scattered(seed),
    ])
}

/// Adds reserved blocks anywhere, with any payload.
fn add_reserved(random: &mut Random, tree: &mut Tree) {
    if random.once_in(2) {
        return;
    }
    for _ in 0..random.below(4) {
        let at = random.below(tree.groups.len() + 4);
        let any = 64 + random.below(192) as u8;
        let level = random.pick(&[64, 65, 128, 255, any]);
        let longest = random.pick(&[0, 5, 130]);
        tree.reserved.push((at, level, random.string(longest)));
    }
}

/// Metadata: empty mostly, else small, and long ones at times.
pub fn metadata(random: &mut Random) -> Vec<u8> {
    match random.below(40) {
        0 => grow(random, 64),
        1..=9 => {
            let depth = 1 + random.below(3);
            grow(random, depth)
        }
        _ => b"{}".to_vec(),
    }
}
