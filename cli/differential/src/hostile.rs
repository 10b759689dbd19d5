//! Files made to mislead a search: shared and hidden blocks.

use zs_reference::maker::random::Random;
use zs_reference::maker::{Image, Plan, Target};

/// Draws such a file.
pub fn draw_hostile(random: &mut Random) -> Image {
    match random.below(3) {
        0 => many_ways(random),
        1 => hidden_blocks(random),
        _ => shared_blocks(random),
    }
}

/// Each level names the block below several times: more ways down than any list has places.
fn many_ways(random: &mut Random) -> Image {
    let mut blocks = vec![Plan::data(&["a", "b\0", "c\0"])];
    for level in 1..=random.pick(&[2, 3, 5, 63]) {
        let child = usize::from(level) - 1;
        let mut keys: Vec<Vec<u8>> = (0..1 + random.below(4)).map(|_| random.string(2)).collect();
        keys.sort();
        let entries: Vec<_> = keys.into_iter().map(|key| (key, child)).collect();
        blocks.push(Plan::index(level, &entries));
    }
    Image::new(blocks)
}

/// Whole blocks inside a record or a reserved block, named by entries.
fn hidden_blocks(random: &mut Random) -> Image {
    let inner = Image::new(vec![Plan::data(&["m", "n"])]).bytes();
    let block = &inner[106..];
    let outer = if random.once_in(2) {
        Plan::data(&[block])
    } else {
        Plan::bytes(64 + random.below(192) as u8, block)
    };
    let shift = random.pick(&[1, 2, 3, 3]);
    let target = Target::Exactly(106 + shift, block.len() as u64);
    Image::new(vec![
        outer,
        Plan::data(&["o", "p"]),
        Plan::naming(1, &[("", target), ("n", target), ("o", Target::Block(1))]),
    ])
}

/// Blocks of two levels that any entry may name, in any order.
fn shared_blocks(random: &mut Random) -> Image {
    let data = 2 + random.below(4);
    let mut blocks: Vec<Plan> = (0..data)
        .map(|_| {
            let mut records = vec![random.string(2), random.string(2)];
            records.sort();
            Plan::data(&records)
        })
        .collect();
    let mut below = 0..data;
    for level in 1..=3 {
        let start = blocks.len();
        for _ in 0..1 + random.below(3) {
            let mut entries: Vec<(Vec<u8>, usize)> = (0..1 + random.below(4))
                .map(|_| (random.string(2), below.start + random.below(below.len())))
                .collect();
            entries.sort();
            blocks.push(Plan::index(level, &entries));
        }
        below = start..blocks.len();
    }
    Image::new(blocks)
}
