//! Faults of a block's frame: 10 to 14.

use super::{is_ordinary, some_block};
use zs_reference::maker::random::Random;
use zs_reference::maker::{encode, Content, Image, Plan, Target};

/// Damages the frame of a block, most times of an ordinary one.
pub fn damage(random: &mut Random, number: u64, image: &mut Image) {
    let wanted = if random.once_in(8) {
        |_: &Content| true
    } else {
        is_ordinary
    };
    let block = match some_block(random, image, wanted) {
        Some(block) => block,
        None => return,
    };
    let plan = &mut image.blocks[block];
    match number {
        10 => run_past_end(random, image, block),
        11 => plan.number = Some(wide_number(random)),
        12 => {
            let value = some_value(random);
            plan.number = Some(long_number(random, value));
        }
        13 => clear_length(random, plan),
        _ => spoil_crc(random, plan),
    }
}

/// 10: a number that runs past the file's end, or is cut off by it.
fn run_past_end(random: &mut Random, image: &mut Image, block: usize) {
    let last = image.blocks.len() - 1;
    match random.below(5) {
        0 => {
            // The right number with a high bit set, or one near the highest.
            let right = image.blocks[block].payload(&image.places()).len() as u64 + 1;
            let high = right + random.pick(&[1 << 16, 1 << 32, 1 << 62]);
            let far = [high, high, (1 << 63) - 1, (1 << 63) - 9];
            image.blocks[block].number = Some(encode(random.pick(&far)));
        }
        1 => {
            // One to nine bytes more than the last block has.
            let size = image.blocks[last].payload(&image.places()).len() + 2;
            image.blocks[last].number = Some(encode((size + random.below(9)) as u64));
        }
        2 => {
            let rest = image.bytes().len();
            image.blocks[block].number = Some(encode((rest + random.below(20)) as u64));
        }
        3 => image.tail = vec![0x80 + random.below(128) as u8; 1 + random.below(8)],
        _ => {
            image.tail = encode(1 + random.below(200) as u64);
            image.tail.extend(random.string(8));
        }
    }
    // A search reads the end of the file only if the header names it.
    if !image.tail.is_empty() && random.once_in(2) {
        let end = image.bytes().len() - image.tail.len();
        image.root = Target::Exactly(end as u64, 20);
    }
}

/// 13: L is 0, with or without bytes after it.
fn clear_length(random: &mut Random, plan: &mut Plan) {
    plan.number = Some(vec![0]);
    if random.once_in(2) {
        plan.level = None;
        plan.content = Content::Bytes(Vec::new());
    }
}

/// 14: flipped bits of the CRC, or a number L that is a little off.
fn spoil_crc(random: &mut Random, plan: &mut Plan) {
    plan.crc_flips = match random.below(3) {
        0 => 1 << random.below(64),
        1 => u64::MAX,
        _ => random.next(),
    };
}

/// Nine bytes from 80 hex up, and perhaps more after them.
pub fn wide_number(random: &mut Random) -> Vec<u8> {
    let mut number: Vec<u8> = (0..9).map(|_| 0x80 | random.next() as u8).collect();
    if random.once_in(3) {
        number = vec![random.pick(&[0x80, 0xff]); 9];
    }
    number.extend(match random.below(3) {
        0 => vec![0x00],
        1 => vec![0x01],
        _ => Vec::new(),
    });
    number
}

/// A number with up to eight bytes, the last of them 00.
pub fn long_number(random: &mut Random, value: u64) -> Vec<u8> {
    let mut number = encode(value);
    if let Some(last) = number.last_mut() {
        *last |= 0x80;
    }
    let longest = 8_usize.saturating_sub(number.len());
    number.extend(vec![0x80; random.below(longest + 1)]);
    number.push(0x00);
    number
}

fn some_value(random: &mut Random) -> u64 {
    let small = random.below(300) as u64;
    random.pick(&[0, small, small, (1 << 56) - 1])
}
