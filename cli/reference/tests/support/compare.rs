//! What differs between two files, string by string.

use super::{take_apart, Item};

/// The records of a file with their offsets, in file order.
pub fn records(file: &[u8]) -> Vec<Item> {
    let blocks = take_apart(file).blocks.expect("blocks that can be read");
    let data = blocks.into_iter().filter(|block| block.level == 0);
    data.flat_map(|block| block.items).collect()
}

/// The rows due for two accepted files, and the sum. Each string of either file is looked for in both from the front.
pub fn differences(first: &[u8], second: &[u8]) -> (Vec<[u64; 5]>, i64) {
    let files = [records(first), records(second)];
    let all = files.iter().flatten();
    let mut strings: Vec<&[u8]> = all.map(|record| &record.bytes[..]).collect();
    strings.sort_unstable();
    strings.dedup();
    let mut rows = Vec::new();
    let mut sum = 0;
    for string in strings {
        let [one, two] = [0, 1].map(|file| offsets(&files[file], string));
        if one.len() != two.len() {
            let (which, shown) = if one.is_empty() { (2, &two) } else { (1, &one) };
            let lowest = *shown.iter().min().expect("a copy");
            let counts = [one.len() as u64, two.len() as u64];
            rows.push([which, lowest, string.len() as u64, counts[0], counts[1]]);
            sum += counts[1] as i64 - counts[0] as i64;
        }
    }
    (rows, sum)
}

/// Where a file has copies of a string.
fn offsets(records: &[Item], string: &[u8]) -> Vec<u64> {
    let copies = records.iter().filter(|record| record.bytes == string);
    copies.map(|record| record.at).collect()
}
