//! Files of very many short blocks: the work list of the check is as long as there are blocks, whatever the bytes.

use crate::support::{shell, zs, Folder, Run};
use zs_reference::maker::{Image, Plan};

/// How many data blocks the files have.
const BLOCKS: usize = 20_000;

/// A data block for each of many empty records, and their root.
fn tiny_blocks() -> Image {
    let mut blocks = vec![Plan::data(&[""]); BLOCKS];
    let entries: Vec<_> = (0..BLOCKS).map(|block| ("", block)).collect();
    blocks.push(Plan::index(1, &entries));
    Image::new(blocks)
}

#[test]
fn a_block_for_each_record_is_valid() {
    let folder = Folder::new();
    let file = folder.write("tiny.zs", &tiny_blocks().bytes());
    let run = zs(&["validate", &file]);
    let due = format!("{file}: valid, 20000 records in 20001 blocks\n");
    assert_eq!((run.status, run.text()), (0, due), "{}", run.err);
    let run = zs(&["dump", "--count", "--start", "a", &file]);
    assert_eq!((run.status, run.text().as_str()), (0, "0\n"));
}

#[test]
fn damage_among_tiny_blocks_is_told_as_elsewhere() {
    let folder = Folder::new();
    let image = tiny_blocks();
    let file = image.bytes();
    let (place, root) = (image.start(BLOCKS / 2), image.start(BLOCKS));
    let with = |at: u64, byte: u8| {
        let mut damaged = file.clone();
        damaged[at as usize] = byte;
        damaged
    };
    let cases = [
        (with(place, 0x7f), format!("refused 14 at {place}: ")),
        (with(place, 0xff), format!("refused 12 at {place}: ")),
        (with(root + 2, 0x7f), format!("refused 10 at {root}: ")),
        (with(place, 0), format!("refused 13 at {place}: ")),
        (with(place + 1, 64), format!("refused 14 at {place}: ")),
        (with(40, 0), "refused 5: ".into()),
        (file[..place as usize].to_vec(), "refused 8: ".into()),
        (file[..90].to_vec(), "refused 4: ".into()),
    ];
    for (damaged, due) in cases {
        let run = zs(&["validate", &folder.write("damaged.zs", &damaged)]);
        assert_eq!(run.status, 1);
        assert!(run.text().contains(&due), "{due} in {}", run.text());
    }
}

/// Validates a file with memory for its 32 MiB, and none for a list of 24 MiB beside it.
fn validate_in_little_memory(file: &[u8]) -> Run {
    let folder = Folder::new();
    folder.write("long.zs", file);
    shell("ulimit -v 55000; exec $ZS validate long.zs", &folder)
}

#[test]
fn what_needs_no_list_is_told_without_memory_for_one() {
    // The root names one block of all: that is seen by the list.
    let mut blocks = vec![Plan::data(&[""]); (1 << 25) / 11];
    blocks.push(Plan::index(1, &[("", 0)]));
    let image = Image::new(blocks);
    let (file, first) = (image.bytes(), image.start(0));
    let run = validate_in_little_memory(&file);
    assert_eq!((run.status, run.text().as_str()), (2, ""));
    assert!(
        run.err.contains("isn't enough memory to check it"),
        "{}",
        run.err
    );
    for (at, due) in [
        (40, "refused 5: ".into()),
        (first + 3, format!("refused 14 at {first}: ")),
    ] {
        let mut damaged = file.clone();
        damaged[at as usize] ^= 1;
        let run = validate_in_little_memory(&damaged);
        assert_eq!(run.status, 1, "{}", run.err);
        assert!(run.text().contains(&due), "{due} in {}", run.text());
    }
}

#[test]
fn bytes_that_only_look_like_blocks_take_no_list() {
    // One record of 32 MiB, all of it tiny frames. A list with a place for each of them would take 24 MiB.
    let record = [2, 0, 0, 0, 0, 0, 0, 0, 0, 0, 0].repeat((1 << 25) / 11);
    let blocks = vec![Plan::data(&[record]), Plan::index(1, &[("", 0)])];
    let run = validate_in_little_memory(&Image::new(blocks).bytes());
    let due = "long.zs: valid, 1 record in 2 blocks\n";
    assert_eq!((run.status, run.text().as_str()), (0, due), "{}", run.err);
}
