//! The second writer: files that can be worked out by hand, its layout, its refusals, and the maker's files.

use std::collections::BTreeSet;

use crate::support::results::records_at;
use crate::support::take_apart;
use crate::support::tree::faults;
use zs_reference::maker::random::{tree, Random};
use zs_reference::maker::{Keys, Plan, Tree};
use zs_reference::reader::{check, read, Query};
use zs_reference::writer::{shortest_key, whole_record, write, write_by, Counts, KeyRule};

const AMPLE: usize = 1 << 20;

fn counts(per_block: u64, per_index: u64) -> Counts {
    Counts {
        per_block,
        per_index,
    }
}

/// Records in the form that the writer takes.
fn input<R: AsRef<[u8]>>(records: &[R]) -> Vec<u8> {
    Plan::data(records).payload(&[])
}

fn hex(bytes: &[u8]) -> String {
    bytes.iter().map(|byte| format!("{byte:02x}")).collect()
}

/// The smallest file of docs/FORMAT.md: one empty record, 130 bytes.
#[test]
fn smallest_file() {
    let file = write(b"{}", b"\0", counts(1, 2), 130).expect("a file");
    let due = "ab5a5366694c65015200000000000000\
               75000000000000000d00000000000000\
               82000000000000006e340b9cffb37a98\
               9ca544e6bb780a2c78901d3fb3373876\
               8511a30617afa01d6e6f6e6500000000\
               00000000000000000200000000000000\
               7b7d9d1aa8b353c4527e\
               020000875a4a51974d1042\
               0401006a0b9cc4012489272921";
    assert_eq!(hex(&file), due);
}

/// The records of the example with two data blocks of docs/FORMAT.md, and that file: 154 bytes.
#[test]
fn two_block_file() {
    let records = input(&[&b"a"[..], b"b\xff", b"b\xff", b"c"]);
    let file = write(b"{}", &records, counts(2, 2), 154).expect("a file");
    let due = "ab5a5366694c65015200000000000000\
               88000000000000001200000000000000\
               9a0000000000000036d084f06260a0c6\
               bcb8aa9150e1ef4910be942e1bb1e624\
               e918bb056b0a3c406e6f6e6500000000\
               00000000000000000200000000000000\
               7b7d4804e1ff342a142b\
               060001610262ffd6b5633b79cd7edc\
               06000262ff0163ea05b28ba1c5e0cc\
               0901006a0f0262ff790fc9ca9e52c2973e86";
    assert_eq!(hex(&file), due);
    assert_eq!(write(b"{}", &records, counts(2, 2), 153), Err(31));
}

/// The same records with whole records as keys, of which the first takes one byte more: 155 bytes.
#[test]
fn two_block_file_with_whole_records() {
    let records = input(&[&b"a"[..], b"b\xff", b"b\xff", b"c"]);
    let file = write_by(whole_record, b"{}", &records, counts(2, 2), 155).expect("a file");
    let due = "ab5a5366694c65015200000000000000\
               88000000000000001300000000000000\
               9b0000000000000036d084f06260a0c6\
               bcb8aa9150e1ef4910be942e1bb1e624\
               e918bb056b0a3c406e6f6e6500000000\
               00000000000000000200000000000000\
               7b7d12870f392b145ded\
               060001610262ffd6b5633b79cd7edc\
               06000262ff0163ea05b28ba1c5e0cc\
               0a0101616a0f0262ff790f3dcd160f44e92985";
    assert_eq!(hex(&file), due);
}

/// Keys that can be worked out by hand.
#[test]
fn shortest_keys() {
    let long = [b'k'; 5000];
    for (before, first, key) in [
        (None, &b""[..], &b""[..]),
        (None, b"abc", b""),
        (Some(&b""[..]), b"", b""),
        (Some(b""), b"abc", b""),
        (Some(b"a"), b"b", b"b"),
        (Some(b"a\xff\xff"), b"b\xff", b"b"),
        (Some(b"ab"), b"ab", b"ab"),
        (Some(b"ab"), b"abc", b"ab"),
        (Some(b"ab"), b"ab\0\0", b"ab"),
        (Some(b"aba"), b"abcd", b"abc"),
        (Some(b"a\xfe\xff"), b"a\xff\xff", b"a\xff"),
        (Some(b"\xff"), b"\xff\xff\xff", b"\xff"),
        (Some(b"\x7f\x80"), b"\x80\x7f", b"\x80"),
        (Some(&long[..4000]), &long, &long[..4000]),
        (Some(&long), &long, &long),
        (
            Some(&[&long[..], b"a"].concat()),
            &[&long[..], b"bc"].concat(),
            &[&long[..], b"b"].concat(),
        ),
    ] {
        assert_eq!(shortest_key(before, first), key, "{before:?} {first:?}");
    }
}

/// All byte strings of at most so many of these letters, shorter ones first.
fn strings(letters: &[u8], longest: usize) -> Vec<Vec<u8>> {
    let mut strings = vec![Vec::new()];
    let mut longer = strings.clone();
    for _ in 0..longest {
        let extend = |string: &Vec<u8>| {
            let more = letters
                .iter()
                .map(|letter| [&string[..], &[*letter]].concat());
            more.collect::<Vec<_>>()
        };
        longer = longer.iter().flat_map(extend).collect();
        strings.extend(longer.iter().cloned());
    }
    strings
}

/// No byte string between the two records has fewer bytes than the key, which is a beginning of the second. Tried are those of both
/// letters and of the bytes beside them.
#[test]
fn no_key_is_shorter() {
    let records = strings(&[0x61, 0xff], 4);
    let keys = strings(&[0x00, 0x60, 0x61, 0x62, 0xfe, 0xff], 4);
    for before in &records {
        for first in records.iter().filter(|first| before <= first) {
            let key = shortest_key(Some(before), first);
            let mut legal = keys.iter().filter(|key| before <= key && *key <= first);
            let shortest = legal.next().expect("the record itself").len();
            assert!(before.as_slice() <= key && first.starts_with(key));
            assert_eq!(key.len(), shortest, "{before:?} {first:?}");
        }
    }
}

/// Level and keys of each block in file order.
fn layout(file: &[u8]) -> Vec<(u8, Vec<String>)> {
    let blocks = take_apart(file).blocks.expect("whole blocks");
    let keys = |items: &[crate::support::Item]| {
        let text = |item: &crate::support::Item| String::from_utf8_lossy(&item.bytes).into_owned();
        items.iter().map(text).collect()
    };
    blocks
        .iter()
        .map(|block| (block.level, keys(&block.items)))
        .collect()
}

/// Nine records, two in a block and two entries in an index block. The first key of a level is empty, and no other.
#[test]
fn levels() {
    let records = input(&["a", "bb", "cc", "dd", "ddd", "f", "ga", "gc", "gdd"]);
    let file = write(b"{}", &records, counts(2, 2), AMPLE).expect("a file");
    let words = |text: &str| text.split(' ').map(str::to_string).collect::<Vec<_>>();
    let due = [
        (0, "a bb"),
        (0, "cc dd"),
        (0, "ddd f"),
        (0, "ga gc"),
        (0, "gdd"),
        (1, " c"),
        (1, "dd g"),
        (1, "gd"),
        (2, " dd"),
        (2, "gd"),
        (3, " gd"),
    ];
    let due: Vec<_> = due.iter().map(|(l, keys)| (*l, words(keys))).collect();
    assert_eq!(layout(&file), due);
    let one_block = write(b"{}", &records, counts(9, 2), AMPLE).expect("a file");
    let levels: Vec<u8> = layout(&one_block).iter().map(|block| block.0).collect();
    assert_eq!(levels, [0, 1]);
}

/// Both ends of both ranges, before every other refusal.
#[test]
fn counts_out_of_range() {
    for (per_block, per_index) in [(1, 2), (1, 65_535), (65_535, 2), (65_535, 65_535)] {
        assert!(write(b"{}", b"\0", counts(per_block, per_index), 130).is_ok());
    }
    for wrong in [
        counts(0, 2),
        counts(65_536, 2),
        counts(u64::MAX, 2),
        counts(1, 0),
        counts(1, 1),
        counts(1, 65_536),
        counts(1, 1 << 32 | 2),
    ] {
        assert_eq!(write(b"{}", b"\0", wrong, 130), Err(30));
        assert_eq!(write(b"", b"\x80", wrong, 0), Err(30));
    }
}

#[test]
fn refusals_in_order() {
    let given = |metadata: &[u8], input: &[u8], room| write(metadata, input, counts(1, 2), room);
    for metadata in [&b""[..], b"{", b"}{", b"[]", b"{} ", b"{oops}"] {
        assert_eq!(given(metadata, b"\0", 130), Err(9));
        assert_eq!(given(metadata, b"\x01", 0), Err(9));
    }
    for malformed in [
        &b""[..],
        b"\x80",
        b"\x01",
        b"\x80\x00",
        b"\x00\x02a",
        b"\xff\xff\xff\xff\xff\xff\xff\xff\x7f",
        b"\xff\xff\xff\xff\xff\xff\xff\xff\xff\x00",
        b"\x01b\x01a\x81",
    ] {
        assert_eq!(given(b"{}", malformed, AMPLE), Err(28), "{malformed:?}");
        assert_eq!(given(b"{}", malformed, 0), Err(28), "{malformed:?}");
    }
    for falling in [&b"\x01b\x01a"[..], b"\x01a\x00", b"\x01\x80\x01\x7f"] {
        assert_eq!(given(b"{}", falling, AMPLE), Err(29));
        assert_eq!(given(b"{}", falling, 0), Err(29));
    }
    assert_eq!(given(b"{}", b"\0", 129), Err(31));
}

/// The maker makes the same files in its own way: it tries one beginning after the other as a key, and finds offsets by rounds of guesses.
#[test]
fn files_of_the_maker() {
    let mut random = Random::new(6);
    for _ in 0..600 {
        let per_block = 1 + random.below(4);
        let per_index = 2 + random.below(3);
        let records: Vec<Vec<u8>> = tree(&mut random, 12).groups.concat();
        let groups: Vec<&[Vec<u8>]> = records.chunks(per_block).collect();
        let mut tree = Tree::new(&groups);
        tree.fan_out = vec![per_index];
        tree.metadata = format!("{{{}}}", " ".repeat(random.below(50))).into_bytes();

        let counts = counts(per_block as u64, per_index as u64);
        let rules: [(KeyRule, Keys); 2] = [
            (shortest_key, Keys::Separator),
            (whole_record, Keys::FirstRecord),
        ];
        let lengths = rules.map(|(rule, keys)| {
            tree.keys = keys;
            is_the_makers(rule, &tree, counts, &records)
        });
        assert!(lengths[0] <= lengths[1]);
    }
}

/// The file of a rule for keys is the maker's, and finds room in so many bytes and in no fewer. Gives its length.
fn is_the_makers(rule: KeyRule, tree: &Tree, counts: Counts, records: &[Vec<u8>]) -> usize {
    let due = tree.bytes();
    let written = |room| write_by(rule, &tree.metadata, &input(records), counts, room);
    assert_eq!(written(due.len()), Ok(due.clone()));
    assert_eq!(written(due.len() - 1), Err(31));
    keeps_rules(&due, records);
    due.len()
}

/// The file breaks no rule, and holds these records.
fn keeps_rules(file: &[u8], records: &[Vec<u8>]) {
    assert_eq!(check(file, AMPLE).number, 0);
    assert_eq!(faults(file), BTreeSet::new());
    let answer = read(file, &Query::default(), records.len());
    assert_eq!(records_at(file, &answer.results), records);
}
