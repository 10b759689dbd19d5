//! Comparing: the examples of docs/FORMAT.md by hand, copies over block ends, refusals and their order, and drawn pairs by brute force.

use crate::support::compare::{differences, records};
use zs_reference::compare::{compare, show, shown, Compared};
use zs_reference::maker::random::{bend, tree, Random};
use zs_reference::maker::{Keys, Placing, Tree};
use zs_reference::reader::check;

/// Data blocks at 106 and 121, the root at 136.
fn two_blocks() -> Vec<u8> {
    let mut tree = Tree::new(&[&[&b"a"[..], b"b\xff"], &[b"b\xff", b"c"]]);
    tree.keys = Keys::EmptyFirst;
    tree.bytes()
}

/// One empty record at 109.
fn smallest() -> Vec<u8> {
    Tree::new(&[&[""]]).bytes()
}

/// The answer with just these rows.
fn answer(rows: &[[u64; 5]], sum: i64) -> Compared {
    Compared {
        differences: rows.len() as u64,
        sum,
        list: rows.concat(),
        ..Compared::default()
    }
}

/// The answer of a refused comparison with a list of so many places.
fn refusal(number: u64, place: u64, which: u64, places: usize) -> Compared {
    Compared {
        number,
        place,
        which,
        list: vec![0; places],
        ..Compared::default()
    }
}

#[test]
fn the_examples() {
    let (two, one) = (two_blocks(), smallest());
    assert_eq!((two.len(), one.len()), (154, 130));
    let due = [
        [2, 109, 0, 0, 1],
        [1, 109, 1, 1, 0],
        [1, 111, 2, 2, 0],
        [1, 127, 1, 1, 0],
    ];
    assert_eq!(compare(&two, &one, 3, 20), answer(&due, -3));
    let due = [
        [1, 109, 0, 1, 0],
        [2, 109, 1, 0, 1],
        [2, 111, 2, 0, 2],
        [2, 127, 1, 0, 1],
    ];
    assert_eq!(compare(&one, &two, 3, 20), answer(&due, 3));
    for file in [&one, &two] {
        assert_eq!(compare(file, file, 3, 0), answer(&[], 0));
        assert_eq!(compare(file, file, 3, 2).list, [0, 0]);
    }
}

/// A list with more places goes on with zeros, one with fewer is refused with 35.
#[test]
fn room_for_the_list() {
    let (two, one) = (two_blocks(), smallest());
    let exact = compare(&two, &one, 3, 20);
    let more = compare(&two, &one, 3, 23);
    assert_eq!(more.list, [&exact.list[..], &[0, 0, 0]].concat());
    assert_eq!((more.differences, more.sum), (4, -3));
    for places in 0..20 {
        let due = refusal(35, 0, 0, places);
        assert_eq!(compare(&two, &one, 3, places), due);
    }
}

/// A work list serves both checks; the first file that has no room is the one refused.
#[test]
fn room_for_the_checks() {
    let (two, one) = (two_blocks(), smallest());
    for places in 0..3 {
        let due = refusal(18, 0, 1, 20);
        assert_eq!(compare(&two, &one, places, 20), due);
    }
    for (places, which) in [(0, 1), (1, 1), (2, 2)] {
        let due = refusal(18, 0, which, 20);
        assert_eq!(compare(&one, &two, places, 20), due);
    }
}

/// The first file decides, then the second, then the list.
#[test]
fn order_of_refusals() {
    let sound = two_blocks();
    let mut damaged = sound.clone();
    damaged[125] ^= 1;
    let unfinished = [b"\xabZStoBe\x01", &sound[8..]].concat();
    assert_eq!(compare(&damaged, &sound, 3, 5), refusal(14, 121, 1, 5));
    assert_eq!(compare(&sound, &damaged, 3, 5), refusal(14, 121, 2, 5));
    assert_eq!(compare(&damaged, &unfinished, 3, 5), refusal(14, 121, 1, 5));
    assert_eq!(compare(&unfinished, &damaged, 3, 5), refusal(2, 0, 1, 5));
    assert_eq!(compare(&sound, &damaged, 2, 5), refusal(18, 0, 1, 5));
    assert_eq!(compare(&smallest(), &damaged, 2, 0), refusal(14, 121, 2, 0));
    assert_eq!(compare(b"", &sound, 3, 0), refusal(3, 0, 1, 0));
    assert_eq!(compare(&sound, b"", 3, 0), refusal(3, 0, 2, 0));
}

/// Copies that run over block ends, with one after another string and blocks of nothing else.
#[test]
fn copies_over_block_ends() {
    let over = Tree::new(&[&["a", "b"], &["b", "b"], &["b"], &["b", "c"]]).bytes();
    let one_block = Tree::new(&[&["a", "b", "b", "b", "b", "b", "c"]]).bytes();
    assert_eq!(compare(&over, &one_block, 5, 0), answer(&[], 0));
    let fewer = Tree::new(&[&["a"], &["b", "b"], &["b", "c", "c"]]).bytes();
    let due = [[1, 111, 1, 5, 3], [1, 151, 1, 1, 2]];
    assert_eq!(compare(&over, &fewer, 5, 10), answer(&due, -1));
    let due = [[1, 121, 1, 3, 5], [1, 137, 1, 2, 1]];
    assert_eq!(compare(&fewer, &over, 5, 10), answer(&due, 1));
}

/// All of one file before all of the other; the longer string after the one that begins it; FF last.
#[test]
fn order_of_the_rows() {
    let low = Tree::new(&[&[&b""[..], b"\0", b"a"]]).bytes();
    let high = Tree::new(&[&[&b"a\0"[..], b"\x7f", b"\x80", b"\xff"]]).bytes();
    let due = [
        [1, 109, 0, 1, 0],
        [1, 110, 1, 1, 0],
        [1, 112, 1, 1, 0],
        [2, 109, 2, 0, 1],
        [2, 112, 1, 0, 1],
        [2, 114, 1, 0, 1],
        [2, 116, 1, 0, 1],
    ];
    assert_eq!(compare(&low, &high, 2, 35), answer(&due, 1));
    let turned = due.map(|[which, at, length, one, two]| [3 - which, at, length, two, one]);
    assert_eq!(compare(&high, &low, 2, 35), answer(&turned, -1));
}

#[test]
fn parts_of_two_files() {
    let (first, second) = (two_blocks(), smallest());
    let part = |which, offset, length| {
        let named = show(&first, &second, which, offset, length);
        (named, shown(&first, &second, which, offset, length))
    };
    let none = ((1, 0, 0), &b""[..]);
    assert_eq!(part(1, 111, 2), ((1, 111, 2), &b"b\xff"[..]));
    assert_eq!(part(2, 96, 2), ((2, 96, 2), &b"{}"[..]));
    assert_eq!(part(2, 0, 0), ((2, 0, 0), &b""[..]));
    assert_eq!(part(2, 130, 0), ((2, 130, 0), &b""[..]));
    assert_eq!(part(1, 130, 1), ((1, 130, 1), &first[130..131]));
    assert_eq!(part(2, 130, 1), none);
    assert_eq!(part(1, 154, 0), ((1, 154, 0), &b""[..]));
    assert_eq!(part(1, 154, 1), none);
    for which in [0, 3, 1 << 32 | 1, 1 << 63 | 2, u64::MAX] {
        assert_eq!(part(which, 96, 2), none);
    }
    for which in 1..=2 {
        assert_eq!(part(which, 1, u64::MAX), none);
        assert_eq!(part(which, u64::MAX, 1), none);
        assert_eq!(part(which, 1 << 63, 1 << 63), none);
        assert_eq!(part(which, u64::MAX, u64::MAX), none);
    }
}

/// Holds an answer to the rules, each row to its record, and the sum to the numbers of records.
fn hold(first: &[u8], second: &[u8]) -> Compared {
    let (rows, sum) = differences(first, second);
    let blocks = check(first, 1000).blocks.max(check(second, 1000).blocks) as usize;
    let given = compare(first, second, blocks, 5 * rows.len());
    assert_eq!(given, answer(&rows, sum));
    let counts = [first, second].map(|file| check(file, 1000).records as i64);
    assert_eq!(given.sum, counts[1] - counts[0]);
    let strings: Vec<&[u8]> = rows
        .iter()
        .map(|row| shown(first, second, row[0], row[1], row[2]))
        .collect();
    assert!(strings.windows(2).all(|two| two[0] < two[1]));
    if !rows.is_empty() {
        let short = compare(first, second, blocks, 5 * rows.len() - 1);
        assert_eq!(short.number, 35);
    }
    given
}

#[test]
fn drawn_pairs() {
    let mut random = Random::new(7);
    let mut with_differences = 0;
    for _ in 0..2000 {
        let (first, second) = (tree(&mut random, 6).bytes(), tree(&mut random, 6).bytes());
        with_differences += u64::from(hold(&first, &second).differences > 0);
        assert_eq!(hold(&first, &first).differences, 0);
    }
    assert!(with_differences > 1900, "{with_differences}");
}

/// The same records in other blocks, under another index, have no differences; with one more or one less there is one.
#[test]
fn drawn_shapes() {
    let mut random = Random::new(8);
    for _ in 0..1000 {
        let one = tree(&mut random, 6);
        let mut all = one.groups.concat();
        let other = reshape(&mut random, &all);
        assert_eq!(hold(&one.bytes(), &other).differences, 0);
        let copy = all[random.below(all.len())].clone();
        all.push(copy.clone());
        all.sort();
        let other = reshape(&mut random, &all);
        let given = hold(&one.bytes(), &other);
        assert_eq!((given.differences, given.sum), (1, 1));
        let copies = records(&other).iter().filter(|r| r.bytes == copy).count();
        assert_eq!(given.list[4], copies as u64);
        assert_eq!(hold(&other, &one.bytes()).sum, -1);
    }
}

/// A file of these records with other blocks, keys and places than most.
fn reshape(random: &mut Random, records: &[Vec<u8>]) -> Vec<u8> {
    let per_block = 1 + random.below(records.len());
    let groups: Vec<&[Vec<u8>]> = records.chunks(per_block).collect();
    let mut tree = Tree::new(&groups);
    tree.fan_out = vec![1 + random.below(3)];
    tree.keys = Keys::Mixed(random.next());
    tree.placing = Placing::Scattered(random.next());
    tree.reserved = vec![(random.below(3), 64, random.string(9))];
    tree.bytes()
}

/// A refused file gives what the check gives, whichever of the two it is.
#[test]
fn drawn_refusals() {
    let mut random = Random::new(9);
    let sound = smallest();
    let mut refused = 0;
    for _ in 0..500 {
        let mut image = tree(&mut random, 4).image();
        bend(&mut random, &mut image);
        let bent = image.bytes();
        let checked = check(&bent, 1000);
        if checked.number != 0 {
            let due = |which| refusal(checked.number, checked.place, which, 3);
            assert_eq!(compare(&bent, &sound, 1000, 3), due(1));
            assert_eq!(compare(&sound, &bent, 1000, 3), due(2));
            assert_eq!(compare(&bent, &bent, 1000, 3), due(1));
            refused += 1;
        }
    }
    assert!(refused > 200, "{refused}");
}
