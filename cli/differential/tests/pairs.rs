//! What the maker of pairs promises: files that aren't damaged are accepted and hold the records that were meant, and a refused file comes first
//! and second. Then pairs of files with very many records.

use zs_differential::call::Call;
use zs_differential::compare::compare;
use zs_differential::faults::{draw_faulty, NUMBERS};
use zs_differential::pairs::{draw_pairs, records_of};
use zs_differential::shapes::{reshape, shape};
use zs_library::refusals::{self, numbers};
use zs_reference::maker::random::Random;
use zs_reference::maker::Plan;
use zs_reference::reader::check;
use zs_reference::writer::{write, Counts};

const AMPLE: usize = 1000;

#[test]
fn comparing_gives_what_the_check_gives_and_35() {
    let due = numbers(refusals::Call::Check).chain([35]);
    assert!(numbers(refusals::Call::Compare).eq(due));
}

#[test]
fn the_same_records_in_another_shape() {
    let mut random = Random::new(1);
    let mut other_bytes = 0;
    for _ in 0..500 {
        let file = shape(&mut random).bytes();
        let records = records_of(&file);
        let other = reshape(&mut random, records.clone()).bytes();
        assert_eq!(check(&other, AMPLE).number, 0);
        assert_eq!(records_of(&other), records);
        other_bytes += u64::from(other != file);
    }
    assert!(other_bytes > 450, "{other_bytes}");
}

#[test]
fn a_sound_file_comes_first_or_second() {
    let mut random = Random::new(2);
    let mut first = 0;
    for _ in 0..500 {
        let file = shape(&mut random).bytes();
        let pairs = draw_pairs(&mut random, &file);
        assert_eq!(pairs.len(), 1);
        let [one, two] = &pairs[0];
        assert!(file == *one || file == *two);
        assert_eq!((check(one, AMPLE).number, check(two, AMPLE).number), (0, 0));
        first += u64::from(file == *one);
    }
    assert!((200..350).contains(&first), "{first}");
}

#[test]
fn a_refused_file_comes_first_and_second() {
    let mut random = Random::new(3);
    for number in NUMBERS {
        let (_, file) = draw_faulty(&mut random, number);
        let pairs = draw_pairs(&mut random, &file);
        assert_eq!(pairs.len(), 2);
        assert_eq!((&pairs[0][0], &pairs[1][1]), (&file, &file));
        assert_eq!(pairs[0][1], pairs[1][0]);
    }
}

/// A file of these records by the second writer.
fn written(records: &[Vec<u8>], per_block: u64, per_index: u64) -> Vec<u8> {
    let counts = Counts {
        per_block,
        per_index,
    };
    let input = Plan::data(records).payload(&[]);
    write(b"{}", &input, counts, usize::MAX).expect("a file")
}

/// What both implementations give for two files with as many places as needed, and that 35 comes with one less. So many differences are due.
fn hold(first: &[u8], second: &[u8], differences: usize) {
    let blocks = [first, second].map(|file| check(file, usize::MAX).blocks);
    let mut random = Random::new(4);
    let mut number = |list| {
        let call = Call::Compare {
            second: second.to_vec(),
            work: blocks[0].max(blocks[1]) as usize,
            list,
        };
        let outcome = compare(&mut random, first, &call);
        assert_eq!(outcome.differences, Vec::<String>::new());
        (outcome.number, outcome.matches)
    };
    assert_eq!(number(5 * differences), (0, differences as u64));
    if differences > 0 {
        assert_eq!(number(5 * differences - 1), (35, 0));
    }
}

/// 100,000 records, one by one and three at a time; then without some; then one string 70,000 times, and other strings about it.
#[test]
fn very_many_records() {
    let numbered = |number: u32| number.to_be_bytes().to_vec();
    let all: Vec<Vec<u8>> = (0..100_000).map(|number| numbered(number / 2)).collect();
    let (one, three) = (written(&all, 1, 300), written(&all, 3, 2));
    hold(&one, &three, 0);
    let some: Vec<Vec<u8>> = all.iter().step_by(3).cloned().collect();
    let some = written(&some, 65_535, 2);
    hold(&three, &some, 50_000);
    hold(&some, &three, 50_000);
    let copies = |count: usize| {
        let mut records = vec![numbered(1), numbered(9)];
        records.splice(1..1, vec![numbered(7); count]);
        records
    };
    let most = written(&copies(70_000), 2, 65_535);
    hold(&most, &written(&copies(70_001), 65_535, 2), 1);
    hold(&most, &written(&copies(70_000), 9, 9), 0);
    hold(&written(&copies(1), 9, 9), &most, 1);
}
