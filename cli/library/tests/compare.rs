//! The comparison of two files: what its list says, the parts that are shown for it, and its refusals.

use zs_library::{compare, show, shown, Compared, Shown};
use zs_reference::maker::Tree;

const NOTHING: Shown = Shown {
    which: 1,
    offset: 0,
    length: 0,
};

/// Two files that differ in a record stored twice, one that only the first has and one that only the second has.
fn files() -> [Vec<u8>; 2] {
    let first: [&[&str]; 2] = [&["a", "bc"], &["bc", "d"]];
    let second: [&[&str]; 2] = [&["a", "bc"], &["dd"]];
    [Tree::new(&first).bytes(), Tree::new(&second).bytes()]
}

/// Where a record first stands. It is of bytes that stand nowhere before.
fn offset_of(record: &str, file: &[u8]) -> u64 {
    let mut places = file.windows(record.len());
    let found = places.position(|bytes| bytes == record.as_bytes());
    found.expect("the record") as u64
}

/// Compares with lists of so many places, which hold rubbish before.
fn compare_with(files: &[Vec<u8>; 2], work: usize, list: usize) -> (Compared, Vec<u64>) {
    let (mut work, mut list) = (vec![7; work], vec![7; list]);
    let answer = compare(&files[0], &files[1], &mut work, &mut list);
    assert!(work.iter().all(|place| *place == 0));
    (answer, list)
}

fn refused(number: u64, place: u64, which: u64) -> Compared {
    Compared {
        number,
        place,
        which,
        differences: 0,
        sum: 0,
    }
}

#[test]
fn differences_rise_and_are_shown_from_the_first_file_where_it_has_them() {
    let files = files();
    let due = Compared {
        differences: 3,
        sum: -1,
        ..refused(0, 0, 0)
    };
    let (answer, list) = compare_with(&files, 3, 17);
    assert_eq!(answer, due);
    let (twice, gone, new) = (
        offset_of("bc", &files[0]),
        offset_of("\x01d", &files[0]) + 1,
        offset_of("dd", &files[1]),
    );
    let numbers = [1, twice, 2, 2, 1, 1, gone, 1, 1, 0, 2, new, 2, 0, 1, 0, 0];
    assert_eq!(list, numbers);
    let records = list[..15]
        .chunks(5)
        .map(|numbers| shown(&files[0], &files[1], numbers[0], numbers[1], numbers[2]));
    assert_eq!(records.collect::<Vec<_>>(), [&b"bc"[..], b"d", b"dd"]);
}

#[test]
fn the_sum_has_the_sign_of_the_second_file() {
    let [first, second] = files();
    let (answer, _) = compare_with(&[second, first.clone()], 3, 15);
    assert_eq!((answer.number, answer.differences, answer.sum), (0, 3, 1));
    let (answer, list) = compare_with(&[first.clone(), first], 3, 2);
    assert_eq!((answer, list), (refused(0, 0, 0), vec![0, 0]));
}

#[test]
fn what_is_shown_is_a_part_of_the_file_that_is_named() {
    let [first, second] = files();
    let length = second.len() as u64;
    for (which, offset, length) in [(1, 5, 7), (2, 5, 7), (2, length, 0), (1, 0, 0), (2, 0, 0)] {
        let part = Shown {
            which,
            offset,
            length,
        };
        assert_eq!(show(&first, &second, which, offset, length), part);
        let file = if which == 1 { &first } else { &second };
        let bytes = shown(&first, &second, which, offset, length);
        let due = &file[offset as usize..][..length as usize];
        assert_eq!(bytes.as_ptr_range(), due.as_ptr_range());
    }
}

#[test]
fn where_no_part_is_named_it_is_the_first_file_s_empty_one() {
    let [first, second] = files();
    let longer = first.len() as u64;
    assert!(longer > second.len() as u64);
    for (which, offset, length) in [
        (0, 5, 7),
        (3, 5, 7),
        (1 << 32 | 1, 5, 7),
        (u64::MAX, 0, 0),
        (1, longer, 1),
        (1, longer + 1, 0),
        (1, u64::MAX, 2),
        (2, longer, 0),
        (2, 1, u64::MAX),
    ] {
        assert_eq!(show(&first, &second, which, offset, length), NOTHING);
        let bytes = shown(&first, &second, which, offset, length);
        assert_eq!(bytes.as_ptr_range(), first[..0].as_ptr_range());
    }
}

#[test]
fn the_first_file_is_refused_before_the_second_and_both_before_the_list() {
    let mut files = files();
    let place = 24 + u64::from_le_bytes(files[0][8..16].try_into().expect("eight bytes"));
    for (work, list, due) in [
        (2, 15, refused(18, 0, 1)),
        (2, 14, refused(18, 0, 1)),
        (3, 14, refused(35, 0, 0)),
        (3, 0, refused(35, 0, 0)),
    ] {
        let (answer, list) = compare_with(&files, work, list);
        assert_eq!(answer, due);
        assert!(list.iter().all(|place| *place == 0));
    }
    files[1][place as usize + 3] ^= 1;
    assert_eq!(compare_with(&files, 3, 0).0, refused(14, place, 2));
    assert_eq!(compare_with(&files, 2, 0).0, refused(18, 0, 1));
    files[0][0] ^= 1;
    assert_eq!(compare_with(&files, 0, 0).0, refused(3, 0, 1));
}

#[test]
fn one_work_list_serves_both_files() {
    let few = Tree::new(&[&["a"]]).bytes();
    let many = Tree::new(&[&["a"], &["a"], &["a"]]).bytes();
    assert_eq!(
        compare_with(&[few.clone(), many.clone()], 3, 5).0,
        refused(18, 0, 2)
    );
    assert_eq!(
        compare_with(&[many.clone(), few.clone()], 3, 5).0,
        refused(18, 0, 1)
    );
    let (answer, list) = compare_with(&[few, many], 4, 5);
    assert_eq!((answer.number, answer.sum, list[3], list[4]), (0, 2, 1, 3));
}
