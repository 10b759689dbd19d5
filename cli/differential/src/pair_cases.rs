//! Cases on two files: both implementations compare them, and hand back parts of them.

use crate::lent::Lent;
use crate::outcome::Outcome;
use zs_library as library;
use zs_reference::compare::{compare, show, shown};
use zs_reference::maker::random::Random;

/// Compares two files with so many places of the work list and of the list.
pub fn compare_files(
    random: &mut Random,
    first: &[u8],
    second: &[u8],
    work_places: usize,
    places: usize,
) -> Outcome {
    let due = compare(first, second, work_places, places);
    let mut work = Lent::list(random, work_places);
    let mut list = Lent::list(random, places);
    let second = Lent::bytes(random, second);
    let given = library::compare(first, second.part(), work.part_mut(), list.part_mut());
    let mut outcome = Outcome::of(due.number, due.differences);
    outcome.second = due.which == 2;
    outcome.compare("number", due.number, given.number);
    outcome.compare("place", due.place, given.place);
    outcome.compare("which", due.which, given.which);
    outcome.compare("differences", due.differences, given.differences);
    outcome.require(
        due.sum == given.sum,
        &format!("sum: due {}, given {}", due.sum, given.sum),
    );
    outcome.compare_places("work list", &vec![0; work_places], &work);
    outcome.compare_places("list", &due.list, &list);
    outcome.require(second.is_unchanged(), "the second file was changed");
    if given.number == 0 {
        hold_rows(&mut outcome, first, second.part(), given, list.part());
    }
    outcome
}

/// What holds of a comparison that isn't refused, whatever the second one says: what is shown rises and is a part of the file that is named,
/// and the sum is that of the rows and what the check counts in the second file less what it counts in the first.
fn hold_rows(
    outcome: &mut Outcome,
    first: &[u8],
    second: &[u8],
    given: library::Compared,
    list: &[u64],
) {
    let rows: Vec<&[u64]> = list
        .chunks_exact(5)
        .take(given.differences as usize)
        .collect();
    outcome.compare("rows", given.differences, rows.len() as u64);
    let strings = rows
        .iter()
        .map(|row| library::shown(first, second, row[0], row[1], row[2]));
    let strings: Vec<&[u8]> = strings.collect();
    let rises = strings.windows(2).all(|two| two[0] < two[1]);
    outcome.require(rises, "the strings shown don't rise");
    let is_sound = |row: &&[u64]| {
        let part = library::show(first, second, row[0], row[1], row[2]);
        let is_part = [part.which, part.offset, part.length] == row[..3];
        is_part && (row[0] == 1) == (row[3] > 0) && row[3] != row[4]
    };
    outcome.require(rows.iter().all(is_sound), "a row that can't be");
    let less = |[first, second]: [u64; 2]| i128::from(second) - i128::from(first);
    let sum = i128::from(given.sum);
    let of_rows: i128 = rows.iter().map(|row| less([row[3], row[4]])).sum();
    outcome.require(of_rows == sum, "another sum than that of the rows");
    let count = |file: &[u8]| library::check(file, &mut vec![7; file.len() / 11]).records;
    let of_files = less([first, second].map(count));
    outcome.require(of_files == sum, "another sum than that of the files");
}

/// Asks for a part of one of two files.
pub fn compare_shown(
    random: &mut Random,
    first: &[u8],
    second: &[u8],
    [which, offset, length]: [u64; 3],
) -> Outcome {
    let second = Lent::bytes(random, second);
    let due = show(first, second.part(), which, offset, length);
    let given = library::show(first, second.part(), which, offset, length);
    let is_there = due == (which, offset, length);
    let mut outcome = Outcome::of(u64::from(!is_there), 0);
    outcome.compare("part's file", due.0, given.which);
    outcome.compare("part's offset", due.1, given.offset);
    outcome.compare("part's length", due.2, given.length);
    let due = shown(first, second.part(), which, offset, length);
    let given = library::shown(first, second.part(), which, offset, length);
    let is_same = due == given && due.as_ptr() == given.as_ptr();
    outcome.require(is_same, "another part is shown");
    outcome.require(second.is_unchanged(), "the second file was changed");
    outcome
}
