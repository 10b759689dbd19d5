//! What differs between two files: the library's list, with room for all of it.

use std::iter::Peekable;

use zs_library::Compared;

use crate::answers::{readable, Places, SMALLEST_BLOCK};
use crate::failure::Failure;
use crate::layout::{all_records, count_blocks};
use crate::refusals::Refusal;

/// The numbers that the library lists for each difference.
const NUMBERS: usize = 5;

/// The list without its zeros, and its sum.
pub struct Differences {
    list: Vec<u64>,
    /// The second number of records less the first.
    pub sum: i64,
}

/// A record that one file has more often than the other.
pub struct Difference<'a> {
    pub record: &'a [u8],
    /// How often each file has it.
    pub copies: [u64; 2],
}

impl Differences {
    fn new(mut list: Vec<u64>, answer: Compared) -> Self {
        list.truncate(NUMBERS * answer.differences as usize);
        Differences {
            list,
            sum: answer.sum,
        }
    }

    pub fn count(&self) -> u64 {
        (self.list.len() / NUMBERS) as u64
    }

    /// Each difference, in rising order of the records, which are parts of these two files.
    pub fn of<'a>(&'a self, files: [&'a [u8]; 2]) -> impl Iterator<Item = Difference<'a>> {
        self.list
            .chunks_exact(NUMBERS)
            .map(move |numbers| Difference {
                record: zs_library::shown(files[0], files[1], numbers[0], numbers[1], numbers[2]),
                copies: [numbers[3], numbers[4]],
            })
    }
}

/// Why two files aren't compared, and which of them is refused, 0 or 1, if one is.
pub struct Fault {
    pub file: Option<usize>,
    pub failure: Failure,
}

/// Checks and compares two files. Blocks and differences are counted first: that a list is too short (18, 35) is found only after a check
/// of every block, and of both files.
pub fn compare(files: [&[u8]; 2]) -> Result<Differences, Fault> {
    let known = files.map(sound_header);
    let blocks = known.map(count_blocks);
    let first = [blocks[0].max(blocks[1]), NUMBERS * count_differences(known)];
    compare_with(files, first)
}

/// The bytes in which there may be blocks: none where the header is refused.
fn sound_header(file: &[u8]) -> &[u8] {
    zs_library::metadata(file).map_or(&[], |_| file)
}

/// Compares with a work list and a list of differences that have so many places at first.
fn compare_with(files: [&[u8]; 2], first: [usize; 2]) -> Result<Differences, Fault> {
    let lengths = files.map(|file| readable(file).len());
    let longest = lengths[0].max(lengths[1]);
    let mut work = Places::new(first[0], longest / SMALLEST_BLOCK);
    // A record takes a byte or more.
    let mut list = Places::new(first[1], NUMBERS * (lengths[0] + lengths[1]));
    loop {
        // Without memory for the lists, what is wrong with the header or a block is still found.
        let (work_list, differences) = (work.zeros(), list.zeros());
        let lacking = [work_list.is_err(), differences.is_err()];
        let mut differences = differences.unwrap_or_default();
        let answer = zs_library::compare(
            files[0],
            files[1],
            &mut work_list.unwrap_or_default(),
            &mut differences,
        );
        match answer.number {
            0 => return Ok(Differences::new(differences, answer)),
            18 if lacking[0] => return Err(lack_memory()),
            35 if lacking[1] => return Err(lack_memory()),
            18 if work.grow() => {}
            35 if list.grow() => {}
            _ => return Err(refuse_file(files, answer)),
        }
    }
}

fn lack_memory() -> Fault {
    let words = "there isn't enough memory to compare them";
    Fault {
        file: None,
        failure: Failure::Trouble(words.into()),
    }
}

fn refuse_file(files: [&[u8]; 2], answer: Compared) -> Fault {
    let file = (answer.which as usize).checked_sub(1);
    let bytes = file.and_then(|file| files.get(file));
    let bytes = bytes.copied().unwrap_or(&[]);
    Fault {
        file,
        failure: Failure::Refused(Refusal::of_file(answer.number, answer.place, bytes)),
    }
}

/// How many byte strings are a different number of times among the records of two files, if these rise.
fn count_differences(files: [&[u8]; 2]) -> usize {
    let [mut first, mut second] = files.map(|file| all_records(file).peekable());
    let mut count = 0;
    while let Some(least) = least(first.peek(), second.peek()) {
        let copies = take_copies(&mut first, least);
        count += usize::from(take_copies(&mut second, least) != copies);
    }
    count
}

/// The lesser of two records, or the only one.
fn least<'a>(one: Option<&&'a [u8]>, other: Option<&&'a [u8]>) -> Option<&'a [u8]> {
    one.into_iter().chain(other).min().copied()
}

/// Takes the records at the front that are this one, and counts them.
fn take_copies<'a>(records: &mut Peekable<impl Iterator<Item = &'a [u8]>>, record: &[u8]) -> u64 {
    let mut copies = 0;
    while records.next_if(|next| *next == record).is_some() {
        copies += 1;
    }
    copies
}

#[cfg(test)]
mod tests {
    use super::*;
    use zs_reference::maker::random::{tree, Random};
    use zs_reference::maker::Tree;

    /// Files without a common record, one of which has a block for each.
    fn files_apart(number: usize) -> [Vec<u8>; 2] {
        let of = |kind: char| -> Vec<String> {
            let record = |number| format!("{number:05}{kind}");
            (0..number).map(record).collect()
        };
        let (first, second) = (of('a'), of('b'));
        let groups: Vec<&[String]> = first.chunks(1).collect();
        [
            Tree::new(&groups).bytes(),
            Tree::new(&[second.as_slice()]).bytes(),
        ]
    }

    #[test]
    fn lists_that_are_too_short_grow() {
        let files = files_apart(3000);
        let files = [files[0].as_slice(), &files[1]];
        for first in [[0, 0], [1, 4], [3000, 29_999], [usize::MAX, 30_000]] {
            let found = compare_with(files, first);
            let found = found.ok().expect("two sound files");
            assert_eq!((found.count(), found.sum), (6000, 0));
            assert_eq!(found.of(files).count(), 6000);
        }
    }

    #[test]
    fn the_differences_counted_are_those_listed() {
        let mut random = Random::new(8);
        for _ in 0..300 {
            let files = [tree(&mut random, 60).bytes(), tree(&mut random, 60).bytes()];
            let files = [files[0].as_slice(), &files[1]];
            let found = compare(files).ok().expect("two sound files");
            assert_eq!(count_differences(files) as u64, found.count());
        }
    }

    #[test]
    fn the_first_lists_suffice() {
        let files = files_apart(100);
        let mut work = vec![0; count_blocks(&files[0])];
        let differences = count_differences([&files[0], &files[1]]);
        let mut list = vec![0; NUMBERS * differences];
        let answer = zs_library::compare(&files[0], &files[1], &mut work, &mut list);
        assert_eq!((answer.number, answer.differences), (0, 200));
        list.pop();
        let answer = zs_library::compare(&files[0], &files[1], &mut work, &mut list);
        assert_eq!(answer.number, 35);
    }

    #[test]
    fn records_of_damaged_files_are_counted_within_their_length() {
        let mut random = Random::new(9);
        let sound = tree(&mut random, 60).bytes();
        let mut file = sound.clone();
        for _ in 0..3000 {
            let at = random.below(file.len());
            file[at] = random.next() as u8;
            for files in [[&sound, &file], [&file, &sound], [&file, &file]] {
                let files = files.map(Vec::as_slice);
                assert!(count_differences(files) <= files[0].len() + files[1].len());
            }
        }
    }
}
