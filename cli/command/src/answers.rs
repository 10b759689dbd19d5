//! The library's answers, with lists that grow until they are long enough.
//!
//! A short list is refused (18, 27) and the call is made again with a longer one. How many blocks a file has (18) and how many a search
//! opens (26) is counted beforehand. So a person never sees these numbers, except 27 where `--max-results` sets the limit.

use zs_library::{Part, Query};

use crate::failure::Failure;
use crate::input::LONGEST;
use crate::layout::count_blocks;
use crate::refusals::Refusal;
use crate::walk::measure;

/// The least full size of an ordinary block: a number, a level, one byte of payload and the checksum.
pub const SMALLEST_BLOCK: usize = 11;
/// Places of a first list: a lookup finds few records.
const FIRST_PLACES: usize = 512;
/// Besides, a first list has a place for so many bytes that may be searched.
const BYTES_PER_PLACE: usize = 128;

/// What an accepted file holds, or what a search meets at most.
#[derive(Clone, Copy, Debug)]
pub struct Contents {
    pub blocks: u64,
    pub records: u64,
}

/// The blocks opened, in walk order (none where the file was read front to back), and the result list without its zeros, a number for each
/// match.
pub struct Answer {
    pub opened: Vec<u64>,
    results: Vec<u64>,
}

impl Answer {
    pub fn count(&self) -> u64 {
        self.results.len() as u64
    }

    /// Where each match lies.
    pub fn matches(&self) -> impl Iterator<Item = Part> + '_ {
        self.results.iter().map(|number| Part::of_match(*number))
    }
}

/// How long a list is, and how long it may become.
pub struct Places {
    now: usize,
    most: usize,
}

impl Places {
    pub fn new(first: usize, most: usize) -> Self {
        Places {
            now: first.min(most),
            most,
        }
    }

    /// Makes the list longer, unless it is as long as it may become.
    pub fn grow(&mut self) -> bool {
        let before = self.now;
        let longer = before.saturating_mul(8).max(FIRST_PLACES);
        self.now = longer.min(self.most);
        self.now > before
    }

    pub fn zeros(&self) -> Result<Vec<u64>, Failure> {
        zeros(self.now)
    }
}

/// A list of so many places.
fn zeros(places: usize) -> Result<Vec<u64>, Failure> {
    let mut list = Vec::new();
    let room = list.try_reserve_exact(places);
    room.map_err(|_| {
        Failure::Trouble("there isn't enough memory for the answer; ask for fewer records".into())
    })?;
    list.resize(places, 0);
    Ok(list)
}

/// Checks a file. Its blocks are counted first: that the work list is too short (18) is found only after every block was looked at. Where
/// the header is refused, no block is.
pub fn check(file: &[u8]) -> Result<Contents, Failure> {
    let header = zs_library::metadata(file);
    let first = header.map_or(0, |_| count_blocks(readable(file)));
    check_with(file, first)
}

/// Checks a file with a work list of so many places at first.
fn check_with(file: &[u8], first: usize) -> Result<Contents, Failure> {
    let mut work = Places::new(first, readable(file).len() / SMALLEST_BLOCK);
    loop {
        // Without memory for the list, what is wrong with the header or a block is still found.
        let list = work.zeros();
        let is_lacking = list.is_err();
        let answer = zs_library::check(file, &mut list.unwrap_or_default());
        match answer.number {
            0 => {
                return Ok(Contents {
                    blocks: answer.blocks,
                    records: answer.records,
                })
            }
            18 if is_lacking => {
                let words = "there isn't enough memory to check it";
                return Err(Failure::Trouble(words.into()));
            }
            18 if work.grow() => {}
            number => return refuse(file, number, answer.place),
        }
    }
}

/// Searches a file through its index. `known` is what a check found in it, if there was one.
///
/// A file that was never checked can ask for blocks again and again. Where they are longer together than the file, no accepted file
/// could ask for them, and it is checked after all.
pub fn search(
    file: &[u8],
    query: &Query,
    known: Option<Contents>,
    limit: Option<u64>,
) -> Result<Answer, Failure> {
    let most = match known.or_else(|| measure(readable(file), query)) {
        Some(most) => most,
        None => check(file)?,
    };
    let first = match known {
        Some(contents) => first_results(file.len(), query, contents),
        None => places(most.records) / BYTES_PER_PLACE + FIRST_PLACES,
    };
    let mut results = Places::new(first, most_results(most.records, limit));
    loop {
        let (mut opened, mut list) = (zeros(places(most.blocks))?, results.zeros()?);
        let answer = zs_library::search(file, query, &mut opened, &mut list);
        match answer.number {
            0 => return Ok(cut_lists(opened, answer.opened, list, answer.matches)),
            27 if results.grow() => {}
            27 => return refuse_matches(file, limit),
            number => return refuse(file, number, answer.place),
        }
    }
}

/// Reads a file front to back. Its first list is long: only the end of the whole file tells that it wasn't long enough.
pub fn read(
    file: &[u8],
    query: &Query,
    known: Option<Contents>,
    limit: Option<u64>,
) -> Result<Answer, Failure> {
    let length = readable(file).len();
    let first = known.map_or(0, |contents| first_results(length, query, contents));
    // A record takes a byte or more.
    let records = known.map_or(length as u64, |contents| contents.records);
    let mut results = Places::new(first.max(length / 32), most_results(records, limit));
    loop {
        let mut list = results.zeros()?;
        let answer = zs_library::read(file, query, &mut list);
        match answer.number {
            0 => return Ok(cut_lists(Vec::new(), 0, list, answer.matches)),
            27 if results.grow() => {}
            27 => return refuse_matches(file, limit),
            number => return refuse(file, number, answer.place),
        }
    }
}

/// A way to find the matches: [`search`] or [`read`].
pub type Finding = fn(&[u8], &Query, Option<Contents>, Option<u64>) -> Result<Answer, Failure>;

/// Counts the matches. All records of a checked file were counted by the check, so that no list is needed for them.
pub fn count(
    find: Finding,
    file: &[u8],
    query: &Query,
    known: Option<Contents>,
    limit: Option<u64>,
) -> Result<u64, Failure> {
    match known.filter(|_| asks_for_all(query)) {
        Some(Contents { records, .. }) if limit.map_or(true, |limit| records <= limit) => {
            Ok(records)
        }
        Some(_) => refuse_matches(file, limit),
        None => Ok(find(file, query, known, limit)?.count()),
    }
}

fn asks_for_all(query: &Query) -> bool {
    query.start.is_empty() && query.stop.is_none() && query.prefix.is_empty()
}

fn refuse<T>(file: &[u8], number: u64, place: u64) -> Result<T, Failure> {
    Err(Failure::Refused(Refusal::of_file(number, place, file)))
}

/// Refuses more matches than are allowed. Without a limit the list has room for all.
fn refuse_matches<T>(file: &[u8], limit: Option<u64>) -> Result<T, Failure> {
    match limit {
        Some(limit) => Err(Failure::Refused(Refusal::of_matches(limit))),
        None => refuse(file, 27, 0),
    }
}

/// The bytes that may be looked at: a file above the limit is refused by its length, whatever its lists.
pub fn readable(file: &[u8]) -> &[u8] {
    match file.len() {
        length if length > LONGEST => &[],
        _ => file,
    }
}

/// Places for the results of a checked file. A check takes longer than clearing a long list, which saves calls.
fn first_results(length: usize, query: &Query, contents: Contents) -> usize {
    if asks_for_all(query) {
        places(contents.records)
    } else {
        length / BYTES_PER_PLACE + FIRST_PLACES
    }
}

/// A place for each record, and no more than the limit asks for.
fn most_results(records: u64, limit: Option<u64>) -> usize {
    places(limit.unwrap_or(records).min(records))
}

fn places(number: u64) -> usize {
    usize::try_from(number).unwrap_or(usize::MAX)
}

/// Cuts the lists to what was put on them.
fn cut_lists(mut opened: Vec<u64>, blocks: u64, mut results: Vec<u64>, matches: u64) -> Answer {
    opened.truncate(places(blocks));
    results.truncate(places(matches));
    Answer { opened, results }
}

#[cfg(test)]
mod tests {
    use super::*;
    use zs_reference::maker::{Image, Plan};

    /// A file of so many data blocks, each of one empty record, and their root.
    fn file_of_tiny_blocks(number: usize) -> Vec<u8> {
        let mut blocks = vec![Plan::data(&[""]); number];
        let entries: Vec<_> = (0..number).map(|block| ("", block)).collect();
        blocks.push(Plan::index(1, &entries));
        Image::new(blocks).bytes()
    }

    #[test]
    fn a_work_list_that_is_too_short_grows() {
        let file = file_of_tiny_blocks(2 * FIRST_PLACES);
        for first in [0, 1, FIRST_PLACES, usize::MAX] {
            let contents = check_with(&file, first).expect("a sound file");
            let counts = (contents.blocks as usize, contents.records as usize);
            assert_eq!(counts, (2 * FIRST_PLACES + 1, 2 * FIRST_PLACES));
        }
    }

    #[test]
    fn the_first_work_list_suffices() {
        let file = file_of_tiny_blocks(2000);
        assert_eq!(count_blocks(&file), 2001);
        let answer = zs_library::check(&file, &mut [0; 2001]);
        assert_eq!((answer.number, answer.blocks), (0, 2001));
        let answer = zs_library::check(&file, &mut [0; 2000]);
        assert_eq!(answer.number, 18);
    }
}
