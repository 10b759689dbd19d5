//! Cases on two files: how they are made, and the lines due.

use super::call::Call;
use super::case::{hex, list, Case};
use crate::compare::{compare, show, shown};

impl Case {
    /// A comparison. The name of the second file stands for the start, the places of the list for those of the result list, and the
    /// places of the work list for those of the other one.
    pub fn compare(first: &str, second: &str, work: u16, list: u16) -> Self {
        let mut case = Case::new(first, Call::Compare);
        case.start = second.as_bytes().to_vec();
        case.result_places = list;
        case.other_places = work;
        case
    }

    /// A part of one of two files. The name of the second stands for the start, and which file it is for the places of the result list.
    pub fn shown(first: &str, second: &str, which: u16, offset: u64, length: u64) -> Self {
        let mut case = Case::new(first, Call::Shown);
        case.start = second.as_bytes().to_vec();
        case.result_places = which;
        case.offset = offset;
        case.length = length;
        case
    }

    /// The name of the second file, where there is one.
    pub fn second(&self) -> Option<&str> {
        let name = Some(&self.start[..]).filter(|_| self.call.takes_two());
        name.and_then(|name| std::str::from_utf8(name).ok())
    }

    pub(super) fn compare_line(&self, first: &[u8], second: &[u8]) -> String {
        let (work, places) = (self.other_places, self.result_places);
        let answer = compare(first, second, usize::from(work), usize::from(places));
        format!(
            "{} {work} {places}: number {} place {} which {} differences {} sum {} list{} work{}",
            self.second().unwrap_or_default(),
            answer.number,
            answer.place,
            answer.which,
            answer.differences,
            answer.sum,
            list(&answer.list),
            list(&vec![0; usize::from(work)]),
        )
    }

    pub(super) fn shown_line(&self, first: &[u8], second: &[u8]) -> String {
        let asked = u64::from(self.result_places);
        let (which, offset, length) = show(first, second, asked, self.offset, self.length);
        let bytes = shown(first, second, asked, self.offset, self.length);
        format!(
            "{} {asked} {} {}: which {which} part {offset} {length} bytes {}",
            self.second().unwrap_or_default(),
            self.offset,
            self.length,
            hex(bytes),
        )
    }
}
