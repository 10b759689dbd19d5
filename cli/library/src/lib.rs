//! Safe calls of the proved library, and [`map`], which is unsafe.
//!
//! Each call hands over slices as pointer and length, and the contracts of the functions that are called hold for every slice, so
//! nothing is asked of the caller. Only [`map`] asks for a promise: that nobody changes the file. Beside this file and `session.rs`, unsafe
//! code stands where the command calls [`map`] (`cli/command/src/input.rs`), handles signals (`signals.rs` and `cut_files.rs` beside it) and
//! asks for what `std` has no call for (`system.rs`), in the test of long files, in the example that measures ways of reading
//! (`cli/command/examples/reading.rs`), and in the benchmark (`bench/src/foreign.rs` and `loaded.rs`).
#![warn(missing_docs)]
#![deny(unsafe_op_in_unsafe_fn)]

mod answers;
pub mod refusals;
mod session;

use std::fs::File;
use std::io;

pub use answers::{
    Checked, Compared, Counts, Found, Part, Query, ReadAnswer, Refused, Session, Shown, Stepped,
    Written,
};
pub use session::Writer;

/// A file as a slice of bytes that the operating system reads when they are looked at.
pub type Mapping = memmap2::Mmap;

// As include/zs.h has them.
extern "C" {
    fn zs_check(file: *const u8, file_len: usize, work: *mut u64, work_len: usize) -> Checked;
    fn zs_read(
        file: *const u8,
        file_len: usize,
        start: *const u8,
        start_len: usize,
        stop_given: bool,
        stop: *const u8,
        stop_len: usize,
        prefix: *const u8,
        prefix_len: usize,
        results: *mut u64,
        results_len: usize,
    ) -> ReadAnswer;
    fn zs_search(
        file: *const u8,
        file_len: usize,
        start: *const u8,
        start_len: usize,
        stop_given: bool,
        stop: *const u8,
        stop_len: usize,
        prefix: *const u8,
        prefix_len: usize,
        opened: *mut u64,
        opened_len: usize,
        results: *mut u64,
        results_len: usize,
    ) -> Found;
    fn zs_record(file: *const u8, file_len: usize, offset: u64, length: u64) -> Part;
    fn zs_within(file: *const u8, file_len: usize, offset: u64, length: u64) -> bool;
    fn zs_metadata(file: *const u8, file_len: usize) -> Part;
    fn zs_is_metadata(bytes: *const u8, bytes_len: usize) -> bool;
    fn zs_write(
        metadata: *const u8,
        metadata_len: usize,
        records: *const u8,
        records_len: usize,
        per_block: u64,
        per_index: u64,
        output: *mut u8,
        output_len: usize,
    ) -> Written;
    fn zs_import_sim(
        dump: *const u8,
        dump_len: usize,
        name_length: u64,
        output: *mut u8,
        output_len: usize,
    ) -> Written;
    fn zs_store(file: *const u8, file_len: usize, i: u64) -> Part;
    fn zs_compare(
        first: *const u8,
        first_len: usize,
        second: *const u8,
        second_len: usize,
        work: *mut u64,
        work_len: usize,
        list: *mut u64,
        list_len: usize,
    ) -> Compared;
    fn zs_show(
        first: *const u8,
        first_len: usize,
        second: *const u8,
        second_len: usize,
        which: u64,
        offset: u64,
        length: u64,
    ) -> Shown;
}

/// Checks the file. `work` needs a place for each ordinary block and is all zeros afterwards.
pub fn check(file: &[u8], work: &mut [u64]) -> Checked {
    // SAFETY: each pointer comes with the length of the slice it is taken from, and `work` is borrowed alone.
    unsafe { zs_check(file.as_ptr(), file.len(), work.as_mut_ptr(), work.len()) }
}

/// Reads the file front to back; `results` holds a number for each match, which [`Part::of_match`] takes apart, then zeros.
pub fn read(file: &[u8], query: &Query, results: &mut [u64]) -> ReadAnswer {
    let stop = query.stop.unwrap_or(&[]);
    // SAFETY: each pointer comes with the length of the slice it is taken from, and `results` is borrowed alone.
    unsafe {
        zs_read(
            file.as_ptr(),
            file.len(),
            query.start.as_ptr(),
            query.start.len(),
            query.stop.is_some(),
            stop.as_ptr(),
            stop.len(),
            query.prefix.as_ptr(),
            query.prefix.len(),
            results.as_mut_ptr(),
            results.len(),
        )
    }
}

/// Searches through the index; `opened` holds the offset of each block opened in walk order, `results` a number for each match as those of
/// [`read`] do, each then zeros.
pub fn search(file: &[u8], query: &Query, opened: &mut [u64], results: &mut [u64]) -> Found {
    let stop = query.stop.unwrap_or(&[]);
    // SAFETY: each pointer comes with the length of the slice it is taken from; `opened` and `results` are each borrowed alone, so
    // they overlap neither each other nor the byte strings.
    unsafe {
        zs_search(
            file.as_ptr(),
            file.len(),
            query.start.as_ptr(),
            query.start.len(),
            query.stop.is_some(),
            stop.as_ptr(),
            stop.len(),
            query.prefix.as_ptr(),
            query.prefix.len(),
            opened.as_mut_ptr(),
            opened.len(),
            results.as_mut_ptr(),
            results.len(),
        )
    }
}

/// Where the part lies; offset and length 0 where it isn't within the file.
pub fn record(file: &[u8], offset: u64, length: u64) -> Part {
    // SAFETY: the pointer comes with the length of the slice it is taken from.
    unsafe { zs_record(file.as_ptr(), file.len(), offset, length) }
}

/// That very part of the file; its empty part at 0 where the part isn't within the file.
pub fn bytes(file: &[u8], offset: u64, length: u64) -> &[u8] {
    bytes_of(file, record(file, offset, length))
}

/// The bytes of a part that lies within the file, as every part does that the library hands back.
fn bytes_of(file: &[u8], part: Part) -> &[u8] {
    let from_start = file.get(part.offset as usize..);
    from_start
        .and_then(|rest| rest.get(..part.length as usize))
        .unwrap_or(&[])
}

/// Whether the part lies within the file.
pub fn within(file: &[u8], offset: u64, length: u64) -> bool {
    // SAFETY: the pointer comes with the length of the slice it is taken from.
    unsafe { zs_within(file.as_ptr(), file.len(), offset, length) }
}

/// Where the metadata lie; offset and length 0 where the header is refused, and only then.
pub fn metadata_part(file: &[u8]) -> Part {
    // SAFETY: the pointer comes with the length of the slice it is taken from.
    unsafe { zs_metadata(file.as_ptr(), file.len()) }
}

/// The metadata, for which [`is_metadata`] holds; none where the header is refused. Blocks aren't looked at.
pub fn metadata(file: &[u8]) -> Option<&[u8]> {
    let part = metadata_part(file);
    (part.length > 0).then(|| bytes_of(file, part))
}

/// Whether the bytes keep the metadata rule: one JSON object (RFC 8259) in UTF-8, from `{` to `}`, nested at most 64 deep.
pub fn is_metadata(bytes: &[u8]) -> bool {
    // SAFETY: the pointer comes with the length of the slice it is taken from.
    unsafe { zs_is_metadata(bytes.as_ptr(), bytes.len()) }
}

/// Writes a file of these records, each a length (uleb128) and as many bytes, into `output`, which then holds the file and zeros after it;
/// after a refusal zeros.
pub fn write(metadata: &[u8], records: &[u8], counts: Counts, output: &mut [u8]) -> Written {
    // SAFETY: each pointer comes with the length of the slice it is taken from, and `output` is borrowed alone.
    unsafe {
        zs_write(
            metadata.as_ptr(),
            metadata.len(),
            records.as_ptr(),
            records.len(),
            counts.per_block,
            counts.per_index,
            output.as_mut_ptr(),
            output.len(),
        )
    }
}

/// Imports a dump of a SIM phonebook whose records have a name field of `name_length` bytes: its records, sorted, in the form that [`write`]
/// takes, and zeros after them; after a refusal zeros.
pub fn import_sim(dump: &[u8], name_length: u64, output: &mut [u8]) -> Written {
    // SAFETY: each pointer comes with the length of the slice it is taken from, and `output` is borrowed alone.
    unsafe {
        zs_import_sim(
            dump.as_ptr(),
            dump.len(),
            name_length,
            output.as_mut_ptr(),
            output.len(),
        )
    }
}

/// Compares two files. `list` holds five numbers for each record that is stored a different number of times, in rising order: the file from
/// which it is shown (1 or 2), the offset of its first copy there, its length, its copies in the first file and in the second; then zeros.
/// `work` needs a place for each ordinary block of either file and is all zeros afterwards.
pub fn compare(first: &[u8], second: &[u8], work: &mut [u64], list: &mut [u64]) -> Compared {
    // SAFETY: each pointer comes with the length of the slice it is taken from; `work` and `list` are each borrowed alone.
    unsafe {
        zs_compare(
            first.as_ptr(),
            first.len(),
            second.as_ptr(),
            second.len(),
            work.as_mut_ptr(),
            work.len(),
            list.as_mut_ptr(),
            list.len(),
        )
    }
}

/// Where a record of [`compare`]'s list lies; the first file's empty part at 0 where the numbers name no part of either file.
pub fn show(first: &[u8], second: &[u8], which: u64, offset: u64, length: u64) -> Shown {
    // SAFETY: each pointer comes with the length of the slice it is taken from.
    unsafe {
        zs_show(
            first.as_ptr(),
            first.len(),
            second.as_ptr(),
            second.len(),
            which,
            offset,
            length,
        )
    }
}

/// That very part of one of the two files; the first file's empty part at 0 where the numbers name no part.
pub fn shown<'a>(
    first: &'a [u8],
    second: &'a [u8],
    which: u64,
    offset: u64,
    length: u64,
) -> &'a [u8] {
    let shown = show(first, second, which, offset, length);
    let file = if shown.which == 2 { second } else { first };
    bytes_of(
        file,
        Part {
            offset: shown.offset,
            length: shown.length,
        },
    )
}

/// With what an unfinished file begins.
pub const UNFINISHED: [u8; 8] = *b"\xabZStoBe\x01";

/// How many stores a finished file has.
pub const STORES: u64 = 4;

/// Bytes, and the offset of a file where they go.
#[derive(Clone, Copy, Debug, PartialEq, Eq)]
pub struct Store<'a> {
    /// Where the first byte goes.
    pub offset: u64,
    /// The bytes.
    pub bytes: &'a [u8],
}

/// Where store `i` of a finished file goes, and how long it is; offset and length 0 where there is none.
pub fn store_part(file: &[u8], i: u64) -> Part {
    // SAFETY: the pointer comes with the length of the slice it is taken from.
    unsafe { zs_store(file.as_ptr(), file.len(), i) }
}

/// The stores that make a finished file out of an empty one, in their order: the unfinished magic, all blocks, the header from byte 8 on, the
/// magic. Other bytes, those of a refused [`write`] among them, have none. Whoever carries them out syncs before the last.
pub fn stores(file: &[u8]) -> impl Iterator<Item = Store<'_>> {
    let count = match store_part(file, 0).length {
        0 => 0,
        _ => STORES,
    };
    (0..count).map(move |i| {
        let part = store_part(file, i);
        let bytes = match i {
            0 => &UNFINISHED,
            _ => bytes_of(file, part),
        };
        Store {
            offset: part.offset,
            bytes,
        }
    })
}

/// Maps a whole file.
///
/// # Errors
/// Those of the operating system, if it can't map the file.
///
/// # Safety
/// While the mapping lives, nobody may change or cut the file, in this process or in another. The mapping is shared, so a change of the
/// file is a change of the slice, and the library's promises are about bytes that stay as they are; a read past the end of a file that
/// was cut ends the process.
pub unsafe fn map(file: &File) -> io::Result<Mapping> {
    // SAFETY: the mapping is read only and as long as the file; that its bytes stay as they are is the caller's promise.
    unsafe { Mapping::map(file) }
}
