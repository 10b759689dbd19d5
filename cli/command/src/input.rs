//! The bytes of an archive. Has unsafe code: it maps files.

use std::fs::{self, File};
use std::io::{self, Read};
use std::os::unix::fs::{FileTypeExt, MetadataExt};
use std::path::Path;

use zs_library::Mapping;

use crate::cut_files::report_cut_files;
use crate::escapes::escape_name;
use crate::failure::Failure;
use crate::memory::Memory;
use crate::refusals::Refusal;
use crate::system::lend_descriptor;

/// A longer file is refused by its length alone.
pub const LONGEST: usize = 1 << 30;
/// How many bytes tell whether a file begins as an archive.
const FIRST_BYTES: u64 = 8;

/// The bytes of a file.
pub enum Input {
    /// Read, so that a verdict and the answer after it are of the same bytes, even if the file is changed meanwhile.
    Read(Memory),
    /// Mapped, under the assumption that nobody changes the file while the command runs.
    Mapped(Mapping),
}

impl Input {
    pub fn bytes(&self) -> &[u8] {
        match self {
            Input::Read(bytes) => bytes,
            Input::Mapped(mapping) => mapping,
        }
    }
}

/// Reads a file that is to be checked. One that is too long is mapped: only its length will be looked at.
pub fn read(path: &Path) -> Result<Input, Failure> {
    load(path, LONGEST as u64)
}

/// Maps a file that isn't to be checked.
pub fn map(path: &Path) -> Result<Input, Failure> {
    load(path, 0)
}

/// Reads what needn't be an archive; nothing where it is longer than `longest`.
pub fn read_any(path: &Path, longest: u64) -> Result<Option<Memory>, Failure> {
    let name_fault = |error: io::Error| Failure::of_file(path, &error);
    let (file, length) = open(path).map_err(name_fault)?;
    if length.map_or(false, |length| length > longest) {
        return Ok(None);
    }
    let bytes = read_whole(&file, length, longest, Vec::new()).map_err(name_fault)?;
    Ok((bytes.len() as u64 <= longest).then_some(bytes))
}

/// The path by which the system knows an input: `-` is standard input.
pub fn system_path(path: &Path) -> &Path {
    if is_dash(path) {
        Path::new("/dev/stdin")
    } else {
        path
    }
}

fn is_dash(path: &Path) -> bool {
    path == Path::new("-")
}

/// Whether a path is standard input, also by another name, as /dev/stdin.
pub fn is_standard_input(path: &Path) -> bool {
    let own = lend_descriptor(0).and_then(|file| file.metadata());
    match (own, fs::metadata(path)) {
        _ if is_dash(path) => true,
        (Ok(own), Ok(other)) => (own.dev(), own.ino()) == (other.dev(), other.ino()),
        _ => false,
    }
}

/// Whether two paths lead to what can be read only once: standard input from where it stands, or a pipe.
pub fn is_read_once(one: &Path, other: &Path) -> bool {
    let about = |path| fs::metadata(system_path(path));
    match (about(one), about(other)) {
        _ if is_dash(one) && is_dash(other) => true,
        (Ok(one), Ok(other)) => {
            one.file_type().is_fifo() && (one.dev(), one.ino()) == (other.dev(), other.ino())
        }
        _ => false,
    }
}

/// Maps a file above `longest_read` bytes, and reads a shorter one. What has no length, as a pipe, can only be read.
fn load(path: &Path, longest_read: u64) -> Result<Input, Failure> {
    let name_fault = |error: io::Error| Failure::of_file(path, &error);
    let (file, length) = open(path).map_err(name_fault)?;
    if length.map_or(false, |length| length > longest_read) {
        report_cut_files(&escape_name(path)).map_err(name_fault)?;
        // SAFETY: nobody changes the file while it is mapped. With `--unchecked` this is assumed, and its help says so. Of a file above
        // 2^30 bytes only the length is used.
        let mapping = unsafe { zs_library::map(&file) }.map_err(name_fault)?;
        // A file that was cut meanwhile is read after all.
        if mapping.len() as u64 > longest_read {
            return Ok(Input::Mapped(mapping));
        }
    }
    let mut bytes = Vec::new();
    let first = (&file).take(FIRST_BYTES).read_to_end(&mut bytes);
    first.map_err(name_fault)?;
    if let Some(number) = refused_by_first_bytes(&bytes) {
        let is_long = length.is_none() && has_many_bytes(&file).map_err(name_fault)?;
        let number = if is_long { 1 } else { number };
        return Err(Failure::Refused(Refusal::of_file(number, 0, &bytes)));
    }
    let bytes = read_whole(&file, length, LONGEST as u64, bytes).map_err(name_fault)?;
    Ok(Input::Read(bytes))
}

/// Whether nobody knows beforehand how long an input is: standard input, a pipe, a device.
pub fn arrives(path: &Path) -> bool {
    is_dash(path) || fs::metadata(path).map_or(false, |about| !about.is_file())
}

/// Opens a file, and gives its length if it has one. Standard input is read from where it stands, whatever it is.
pub fn open(path: &Path) -> io::Result<(File, Option<u64>)> {
    if is_dash(path) {
        return Ok((lend_descriptor(0)?.try_clone()?, None));
    }
    let file = File::open(path)?;
    let about = file.metadata()?;
    Ok((file, about.is_file().then_some(about.len())))
}

/// The refusal of what doesn't begin as an archive, before the rest is read. The library's 2 and 3 are about the first eight bytes alone;
/// only 1 comes before them.
fn refused_by_first_bytes(first: &[u8]) -> Option<u64> {
    let number = zs_library::check(first, &mut []).number;
    [2, 3].contains(&number).then_some(number)
}

/// Whether more bytes follow the first ones than an archive has. They are counted and not kept.
fn has_many_bytes(file: &File) -> io::Result<bool> {
    let most = LONGEST as u64 - FIRST_BYTES;
    Ok(io::copy(&mut file.take(most + 1), &mut io::sink())? > most)
}

/// Whether a file begins as an archive, finished or not. What can't be read is taken for one.
pub fn begins_as_archive(path: &Path) -> bool {
    let mut first = Vec::new();
    let file = File::open(system_path(path));
    let read = file.and_then(|file| file.take(FIRST_BYTES).read_to_end(&mut first));
    read.is_err() || refused_by_first_bytes(&first) != Some(3)
}

/// Reads what follows the first bytes, and gives the whole. One byte more than the longest is enough to be refused.
fn read_whole(
    file: &File,
    length: Option<u64>,
    longest: u64,
    first: Vec<u8>,
) -> io::Result<Memory> {
    let mut bytes = first;
    if let Some(length) = length {
        let expected = usize::try_from(length.min(longest)).unwrap_or(usize::MAX);
        let room = expected.max(bytes.len()).saturating_add(1);
        let mut memory = Memory::zeros(room).map_err(lack_memory)?;
        memory[..bytes.len()].copy_from_slice(&bytes);
        let filled = fill(&mut memory, bytes.len(), file)?;
        memory.truncate(filled);
        if filled < room || filled as u64 > longest {
            return Ok(memory);
        }
        // The file has grown meanwhile, and its length isn't known any more.
        bytes = memory.to_vec();
    }
    let most = longest.saturating_add(1) - bytes.len() as u64;
    file.take(most).read_to_end(&mut bytes)?;
    Ok(Memory::from(bytes))
}

/// Reads on into memory that is filled so far, until the file or the memory ends. Gives how far it is filled then.
fn fill(memory: &mut [u8], so_far: usize, mut file: &File) -> io::Result<usize> {
    let mut filled = so_far;
    loop {
        match file.read(&mut memory[filled..]) {
            Ok(0) => return Ok(filled),
            Ok(more) => filled += more,
            Err(error) if error.kind() == io::ErrorKind::Interrupted => {}
            Err(error) => return Err(error),
        }
    }
}

pub fn lack_memory<E>(_: E) -> io::Error {
    let words = "there isn't enough memory to read it";
    io::Error::new(io::ErrorKind::OutOfMemory, words)
}

#[cfg(test)]
mod tests {
    use super::*;
    use std::fs::OpenOptions;
    use std::os::unix::fs::FileExt;
    use std::sync::atomic::{AtomicUsize, Ordering};

    /// Longer than a huge page, and not a whole number of them.
    const LONG: usize = (5 << 20) + 7;

    /// A file of these bytes that has no name, and stands at its start.
    fn file_of(bytes: &[u8]) -> File {
        static NEXT: AtomicUsize = AtomicUsize::new(0);
        let number = NEXT.fetch_add(1, Ordering::Relaxed);
        let name = format!("zs-input-{}-{number}", std::process::id());
        let path = std::env::temp_dir().join(name);
        fs::write(&path, bytes).expect("a temporary file");
        let file = OpenOptions::new().read(true).write(true).open(&path);
        fs::remove_file(path).expect("the temporary file");
        file.expect("the temporary file")
    }

    fn some_bytes(length: usize) -> Vec<u8> {
        (0..length).map(|at| ((at * at) >> 7) as u8).collect()
    }

    /// Reads a file that was said to have this length, after its first bytes.
    fn read_said(file: &File, length: Option<usize>, longest: usize) -> Memory {
        let mut first = Vec::new();
        let read = file.take(FIRST_BYTES).read_to_end(&mut first);
        read.expect("the first bytes");
        let length = length.map(|length| length as u64);
        read_whole(file, length, longest as u64, first).expect("the file")
    }

    #[test]
    fn a_file_is_read_whole_whatever_length_it_was_said_to_have() {
        for length in [0, 3, 8, 9, 5000, LONG] {
            let bytes = some_bytes(length);
            let said = [0, 3, 8, 9, 5000, 1 << 20, 2 << 20, LONG - 1, LONG, LONG + 1];
            for said in said.map(Some).into_iter().chain([None]) {
                let read = read_said(&file_of(&bytes), said, LONG);
                assert!(*read == *bytes, "{length} bytes, said to be {said:?}");
            }
        }
    }

    #[test]
    fn of_a_file_that_is_too_long_one_byte_more_is_read() {
        let bytes = some_bytes(LONG);
        for longest in [8, 5000, 2 << 20, LONG - 2, LONG - 1] {
            for said in [Some(10), Some(longest), Some(LONG), None] {
                let read = read_said(&file_of(&bytes), said, longest);
                assert!(*read == bytes[..=longest], "{longest}, said to be {said:?}");
            }
        }
    }

    #[test]
    fn what_was_read_stays_when_the_file_changes() {
        for length in [5000, LONG] {
            let bytes = some_bytes(length);
            let file = file_of(&bytes);
            let read = read_said(&file, Some(length), LONG);
            file.write_all_at(&vec![b'x'; length], 0).expect("a change");
            file.set_len(10).expect("a cut");
            assert!(*read == *bytes);
        }
    }
}
