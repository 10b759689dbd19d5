//! Memory for the bytes of a file: much of it is asked for in huge pages.
//!
//! The system hands out memory page by page, at the first touch of each. In huge pages this costs a fraction of the time.

use std::io;
use std::ops::{Deref, DerefMut};

use memmap2::{Advice, MmapMut};

/// The bytes of a huge page. Where they have another length, less is gained.
const HUGE_PAGE: usize = 1 << 21;
/// Less memory than this takes little time, and would be a small part of a huge page.
const LONG: usize = 1 << 20;

/// Bytes that belong to this process alone: nobody else can change them.
pub struct Memory {
    kept: Kept,
    length: usize,
}

enum Kept {
    List(Vec<u8>),
    Pages(MmapMut),
}

impl Memory {
    /// Memory of so many zeros.
    ///
    /// # Errors
    /// Where there isn't so much.
    pub fn zeros(length: usize) -> io::Result<Self> {
        let kept = if length < LONG {
            Kept::List(list_zeros(length)?)
        } else {
            Kept::Pages(map_zeros(length)?)
        };
        Ok(Memory { kept, length })
    }

    /// Keeps so many bytes, or all where there are fewer.
    pub fn truncate(&mut self, length: usize) {
        self.length = self.length.min(length);
    }
}

fn list_zeros(length: usize) -> io::Result<Vec<u8>> {
    let mut zeros = Vec::new();
    let room = zeros.try_reserve_exact(length);
    room.map_err(|_| io::ErrorKind::OutOfMemory)?;
    zeros.resize(length, 0);
    Ok(zeros)
}

/// Maps memory. Whole huge pages are asked for, since the system then lets it begin with one. What isn't touched takes none.
fn map_zeros(length: usize) -> io::Result<MmapMut> {
    let whole = length
        .checked_add(HUGE_PAGE - 1)
        .ok_or(io::ErrorKind::OutOfMemory)?;
    let zeros = MmapMut::map_anon(whole - whole % HUGE_PAGE)?;
    // Where there are no huge pages, small ones do.
    let _ = zeros.advise(Advice::HugePage);
    Ok(zeros)
}

impl From<Vec<u8>> for Memory {
    fn from(bytes: Vec<u8>) -> Self {
        let length = bytes.len();
        let kept = Kept::List(bytes);
        Memory { kept, length }
    }
}

impl Deref for Memory {
    type Target = [u8];

    fn deref(&self) -> &[u8] {
        match &self.kept {
            Kept::List(bytes) => &bytes[..self.length],
            Kept::Pages(bytes) => &bytes[..self.length],
        }
    }
}

impl DerefMut for Memory {
    fn deref_mut(&mut self) -> &mut [u8] {
        match &mut self.kept {
            Kept::List(bytes) => &mut bytes[..self.length],
            Kept::Pages(bytes) => &mut bytes[..self.length],
        }
    }
}

#[cfg(test)]
mod tests {
    use super::*;

    #[test]
    fn memory_is_zeros_of_the_length_asked_for() {
        for length in [0, 1, LONG - 1, LONG, LONG + 1, HUGE_PAGE, 3 * HUGE_PAGE + 5] {
            let mut memory = Memory::zeros(length).expect("memory");
            assert_eq!(memory.len(), length);
            assert!(memory.iter().all(|byte| *byte == 0));
            memory.fill(7);
            memory.truncate(length + 1);
            assert_eq!(memory.len(), length);
            memory.truncate(length / 2);
            assert_eq!(*memory, vec![7; length / 2]);
        }
    }

    #[test]
    fn memory_that_there_is_not_is_refused() {
        for length in [usize::MAX, usize::MAX / 2] {
            assert!(Memory::zeros(length).is_err());
        }
    }
}
