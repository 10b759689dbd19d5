//! Builds of the proved library that are loaded as shared objects: the present one and, if one is named, an earlier one. Both are called
//! in the same way, so that nothing but the builds tells their times apart.

use std::ffi::{c_void, CString};
use std::mem::transmute_copy;
use std::os::raw::{c_char, c_int};
use std::path::Path;

use zs_library::{Checked, Counts, Found, Part, Query, ReadAnswer, Written};

use crate::archive::Lists;

extern "C" {
    fn dlopen(path: *const c_char, flags: c_int) -> *mut c_void;
    fn dlsym(library: *mut c_void, name: *const c_char) -> *mut c_void;
}

/// From dlfcn.h: all names are found at once, and none of them stands in for one of another library (RTLD_LOCAL is 0).
const NOW: c_int = 2;

type Check = unsafe extern "C" fn(*const u8, usize, *mut u64, usize) -> Checked;
type Read = unsafe extern "C" fn(
    *const u8,
    usize,
    *const u8,
    usize,
    bool,
    *const u8,
    usize,
    *const u8,
    usize,
    *mut u64,
    usize,
) -> ReadAnswer;
type Search = unsafe extern "C" fn(
    *const u8,
    usize,
    *const u8,
    usize,
    bool,
    *const u8,
    usize,
    *const u8,
    usize,
    *mut u64,
    usize,
    *mut u64,
    usize,
) -> Found;
type Write =
    unsafe extern "C" fn(*const u8, usize, *const u8, usize, u64, u64, *mut u8, usize) -> Written;

/// A checksum of a byte string.
#[derive(Clone, Copy)]
pub struct Checksum(unsafe extern "C" fn(*const u8, usize) -> u64);

impl Checksum {
    /// That of these bytes.
    pub fn of(self, bytes: &[u8]) -> u64 {
        // SAFETY: pointer and length are those of a slice, which is only read.
        unsafe { (self.0)(bytes.as_ptr(), bytes.len()) }
    }
}

/// A build of the library, as include/zs.h and crate `bench_exports` have its functions. It stays loaded.
pub struct Library {
    /// The CRC-64.
    pub crc64: Checksum,
    /// The CRC-64 by eight one-bit steps for every byte, however many there are.
    pub crc64_by_bits: Checksum,
    check: Check,
    read: Read,
    search: Search,
    write: Write,
}

/// The present build, and an earlier one if it is named.
pub struct Libraries {
    /// The present one.
    pub now: Library,
    /// The earlier one.
    pub before: Option<Library>,
}

impl Library {
    /// Loads the shared object at a path.
    pub fn load(path: &Path) -> Result<Self, String> {
        let name = |text: &str| CString::new(text).map_err(|error| error.to_string());
        let file = name(&path.to_string_lossy())?;
        // SAFETY: the path ends with a zero byte and lives until the call is over; the object is made of the library alone, which runs
        // nothing when it is loaded.
        let library = unsafe { dlopen(file.as_ptr(), NOW) };
        if library.is_null() {
            return Err(format!("{}: can't be loaded", path.display()));
        }
        let symbol = |function: &str| {
            let function = name(function)?;
            // SAFETY: the library is loaded, and the name ends with a zero byte.
            let found = unsafe { dlsym(library, function.as_ptr()) };
            match found.is_null() {
                true => Err(format!("{}: no {function:?}", path.display())),
                false => Ok(found),
            }
        };
        // SAFETY: each address is that of the C function with this name, whose arguments and answer are those of the type; a build where
        // they are others isn't one to compare with.
        unsafe {
            Ok(Library {
                crc64: Checksum(transmute_copy(&symbol("bench_crc64")?)),
                crc64_by_bits: Checksum(transmute_copy(&symbol("bench_crc64_by_bits")?)),
                check: transmute_copy(&symbol("zs_check")?),
                read: transmute_copy(&symbol("zs_read")?),
                search: transmute_copy(&symbol("zs_search")?),
                write: transmute_copy(&symbol("zs_write")?),
            })
        }
    }

    /// Checks a file.
    pub fn check(&self, file: &[u8], work: &mut [u64]) -> Checked {
        // SAFETY: each pointer comes with the length of the slice it is taken from, and `work` is borrowed alone.
        unsafe { (self.check)(file.as_ptr(), file.len(), work.as_mut_ptr(), work.len()) }
    }

    /// Reads a file front to back.
    pub fn read(&self, file: &[u8], query: &Query, results: &mut [u64]) -> ReadAnswer {
        let stop = query.stop.unwrap_or(&[]);
        // SAFETY: each pointer comes with the length of the slice it is taken from, and `results` is borrowed alone.
        unsafe {
            (self.read)(
                file.as_ptr(),
                file.len(),
                query.start.as_ptr(),
                query.start.len(),
                query.stop.is_some(),
                stop.as_ptr(),
                stop.len(),
                query.prefix.as_ptr(),
                query.prefix.len(),
                results.as_mut_ptr(),
                results.len(),
            )
        }
    }

    /// Searches a file through its index.
    pub fn search(&self, file: &[u8], query: &Query, lists: &mut Lists) -> Found {
        let stop = query.stop.unwrap_or(&[]);
        // SAFETY: each pointer comes with the length of the slice it is taken from; the lists are two, and borrowed alone.
        unsafe {
            (self.search)(
                file.as_ptr(),
                file.len(),
                query.start.as_ptr(),
                query.start.len(),
                query.stop.is_some(),
                stop.as_ptr(),
                stop.len(),
                query.prefix.as_ptr(),
                query.prefix.len(),
                lists.opened.as_mut_ptr(),
                lists.opened.len(),
                lists.results.as_mut_ptr(),
                lists.results.len(),
            )
        }
    }

    /// Writes a file of these records into `output`.
    pub fn write(
        &self,
        metadata: &[u8],
        records: &[u8],
        counts: Counts,
        output: &mut [u8],
    ) -> Written {
        // SAFETY: each pointer comes with the length of the slice it is taken from, and `output` is borrowed alone.
        unsafe {
            (self.write)(
                metadata.as_ptr(),
                metadata.len(),
                records.as_ptr(),
                records.len(),
                counts.per_block,
                counts.per_index,
                output.as_mut_ptr(),
                output.len(),
            )
        }
    }
}

/// Where the matches on a result list lie. A match is one number; a build from before that has two for it, offset and length. An offset is
/// below 2^32, and the number of a match isn't.
pub fn matches(results: &[u64]) -> Vec<Part> {
    let is_packed = results.first().map_or(false, |first| first >> 32 != 0);
    let parts: Vec<Part> = if is_packed {
        results.iter().copied().map(Part::of_match).collect()
    } else {
        let pairs = results.chunks_exact(2);
        let parts = pairs.map(|pair| Part {
            offset: pair[0],
            length: pair[1],
        });
        parts.collect()
    };
    // No record begins at 0: zeros are what the list has after the matches.
    parts.into_iter().filter(|part| part.offset > 0).collect()
}
