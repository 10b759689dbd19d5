//! Safe calls of C libraries: the parts of the proved library alone, and what they are compared with.

use std::ffi::CString;
use std::os::raw::{c_char, c_int, c_uint, c_void};
use std::path::Path;
use std::ptr::null_mut;

extern "C" {
    fn bench_crc64(bytes: *const u8, length: usize) -> u64;
    fn bench_sha256(bytes: *const u8, length: usize) -> u64;
    fn bench_records(bytes: *const u8, length: usize) -> u64;
    fn bench_entries(bytes: *const u8, length: usize) -> u64;
    fn bench_matches(
        bytes: *const u8,
        length: usize,
        start: *const u8,
        start_length: usize,
        stop_given: bool,
        stop: *const u8,
        stop_length: usize,
        prefix: *const u8,
        prefix_length: usize,
        results: *mut u64,
        results_length: usize,
    ) -> u64;
    fn lzma_crc64(bytes: *const u8, length: usize, before: u64) -> u64;
    fn SHA256(bytes: *const u8, length: usize, digest: *mut u8) -> *mut u8;
}

/// Makes sure that a value is worked out, though nothing is done with it.
pub fn keep<T: Copy>(value: T) {
    // SAFETY: the value is there, and a copy of it is as good as itself.
    unsafe { std::ptr::read_volatile(&value) };
}

/// The proved CRC-64.
pub fn proved_crc64(bytes: &[u8]) -> u64 {
    // SAFETY: pointer and length are those of a slice, which is only read.
    unsafe { bench_crc64(bytes.as_ptr(), bytes.len()) }
}

/// The first eight bytes of the proved SHA-256, as a little-endian number.
pub fn proved_sha256(bytes: &[u8]) -> u64 {
    // SAFETY: pointer and length are those of a slice, which is only read.
    unsafe { bench_sha256(bytes.as_ptr(), bytes.len()) }
}

/// The proved tests of a data block's payload: the number of the refusal, or 0.
pub fn proved_records(payload: &[u8]) -> u64 {
    // SAFETY: pointer and length are those of a slice, which is only read.
    unsafe { bench_records(payload.as_ptr(), payload.len()) }
}

/// The proved tests of an index block's payload: the number of the refusal, or 0.
pub fn proved_entries(payload: &[u8]) -> u64 {
    // SAFETY: pointer and length are those of a slice, which is only read.
    unsafe { bench_entries(payload.as_ptr(), payload.len()) }
}

/// How many records of a data block's payload begin with `prefix`, by the proved comparison with a query.
pub fn proved_matches(payload: &[u8], prefix: &[u8], results: &mut [u64]) -> u64 {
    let none: &[u8] = &[];
    // SAFETY: each pointer comes with the length of the slice it is taken from, and `results` is borrowed alone.
    unsafe {
        bench_matches(
            payload.as_ptr(),
            payload.len(),
            none.as_ptr(),
            0,
            false,
            none.as_ptr(),
            0,
            prefix.as_ptr(),
            prefix.len(),
            results.as_mut_ptr(),
            results.len(),
        )
    }
}

/// liblzma's CRC-64.
pub fn xz_crc64(bytes: &[u8]) -> u64 {
    // SAFETY: pointer and length are those of a slice, which is only read; 0 is the value before the first byte.
    unsafe { lzma_crc64(bytes.as_ptr(), bytes.len(), 0) }
}

/// OpenSSL's SHA-256.
pub fn openssl_sha256(bytes: &[u8]) -> [u8; 32] {
    let mut digest = [0; 32];
    // SAFETY: pointer and length are those of a slice, which is only read; the digest has the 32 bytes that are written.
    unsafe { SHA256(bytes.as_ptr(), bytes.len(), digest.as_mut_ptr()) };
    digest
}

/// LMDB's byte string.
#[repr(C)]
struct Value {
    size: usize,
    data: *mut c_void,
}

type Handle = *mut c_void;

extern "C" {
    fn mdb_env_create(environment: *mut Handle) -> c_int;
    fn mdb_env_set_mapsize(environment: Handle, size: usize) -> c_int;
    fn mdb_env_open(environment: Handle, path: *const c_char, flags: c_uint, mode: c_uint)
        -> c_int;
    fn mdb_env_close(environment: Handle);
    fn mdb_txn_begin(environment: Handle, parent: Handle, flags: c_uint, out: *mut Handle)
        -> c_int;
    fn mdb_txn_commit(transaction: Handle) -> c_int;
    fn mdb_txn_abort(transaction: Handle);
    fn mdb_dbi_open(
        transaction: Handle,
        name: *const c_char,
        flags: c_uint,
        out: *mut c_uint,
    ) -> c_int;
    fn mdb_put(
        transaction: Handle,
        base: c_uint,
        key: *mut Value,
        data: *mut Value,
        flags: c_uint,
    ) -> c_int;
    fn mdb_cursor_open(transaction: Handle, base: c_uint, out: *mut Handle) -> c_int;
    fn mdb_cursor_close(cursor: Handle);
    fn mdb_cursor_get(cursor: Handle, key: *mut Value, data: *mut Value, operation: c_int)
        -> c_int;
}

// From lmdb.h.
const NO_SYNC: c_uint = 0x1_0000;
const READ_ONLY: c_uint = 0x2_0000;
const APPEND: c_uint = 0x2_0000;
const NEXT: c_int = 8;
const SET_RANGE: c_int = 17;
const MAP_SIZE: usize = 1 << 30;

/// An LMDB database of records as keys without data, with a read transaction and a cursor kept open.
pub struct Lmdb {
    environment: Handle,
    transaction: Handle,
    cursor: Handle,
}

impl Lmdb {
    /// Makes the database in an empty folder, from records in order, none twice.
    pub fn create(folder: &Path, records: &[Vec<u8>]) -> Result<Self, String> {
        let path = CString::new(folder.to_string_lossy().as_bytes()).map_err(|e| e.to_string())?;
        let mut lmdb = Lmdb {
            environment: null_mut(),
            transaction: null_mut(),
            cursor: null_mut(),
        };
        // SAFETY: each handle is made by the call before the one that uses it, and each call's answer is looked at; the path ends with
        // a zero byte and lives until the call is over.
        unsafe {
            check_status(mdb_env_create(&mut lmdb.environment))?;
            check_status(mdb_env_set_mapsize(lmdb.environment, MAP_SIZE))?;
            check_status(mdb_env_open(
                lmdb.environment,
                path.as_ptr(),
                NO_SYNC,
                0o600,
            ))?;
        }
        lmdb.begin(0)?;
        let base = lmdb.base()?;
        for record in records {
            lmdb.put(base, record)?;
        }
        let written = std::mem::replace(&mut lmdb.transaction, null_mut());
        // SAFETY: the transaction is open and is never used again.
        check_status(unsafe { mdb_txn_commit(written) })?;
        lmdb.begin(READ_ONLY)?;
        // SAFETY: the transaction is open; it and the cursor are closed by `drop`.
        check_status(unsafe { mdb_cursor_open(lmdb.transaction, base, &mut lmdb.cursor) })?;
        Ok(lmdb)
    }

    /// Begins a transaction where none is open.
    fn begin(&mut self, flags: c_uint) -> Result<(), String> {
        // SAFETY: the environment is open, and no transaction is above this one.
        check_status(unsafe {
            mdb_txn_begin(self.environment, null_mut(), flags, &mut self.transaction)
        })
    }

    fn base(&self) -> Result<c_uint, String> {
        let mut base = 0;
        // SAFETY: the transaction is open; no name means the only database.
        check_status(unsafe { mdb_dbi_open(self.transaction, std::ptr::null(), 0, &mut base) })?;
        Ok(base)
    }

    fn put(&self, base: c_uint, record: &[u8]) -> Result<(), String> {
        let (mut key, mut data) = (value(record), value(&[]));
        // SAFETY: the write transaction is open; LMDB copies the key's bytes and changes none of them.
        check_status(unsafe { mdb_put(self.transaction, base, &mut key, &mut data, APPEND) })
    }

    /// Calls `each` with every record that begins with `prefix`, in order.
    pub fn lookup<'a>(&'a self, prefix: &[u8], mut each: impl FnMut(&'a [u8])) {
        let (mut key, mut data) = (value(prefix), value(&[]));
        let mut operation = SET_RANGE;
        // SAFETY: cursor and transaction are open as long as `self` lives, and so is the memory that LMDB's answers point to: it is
        // that of a database that nobody writes.
        unsafe {
            while mdb_cursor_get(self.cursor, &mut key, &mut data, operation) == 0 {
                let record = std::slice::from_raw_parts(key.data as *const u8, key.size);
                if !record.starts_with(prefix) {
                    break;
                }
                each(record);
                operation = NEXT;
            }
        }
    }
}

impl Drop for Lmdb {
    fn drop(&mut self) {
        // SAFETY: each handle is open or null, and is closed once: the cursor, then its transaction, then the environment.
        unsafe {
            if !self.cursor.is_null() {
                mdb_cursor_close(self.cursor);
            }
            if !self.transaction.is_null() {
                mdb_txn_abort(self.transaction);
            }
            if !self.environment.is_null() {
                mdb_env_close(self.environment);
            }
        }
    }
}

fn value(bytes: &[u8]) -> Value {
    Value {
        size: bytes.len(),
        data: bytes.as_ptr() as *mut c_void,
    }
}

fn check_status(status: c_int) -> Result<(), String> {
    match status {
        0 => Ok(()),
        number => Err(format!("LMDB: error {number}")),
    }
}
