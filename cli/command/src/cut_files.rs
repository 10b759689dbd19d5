//! What is said where a mapped file is cut while it is read. Has unsafe code: it handles a signal.
//!
//! The system answers a read past the new end of the file, and one that the disk fails, with the signal SIGBUS.

use std::io;
use std::ptr;
use std::sync::atomic::{AtomicBool, AtomicPtr, Ordering};

use crate::failure::Status;
use crate::signals::remove_unfinished;

/// What the handler says.
struct Report {
    /// Where no part of an answer was handed on.
    nothing_written: String,
    /// Where a part may have been.
    partly_written: String,
}

/// The report on the file that was mapped last, or null.
static REPORT: AtomicPtr<Report> = AtomicPtr::new(ptr::null_mut());
/// Whether a part of an answer may have been handed on.
static WRITES: AtomicBool = AtomicBool::new(false);

/// From now on such a read ends the process with a line and with the status for inputs at fault, and leaves no unfinished file. `name` is
/// that of the file which is mapped.
pub fn report_cut_files(name: &str) -> io::Result<()> {
    let report = Box::new(Report {
        nothing_written: describe(name, "nothing was written"),
        partly_written: describe(name, "what was written of the answer isn't whole"),
    });
    // The report is never freed: the handler may be using it.
    REPORT.store(Box::into_raw(report), Ordering::SeqCst);
    // SAFETY: all zeros are a value of this struct, without flags and without signals to be blocked. The handler has the type that goes
    // with no flags.
    let answer = unsafe {
        let mut action: libc::sigaction = std::mem::zeroed();
        action.sa_sigaction = report_and_end as *const () as libc::sighandler_t;
        libc::sigaction(libc::SIGBUS, &action, ptr::null_mut())
    };
    match answer {
        0 => Ok(()),
        _ => Err(io::Error::last_os_error()),
    }
}

/// From now on parts of an answer are handed on before it is whole.
pub fn note_writing() {
    WRITES.store(true, Ordering::SeqCst);
}

fn describe(name: &str, written: &str) -> String {
    format!(
        "zs: {name}: it was cut short while it was read, or can't be read; {written}\n\
         zs: what to do: run the command without --unchecked, or on a copy that nobody changes\n"
    )
}

extern "C" fn report_and_end(_signal: libc::c_int) {
    remove_unfinished();
    // SAFETY: the pointer is null or that of a report which is never freed.
    if let Some(report) = unsafe { REPORT.load(Ordering::SeqCst).as_ref() } {
        let words = if WRITES.load(Ordering::SeqCst) {
            &report.partly_written
        } else {
            &report.nothing_written
        };
        // SAFETY: a handler may call `write`, and the bytes come with their length.
        unsafe { libc::write(libc::STDERR_FILENO, words.as_ptr().cast(), words.len()) };
    }
    // SAFETY: a handler may call `_exit`.
    unsafe { libc::_exit(Status::Trouble as libc::c_int) };
}
