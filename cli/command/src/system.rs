//! Calls of the operating system that Rust 1.63 has no safe form of: descriptors and owners.

use std::fs::File;
use std::io;
use std::mem::ManuallyDrop;
use std::os::unix::io::{AsRawFd, FromRawFd, RawFd};
use std::sync::atomic::{AtomicBool, Ordering};

/// Which of the descriptors 0 to 2 were closed when the process began.
static CLOSED: [AtomicBool; 3] = [
    AtomicBool::new(false),
    AtomicBool::new(false),
    AtomicBool::new(false),
];

/// Called before `main`. When that begins, Rust has opened /dev/null in place of what was closed.
#[used]
#[link_section = ".init_array"]
static BEFORE_MAIN: extern "C" fn() = note_closed;

extern "C" fn note_closed() {
    for (number, closed) in (0..).zip(&CLOSED) {
        closed.store(!is_open(number), Ordering::Relaxed);
    }
}

fn is_open(number: RawFd) -> bool {
    // SAFETY: this only asks for the flags of a descriptor, and fails where none is open.
    unsafe { libc::fcntl(number, libc::F_GETFD) != -1 }
}

/// What whoever started the command has opened. It isn't closed where this is dropped.
pub type Lent = ManuallyDrop<File>;

/// Gives what is open under a number. It isn't duplicated: the command would then have opened a number that a name in /dev/fd may mean.
pub fn lend_descriptor(number: RawFd) -> io::Result<Lent> {
    let noted = usize::try_from(number).ok().and_then(|at| CLOSED.get(at));
    let closed = noted.map_or(false, |closed| closed.load(Ordering::Relaxed));
    if closed || !is_open(number) {
        return Err(io::Error::new(io::ErrorKind::NotFound, "it is closed"));
    }
    // SAFETY: the descriptor is open, so it isn't -1. Nobody in this process closes it: not the handle, and no other owns it.
    Ok(ManuallyDrop::new(unsafe { File::from_raw_fd(number) }))
}

/// Gives a file to a user and a group.
pub fn give_owner(file: &File, user: u32, group: u32) -> io::Result<()> {
    // SAFETY: the descriptor is open as long as `file` is lent.
    match unsafe { libc::fchown(file.as_raw_fd(), user, group) } {
        0 => Ok(()),
        _ => Err(io::Error::last_os_error()),
    }
}
