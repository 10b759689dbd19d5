//! What signals do: those that end the process remove an unfinished file first. Has unsafe code: it handles signals.

use std::ffi::CString;
use std::io;
use std::os::unix::ffi::OsStrExt;
use std::path::Path;
use std::ptr;
use std::sync::atomic::{AtomicPtr, Ordering};

/// The signals from outside whose usual action is to end the process, without SIGKILL, which can't be handled.
const ENDING: [libc::c_int; 13] = [
    libc::SIGALRM,
    libc::SIGHUP,
    libc::SIGINT,
    libc::SIGIO,
    libc::SIGPROF,
    libc::SIGPWR,
    libc::SIGQUIT,
    libc::SIGSTKFLT,
    libc::SIGTERM,
    libc::SIGUSR1,
    libc::SIGUSR2,
    libc::SIGVTALRM,
    libc::SIGXCPU,
];

/// The name of the unfinished file, or null.
static UNFINISHED: AtomicPtr<libc::c_char> = AtomicPtr::new(ptr::null_mut());

/// Does something without being interrupted by a signal that ends the process: one that comes meanwhile is handled afterwards, also SIGBUS,
/// which `cut_files` handles. So no mapped file is read meanwhile. Other threads aren't told, and the command has none when it makes a file.
pub fn hold_signals<T>(action: impl FnOnce() -> T) -> T {
    // SAFETY: all zeros are a value of the sets, which are filled before they are read; the numbers are those of signals.
    let usual = unsafe {
        let (mut held, mut usual): (libc::sigset_t, libc::sigset_t) = std::mem::zeroed();
        libc::sigemptyset(&mut held);
        for signal in ENDING.iter().chain(&[libc::SIGBUS]) {
            libc::sigaddset(&mut held, *signal);
        }
        libc::pthread_sigmask(libc::SIG_BLOCK, &held, &mut usual);
        usual
    };
    let answer = action();
    // SAFETY: the set is the one that was given above.
    unsafe { libc::pthread_sigmask(libc::SIG_SETMASK, &usual, ptr::null_mut()) };
    answer
}

/// From here on a signal that ends the process removes this file first, if it is there. One file is remembered.
pub fn remember_unfinished(path: &Path) -> io::Result<()> {
    let name = CString::new(path.as_os_str().as_bytes())?;
    // The name is never freed: a handler may be using it.
    UNFINISHED.store(name.into_raw(), Ordering::SeqCst);
    handle_ending_signals();
    Ok(())
}

/// There is no unfinished file any more.
pub fn forget_unfinished() {
    UNFINISHED.store(ptr::null_mut(), Ordering::SeqCst);
}

/// Removes the unfinished file, if there is one. A handler of signals may call this.
pub fn remove_unfinished() {
    let name = UNFINISHED.swap(ptr::null_mut(), Ordering::SeqCst);
    if !name.is_null() {
        // SAFETY: the pointer is that of a `CString` which is never freed, and a handler may call `unlink`.
        unsafe { libc::unlink(name) };
    }
}

/// Ignored signals stay ignored, as those of `nohup`.
fn handle_ending_signals() {
    for signal in ENDING {
        // SAFETY: all zeros are a value of this struct; the first call only fills it. The handler has the type that goes with the flag,
        // and calls only what handlers may call.
        unsafe {
            let mut action: libc::sigaction = std::mem::zeroed();
            libc::sigaction(signal, ptr::null(), &mut action);
            if action.sa_sigaction != libc::SIG_IGN {
                action.sa_sigaction = remove_and_end as *const () as libc::sighandler_t;
                action.sa_flags = libc::SA_RESETHAND;
                libc::sigaction(signal, &action, ptr::null_mut());
            }
        }
    }
}

extern "C" fn remove_and_end(signal: libc::c_int) {
    remove_unfinished();
    // SAFETY: a handler may call `raise`. The flag has given the signal its usual action back, which comes when the handler returns.
    unsafe { libc::raise(signal) };
}

/// From here on a write beyond the limit of a file's length is an error, and doesn't end the process.
pub fn survive_length_limit() {
    // SAFETY: no handler is installed; the signal is ignored.
    unsafe { libc::signal(libc::SIGXFSZ, libc::SIG_IGN) };
}
