//! Signals and limits while a file is written: it is whole or untouched, and nothing is left beside it.

use std::fs;
use std::os::unix::process::ExitStatusExt;
use std::process::{Command, ExitStatus, Stdio};
use std::thread::sleep;
use std::time::Duration;

use crate::support::faults::{zs_with_fault, Fault};
use crate::support::{shell, zs, Folder, CONTACTS, SMALL, ZS};

/// About 190 MB in all: after each of 1500 records nearly the longest argument that there can be.
const TERMINATOR: usize = 128_000;
/// Runs that are tried until a signal comes before the new file is there.
const RUNS: usize = 100;
const OLD: &[u8] = b"kept";
/// The usual actions, also where whoever started the tests has some signals ignored.
const USUAL: &str = "--default-signal";

/// Starts a long dump to the file `out`, under an option of `env`, and sends a signal once a temporary file is there. The dump may be
/// over before.
fn interrupt(actions: &str, way: &[&str], signal: i32, folder: &Folder) -> ExitStatus {
    folder.write("out", OLD);
    let mut child = Command::new("env")
        .args([actions, ZS, "dump", CONTACTS, "-o", "out"])
        .args(["--terminator", &"x".repeat(TERMINATOR)])
        .args(way)
        .current_dir(folder.path())
        .stderr(Stdio::null())
        .spawn()
        .expect("the command runs");
    while folder.files().len() < 2 {
        if let Some(status) = child.try_wait().expect("a status") {
            return status;
        }
        sleep(Duration::from_micros(200));
    }
    shell(&format!("kill -{signal} {}", child.id()), folder);
    child.wait().expect("the command ends")
}

/// Says whether `out` is the old file. Otherwise it is the new one, and whole. There is nothing beside it.
fn is_old(folder: &Folder) -> bool {
    assert_eq!(folder.files(), ["out"]);
    let length = fs::metadata(folder.name("out")).expect("the output").len() as usize;
    let records = zs(&["dump", CONTACTS]).out.len();
    let whole = records - 1500 + 1500 * TERMINATOR;
    assert!([OLD.len(), whole].contains(&length), "{length} bytes");
    length == OLD.len()
}

/// Gives the status of a dump that was interrupted before the new file was there.
fn interrupt_in_time(way: &[&str], signal: i32, folder: &Folder) -> ExitStatus {
    let mut ended = (0..RUNS).map(|_| interrupt(USUAL, way, signal, folder));
    let in_time = ended.find(|_| is_old(folder));
    in_time.expect("a signal before the new file is there")
}

#[test]
fn a_signal_leaves_the_old_file_and_nothing_else() {
    let folder = Folder::new();
    // HUP, INT, USR1, USR2, ALRM, TERM, STKFLT, VTALRM, PROF, IO, PWR.
    for signal in [1, 2, 10, 12, 14, 15, 16, 26, 27, 29, 30] {
        let status = interrupt_in_time(&[], signal, &folder);
        assert_eq!(status.signal(), Some(signal), "{status}");
    }
}

#[test]
fn an_archive_that_is_cut_leaves_the_old_file_and_nothing_else() {
    // SIGBUS comes where a mapped file is cut.
    let status = interrupt_in_time(&["--unchecked"], 7, &Folder::new());
    assert_eq!(status.code(), Some(2), "{status}");
}

#[test]
fn no_signal_comes_before_a_file_is_known() {
    // BUS is handled where a file is mapped, TERM everywhere.
    for (signal, status) in [(7, 2), (15, -1)] {
        let folder = Folder::new();
        let words = ["dump", SMALL, "--unchecked", "-o", "out"];
        let run = zs_with_fault(&words, &folder, Fault::SignalMade(1, signal));
        assert_eq!(run.status, status, "{}", run.err);
        assert_eq!(folder.files(), Vec::<String>::new(), "{signal}");
    }
}

#[test]
fn an_ignored_signal_stays_ignored() {
    let folder = Folder::new();
    let status = interrupt("--ignore-signal=HUP", &[], 1, &folder);
    assert_eq!(status.code(), Some(0), "{status}");
    assert!(!is_old(&folder));
}

#[test]
fn a_limit_of_length_is_an_error_in_words() {
    let folder = Folder::new();
    folder.write("out", b"kept");
    for (output, name) in [("-o out", "out"), (">redirected", "standard output")] {
        let line = format!("ulimit -f 8; exec $ZS dump '{CONTACTS}' {output}");
        let run = shell(&line, &folder);
        assert_eq!(run.status, 2, "{run:?}");
        let due = format!("zs: can't write {name}: File too large");
        assert!(run.err.starts_with(&due), "{}", run.err);
    }
    assert_eq!(folder.files(), ["out", "redirected"]);
    assert_eq!(fs::read(folder.name("out")).expect("the output"), b"kept");
}

#[test]
fn what_another_process_left_is_no_hindrance() {
    let folder = Folder::new();
    // After `exec` the process has the shell's number.
    let line = format!(": >.out.$$.tmp; exec $ZS dump '{SMALL}' -o out");
    let run = shell(&line, &folder);
    assert_eq!((run.status, run.err.as_str()), (0, ""));
    assert_eq!(folder.files().len(), 2);
}
