//! Runs the command with `faults.c` loaded into it, which notes what it does to files, and makes it fail.

use std::ffi::OsStr;
use std::fs;
use std::process::{Command, Stdio};
use std::sync::Once;

use super::{Folder, Run, ZS};

const SOURCE: &str = concat!(env!("CARGO_MANIFEST_DIR"), "/tests/support/faults.c");
const LOADED: &str = concat!(env!("CARGO_TARGET_TMPDIR"), "/faults.so");

/// What goes wrong. Everything that is done to a file or a folder has a number, from 1.
#[derive(Clone, Copy, Debug)]
pub enum Fault {
    Nothing,
    /// This one is met by a signal first.
    Signal(u64, i32),
    /// A signal comes once this one has made a file.
    SignalMade(u64, i32),
    /// The process is killed once so many bytes are written.
    KillAt(u64),
    /// There is no space for more bytes than these.
    Space(u64),
    /// This one fails, with an error of the system.
    Fail(u64, i32),
}

impl Fault {
    fn settings(self) -> Vec<(&'static str, String)> {
        match self {
            Fault::Nothing => vec![],
            Fault::Signal(number, signal) => vec![
                ("FAULTS_KILL", number.to_string()),
                ("FAULTS_SIGNAL", signal.to_string()),
            ],
            Fault::SignalMade(number, signal) => vec![
                ("FAULTS_KILL_MADE", number.to_string()),
                ("FAULTS_SIGNAL", signal.to_string()),
            ],
            Fault::KillAt(bytes) => vec![("FAULTS_KILL_AT", bytes.to_string())],
            Fault::Space(bytes) => vec![("FAULTS_SPACE", bytes.to_string())],
            Fault::Fail(number, error) => vec![
                ("FAULTS_FAIL", number.to_string()),
                ("FAULTS_ERROR", error.to_string()),
            ],
        }
    }
}

/// What was done to a file or a folder.
#[derive(Clone, Debug, PartialEq, Eq)]
pub enum Done {
    Create,
    Write(u64, Vec<u8>),
    Truncate(u64),
    Sync,
    SyncFolder,
    Rename,
    Link,
    Unlink,
}

/// Runs the command in the folder. Its status is -1 where a signal ended it.
pub fn zs_with_fault<S: AsRef<OsStr>>(words: &[S], folder: &Folder, fault: Fault) -> Run {
    start(words, folder, &fault.settings())
}

/// The same, with what was done to files and folders.
pub fn zs_noted<S: AsRef<OsStr>>(words: &[S], folder: &Folder, fault: Fault) -> (Run, Vec<Done>) {
    let beside = Folder::new();
    let mut settings = fault.settings();
    settings.push(("FAULTS_LOG", beside.name("log")));
    let run = start(words, folder, &settings);
    (
        run,
        parse(&fs::read(beside.name("log")).unwrap_or_default()),
    )
}

fn start<S: AsRef<OsStr>>(words: &[S], folder: &Folder, settings: &[(&str, String)]) -> Run {
    static COMPILED: Once = Once::new();
    COMPILED.call_once(compile);
    let mut command = Command::new(ZS);
    command
        .args(words)
        .current_dir(folder.path())
        .env("LD_PRELOAD", LOADED)
        .envs(settings.iter().map(|(name, value)| (name, value)))
        .stdin(Stdio::null());
    Run::of(command.output().expect("the command runs"))
}

/// Compiles under a name of this process, since another one may be loading the same.
fn compile() {
    let made = format!("{LOADED}.{}", std::process::id());
    let status = Command::new("cc")
        .args(["-std=c99", "-Wall", "-Wextra", "-Werror", "-pedantic"])
        .args(["-shared", "-fPIC", SOURCE, "-o", &made])
        .status()
        .expect("the compiler cc");
    assert!(status.success(), "{SOURCE}");
    fs::rename(made, LOADED).expect("the compiled file");
}

fn parse(mut log: &[u8]) -> Vec<Done> {
    let mut all = Vec::new();
    while let Some(end) = log.iter().position(|byte| *byte == b'\n') {
        let line = std::str::from_utf8(&log[..end]).expect("a line");
        let words: Vec<&str> = line.split(' ').collect();
        let number = |at: usize| words[at].parse::<u64>().expect("a number");
        let (bytes, rest) = log[end + 1..].split_at(number(2) as usize);
        log = rest;
        all.push(match words[0] {
            "create" => Done::Create,
            "write" => Done::Write(number(1), bytes.to_vec()),
            "truncate" => Done::Truncate(number(1)),
            "sync" => Done::Sync,
            "sync-folder" => Done::SyncFolder,
            "rename" => Done::Rename,
            "link" => Done::Link,
            "unlink" => Done::Unlink,
            other => panic!("{other}"),
        });
    }
    all
}
