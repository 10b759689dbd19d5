//! Where `zs make` puts the archive: it is whole or not there, and no other file is lost.

use std::fs::{self, File};
use std::io::Write;
use std::os::unix::fs::{symlink, PermissionsExt};
use std::os::unix::process::ExitStatusExt;
use std::process::{Command, Stdio};

use crate::support::{interrupt, shell, unfinished, zs, Folder, Run, ZS};

/// A folder with a list of names.
fn with_names() -> Folder {
    let folder = Folder::new();
    folder.write("names", b"Ada\nBea\n");
    folder
}

/// The archive of these names.
fn archive() -> Vec<u8> {
    let folder = with_names();
    assert_eq!(shell("$ZS make '{}' names out", &folder).status, 0);
    fs::read(folder.name("out")).expect("the archive")
}

fn contents(folder: &Folder, file: &str) -> Vec<u8> {
    fs::read(folder.name(file)).expect("a file")
}

#[test]
fn a_file_that_is_there_is_kept() {
    let folder = with_names();
    folder.write("out", b"");
    symlink("out", folder.name("link")).expect("a link");
    for out in ["out", "./out", "link"] {
        let run = shell(&format!("$ZS make '{{}}' names {out}"), &folder);
        let due = format!("zs: can't write {out}: it is there already; --force replaces it\n");
        assert_eq!((run.status, run.out.len(), run.err), (2, 0, due));
    }
    assert_eq!(contents(&folder, "out"), b"");
    fs::set_permissions(folder.name("out"), fs::Permissions::from_mode(0o640)).expect("a mode");
    let run = shell("$ZS make '{}' names link --force", &folder);
    assert_eq!((run.status, run.err.as_str()), (0, ""));
    assert_eq!(contents(&folder, "out"), archive());
    let mode = fs::metadata(folder.name("out"))
        .expect("a file")
        .permissions();
    assert_eq!(mode.mode() & 0o777, 0o640);
    assert_eq!(folder.files(), ["link", "names", "out"]);
}

/// Starts the command, has a file come to be there while it waits for its input, and gives it that.
fn make_meanwhile(folder: &Folder, words: &[&str]) -> Run {
    let mut child = Command::new(ZS)
        .args([&["make", "{}", "-", "out"], words].concat())
        .current_dir(folder.path())
        .stdin(Stdio::piped())
        .stdout(Stdio::piped())
        .stderr(Stdio::piped())
        .spawn()
        .expect("the command runs");
    let mut pipe = child.stdin.take().expect("a pipe");
    // More than the pipe holds: once it is written, the command reads.
    pipe.write_all(&[b'\n'; 1 << 17])
        .expect("the command reads");
    folder.write("out", b"kept");
    pipe.write_all(b"a\n").expect("the command reads");
    drop(pipe);
    Run::of(child.wait_with_output().expect("the command ends"))
}

#[test]
fn a_file_that_comes_to_be_there_is_kept() {
    for words in [&[][..], &["--in-place"]] {
        let folder = Folder::new();
        let run = make_meanwhile(&folder, words);
        let due = "zs: can't write out: it is there already; --force replaces it\n";
        assert_eq!((run.status, run.out.len(), run.err.as_str()), (2, 0, due));
        assert_eq!(contents(&folder, "out"), b"kept");
        assert_eq!(folder.files(), ["out"]);
        fs::remove_file(folder.name("out")).expect("a file");
        let run = make_meanwhile(&folder, &[words, &["--force"]].concat());
        assert_eq!((run.status, run.err.as_str()), (0, ""));
        assert_eq!(zs(&["validate", &folder.name("out")]).status, 0);
        assert_eq!(folder.files(), ["out"]);
    }
}

#[test]
fn an_input_is_never_the_output() {
    let folder = with_names();
    folder.write("about", b"{}");
    symlink("names", folder.name("link")).expect("a link");
    for (words, says) in [
        ("'{}' names names", "names: the output is the input itself"),
        (
            "'{}' names ./link --force",
            "names: the output is the input itself",
        ),
        (
            "'{}' link names --force",
            "link: the output is the input itself",
        ),
        (
            "'{}' - names --force <names",
            "-: the output is the input itself",
        ),
        (
            "'{}' names - >>names",
            "names: the output is the input itself",
        ),
        (
            "'{}' names out >>names",
            "names: the output is the input itself",
        ),
        (
            "@about names about --force",
            "about: the output is the metadata itself",
        ),
        (
            "@about names out >>about",
            "about: the output is the metadata itself",
        ),
        (
            "@- names about --force <about",
            "-: the output is the metadata itself",
        ),
    ] {
        let run = shell(&format!("$ZS make {words}"), &folder);
        let due = format!("zs: {says}; name another output\n");
        assert_eq!((run.status, run.err), (2, due), "{words}");
        assert_eq!(contents(&folder, "names"), b"Ada\nBea\n");
        assert_eq!(contents(&folder, "about"), b"{}");
        assert_eq!(folder.files(), ["about", "link", "names"]);
    }
}

#[test]
fn standard_output_devices_and_pipes_get_the_archive_alone() {
    let folder = with_names();
    for line in [
        "$ZS make '{}' names -",
        "$ZS make '{}' names /dev/stdout",
        "$ZS make '{}' names /dev/fd/3 3>&1",
        "mkfifo pipe; cat pipe & $ZS make '{}' names pipe; wait; rm pipe",
    ] {
        let run = shell(line, &folder);
        assert_eq!((run.status, run.err.as_str()), (0, ""), "{line}");
        assert!(run.out == archive(), "{line}");
    }
    assert_eq!(shell("$ZS make '{}' names /dev/null", &folder).out, b"");
    assert_eq!(folder.files(), ["names"]);
    // Whoever reads it may stop.
    let run = shell("$ZS make '{}' names - | true", &folder);
    assert_eq!((run.status, run.err.as_str()), (0, ""));
}

#[test]
fn no_archive_on_a_terminal() {
    let folder = with_names();
    let run = shell("script -qec \"$ZS make {} names -\" /dev/null", &folder);
    let due = "zs: standard output is a terminal, and an archive is no text; name a file\r\n";
    assert_eq!((run.status, run.text().as_str()), (2, due));
}

#[test]
fn outputs_that_cannot_be_written() {
    let folder = with_names();
    folder.write("locked", b"old");
    let locked = fs::Permissions::from_mode(0o444);
    fs::set_permissions(folder.name("locked"), locked).expect("a mode");
    for (words, says) in [
        ("/dev/full", "/dev/full: No space left on device"),
        ("- >/dev/full", "standard output: No space left on device"),
        ("missing/out", "missing/out: No such file or directory"),
        (".", ".: Is a directory"),
        ("locked --force", "locked: it is read-only"),
        ("- >&-", "standard output: it is closed"),
        ("out >&-", "standard output: it is closed"),
    ] {
        let run = shell(&format!("$ZS make '{{}}' names {words}"), &folder);
        let due = format!("zs: can't write {says}\n");
        assert_eq!((run.status, run.out.len(), run.err), (2, 0, due));
        assert_eq!(folder.files(), ["locked", "names"], "{words}");
    }
    assert_eq!(contents(&folder, "locked"), b"old");
    // The archive is there, but nobody can be told.
    let run = shell("$ZS make '{}' names out >/dev/full", &folder);
    assert_eq!(run.status, 2);
    assert_eq!(contents(&folder, "out"), archive());
}

#[test]
fn an_output_that_cannot_be_made_is_told_before_the_input_is_read() {
    let folder = Folder::new();
    for (words, says) in [
        (".", ".: Is a directory\n"),
        // Nobody can make a file in these folders.
        ("/proc/out", "/proc/out: "),
        (
            "/proc/self/comm --force",
            "/proc/self/comm: no file can be made beside it (",
        ),
    ] {
        let run = shell(&format!("$ZS make '{{}}' missing {words}"), &folder);
        let due = format!("zs: can't write {says}");
        assert_eq!((run.status, run.err.lines().count()), (2, 1));
        assert!(run.err.starts_with(&due), "{}", run.err);
    }
}

#[test]
fn a_full_disk_leaves_nothing() {
    let folder = Folder::new();
    folder.write("names", &[b'a'; 100_000]);
    let line = "ulimit -f 8; exec $ZS make '{}' names out";
    let due = "zs: can't write out: File too large\n";
    let run = shell(line, &folder);
    assert_eq!((run.status, run.err.as_str()), (2, due));
    assert_eq!(folder.files(), ["names"]);
    folder.write("out", b"kept");
    assert_eq!(shell(&format!("{line} --force"), &folder).err, due);
    assert_eq!(contents(&folder, "out"), b"kept");
    assert_eq!(folder.files(), ["names", "out"]);
}

#[test]
fn names_stay_on_their_lines() {
    let folder = with_names();
    let run = shell("$ZS make '{}' names \"$(printf 'a\\nb: c')\"", &folder);
    let text = run.text();
    assert!(
        text.starts_with("a\\nb\\x3a c: made, 2 records in 2 blocks, "),
        "{text}"
    );
    assert_eq!(text.lines().count(), 1);
}

#[test]
fn progress_on_a_terminal_only() {
    let folder = Folder::new();
    folder.write("names", &[b'a'; 4 << 20]);
    assert_eq!(shell("$ZS make '{}' names out", &folder).err, "");
    let run = shell(
        "script -qec \"$ZS make {} names more --sort\" /dev/null",
        &folder,
    );
    let text = run.text();
    for says in [
        "sorting names (4.00 MiB), ",
        "making more (4.00 MiB), ",
        "more: made, 1 record in 2 blocks, ",
    ] {
        assert!(text.contains(says), "{text}");
    }
}

/// Runs that are tried until a signal comes before the archive is there.
const RUNS: usize = 100;

/// Makes an archive of about 32 MB.
const MAKE_LONG: &[&str] = &[
    "make",
    "{}",
    "long",
    "out",
    "--length-prefixed",
    "uleb128",
    "--force",
];

/// One record of 2^25 zero bytes, after its length.
fn write_long(folder: &Folder) {
    let mut file = File::create(folder.name("long")).expect("a temporary file");
    let length = file.write_all(b"\x80\x80\x80\x10");
    length.expect("a temporary file");
    file.set_len(4 + (1 << 25)).expect("room for a sparse file");
}

#[test]
fn a_signal_leaves_nothing_new() {
    let folder = Folder::new();
    write_long(&folder);
    for signal in [1, 2, 15] {
        let is_old = || contents(&folder, "out") == b"kept";
        let mut ended = (0..RUNS).map(|_| {
            folder.write("out", b"kept");
            interrupt(MAKE_LONG, signal, &folder)
        });
        let status = ended.find(|_| is_old()).expect("a signal in time");
        assert_eq!(status.signal(), Some(signal), "{status}");
        assert_eq!(folder.files(), ["long", "out"]);
    }
}

#[test]
fn only_a_temporary_file_is_left_by_a_kill() {
    let folder = Folder::new();
    write_long(&folder);
    let mut left = (0..RUNS).map(|_| {
        folder.write("out", b"kept");
        interrupt(MAKE_LONG, 9, &folder);
        unfinished(&folder)
    });
    let left = left.find(|left| !left.is_empty());
    let left = left.expect("a signal in time");
    assert_eq!(folder.files(), [&left[0], "long", "out"]);
    assert_eq!(contents(&folder, "out"), b"kept");
}
