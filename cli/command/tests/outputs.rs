//! Outputs: files that appear whole or not at all, readers that close the pipe, and what can't be written.

use std::fs;
use std::io::Read;
use std::os::unix::fs::{symlink, PermissionsExt};
use std::os::unix::io::OwnedFd;
use std::os::unix::net::UnixStream;
use std::process::{Command, Stdio};

use crate::support::{shell, zs, Folder, CONTACTS, SMALL, ZS};
use zs_reference::maker::Tree;

#[test]
fn a_file_gets_what_standard_output_gets() {
    let folder = Folder::new();
    let out = folder.name("out");
    let direct = zs(&["dump", SMALL]).out;
    for _ in 0..2 {
        let run = zs(&["dump", SMALL, "-o", &out]);
        assert_eq!((run.status, run.out.len(), run.err.as_str()), (0, 0, ""));
        assert_eq!(fs::read(&out).expect("the output"), direct);
    }
    assert_eq!(folder.files(), ["out"]);
    assert_eq!(zs(&["dump", SMALL, "-o", "-"]).out, direct);
    assert_eq!(zs(&["dump", SMALL, "-o", "/dev/null"]).status, 0);
}

#[test]
fn links_and_permissions_are_kept() {
    let folder = Folder::new();
    let target = folder.write("target", b"old");
    fs::set_permissions(&target, fs::Permissions::from_mode(0o640)).expect("permissions");
    let link = folder.name("link");
    symlink("target", &link).expect("a link");
    assert_eq!(zs(&["dump", SMALL, "--count", "-o", &link]).status, 0);
    assert_eq!(fs::read(&target).expect("the output"), b"14\n");
    let mode = fs::metadata(&target)
        .expect("the output")
        .permissions()
        .mode();
    assert_eq!(mode & 0o777, 0o640);
    assert!(fs::symlink_metadata(&link).expect("the link").is_symlink());
    assert_eq!(folder.files(), ["link", "target"]);
}

#[test]
fn the_archive_is_never_its_own_output() {
    let folder = Folder::new();
    let bytes = fs::read(SMALL).expect("the sample");
    let file = folder.write("small.zs", &bytes);
    for line in [
        "$ZS dump small.zs -o small.zs",
        "$ZS dump small.zs -o ./small.zs",
        "$ZS dump small.zs -o /dev/stdout >>small.zs",
        "$ZS dump small.zs -o - >>small.zs",
        "$ZS dump small.zs >>small.zs",
        "$ZS dump small.zs 1<>small.zs",
        "$ZS dump small.zs --unchecked --count >>small.zs",
        "$ZS dump /dev/stdin <small.zs >>small.zs",
        "$ZS info small.zs >>small.zs",
        "$ZS info -m small.zs >>small.zs",
        "$ZS explain small.zs >>small.zs",
        "$ZS validate small.zs >>small.zs",
        "cp small.zs other.zs; $ZS validate other.zs small.zs >>small.zs",
    ] {
        let run = shell(line, &folder);
        assert_eq!((run.status, run.out.len()), (2, 0), "{line}");
        assert!(
            run.err
                .ends_with(": the output is the archive itself; name another output\n"),
            "{line}: {}",
            run.err
        );
        assert_eq!(run.err.lines().count(), 1, "{line}");
        assert_eq!(fs::read(&file).expect("the archive"), bytes, "{line}");
    }
    // What is written to a device isn't read from it.
    let run = shell("$ZS validate /dev/null >/dev/null", &folder);
    assert_eq!((run.status, run.err.contains("output")), (1, false));
}

#[test]
fn verdicts_may_go_to_a_file_among_those_named() {
    let folder = Folder::new();
    fs::copy(SMALL, folder.name("a.zs")).expect("a copy");
    let verdict = "a.zs: valid, 14 records in 11 blocks\n";
    folder.write("verdicts", b"");
    for (line, due) in [
        ("$ZS validate * >verdicts", verdict.to_string()),
        ("$ZS validate * >verdicts", verdict.to_string()),
        ("$ZS validate * >>verdicts", verdict.repeat(2)),
        ("$ZS validate verdicts a.zs >>verdicts", verdict.repeat(3)),
    ] {
        let run = shell(line, &folder);
        let says = "zs: verdicts: not checked; the output is written there\n";
        assert_eq!((run.status, run.err.as_str()), (2, says), "{line}");
        let written = fs::read_to_string(folder.name("verdicts"));
        assert_eq!(written.expect("the verdicts"), due, "{line}");
    }
    // An unfinished archive is one, too.
    folder.write("unfinished", b"\xabZStoBe\x01");
    let run = shell("$ZS validate * >>unfinished", &folder);
    let says = "zs: unfinished: the output is the archive itself; name another output\n";
    assert_eq!((run.status, run.err.as_str()), (2, says));
}

#[test]
fn outputs_that_cannot_be_written() {
    let folder = Folder::new();
    let nowhere = folder.name("missing/out");
    let is_folder = folder.path().display().to_string();
    for out in [nowhere.as_str(), &is_folder, "/dev/full"] {
        let run = zs(&["dump", SMALL, "-o", out]);
        assert_eq!((run.status, run.out.len()), (2, 0), "{out}");
        assert!(
            run.err.contains(&format!("can't write {out}: ")),
            "{}",
            run.err
        );
    }
    assert_eq!(shell("$ZS validate missing 2>/dev/full", &folder).status, 2);
    assert_eq!(folder.files(), Vec::<String>::new());
}

#[test]
fn standard_output_that_cannot_be_written() {
    let folder = Folder::new();
    for command in [
        "--version",
        "--help",
        "dump --help",
        "validate FILE",
        "validate FILE FILE FILE",
        "dump FILE",
        "dump FILE --count -o -",
        "dump FILE -o /dev/fd/1",
        "info FILE",
        "explain FILE",
    ] {
        for (redirection, says) in [
            (">/dev/full", "No space left on device"),
            (">&-", "it is closed"),
            ("1</dev/null", "it isn't open for writing"),
        ] {
            let line = format!("$ZS {command} {redirection}").replace("FILE", SMALL);
            let run = shell(&line, &folder);
            let name = if command.ends_with("fd/1") {
                "/dev/fd/1"
            } else {
                "standard output"
            };
            let due = format!("zs: can't write {name}: {says}");
            assert_eq!((run.status, run.err.lines().count()), (2, 1), "{line}");
            assert!(run.err.starts_with(&due), "{line}: {}", run.err);
        }
    }
    // Nothing is written there.
    let line = format!("$ZS dump '{SMALL}' -o out >&- && $ZS dump '{SMALL}' | cmp - out");
    assert_eq!(shell(&line, &folder).status, 0);
}

#[test]
fn an_output_cut_short_leaves_the_old_file() {
    let folder = Folder::new();
    folder.write("out", b"kept");
    let line = format!("trap '' XFSZ; ulimit -f 8; exec $ZS dump '{CONTACTS}' -o out");
    let run = shell(&line, &folder);
    assert_eq!(run.status, 2);
    assert!(run.err.contains("can't write out: File too large"));
    assert_eq!(folder.files(), ["out"]);
    assert_eq!(
        fs::read(folder.path().join("out")).expect("the output"),
        b"kept"
    );
}

#[test]
fn a_reader_that_closes_the_pipe_is_no_fault() {
    // Far more than a pipe holds, so the command is still writing when the pipe is closed.
    let terminator = "x".repeat(1000);
    let mut child = Command::new(ZS)
        .args(["dump", CONTACTS, "--terminator", &terminator])
        .stdout(Stdio::piped())
        .stderr(Stdio::piped())
        .spawn()
        .expect("the command runs");
    let mut one = [0];
    let mut reader = child.stdout.take().expect("a pipe");
    reader.read_exact(&mut one).expect("one byte");
    drop(reader);
    let run = child.wait_with_output().expect("the command ends");
    assert_eq!(run.status.code(), Some(0));
    assert_eq!(String::from_utf8_lossy(&run.stderr), "");
}

/// Runs the command when the reader of its standard output has gone already.
fn run_unread(words: &[&str]) -> (Option<i32>, String) {
    let (ours, theirs) = UnixStream::pair().expect("a pair of sockets");
    drop(ours);
    let output = Command::new(ZS)
        .args(words)
        .stdout(Stdio::from(OwnedFd::from(theirs)))
        .stderr(Stdio::piped())
        .spawn()
        .expect("the command runs")
        .wait_with_output()
        .expect("the command ends");
    let err = String::from_utf8_lossy(&output.stderr).into_owned();
    (output.status.code(), err)
}

#[test]
fn the_status_is_the_same_where_nobody_reads() {
    let folder = Folder::new();
    let bad = folder.write("bad.zs", b"no archive");
    for words in [
        &["validate", SMALL, CONTACTS][..],
        &["dump", SMALL],
        &["dump", SMALL, "-o", "/dev/stdout"],
        &["info", SMALL],
        &["explain", SMALL],
        &["--help"],
        &["--version"],
    ] {
        assert_eq!(run_unread(words), (Some(0), String::new()), "{words:?}");
    }
    for (words, status, lines) in [
        (&["validate", &bad][..], 1, 1),
        (&["validate", &bad, SMALL], 1, 1),
        (&["validate", SMALL, CONTACTS, &bad], 1, 1),
        (&["validate", SMALL, &bad, "missing"], 2, 2),
        (&["dump", &bad], 1, 2),
    ] {
        let (given, err) = run_unread(words);
        assert_eq!(
            (given, err.lines().count()),
            (Some(status), lines),
            "{words:?}"
        );
    }
}

#[test]
fn one_is_singular() {
    let folder = Folder::new();
    let file = folder.write("one.zs", &Tree::new(&[&["a"]]).bytes());
    let line = format!("{file}: valid, 1 record in 2 blocks\n");
    assert_eq!(zs(&["validate", &file]).text(), line);
    // Nothing can match, so only the root is opened.
    let nothing = ["explain", CONTACTS, "--start=b", "--stop=a"];
    for (way, due) in [
        (
            &[][..],
            "opened 1 of 151 blocks, 0 matches, in vain: none\n",
        ),
        (
            &["--unchecked"],
            "opened 1 block, 0 matches, in vain: none\n",
        ),
    ] {
        let text = zs(&[&nothing[..], way].concat()).text();
        assert!(text.ends_with(due), "{text}");
    }
}

#[test]
fn progress_on_a_terminal_only() {
    let folder = Folder::new();
    let long = vec![b'a'; 1 << 18];
    let group: &[&[u8]] = &[&long];
    let file = folder.write("large.zs", &Tree::new(&[group; 8]).bytes());
    assert_eq!(zs(&["validate", &file]).err, "");
    let run = shell("script -qec \"$ZS validate large.zs\" /dev/null", &folder);
    assert_eq!(run.status, 0);
    assert!(
        run.text().contains("checking large.zs (4.00 MiB), "),
        "{}",
        run.text()
    );
    assert!(run
        .text()
        .contains("large.zs: valid, 8 records in 9 blocks"));
}
