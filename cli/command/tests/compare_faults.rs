//! What keeps `zs compare` from answering: refusals of either file, mistakes, inputs and outputs.

use std::fs::{self, File};
use std::io::Read;
use std::os::unix::io::OwnedFd;
use std::os::unix::net::UnixStream;
use std::process::{Command, Stdio};

use crate::support::{damaged_sample, shell, zs, Folder, Run, CONTACTS, OLDER, SMALL, ZS};
use zs_reference::maker::{Image, Plan, Tree};

/// A folder with archives and what is none: `good.zs`, `damaged.zs`, `none` and `unfinished`.
fn with_files() -> Folder {
    let folder = Folder::new();
    fs::copy(SMALL, folder.name("good.zs")).expect("a copy");
    folder.write("damaged.zs", &damaged_sample().0);
    folder.write("none", b"no archive");
    folder.write("unfinished", b"\xabZStoBe\x01");
    folder
}

fn compare(words: &str, folder: &Folder) -> Run {
    shell(&format!("$ZS compare {words}"), folder)
}

#[test]
fn the_file_at_fault_is_named_and_the_first_one_first() {
    let folder = with_files();
    let place = damaged_sample().1;
    let damaged = format!("damaged.zs: refused 14 at {place}: ");
    for (words, refused) in [
        ("damaged.zs good.zs", damaged.as_str()),
        ("good.zs damaged.zs", &damaged),
        ("damaged.zs none", &damaged),
        ("damaged.zs unfinished", &damaged),
        ("good.zs none", "none: refused 3: "),
        ("good.zs unfinished", "unfinished: refused 2: "),
        ("none damaged.zs", "none: refused 3: "),
        ("none unfinished", "none: refused 3: "),
        ("none missing", "none: refused 3: "),
        ("damaged.zs damaged.zs", &damaged),
        (
            "good.zs - <damaged.zs",
            &format!("-: refused 14 at {place}: "),
        ),
        ("good.zs damaged.zs --count", &damaged),
        ("good.zs damaged.zs -o out", &damaged),
    ] {
        let run = compare(words, &folder);
        assert_eq!((run.status, run.out.len()), (1, 0), "{words}");
        let due = format!("zs: {refused}");
        assert!(run.err.starts_with(&due), "{words}: {}", run.err);
        let (_, advice) = run.err.split_once('\n').expect("two lines");
        assert!(advice.starts_with("zs: what to do: "), "{}", run.err);
        assert_eq!(advice.lines().count(), 1);
    }
    assert!(!folder.files().contains(&"out".into()));
}

#[test]
fn what_the_file_tells_about_a_refusal_is_said() {
    let folder = with_files();
    let bytes = fs::read(CONTACTS).expect("the sample");
    folder.write("cut.zs", &bytes[..4000]);
    folder.write("empty", b"");
    for (words, due) in [
        (
            "cut.zs good.zs",
            "(it has 4000 bytes, the header says 43673: was it cut short?)",
        ),
        (
            "good.zs cut.zs",
            "(it has 4000 bytes, the header says 43673: was it cut short?)",
        ),
        ("good.zs empty", "(it is empty)"),
    ] {
        let run = compare(words, &folder);
        assert!(run.err.contains(due), "{words}: {}", run.err);
    }
}

#[test]
fn files_above_the_limit_are_refused_by_their_length() {
    let folder = with_files();
    let file = File::create(folder.name("long.zs")).expect("a temporary file");
    file.set_len((1 << 30) + 1).expect("room for a sparse file");
    for words in ["long.zs good.zs", "good.zs long.zs", "long.zs long.zs"] {
        let run = compare(words, &folder);
        assert_eq!((run.status, run.out.len()), (1, 0), "{words}");
        assert!(
            run.err.starts_with("zs: long.zs: refused 1: "),
            "{}",
            run.err
        );
    }
    let run = compare("damaged.zs long.zs", &folder);
    assert!(
        run.err.starts_with("zs: damaged.zs: refused 14 "),
        "{}",
        run.err
    );
}

#[test]
fn mistakes_and_inputs_that_cannot_be_read() {
    let folder = with_files();
    for (words, says) in [
        ("", "<A>"),
        ("good.zs", "<B>"),
        ("good.zs good.zs good.zs", "Usage: zs compare "),
        ("good.zs good.zs --terminator x", "--terminator"),
        (
            "missing good.zs",
            "zs: missing: No such file or directory\n",
        ),
        (
            "good.zs missing",
            "zs: missing: No such file or directory\n",
        ),
        (
            "damaged.zs missing",
            "zs: missing: No such file or directory\n",
        ),
        ("good.zs .", "zs: .: Is a directory\n"),
        ("good.zs - <&-", "zs: -: it is closed\n"),
    ] {
        let run = compare(words, &folder);
        assert_eq!((run.status, run.out.len()), (2, 0), "{words}");
        assert!(run.err.contains(says), "{words}: {}", run.err);
    }
}

#[test]
fn what_can_be_read_once_is_not_both() {
    let folder = with_files();
    for (line, name) in [
        ("$ZS compare - - <good.zs", "-"),
        ("cat good.zs | $ZS compare - -", "-"),
        ("cat good.zs | $ZS compare - /dev/stdin", "-"),
        (
            "cat good.zs | $ZS compare /dev/stdin /dev/fd/0",
            "/dev/stdin",
        ),
        ("mkfifo pipe; timeout 10 $ZS compare pipe ./pipe", "pipe"),
    ] {
        let run = shell(line, &folder);
        let due = format!("zs: {name}: it can be read only once, and can't be both A and B\n");
        assert_eq!((run.status, run.err), (2, due), "{line}");
    }
}

#[test]
fn no_archive_is_the_output() {
    let folder = with_files();
    fs::copy(CONTACTS, folder.name("other.zs")).expect("a copy");
    for words in [
        "good.zs other.zs -o other.zs",
        "good.zs other.zs -o good.zs",
        "good.zs other.zs -o ./good.zs",
        "good.zs other.zs >>good.zs",
        "good.zs other.zs >>other.zs",
        "good.zs other.zs --count 1<>other.zs",
        "good.zs - <other.zs >>other.zs",
    ] {
        let run = compare(words, &folder);
        assert_eq!((run.status, run.out.len()), (2, 0), "{words}");
        let due = ": the output is the archive itself; name another output\n";
        assert!(run.err.ends_with(due), "{words}: {}", run.err);
        for (name, sample) in [("good.zs", SMALL), ("other.zs", CONTACTS)] {
            assert!(fs::read(folder.name(name)).ok() == fs::read(sample).ok());
        }
    }
}

#[test]
fn a_file_gets_what_standard_output_gets() {
    let folder = Folder::new();
    let out = folder.write("out", b"old");
    let direct = zs(&["compare", OLDER, CONTACTS]).out;
    let run = zs(&["compare", OLDER, CONTACTS, "-o", &out]);
    assert_eq!((run.status, run.out.len(), run.err.as_str()), (3, 0, ""));
    assert_eq!(fs::read(&out).expect("the output"), direct);
    let run = zs(&["compare", OLDER, OLDER, "-o", &out]);
    assert_eq!((run.status, run.out.len()), (0, 0));
    assert_eq!(fs::read(&out).expect("the output"), b"");
    assert_eq!(zs(&["compare", OLDER, CONTACTS, "-o", "-"]).out, direct);
    assert_eq!(folder.files(), ["out"]);
}

#[test]
fn outputs_that_cannot_be_written() {
    let folder = with_files();
    fs::copy(CONTACTS, folder.name("other.zs")).expect("a copy");
    let full = "can't write standard output: No space left on device\n";
    let closed = "can't write standard output: it is closed\n";
    for (words, status, says) in [
        ("good.zs other.zs >/dev/full", 2, full),
        ("good.zs other.zs --count >/dev/full", 2, full),
        ("good.zs good.zs --count >/dev/full", 2, full),
        ("good.zs other.zs >&-", 2, closed),
        ("good.zs good.zs >&-", 2, closed),
        (
            "good.zs other.zs -o missing/out",
            2,
            "can't write missing/out: No such",
        ),
        (
            "good.zs other.zs -o /dev/full",
            2,
            "can't write /dev/full: No space",
        ),
        ("good.zs damaged.zs >/dev/full", 1, "damaged.zs: refused 14"),
    ] {
        let run = compare(words, &folder);
        assert_eq!((run.status, run.out.len()), (status, 0), "{words}");
        let due = format!("zs: {says}");
        assert!(run.err.starts_with(&due), "{words}: {}", run.err);
    }
    // Nothing is written there.
    let run = compare("good.zs good.zs >/dev/full", &folder);
    assert_eq!((run.status, run.err.as_str()), (0, ""));
}

#[test]
fn an_output_cut_short_leaves_the_old_file() {
    let folder = with_files();
    folder.write("out", b"kept");
    let line = format!("trap '' XFSZ; ulimit -f 8; exec $ZS compare good.zs '{CONTACTS}' -o out");
    let run = shell(&line, &folder);
    assert_eq!(run.status, 2);
    let due = "can't write out: File too large";
    assert!(run.err.contains(due), "{}", run.err);
    assert_eq!(fs::read(folder.name("out")).expect("the output"), b"kept");
}

#[test]
fn a_reader_that_closes_the_pipe_learns_the_status() {
    // Far more than a pipe holds, so the command is still writing when the pipe is closed.
    let folder = Folder::new();
    let record = |number: u32| format!("{number:0100}").into_bytes();
    let records: Vec<Vec<u8>> = (0..20_000).map(record).collect();
    let groups: Vec<&[Vec<u8>]> = records.chunks(1000).collect();
    let large = folder.write("large.zs", &Tree::new(&groups).bytes());
    let mut child = Command::new(ZS)
        .args(["compare", &large, SMALL])
        .stdout(Stdio::piped())
        .stderr(Stdio::piped())
        .spawn()
        .expect("the command runs");
    let mut reader = child.stdout.take().expect("a pipe");
    reader.read_exact(&mut [0]).expect("one byte");
    drop(reader);
    let run = Run::of(child.wait_with_output().expect("the command ends"));
    assert_eq!((run.status, run.err.as_str()), (3, ""));
}

#[test]
fn the_status_is_the_same_where_nobody_reads() {
    let folder = with_files();
    let none = folder.name("none");
    for (second, status) in [(SMALL, 0), (CONTACTS, 3), (&none, 1)] {
        let (ours, theirs) = UnixStream::pair().expect("a pair of sockets");
        drop(ours);
        let mut command = Command::new(ZS);
        command
            .args(["compare", SMALL, second])
            .stderr(Stdio::null());
        command.stdout(Stdio::from(OwnedFd::from(theirs)));
        let given = command.status().expect("the command runs");
        assert_eq!(given.code(), Some(status), "{second}");
    }
}

#[test]
fn progress_names_both_on_a_terminal_only() {
    let folder = Folder::new();
    let long = vec![b'a'; 1 << 18];
    let group: &[&[u8]] = &[&long];
    let bytes = Tree::new(&[group; 8]).bytes();
    folder.write("a\x1b.zs", &bytes);
    folder.write("b.zs", &bytes);
    let compare = "$ZS compare $(printf 'a\\033.zs') b.zs";
    let run = shell(compare, &folder);
    assert_eq!((run.status, run.out.len(), run.err.as_str()), (0, 0, ""));
    let run = shell(&format!("script -qec \"{compare}\" /dev/null"), &folder);
    let due = r"comparing a\x1b.zs with b.zs (8.00 MiB), ";
    assert!(run.text().contains(due), "{}", run.text());
}

#[test]
fn too_little_memory_is_said_and_what_needs_none_comes_first() {
    // A million records of a byte each in the first, none of them in the second: a list of forty bytes for each isn't there.
    let mut payload = Vec::new();
    let numbers = 0..1_000_000_u32;
    numbers.for_each(|number| payload.extend([4].iter().chain(&number.to_be_bytes())));
    let blocks = |payload: &[u8]| vec![Plan::bytes(0, payload), Plan::index(1, &[("", 0)])];
    let folder = Folder::new();
    fs::copy(SMALL, folder.name("good.zs")).expect("a copy");
    let mut file = Image::new(blocks(&payload)).bytes();
    folder.write("many.zs", &file);
    let limit = "ulimit -v 40000; exec $ZS compare";
    let run = shell(&format!("{limit} many.zs good.zs"), &folder);
    let due = "zs: there isn't enough memory to compare them\n";
    assert_eq!((run.status, run.err.as_str()), (2, due));
    file[200] ^= 1;
    folder.write("damaged.zs", &file);
    for words in ["damaged.zs good.zs", "good.zs damaged.zs"] {
        let run = shell(&format!("{limit} {words}"), &folder);
        assert_eq!(run.status, 1, "{}", run.err);
        assert!(
            run.err.starts_with("zs: damaged.zs: refused 14 "),
            "{}",
            run.err
        );
    }
}
