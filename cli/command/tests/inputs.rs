//! Inputs: standard input, files that are no archives, and files that are cut while they are read.

use std::fs::{self, File};
use std::io::{Read, Write};
use std::process::{Command, Stdio};

use crate::support::{shell, zs, zs_with_input, Folder, Run, SMALL, ZS};
use zs_reference::maker::Tree;

/// Runs that are tried until an archive is cut before the output is whole.
const RUNS: usize = 100;

#[test]
fn a_dash_is_standard_input() {
    let bytes = fs::read(SMALL).expect("the sample");
    for words in [
        &["validate"][..],
        &["dump"],
        &["dump", "--unchecked", "--scan"],
        &["info"],
        &["explain", "--unchecked"],
    ] {
        let due = zs(&[words, &[SMALL]].concat());
        let run = zs_with_input(&[words, &["-"]].concat(), &bytes);
        assert_eq!(run.status, 0, "{}", run.err);
        assert_eq!(run.text(), due.text().replace(SMALL, "-"));
        assert_eq!(run.err, due.err.replace(SMALL, "-"));
    }
}

#[test]
fn a_dash_among_other_files() {
    let bytes = fs::read(SMALL).expect("the sample");
    let run = zs_with_input(&["validate", SMALL, "-"], &bytes);
    let valid = "valid, 14 records in 11 blocks";
    let due = format!("{SMALL}: {valid}\n-: {valid}\n");
    assert_eq!((run.status, run.text()), (0, due));
    let run = zs_with_input(&["validate", "-"], b"no archive");
    assert!(run.text().starts_with("-: refused 3"), "{}", run.text());
    assert_eq!(run.status, 1);
}

#[test]
fn standard_input_is_read_from_where_it_stands() {
    let folder = Folder::new();
    let mut bytes = b"a line before\n".to_vec();
    bytes.extend(fs::read(SMALL).expect("the sample"));
    folder.write("both", &bytes);
    let run = shell("(read line; exec $ZS dump - --count) < both", &folder);
    assert_eq!(
        (run.status, run.text().as_str()),
        (0, "14\n"),
        "{}",
        run.err
    );
}

#[test]
fn an_archive_on_standard_input_is_never_its_own_output() {
    let folder = Folder::new();
    let bytes = fs::read(SMALL).expect("the sample");
    let file = folder.write("small.zs", &bytes);
    for words in [
        "dump - -o small.zs <small.zs",
        "dump - <small.zs >>small.zs",
        "info - <small.zs >>small.zs",
        "explain - <small.zs >>small.zs",
        "validate - <small.zs >>small.zs",
    ] {
        let run = shell(&format!("exec $ZS {words}"), &folder);
        assert_eq!(run.status, 2, "{words}");
        let due = "zs: -: the output is the archive itself; name another output\n";
        assert_eq!(run.err, due);
        assert_eq!(fs::read(&file).expect("the archive"), bytes, "{words}");
    }
}

#[test]
fn a_closed_standard_input_is_said_to_be_closed() {
    let run = shell("exec $ZS validate - <&-", &Folder::new());
    assert_eq!((run.status, run.err.as_str()), (2, "zs: -: it is closed\n"));
}

#[test]
fn a_number_that_nobody_opened_is_no_file() {
    for command in ["validate", "dump", "dump -o /dev/stdout", "info", "explain"] {
        let line = format!("exec 3>&-; timeout 10 $ZS {command} /dev/fd/3 | cat");
        let run = shell(&line, &Folder::new());
        let due = "zs: /dev/fd/3: No such file or directory\n";
        assert_eq!(run.err, due, "{command}");
    }
}

#[test]
fn what_is_no_archive_is_refused_by_its_first_bytes() {
    let folder = Folder::new();
    let long = folder.name("video");
    let file = File::create(&long).expect("a temporary file");
    file.set_len(1 << 30).expect("room for a sparse file");
    for (first, number) in [(&b"no archive"[..], 3), (b"\xabZStoBe\x01", 2)] {
        (&file).write_all(first).expect("a temporary file");
        // Far less memory than the file is long.
        let run = shell("ulimit -v 200000; exec $ZS validate video", &folder);
        let due = format!("video: refused {number}");
        assert!(run.text().starts_with(&due), "{}{}", run.text(), run.err);
        assert_eq!(run.status, 1);
        std::io::Seek::rewind(&mut &file).expect("a temporary file");
    }
}

#[test]
fn what_is_no_archive_is_not_kept() {
    let folder = Folder::new();
    let limit = "ulimit -v 200000";
    for (length, number) in [(500_000_000, 3), (1 << 30, 3), ((1 << 30) + 1, 1)] {
        let line = format!("head -c {length} /dev/zero | ({limit}; exec $ZS validate -)");
        let run = shell(&line, &folder);
        let due = format!("-: refused {number}: ");
        assert!(run.text().starts_with(&due), "{}{}", run.text(), run.err);
        assert_eq!(run.status, 1);
    }
}

/// Makes a file of these records.
fn write_archive(folder: &Folder, records: &[Vec<u8>]) -> String {
    let groups: Vec<&[Vec<u8>]> = records.chunks(1000).collect();
    folder.write("cut.zs", &Tree::new(&groups).bytes())
}

fn cut(path: &str) {
    let file = File::options().write(true).open(path);
    let cut = file.and_then(|file| file.set_len(1000));
    cut.expect("a shorter file");
}

/// Runs an unchecked dump, and cuts the file once the first byte is there. A pipe is far shorter than the file, so most of it is unread.
fn cut_while_dumped(records: &[Vec<u8>]) {
    let folder = Folder::new();
    let path = write_archive(&folder, records);
    let mut child = Command::new(ZS)
        .args(["dump", "--unchecked", &path])
        .stdout(Stdio::piped())
        .stderr(Stdio::piped())
        .spawn()
        .expect("the command runs");
    let mut pipe = child.stdout.take().expect("a pipe");
    pipe.read_exact(&mut [0]).expect("one byte");
    cut(&path);
    pipe.read_to_end(&mut Vec::new()).expect("the output");
    let run = Run::of(child.wait_with_output().expect("the command ends"));
    assert_eq!(run.status, 2, "{}", run.err);
    let due = format!("zs: {path}: it was cut short while it was read, or can't be read; ");
    assert!(run.err.contains(&due), "{}", run.err);
    let written = "; what was written of the answer isn't whole\nzs: what to do: ";
    assert!(run.err.contains(written), "{}", run.err);
}

/// Twenty thousand records of a hundred bytes.
fn short_records() -> Vec<Vec<u8>> {
    let record = |number: u32| format!("{number:0100}").into_bytes();
    (0..20_000).map(record).collect()
}

#[test]
fn a_mapped_file_that_is_cut_is_reported() {
    cut_while_dumped(&short_records());
    let long = vec![b'a'; 1 << 20];
    cut_while_dumped(&[long.clone(), long]);
}

/// Runs an unchecked dump of about 100 MB to a file, and cuts the archive once a temporary file is there. The dump may be over before.
fn cut_while_written(folder: &Folder) -> Run {
    let path = write_archive(folder, &short_records());
    folder.write("out", b"kept");
    let child = Command::new(ZS)
        .args(["dump", "--unchecked", "cut.zs", "-o", "out"])
        .args(["--terminator", &"x".repeat(5000)])
        .current_dir(folder.path())
        .stderr(Stdio::piped())
        .spawn();
    let mut child = child.expect("the command runs");
    while folder.files().len() < 3 && child.try_wait().expect("a status").is_none() {}
    cut(&path);
    Run::of(child.wait_with_output().expect("the command ends"))
}

#[test]
fn a_file_that_is_cut_leaves_no_output() {
    let folder = Folder::new();
    let mut runs = (0..RUNS).map(|_| cut_while_written(&folder));
    let run = runs.find(|run| run.status != 0);
    let run = run.expect("a cut before the output is whole");
    assert_eq!(run.status, 2);
    let says = "it was cut short while it was read, or can't be read; nothing was written";
    let due = format!("zs: cut.zs: {says}\nzs: what to do: ");
    assert!(run.err.contains(&due), "{}", run.err);
    assert_eq!(folder.files(), ["cut.zs", "out"]);
    assert_eq!(fs::read(folder.name("out")).expect("the output"), b"kept");
}
