//! Names of files in messages: one line each, and every byte can be told.

use std::ffi::{OsStr, OsString};
use std::fs;
use std::os::unix::ffi::OsStrExt;

use crate::support::{shell, zs, Folder, Run, SMALL};
use zs_reference::maker::Tree;

/// Names, and how they are shown.
const NAMES: [(&[u8], &str); 6] = [
    (
        b"a\nb: valid, 1 record in 2 blocks",
        r"a\nb\x3a valid, 1 record in 2 blocks",
    ),
    (b"\x1b[2Kgone\r\t", r"\x1b[2Kgone\r\t"),
    (b"caf\xe9.zs", r"caf\xe9.zs"),
    (r"a\nb".as_bytes(), r"a\\nb"),
    (
        "\u{85}\u{202e}\u{2028}".as_bytes(),
        r"\xc2\x85\xe2\x80\xae\xe2\x80\xa8",
    ),
    (
        "'é' \"e\u{301}\" กำ 文.zs".as_bytes(),
        "'é' \"e\u{301}\" กำ 文.zs",
    ),
];

/// Runs a command on a file whose name may be no text.
fn run(words: &[&str], file: &OsStr) -> Run {
    let words = words.iter().map(OsString::from);
    zs(&words.chain([file.to_os_string()]).collect::<Vec<_>>())
}

#[test]
fn verdicts_and_refusals_stay_on_their_lines() {
    let folder = Folder::new();
    let good = fs::read(SMALL).expect("the sample");
    for (name, shown) in NAMES {
        let path = folder.path().join(OsStr::from_bytes(name));
        let shown = folder.name(shown);
        fs::write(&path, &good).expect("a temporary file");
        let path = path.as_os_str();
        let due = format!("{shown}: valid, 14 records in 11 blocks\n");
        assert_eq!(run(&["validate"], path).text(), due);
        let due = format!("zs: {shown}: not checked;");
        let unchecked = run(&["dump", "--unchecked"], path);
        assert!(unchecked.err.starts_with(&due), "{}", unchecked.err);
        fs::write(path, b"no archive").expect("a temporary file");
        let refused = format!("{shown}: refused 3");
        let given = run(&["validate"], path).text();
        assert!(given.starts_with(&refused), "{given}");
        assert_eq!(given.lines().count(), 1);
        for command in ["dump", "info", "explain"] {
            let given = run(&[command], path).err;
            assert!(given.starts_with(&format!("zs: {refused}")), "{given}");
            assert_eq!(given.lines().count(), 2);
        }
    }
}

#[test]
fn files_that_cannot_be_read_or_written() {
    let folder = Folder::new();
    for (name, shown) in NAMES {
        let path = folder.path().join(OsStr::from_bytes(name));
        let given = run(&["validate"], path.as_os_str()).err;
        let due = format!("zs: {}: No such file", folder.name(shown));
        assert!(given.starts_with(&due), "{given}");
        fs::create_dir(&path).expect("a folder");
        let given = run(&["dump", SMALL, "-o"], path.as_os_str()).err;
        let due = format!("zs: can't write {}: Is a directory", folder.name(shown));
        assert!(given.starts_with(&due), "{given}");
    }
}

#[test]
fn the_archive_as_output_is_named_with_escapes() {
    let folder = Folder::new();
    fs::copy(SMALL, folder.path().join("a\nb")).expect("a copy");
    let run = shell(
        "name=$(printf 'a\\nb'); $ZS dump \"$name\" -o \"$name\"",
        &folder,
    );
    assert_eq!(run.status, 2);
    let due = "zs: a\\nb: the output is the archive itself; name another output\n";
    assert_eq!(run.err, due);
}

#[test]
fn progress_names_the_file_with_escapes() {
    let folder = Folder::new();
    let long = vec![b'a'; 1 << 18];
    let group: &[&[u8]] = &[&long];
    folder.write("a\x1bb", &Tree::new(&[group; 8]).bytes());
    let run = shell(
        "script -qec \"$ZS validate $(printf 'a\\033b')\" /dev/null",
        &folder,
    );
    assert!(
        run.text().contains(r"checking a\x1bb (4.00 MiB)"),
        "{}",
        run.text()
    );
    assert!(!run.text().contains("a\x1bb"));
}

#[test]
fn mistakes_show_no_control_characters() {
    for words in [
        &["a\nb: \x1b[2K"][..],
        &["validate", SMALL, "--a\nb: \x1b[2K"],
        &["info", SMALL, "a\nb: \x1b[2K"],
        &["dump", SMALL, "--max-results", "a\nb: \x1b[2K"],
        &["dump", SMALL, "--length-prefixed", "a\nb: \x1b[2K"],
        &["dump", SMALL, "--prefix", "\\\x1b[2K"],
    ] {
        let run = zs(words);
        assert_eq!(run.status, 2);
        assert!(!run.err.contains('\x1b'), "{words:?}: {}", run.err);
        assert!(run.err.contains(r"\x1b[2K"), "{words:?}: {}", run.err);
        assert!(
            run.err.lines().all(|line| !line.starts_with("b: ")),
            "{}",
            run.err
        );
    }
}
