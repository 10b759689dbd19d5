//! Messages: what is wrong in this file, and what a person can do.

use std::fs;

use crate::support::{shell, zs, Folder, CONTACTS, SMALL};
use zs_reference::maker::{Image, Plan, Tree};

/// The line of `validate` for these bytes, without the file's name.
fn verdict(bytes: &[u8]) -> String {
    let folder = Folder::new();
    let file = folder.write("file.zs", bytes);
    let run = zs(&["validate", &file]);
    assert_eq!((run.status, run.err.lines().count()), (1, 1));
    let line = run.text().replace(&format!("{file}: "), "");
    line.trim_end().to_string()
}

#[test]
fn a_length_that_differs_is_said_with_the_one_due() {
    let mut bytes = fs::read(CONTACTS).expect("the sample");
    let sentence = "refused 8: the file's length isn't the one that its header states";
    let cut = verdict(&bytes[..4000]);
    let due = "(it has 4000 bytes, the header says 43673: was it cut short?)";
    assert_eq!(cut, format!("{sentence} {due}"));
    bytes.push(0);
    let due = "(it has 43674 bytes, the header says 43673)";
    assert_eq!(verdict(&bytes), format!("{sentence} {due}"));
    let sentence = "refused 4: the header doesn't fit in the file";
    let due = "(it has 100 bytes, the header alone takes 189: was it cut short?)";
    assert_eq!(verdict(&bytes[..100]), format!("{sentence} {due}"));
    let due = "(it has 12 bytes, the header alone takes more: was it cut short?)";
    assert_eq!(verdict(&bytes[..12]), format!("{sentence} {due}"));
}

#[test]
fn another_codec_is_named() {
    let mut image = Tree::new(&[&["a"]]).image();
    for (codec, shown) in [
        (*b"deflate\0\0\0\0\0\0\0\0\0", "deflate"),
        (*b"none\0\x1b\0\0\0\0\0\0\0\0\0\0", r"none\x00\x1b"),
        ([0; 16], ""),
    ] {
        image.codec = codec;
        let line = verdict(&image.bytes());
        let due = format!("the only one that is read (it is \"{shown}\")");
        assert!(
            line.starts_with("refused 7: ") && line.ends_with(&due),
            "{line}"
        );
    }
}

#[test]
fn an_empty_file_is_said_to_be_empty() {
    assert!(verdict(b"").ends_with("(it is empty)"));
    assert!(!verdict(b"a").contains("empty"));
    let run = shell("$ZS dump --unchecked - </dev/null", &Folder::new());
    assert!(run.err.contains("-: refused 3: "), "{}", run.err);
    assert!(run.err.contains("(it is empty)"), "{}", run.err);
}

#[test]
fn a_long_file_that_is_no_archive_is_said_to_be_none() {
    let folder = Folder::new();
    let path = folder.write("video", b"no archive");
    let file = fs::File::options().write(true).open(&path);
    let longer = file.and_then(|file| file.set_len((1 << 30) + 1));
    longer.expect("room for a sparse file");
    let text = zs(&["validate", &path]).text();
    assert!(
        text.ends_with("(it doesn't begin as a ZS file either)\n"),
        "{text}"
    );
    let right = "zs: what to do: make sure that this is the right file\n";
    assert!(zs(&["dump", &path]).err.ends_with(right));
}

#[test]
fn what_to_do_is_said_once_at_the_end() {
    let folder = Folder::new();
    let bytes = fs::read(SMALL).expect("the sample");
    let mut changed = bytes.clone();
    changed[200] ^= 1;
    folder.write("changed.zs", &changed);
    folder.write("cut.zs", &bytes[..300]);
    folder.write("other", b"no archive");
    let run = shell("$ZS validate other cut.zs changed.zs cut.zs other", &folder);
    assert_eq!((run.status, run.text().lines().count()), (1, 5));
    let due = "zs: what to do about 3: make sure that this is the right file
zs: what to do about 8, 14: get an undamaged copy of the file\n";
    assert_eq!(run.err, due);
    assert_eq!(zs(&["validate", SMALL]).err, "");
}

#[test]
fn a_refusal_is_not_said_to_be_unchecked() {
    let folder = Folder::new();
    let other = folder.write("other", b"no archive");
    for command in ["dump", "explain"] {
        let run = zs(&[command, "--unchecked", &other]);
        let due = format!("zs: {other}: refused 3: ");
        assert!(run.err.starts_with(&due), "{}", run.err);
    }
}

#[test]
fn too_little_memory_is_said() {
    let folder = Folder::new();
    let path = folder.write("large.zs", &fs::read(SMALL).expect("the sample"));
    let file = fs::File::options().write(true).open(path);
    let longer = file.and_then(|file| file.set_len(1 << 30));
    longer.expect("room for a sparse file");
    let run = shell("ulimit -v 200000; exec $ZS validate large.zs", &folder);
    let due = "zs: large.zs: there isn't enough memory to read it\n";
    assert_eq!((run.status, run.err.as_str()), (2, due));
}

#[test]
fn the_number_of_matches_allowed_is_said() {
    for way in ["--scan", "--count", "--unchecked"] {
        let run = zs(&["dump", SMALL, "--max-results", "13", way]);
        let due = format!(
            "zs: {SMALL}: refused 27: more records match than --max-results allows (at most 13 are allowed)
zs: what to do: ask for fewer records, or give a greater --max-results\n"
        );
        assert_eq!(run.err, due);
    }
    let run = zs(&["dump", SMALL, "--max-results", "1", "--start", "A"]);
    assert!(run.err.contains(" (at most 1 is allowed)\n"), "{}", run.err);
}

#[test]
fn a_place_is_said_where_there_is_one() {
    let falling = Image::new(vec![Plan::data(&["b", "a"]), Plan::index(1, &[("a", 0)])]);
    assert!(verdict(&falling.bytes()).starts_with("refused 16 at 106: "));
    let rootless = Image::new(vec![Plan::data(&["a"])]);
    assert!(verdict(&rootless.bytes()).starts_with("refused 17: "));
}

#[test]
fn no_numbers_of_the_system() {
    let folder = Folder::new();
    let run = shell("$ZS validate missing .", &folder);
    assert_eq!(
        run.err,
        "zs: missing: No such file or directory\nzs: .: Is a directory\n"
    );
    for (output, says) in [
        (">/dev/full", "standard output: No space left on device"),
        ("-o missing/out", "missing/out: No such file or directory"),
    ] {
        let run = shell(&format!("$ZS dump '{SMALL}' {output}"), &folder);
        assert_eq!(run.err, format!("zs: can't write {says}\n"));
    }
}

#[test]
fn escapes_that_lack_something() {
    for (given, says) in [
        (r"\x4", r"\x needs two hex digits (here: \x4)"),
        (r"a\x", r"\x needs two hex digits (here: \x)"),
        (r"\xg0", r"\x needs two hex digits (here: \xg0)"),
        (r"a\", r"a backslash at the end; write \\ for a backslash"),
        (
            r"\q",
            r"unknown escape \q; known are \t \n \r \\ and \x with two hex digits",
        ),
    ] {
        let run = zs(&["dump", SMALL, "--prefix", given]);
        assert_eq!(run.status, 2);
        assert!(run.err.contains(says), "{}", run.err);
    }
}
