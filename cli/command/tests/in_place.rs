//! `--in-place`: the archive is written to OUT itself.

use std::fs;
use std::os::unix::fs::{symlink, MetadataExt, PermissionsExt};

use crate::support::{fail_to_make, shell, Folder};

/// A folder with a list of names, and the archive of these.
fn with_names() -> (Folder, Vec<u8>) {
    let folder = Folder::new();
    folder.write("names", b"Ada\nBea\n");
    let made = shell("$ZS make '{}' names -", &folder);
    assert_eq!(made.status, 0);
    (folder, made.out)
}

#[test]
fn the_archive_is_the_same() {
    let (folder, archive) = with_names();
    for (words, umask, mode) in [("new", "022", 0o644), ("kept --force", "027", 0o640)] {
        let line = format!("umask {umask}; $ZS make '{{}}' names {words} --in-place");
        let run = shell(&line, &folder);
        let name = words.split(' ').next().expect("a name");
        let due = format!(
            "{name}: made, 2 records in 2 blocks, {} bytes\n",
            archive.len()
        );
        assert_eq!((run.status, run.err.as_str()), (0, ""));
        assert_eq!(run.text(), due);
        let out = folder.name(name);
        assert!(fs::read(&out).expect("the archive") == archive);
        let about = fs::metadata(out).expect("the archive");
        assert_eq!(about.mode() & 0o7777, mode);
    }
}

#[test]
fn a_file_that_is_there_needs_force_and_stays_the_same_file() {
    let (folder, archive) = with_names();
    let out = folder.write("out", &[b'x'; 10_000]);
    fs::set_permissions(&out, fs::Permissions::from_mode(0o640)).expect("a mode");
    fs::hard_link(&out, folder.name("other")).expect("a link");
    symlink("out", folder.name("link")).expect("a link");
    let before = fs::metadata(&out).expect("the file");
    let run = shell("$ZS make '{}' names link --in-place", &folder);
    let due = "zs: can't write link: it is there already; --force replaces it\n";
    assert_eq!((run.status, run.err.as_str()), (2, due));
    assert_eq!(fs::read(&out).expect("the file"), [b'x'; 10_000]);
    let run = shell("$ZS make '{}' names link --in-place --force", &folder);
    assert_eq!((run.status, run.err.as_str()), (0, ""));
    let after = fs::metadata(&out).expect("the archive");
    assert_eq!((after.ino(), after.mode()), (before.ino(), before.mode()));
    for name in ["out", "other", "link"] {
        assert!(fs::read(folder.name(name)).expect("the archive") == archive);
    }
    assert_eq!(folder.files(), ["link", "names", "other", "out"]);
}

#[test]
fn only_plain_files_are_written_in_place() {
    let (folder, _) = with_names();
    for (words, name) in [
        ("-", "standard output"),
        ("- >redirected", "standard output"),
        ("/dev/stdout", "/dev/stdout"),
        ("/dev/fd/3 3>redirected", "/dev/fd/3"),
        ("/dev/null", "/dev/null"),
        ("/dev/null --force", "/dev/null"),
        ("pipe", "pipe"),
        ("pipe --force", "pipe"),
    ] {
        let line = format!("rm -f pipe; mkfifo pipe; $ZS make '{{}}' missing --in-place {words}");
        let run = shell(&line, &folder);
        let due = format!(
            "zs: can't write {name} in place: only a plain file, given by its name, can be; leave out --in-place\n"
        );
        assert_eq!((run.status, run.out.len(), run.err), (2, 0, due));
    }
    let redirected = fs::read(folder.name("redirected")).expect("a file");
    assert_eq!(redirected.len(), 0);
    assert_eq!(folder.files(), ["names", "pipe", "redirected"]);
}

#[test]
fn an_input_is_never_the_output() {
    let (folder, _) = with_names();
    for words in ["names names", "- names <names", "names names --force"] {
        let run = shell(&format!("$ZS make '{{}}' {words} --in-place"), &folder);
        let due = ": the output is the input itself; name another output\n";
        assert_eq!((run.status, run.err.ends_with(due)), (2, true), "{words}");
        let names = fs::read(folder.name("names")).expect("the input");
        assert_eq!(names, b"Ada\nBea\n");
    }
}

#[test]
fn a_refusal_changes_nothing() {
    let make = ["make", "{}", "-"];
    let run = fail_to_make(&make, &["--in-place"], b"b\na\n");
    assert_eq!(run.status, 1);
    let run = fail_to_make(&["make", "{", "-"], &["--in-place"], b"a\nb\n");
    assert_eq!(run.status, 1);
}

#[test]
fn a_limit_of_length_is_an_error_in_words() {
    let folder = Folder::new();
    folder.write("names", &[b'a'; 100_000]);
    let line = "ulimit -f 8; exec $ZS make '{}' names out --in-place";
    let run = shell(line, &folder);
    let due = "zs: can't write out: File too large";
    assert_eq!((run.status, run.err), (2, format!("{due}\n")));
    assert_eq!(folder.files(), ["names"]);
    folder.write("out", b"lost");
    let run = shell(&format!("{line} --force"), &folder);
    assert!(run
        .err
        .starts_with(&format!("{due}; what it held is gone, ")));
    let left = fs::read(folder.name("out")).expect("what is left");
    assert_eq!(zs_library::check(&left, &mut []).number, 2);
}
