//! Where `zs import sim` puts the archive: it is whole or not there, and no other file is lost.

use std::fs::{self, File};
use std::os::unix::fs::symlink;
use std::os::unix::process::ExitStatusExt;

use crate::support::sim::{Contact, NAME_LENGTH};
use crate::support::{interrupt, shell, unfinished, Folder, Run};

/// A folder with the dump of a card.
fn with_card() -> Folder {
    let folder = Folder::new();
    folder.write("card", &card());
    folder
}

fn card() -> Vec<u8> {
    let contacts = [Contact::new(b"Bea"), Contact::new(b"\x81\x01\x01\xff")];
    contacts
        .map(|contact| contact.on_card(NAME_LENGTH))
        .concat()
}

/// Imports a dump; the words are DUMP, OUT and more.
fn import(words: &str, folder: &Folder) -> Run {
    let line = format!("$ZS import sim --name-length 14 --metadata '{{}}' {words}");
    shell(&line, folder)
}

/// The archive of the card.
fn archive() -> Vec<u8> {
    let folder = with_card();
    assert_eq!(import("card out", &folder).status, 0);
    contents(&folder, "out")
}

fn contents(folder: &Folder, file: &str) -> Vec<u8> {
    fs::read(folder.name(file)).expect("a file")
}

#[test]
fn a_file_that_is_there_is_kept() {
    let folder = with_card();
    folder.write("out", b"kept");
    symlink("out", folder.name("link")).expect("a link");
    for out in ["out", "link"] {
        let run = import(&format!("card {out}"), &folder);
        let due = format!("zs: can't write {out}: it is there already; --force replaces it\n");
        assert_eq!((run.status, run.out.len(), run.err), (2, 0, due));
        assert_eq!(contents(&folder, "out"), b"kept");
    }
    let run = import("card link --force", &folder);
    assert_eq!((run.status, run.err.as_str()), (0, ""));
    assert_eq!(contents(&folder, "out"), archive());
    assert_eq!(folder.files(), ["card", "link", "out"]);
}

#[test]
fn the_dump_is_never_the_output() {
    let folder = with_card();
    folder.write("about", b"{}");
    symlink("card", folder.name("link")).expect("a link");
    for (words, says) in [
        ("card card --force", "card: the output is the dump itself"),
        ("card link --force", "card: the output is the dump itself"),
        ("- card --force <card", "-: the output is the dump itself"),
        ("card - >>card", "card: the output is the dump itself"),
        ("card out >>card", "card: the output is the dump itself"),
    ] {
        let run = import(words, &folder);
        let due = format!("zs: {says}; name another output\n");
        assert_eq!((run.status, run.err), (2, due), "{words}");
        assert_eq!(contents(&folder, "card"), card());
        assert_eq!(folder.files(), ["about", "card", "link"]);
    }
    let line = "$ZS import sim card about --name-length 14 --metadata @about --force";
    let due = "zs: about: the output is the metadata itself; name another output\n";
    assert_eq!(shell(line, &folder).err, due);
    assert_eq!(contents(&folder, "about"), b"{}");
}

#[test]
fn standard_output_devices_and_pipes_get_the_archive_alone() {
    let folder = with_card();
    for words in [
        "card -",
        "card /dev/stdout",
        "card /dev/fd/3 3>&1",
        "- - <card",
    ] {
        let run = import(words, &folder);
        assert_eq!((run.status, run.err.as_str()), (0, ""), "{words}");
        assert!(run.out == archive(), "{words}");
    }
    assert_eq!(folder.files(), ["card"]);
    let line = "script -qec \"$ZS import sim card - --name-length 14 --metadata {}\" /dev/null";
    let due = "zs: standard output is a terminal, and an archive is no text; name a file\r\n";
    let run = shell(line, &folder);
    assert_eq!((run.status, run.text().as_str()), (2, due));
}

#[test]
fn outputs_that_cannot_be_written() {
    let folder = with_card();
    for (words, says) in [
        ("card /dev/full", "/dev/full: No space left on device"),
        (
            "card - >/dev/full",
            "standard output: No space left on device",
        ),
        ("card missing/out", "missing/out: No such file or directory"),
        ("card .", ".: Is a directory"),
        ("card out >&-", "standard output: it is closed"),
        // The dump isn't looked for.
        (
            "missing missing/out",
            "missing/out: No such file or directory",
        ),
    ] {
        let run = import(words, &folder);
        let due = format!("zs: can't write {says}\n");
        assert_eq!((run.status, run.out.len(), run.err), (2, 0, due));
        assert_eq!(folder.files(), ["card"], "{words}");
    }
}

#[test]
fn a_full_disk_leaves_nothing() {
    let folder = Folder::new();
    folder.write("card", &card().repeat(500));
    let words = "import sim card out --name-length 14 --metadata '{}'";
    let line = format!("ulimit -f 8; exec $ZS {words}");
    let due = "zs: can't write out: File too large\n";
    let run = shell(&line, &folder);
    assert_eq!((run.status, run.err.as_str()), (2, due));
    assert_eq!(folder.files(), ["card"]);
    folder.write("out", b"kept");
    assert_eq!(shell(&format!("{line} --force"), &folder).err, due);
    assert_eq!(contents(&folder, "out"), b"kept");
    assert_eq!(folder.files(), ["card", "out"]);
}

/// Imports about 32 MB.
const IMPORT_LONG: &[&str] = &[
    "import",
    "sim",
    "long",
    "out",
    "--name-length",
    "241",
    "--metadata",
    "{}",
    "--force",
    "--records-per-block",
    "65535",
];
/// Runs that are tried until a signal comes before the archive is there.
const RUNS: usize = 100;

/// Records of zeros: a name that fills its field, and a number of no bytes.
fn write_long(folder: &Folder) {
    let file = File::create(folder.name("long")).expect("a temporary file");
    file.set_len(255 << 17).expect("room for a sparse file");
}

#[test]
fn a_signal_leaves_nothing_new() {
    let folder = Folder::new();
    write_long(&folder);
    let is_old = || contents(&folder, "out") == b"kept";
    let mut ended = (0..RUNS).map(|_| {
        folder.write("out", b"kept");
        interrupt(IMPORT_LONG, 15, &folder)
    });
    let status = ended.find(|_| is_old()).expect("a signal in time");
    assert_eq!(status.signal(), Some(15), "{status}");
    assert_eq!(folder.files(), ["long", "out"]);
}

#[test]
fn only_a_temporary_file_is_left_by_a_kill() {
    let folder = Folder::new();
    write_long(&folder);
    let mut left = (0..RUNS).map(|_| {
        folder.write("out", b"kept");
        interrupt(IMPORT_LONG, 9, &folder);
        unfinished(&folder)
    });
    let left = left
        .find(|left| !left.is_empty())
        .expect("a signal in time");
    assert_eq!(folder.files(), [&left[0], "long", "out"]);
    assert_eq!(contents(&folder, "out"), b"kept");
}

#[test]
fn progress_on_a_terminal_only() {
    let folder = Folder::new();
    folder.write("card", &card().repeat(1 << 16));
    assert_eq!(import("card out", &folder).err, "");
    let line = "script -qec \"$ZS import sim card more --name-length 14 --metadata {}\" /dev/null";
    let text = shell(line, &folder).text();
    for says in [
        "importing card (3.50 MiB), ",
        "making more (",
        "more: made, 131072 records in ",
    ] {
        assert!(text.contains(says), "{text}");
    }
}
