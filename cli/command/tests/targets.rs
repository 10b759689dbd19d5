//! What `-o` names: plain files, which are replaced; links, which are followed; devices, pipes and open files, which are written as they
//! are.

use std::fs;
use std::io::Read;
use std::os::unix::fs::{symlink, MetadataExt, PermissionsExt};
use std::os::unix::io::OwnedFd;
use std::os::unix::net::UnixStream;
use std::process::{Command, Stdio};

use crate::support::{shell, zs, Folder, SMALL, ZS};

fn read(folder: &Folder, file: &str) -> Vec<u8> {
    fs::read(folder.path().join(file)).expect("a file")
}

fn set_mode(file: &str, mode: u32) {
    fs::set_permissions(file, fs::Permissions::from_mode(mode)).expect("permissions");
}

#[test]
fn an_open_file_is_written_through() {
    let folder = Folder::new();
    symlink("/dev/stdout", folder.name("link")).expect("a link");
    let records = zs(&["dump", SMALL]).out;
    for (number, name) in [
        (1, "/dev/stdout"),
        (1, "/dev/fd/1"),
        (1, "/proc/self/fd/1"),
        (1, "link"),
        (3, "/dev/fd/3"),
        (3, "/proc/self/fd/3"),
        (3, "/proc/thread-self/fd/3"),
    ] {
        for (opened, old) in [(">", &b""[..]), (">>", b"old\n")] {
            let file = folder.write("out", b"old\n");
            let inode = fs::metadata(&file).expect("the output").ino();
            let dump = format!("$ZS dump '{SMALL}' -o {name}");
            let line =
                format!("(echo a >&{number}; {dump}; echo z >&{number}) {number}{opened}out");
            let run = shell(&line, &folder);
            assert_eq!((run.status, run.err.as_str()), (0, ""), "{line}");
            let due = [old, b"a\n", &records, b"z\n"].concat();
            assert_eq!(read(&folder, "out"), due, "{line}");
            assert_eq!(fs::metadata(&file).expect("the output").ino(), inode);
        }
    }
    assert_eq!(folder.files(), ["link", "out"]);
}

#[test]
fn pipes_and_sockets_are_written_as_they_are() {
    let folder = Folder::new();
    let records = zs(&["dump", SMALL]).out;
    let line = format!("mkfifo pipe; cat pipe >got & $ZS dump '{SMALL}' -o pipe && wait");
    assert_eq!(shell(&line, &folder).status, 0);
    assert_eq!(read(&folder, "got"), records);
    assert_eq!(folder.files(), ["got", "pipe"]);
    let (mut ours, theirs) = UnixStream::pair().expect("a pair of sockets");
    let status = Command::new(ZS)
        .args(["dump", SMALL, "-o", "/dev/stdout"])
        .stdout(Stdio::from(OwnedFd::from(theirs)))
        .status()
        .expect("the command runs");
    assert_eq!(status.code(), Some(0));
    let mut got = Vec::new();
    ours.read_to_end(&mut got).expect("what was written");
    assert_eq!(got, records);
}

#[test]
fn an_open_file_that_is_none_or_not_ours() {
    let folder = Folder::new();
    folder.write("out", b"old");
    for (line, says) in [
        ("$ZS dump FILE -o /dev/fd/9", "/dev/fd/9: it is closed"),
        (
            "$ZS dump FILE -o /dev/fd/3 3<out",
            "/dev/fd/3: it isn't open for writing",
        ),
        (
            "exec 3>>out; $ZS dump FILE -o /proc/$$/fd/3; exit $?",
            "/fd/3: it belongs to another process",
        ),
    ] {
        let run = shell(&line.replace("FILE", SMALL), &folder);
        assert_eq!((run.status, run.out.len()), (2, 0), "{line}");
        assert!(run.err.starts_with("zs: can't write /"), "{}", run.err);
        assert!(run.err.contains(says), "{}", run.err);
        assert_eq!(read(&folder, "out"), b"old");
    }
    assert_eq!(folder.files(), ["out"]);
}

#[test]
fn a_read_only_file_is_kept() {
    let folder = Folder::new();
    let file = folder.write("out", b"old");
    set_mode(&file, 0o444);
    let run = zs(&["dump", SMALL, "-o", &file]);
    assert_eq!((run.status, run.out.len()), (2, 0));
    assert_eq!(
        run.err,
        format!("zs: can't write {file}: it is read-only\n")
    );
    assert_eq!(read(&folder, "out"), b"old");
    assert_eq!(folder.files(), ["out"]);
}

#[test]
fn owner_and_permissions_are_kept() {
    let folder = Folder::new();
    let file = folder.write("out", b"old");
    // Only root may give a file away; for others the owner stays what it is anyway.
    let _ = Command::new("chown")
        .args(["12345:23456", &file])
        .stderr(Stdio::null())
        .status();
    set_mode(&file, 0o4621);
    let before = fs::metadata(&file).expect("the output");
    assert_eq!(zs(&["dump", SMALL, "--count", "-o", &file]).status, 0);
    let after = fs::metadata(&file).expect("the output");
    assert_eq!(read(&folder, "out"), b"14\n");
    assert_eq!((after.uid(), after.gid()), (before.uid(), before.gid()));
    assert_eq!(after.mode() & 0o777, 0o621);
    assert_ne!(after.ino(), before.ino());
}

#[test]
fn a_new_file_gets_the_usual_permissions() {
    let folder = Folder::new();
    for (umask, due) in [("022", 0o644), ("027", 0o640), ("0", 0o666)] {
        let line = format!("umask {umask}; $ZS dump '{SMALL}' -o new{umask}");
        assert_eq!(shell(&line, &folder).status, 0);
        let about = fs::metadata(folder.name(&format!("new{umask}"))).expect("the output");
        assert_eq!(about.mode() & 0o7777, due);
    }
}

#[test]
fn links_are_followed_also_to_free_names() {
    let folder = Folder::new();
    for sub in ["links", "files"] {
        fs::create_dir(folder.path().join(sub)).expect("a folder");
    }
    symlink("second", folder.name("links/first")).expect("a link");
    symlink("../files/out", folder.name("links/second")).expect("a link");
    // The first run makes the file, the second replaces it.
    for asked in ["a", "b"] {
        let run = zs(&[
            "dump",
            SMALL,
            "--prefix",
            asked,
            "-o",
            &folder.name("links/first"),
        ]);
        assert_eq!((run.status, run.err.as_str()), (0, ""));
        let due = zs(&["dump", SMALL, "--prefix", asked]).out;
        assert_eq!(read(&folder, "files/out"), due);
    }
    for link in ["links/first", "links/second"] {
        let about = fs::symlink_metadata(folder.name(link)).expect("a link");
        assert!(about.is_symlink());
    }
    for (sub, count) in [("links", 2), ("files", 1)] {
        let entries = fs::read_dir(folder.path().join(sub)).expect("a folder");
        assert_eq!(entries.count(), count);
    }
}

#[test]
fn links_that_lead_nowhere() {
    let folder = Folder::new();
    symlink("loop", folder.name("loop")).expect("a link");
    symlink("missing/out", folder.name("lost")).expect("a link");
    for (name, says) in [
        ("loop", "Too many levels of symbolic links"),
        ("lost", "No such file or directory"),
        ("new/", "Is a directory"),
    ] {
        let name = folder.name(name);
        let run = zs(&["dump", SMALL, "-o", &name]);
        assert_eq!(run.status, 2);
        let due = format!("zs: can't write {name}: {says}");
        assert!(run.err.starts_with(&due), "{}", run.err);
    }
    assert_eq!(folder.files(), ["loop", "lost"]);
}

#[test]
fn names_may_be_as_long_as_names_get() {
    let folder = Folder::new();
    let name = "n".repeat(255);
    for _ in 0..2 {
        let run = zs(&["dump", SMALL, "-o", &folder.name(&name)]);
        assert_eq!((run.status, run.err.as_str()), (0, ""));
    }
    assert_eq!(folder.files(), [name]);
    let longer = "n".repeat(256);
    assert_eq!(zs(&["dump", SMALL, "-o", &folder.name(&longer)]).status, 2);
}
