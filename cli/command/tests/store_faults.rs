//! Disks that fail and signals while an archive is written: an error in words, and no file that anybody could take for a finished one.

use std::fs;

use crate::support::faults::{zs_noted, zs_with_fault, Done, Fault};
use crate::support::states::{borders, due_stores, is_finished, Case, Way, WAYS};
use crate::support::{Folder, Run};

const EPERM: i32 = 1;
const EIO: i32 = 5;
const EBADF: i32 = 9;
const EACCES: i32 = 13;
const EINVAL: i32 = 22;
const EROFS: i32 = 30;
const ENOSYS: i32 = 38;
const ENOTSUP: i32 = 95;
const TERMINATED: i32 = 15;

fn case() -> Case {
    Case::new(b"Ada\nBea\nCleo\n")
}

fn contents(folder: &Folder) -> Vec<u8> {
    fs::read(folder.name("out")).expect("the output")
}

/// Holds a run that failed to what it says and leaves: nothing new, and what was there, unless that was emptied first.
fn expect_nothing_new(run: &Run, folder: &Folder, case: &Case, way: Way, emptied: bool) {
    assert_eq!((run.status, run.out.len()), (2, 0), "{way:?} {run:?}");
    assert_eq!(run.err.lines().count(), 1, "{}", run.err);
    assert!(run.err.starts_with("zs: can't write out: "), "{}", run.err);
    let lost = "; what it held is gone, and what it holds now is refused as unfinished or as no ZS file; make it again with --force\n";
    assert_eq!(run.err.ends_with(lost), emptied, "{}", run.err);
    match way.replaces {
        false => assert_eq!(folder.files(), Vec::<String>::new(), "{way:?}"),
        true => assert_eq!(folder.files(), ["out"], "{way:?}"),
    }
    match emptied {
        true => assert!(!is_finished(&contents(folder), &case.finished)),
        false => assert!(!way.replaces || contents(folder) == case.old, "{way:?}"),
    }
}

/// Whether the old archive is emptied when this fails.
fn is_emptied(way: Way, failing: &Done) -> bool {
    way.replaces && way.is_in_place() && *failing != Done::Truncate(0)
}

#[test]
fn whatever_fails_is_told_and_leaves_no_wrong_file() {
    let case = case();
    for way in WAYS {
        for (failing, number) in case.log(way).iter().zip(1..) {
            let folder = case.folder(way);
            let (run, log) = zs_noted(&case.words(way), &folder, Fault::Fail(number, EIO));
            match failing {
                // What can't be removed stays.
                Done::Unlink => assert!(!case.keeps_old(&folder, way)),
                // Some file systems have no links.
                Done::Link => assert_eq!((run.status, log.contains(&Done::Rename)), (0, true)),
                Done::SyncFolder if !way.is_in_place() => {
                    let due = "zs: out: the archive is whole and in its place, but at a power cut its name may be lost: \
                         its folder can't be synced (Input/output error); look after the disk, then run sync\n";
                    assert_eq!((run.status, run.out.len(), run.err.as_str()), (2, 0, due));
                    assert_eq!(folder.files(), ["out"]);
                    assert!(contents(&folder) == case.finished);
                }
                _ => {
                    assert!(run.err.contains("Input/output error"), "{}", run.err);
                    let emptied = is_emptied(way, failing);
                    expect_nothing_new(&run, &folder, &case, way, emptied);
                }
            }
        }
    }
}

#[test]
fn the_last_store_is_not_begun_after_a_failure() {
    let case = case();
    let stores = due_stores(&case.finished);
    let write = |at: usize| Done::Write(stores[at].0, stores[at].1.clone());
    for way in WAYS {
        let log = case.log(way);
        let place = |at: usize| log.iter().position(|done| *done == write(at));
        let (first, last) = (place(0).expect("a store"), place(3).expect("a store"));
        assert_eq!(log[last - 1], Done::Sync);
        for failing in first..last {
            let folder = case.folder(way);
            let fault = Fault::Fail(failing as u64 + 1, EIO);
            let (_, log) = zs_noted(&case.words(way), &folder, fault);
            assert!(!log.contains(&write(3)), "{way:?} {failing}");
        }
        // Where the sync after it fails, the file is made an unfinished one.
        let folder = case.folder(way);
        let (_, log) = zs_noted(&case.words(way), &folder, Fault::Fail(last as u64 + 2, EIO));
        assert_eq!(log[last..][..3], [write(3), write(0), Done::Sync]);
    }
}

#[test]
fn no_space_is_told_and_leaves_no_wrong_file() {
    let case = case();
    let borders = borders(&case.finished);
    let mut spaces: Vec<u64> = (borders[3]..borders[4]).collect();
    for pair in borders.windows(2) {
        spaces.extend([pair[0], pair[0] + 1, (pair[0] + pair[1]) / 2, pair[1] - 1]);
    }
    for way in WAYS {
        for space in &spaces {
            let folder = case.folder(way);
            let run = zs_with_fault(&case.words(way), &folder, Fault::Space(*space));
            assert!(run.err.contains("No space left on device"), "{}", run.err);
            let emptied = is_emptied(way, &Done::Sync);
            expect_nothing_new(&run, &folder, &case, way, emptied);
        }
    }
}

#[test]
fn a_folder_that_takes_no_file_is_told_before_the_input_is_read() {
    let case = case();
    let readonly = "Read-only file system";
    for (way, says) in [
        (WAYS[0], readonly.to_string()),
        (
            WAYS[1],
            format!(
                "no file can be made beside it ({readonly}); \
                 name a new file elsewhere, or write into this one with >"
            ),
        ),
        (WAYS[2], readonly.to_string()),
    ] {
        let folder = case.folder(way);
        let words = [&["make", "{}", "missing", "out"], way.options].concat();
        let run = zs_with_fault(&words, &folder, Fault::Fail(1, EROFS));
        assert_eq!(run.err, format!("zs: can't write out: {says}\n"));
        expect_nothing_new(&run, &folder, &case, way, false);
    }
}

#[test]
fn some_folders_are_never_synced() {
    let case = case();
    for way in [WAYS[0], WAYS[1], WAYS[2]] {
        let log = case.log(way);
        let folders = log.iter().position(|done| *done == Done::SyncFolder);
        let number = folders.expect("a sync of the folder") as u64 + 1;
        for error in [EPERM, EBADF, EACCES, EINVAL, ENOSYS, ENOTSUP] {
            let folder = case.folder(way);
            let run = zs_with_fault(&case.words(way), &folder, Fault::Fail(number, error));
            assert_eq!((run.status, run.err.as_str()), (0, ""), "{way:?} {error}");
            assert!(contents(&folder) == case.finished);
        }
    }
}

#[test]
fn a_signal_leaves_no_new_file() {
    let case = case();
    for way in WAYS {
        let log = case.log(way);
        let named = |done: &Done| [Done::Link, Done::Rename].contains(done);
        let named = log.iter().position(named).unwrap_or(log.len());
        for (at, done) in log.iter().enumerate() {
            let folder = case.folder(way);
            let fault = Fault::Signal(at as u64 + 1, TERMINATED);
            let run = zs_with_fault(&case.words(way), &folder, fault);
            assert_eq!((run.status, run.err.as_str()), (-1, ""), "{way:?} {at}");
            let due: &[&str] = if way.replaces || at > named {
                &["out"]
            } else {
                &[]
            };
            assert_eq!(folder.files(), due, "{way:?} {at}");
            if at > named {
                assert!(contents(&folder) == case.finished, "{way:?} {at}");
            } else if way.replaces && (!way.is_in_place() || *done == Done::Truncate(0)) {
                assert!(contents(&folder) == case.old, "{way:?} {at}");
            } else if way.replaces {
                is_finished(&contents(&folder), &case.finished);
            }
        }
    }
}

#[test]
fn a_signal_finds_every_file_that_is_made() {
    let case = case();
    for way in WAYS {
        for (done, number) in case.log(way).iter().zip(1..) {
            if *done == Done::Create {
                let folder = case.folder(way);
                let fault = Fault::SignalMade(number, TERMINATED);
                let run = zs_with_fault(&case.words(way), &folder, fault);
                assert_eq!((run.status, run.err.as_str()), (-1, ""), "{way:?}");
                let due: &[&str] = if way.replaces { &["out"] } else { &[] };
                assert_eq!(folder.files(), due, "{way:?} {number}");
            }
        }
    }
}
