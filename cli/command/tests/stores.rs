//! How an archive comes to the disk: four stores in their order, and after every cut a file that is refused or the finished one.

use std::fs;

use crate::support::faults::{zs_noted, zs_with_fault, Done, Fault};
use crate::support::states::{borders, due_stores, is_finished, put, Case, Store, Way, WAYS};
use crate::support::{Folder, PHONEBOOK};

const KILLED: i32 = 9;

/// An archive of some hundred bytes.
fn small() -> Case {
    Case::new(b"Ada\nBea\nCleo\n")
}

/// Records that take so many bytes, about.
fn records(bytes: usize) -> Vec<u8> {
    let lines = (0..bytes / 50).map(|at| format!("{at:08} {}\n", "x".repeat(40)));
    lines.collect::<String>().into_bytes()
}

/// The stores, with the syncs between and after them.
fn due_writes(file: &[u8]) -> Vec<Done> {
    let write = |(offset, bytes): Store| Done::Write(offset, bytes);
    let mut due: Vec<Done> = due_stores(file).into_iter().map(write).collect();
    due.insert(3, Done::Sync);
    due.push(Done::Sync);
    due
}

/// What is done before the stores, and after them. That a file can be made is tried first.
fn frame(way: Way) -> (Vec<Done>, Vec<Done>) {
    let tried = [Done::Create, Done::Unlink, Done::Create];
    match (way.is_in_place(), way.replaces) {
        (false, false) => (
            tried.to_vec(),
            vec![Done::Link, Done::Unlink, Done::SyncFolder],
        ),
        (false, true) => (tried.to_vec(), vec![Done::Rename, Done::SyncFolder]),
        (true, false) => ([&tried[..], &[Done::SyncFolder]].concat(), vec![]),
        (true, true) => (vec![Done::Truncate(0), Done::Sync], vec![]),
    }
}

#[test]
fn stores_come_in_their_order() {
    for case in [small(), Case::new(&records(100_000))] {
        for way in WAYS {
            let (before, after) = frame(way);
            let due = [before, due_writes(&case.finished), after].concat();
            assert!(case.log(way) == due, "{way:?}");
        }
    }
}

#[test]
fn an_import_is_stored_likewise() {
    for way in WAYS {
        let folder = Folder::new();
        if way.replaces {
            folder.write("out", b"kept");
        }
        let words = ["import", "sim", PHONEBOOK, "out", "--name-length", "14"];
        let words = [&words[..], &["--metadata", "{}"], way.options].concat();
        let (run, log) = zs_noted(&words, &folder, Fault::Nothing);
        assert_eq!((run.status, run.err.as_str()), (0, ""));
        let file = fs::read(folder.name("out")).expect("the archive");
        let (before, after) = frame(way);
        assert!(log == [before, due_writes(&file), after].concat());
    }
}

/// Runs the command up to a fault that ends it, and holds what is left to what may be there. Says whether the old archive is.
fn cut(case: &Case, way: Way, fault: Fault) -> bool {
    let folder = case.folder(way);
    let run = zs_with_fault(&case.words(way), &folder, fault);
    assert_eq!(
        (run.status, run.err.as_str()),
        (-1, ""),
        "{way:?} {fault:?}"
    );
    case.keeps_old(&folder, way)
}

/// Each store's begin and end, and up to so many places within each.
fn places(file: &[u8], within: u64) -> Vec<u64> {
    let borders = borders(file);
    let mut places = borders.clone();
    for pair in borders.windows(2) {
        let length = pair[1] - pair[0];
        let step = (length / within).max(1) as usize;
        places.extend((pair[0] + 1..pair[1]).step_by(step));
    }
    places
}

#[test]
fn a_kill_within_the_stores_leaves_no_wrong_file() {
    let case = Case::new(&records(20_000));
    let places = places(&case.finished, 93);
    assert!(places.len() >= 200, "{}", places.len());
    for way in WAYS {
        for place in &places {
            let is_old = cut(&case, way, Fault::KillAt(*place));
            // In place the old archive is gone before the first byte.
            assert_eq!(is_old, way.replaces && !way.is_in_place());
        }
    }
}

#[test]
fn a_kill_before_anything_that_is_done_leaves_no_wrong_file() {
    let case = small();
    for way in WAYS {
        let log = case.log(way);
        // From here on the old archive is gone.
        let gone = [Done::Truncate(0), Done::Rename];
        let gone = log.iter().position(|done| gone.contains(done));
        for at in 0..log.len() {
            let is_old = cut(&case, way, Fault::Signal(at as u64 + 1, KILLED));
            let due = way.replaces && gone.map_or(false, |gone| at <= gone);
            assert_eq!(is_old, due, "{way:?} {at}");
        }
    }
}

/// Carries out what was done to one file, so many bytes at a time, and looks at every state. `state` is what was there before.
fn replay(log: &[Done], mut state: Vec<u8>, step: usize, finished: &[u8]) -> usize {
    let mut states = 0;
    for done in log {
        match done {
            Done::Truncate(length) => state.truncate(*length as usize),
            Done::Write(offset, bytes) => {
                for (at, part) in (0..).step_by(step).zip(bytes.chunks(step)) {
                    is_finished(&state, finished);
                    put(&mut state, offset + at, part);
                    states += 1;
                }
            }
            _ => (),
        }
    }
    assert!(state == finished);
    states
}

#[test]
fn the_log_cut_at_any_byte_leaves_no_wrong_file() {
    let case = small();
    let length = case.finished.len() + 8;
    for way in WAYS {
        let old = match way.replaces && way.is_in_place() {
            true => case.old.clone(),
            false => Vec::new(),
        };
        let states = replay(&case.log(way), old, 1, &case.finished);
        assert_eq!(states, length, "{way:?}");
    }
    let case = Case::new(&records(4_000_000));
    for way in [WAYS[0], WAYS[2]] {
        let states = replay(&case.log(way), Vec::new(), 4096, &case.finished);
        assert!(states > 900, "{states}");
    }
}

/// All orders of the stores before the sync.
const ORDERS: [[usize; 3]; 6] = [
    [0, 1, 2],
    [0, 2, 1],
    [1, 0, 2],
    [1, 2, 0],
    [2, 0, 1],
    [2, 1, 0],
];

/// Between two syncs a disk may write in any order, and each store in part.
#[test]
fn no_order_before_the_sync_makes_a_finished_file() {
    let case = small();
    let stores = due_stores(&case.finished);
    let upto = |at: usize| 0..=stores[at].1.len();
    let pairs = || upto(1).flat_map(|one| upto(2).map(move |two| (one, two)));
    let mut state = Vec::new();
    for order in ORDERS {
        for cuts in upto(0).flat_map(|zero| pairs().map(move |(one, two)| [zero, one, two])) {
            state.clear();
            for at in order {
                put(&mut state, stores[at].0, &stores[at].1[..cuts[at]]);
            }
            assert!(!is_finished(&state, &case.finished));
        }
    }
}

/// A disk may know how long a file is before it has the bytes.
#[test]
fn no_zeros_before_the_sync_make_a_finished_file() {
    let case = small();
    let stores = due_stores(&case.finished);
    for missing in 0..3 {
        for kept in 0..stores[missing].1.len() {
            let mut state = vec![0; case.finished.len()];
            for (at, (offset, bytes)) in stores[..3].iter().enumerate() {
                let kept = if at == missing { kept } else { bytes.len() };
                put(&mut state, *offset, &bytes[..kept]);
            }
            assert!(!is_finished(&state, &case.finished));
        }
    }
}
