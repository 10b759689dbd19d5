//! The proved library answers as the independent reader, writer, session, import and comparison do and gives the same stores, over files, pairs
//! of files, inputs, dumps, steps and texts drawn from a fixed seed.
//! The table of counts is printed; run with `--nocapture` to see it.

use std::path::Path;

use zs_differential::run::Run;

const SEED: u64 = 20_261_115;
/// Files, inputs, dumps, sessions and rows of bytes and texts drawn; a file or an input gets some twenty calls, a dump some four, and a session
/// has some twenty steps. With a file come one or two pairs, which get some nine calls where both files are accepted and else some two.
const STEPS: u64 = 14_400;
const LEAST_CASES: u64 = 20_000;

#[test]
fn the_same_answers() {
    let folder = Path::new(env!("CARGO_MANIFEST_DIR")).join("../target/differences");
    let mut run = Run::new(SEED, folder);
    run.compare_edges()
        .expect("a folder to save differences in");
    for _ in 0..STEPS {
        run.step().expect("a folder to save differences in");
    }
    println!("\nseed {SEED}\n{}", run.tally);
    assert_eq!(run.tally.differing, 0, "cases that differ");
    assert!(run.tally.cases() >= LEAST_CASES);
    assert_eq!(run.tally.shortfalls(), Vec::<String>::new(), "too few");
}
