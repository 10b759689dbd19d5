//! Counts: the same as the number of records written, without a list where the check knows it.

use crate::support::{shell, zs, Folder, SMALL};
use zs_reference::maker::{Image, Plan};

/// Counts four million empty records, of a byte each, within so many KiB of memory. A list of them takes 32768.
fn count_many(ways: &[&str], memory: u32) {
    let records = vec![0; 1 << 22];
    let blocks = vec![Plan::bytes(0, &records), Plan::index(1, &[("", 0)])];
    let folder = Folder::new();
    folder.write("many.zs", &Image::new(blocks).bytes());
    for way in ways {
        let line = format!("ulimit -v {memory}; exec $ZS dump --count many.zs {way}");
        let run = shell(&line, &folder);
        assert_eq!(
            (run.status, run.text().as_str()),
            (0, "4194304\n"),
            "{}",
            run.err
        );
    }
}

#[test]
fn counting_everything_takes_no_list() {
    count_many(&["", "--scan", "--start ''"], 30_000);
}

#[test]
fn counting_matches_takes_eight_bytes_for_each() {
    count_many(&["--stop a", "--scan --stop a", "--unchecked"], 60_000);
}

#[test]
fn counting_everything_keeps_to_the_limit() {
    for way in ["--scan", "--start="] {
        let count = |most: &str| zs(&["dump", SMALL, "--count", way, "--max-results", most]);
        assert_eq!(count("14").text(), "14\n");
        let run = count("13");
        assert_eq!((run.status, run.out.len()), (1, 0));
        assert!(run.err.contains(": refused 27"), "{}", run.err);
    }
}
