//! The stored steps of sessions: their lines, and the numbers in these.

use std::collections::BTreeMap;

use zs_reference::corpus::{Call, Corpus};

/// Each number that a step can give, with no refusal among them, and no other.
#[test]
fn each_refusal_of_a_step_has_two_lines() {
    let lines = Corpus::whole().with_calls(&[Call::Session]).lines();
    let mut times: BTreeMap<(&str, &str), usize> = BTreeMap::new();
    for line in lines.lines() {
        let words: Vec<&str> = line.split(' ').collect();
        *times.entry((words[3], words[6])).or_default() += 1;
    }
    let due = [
        ("add", "0"),
        ("add", "28"),
        ("add", "29"),
        ("add", "31"),
        ("afresh", "0"),
        ("begin", "0"),
        ("begin", "28"),
        ("begin", "30"),
        ("begin", "31"),
        ("begin", "9"),
        ("close", "0"),
        ("close", "28"),
        ("finish", "0"),
        ("finish", "28"),
        ("finish", "31"),
    ];
    assert!(times.keys().eq(&due), "{times:?}");
    assert!(times.values().all(|count| *count >= 2), "{times:?}");
}

/// The first hash is that of zeros, and the last one that of the file of docs/FORMAT.md.
#[test]
fn lines_of_sessions_have_their_form() {
    let lines = Corpus::whole().with_calls(&[Call::Session]).lines();
    for due in [
        "session-exact session 0 afresh 154: number 0 place 0 records 0 last 0 next 0 \
         output f911d00c6d988eeb76aa722c8c01f0c9b77d90f0bd23da5dc056f4dab1860896",
        "session-exact session 122 finish 154: number 0 place 0 records 4 last 127 next 154 \
         output acc338afd59978c2499e170c8f00d8c6eb268831add714eae475e316d884526a",
    ] {
        assert!(lines.lines().any(|line| line == due), "{due}");
    }
    let written = Corpus::whole().with_calls(&[Call::Write]).lines();
    let due = "write-two-blocks write 7b7d 2 2 154: number 0 place 0 length 154 \
               output acc338afd59978c2499e170c8f00d8c6eb268831add714eae475e316d884526a";
    assert!(written.lines().any(|line| line == due), "{due}");
}
