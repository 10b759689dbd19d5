//! Answers of the command, held to the independent reader.

use std::fs;

use crate::support::{matching_records, shell, zs, Folder, CONTACTS, SMALL};
use zs_reference::maker::random::{query, tree, Random};
use zs_reference::maker::Tree;
use zs_reference::reader::{self, Query};

const AMPLE: usize = 100_000;

fn lines(records: &[Vec<u8>]) -> Vec<u8> {
    records
        .iter()
        .flat_map(|record| [record.as_slice(), b"\n"].concat())
        .collect()
}

/// A query as arguments, every byte as an escape.
fn arguments(query: &Query) -> Vec<String> {
    let escaped =
        |bytes: &[u8]| -> String { bytes.iter().map(|b| format!("\\x{b:02x}")).collect() };
    let mut words = vec![
        format!("--start={}", escaped(&query.start)),
        format!("--prefix={}", escaped(&query.prefix)),
    ];
    words.extend(
        query
            .stop
            .iter()
            .map(|stop| format!("--stop={}", escaped(stop))),
    );
    words
}

#[test]
fn validate_counts_records_and_blocks() {
    let run = zs(&["validate", CONTACTS, SMALL]);
    let due = format!(
        "{CONTACTS}: valid, 1500 records in 151 blocks\n{SMALL}: valid, 14 records in 11 blocks\n"
    );
    assert_eq!((run.status, run.text(), run.err.as_str()), (0, due, ""));
}

#[test]
fn dump_gives_every_record() {
    let file = fs::read(CONTACTS).expect("the sample");
    let whole = matching_records(&file, &Query::default());
    assert_eq!(whole.len(), 1500);
    for way in [&["dump", CONTACTS][..], &["dump", "--scan", CONTACTS]] {
        let run = zs(way);
        assert_eq!((run.status, run.err.as_str()), (0, ""));
        assert!(run.out == lines(&whole));
    }
    let run = zs(&["dump", "--unchecked", CONTACTS]);
    assert_eq!((run.status, run.err.lines().count()), (0, 1));
    assert!(run.out == lines(&whole));
}

#[test]
fn lists_grow_until_they_are_long_enough() {
    // More blocks than any first list has places for.
    let records: Vec<String> = (0..3000).map(|number| format!("{number:04}")).collect();
    let groups: Vec<&[String]> = records.chunks(1).collect();
    let mut many = Tree::new(&groups);
    many.fan_out = vec![40];
    let folder = Folder::new();
    let file = folder.write("many.zs", &many.bytes());
    let verdict = format!("{file}: valid, 3000 records in 3078 blocks\n");
    assert_eq!(zs(&["validate", &file]).text(), verdict);
    for way in ["--start=", "--start=0001", "--scan", "--unchecked"] {
        let run = zs(&["dump", &file, "--count", way]);
        let due = if way == "--start=0001" {
            "2999\n"
        } else {
            "3000\n"
        };
        assert_eq!((run.status, run.text().as_str()), (0, due), "{way}");
    }
}

#[test]
fn dump_gives_the_records_asked_for() {
    let file = fs::read(CONTACTS).expect("the sample");
    let asked = Query {
        start: b"Cleo".to_vec(),
        stop: Some(b"Dov\xff".to_vec()),
        prefix: b"Dov".to_vec(),
    };
    let run = zs(&[
        "dump", CONTACTS, "--start", "Cleo", "--stop", r"Dov\xff", "--prefix", "Dov",
    ]);
    assert_eq!(run.status, 0);
    assert!(!run.out.is_empty());
    assert!(run.out == lines(&matching_records(&file, &asked)));
    let nothing = zs(&["dump", CONTACTS, "--stop", ""]);
    assert_eq!((nothing.status, nothing.out.len()), (0, 0));
}

#[test]
fn equal_records_and_bytes_ff_are_all_found() {
    let repeated = zs(&["dump", CONTACTS, "--prefix", r"Echo Repeated\t"]);
    assert_eq!(repeated.text(), "Echo Repeated\t201-555-0100\n".repeat(40));
    let unlisted = zs(&["dump", CONTACTS, "--prefix", r"\xff", "--count"]);
    assert_eq!(unlisted.text(), "60\n");
    let inside = zs(&["dump", CONTACTS, "--prefix", r"Lou\xffse ", "--count"]);
    assert_ne!(inside.text(), "0\n");
}

#[test]
fn drawn_files_and_queries() {
    let mut random = Random::new(31);
    let folder = Folder::new();
    for _ in 0..60 {
        let bytes = tree(&mut random, 9).bytes();
        let file = folder.write("drawn.zs", &bytes);
        let asked = query(&mut random);
        let due = matching_records(&bytes, &asked);
        let joined: Vec<u8> = due
            .iter()
            .flat_map(|record| [&(record.len() as u64).to_le_bytes(), record.as_slice()].concat())
            .collect();
        for way in [&["--unchecked"][..], &["--scan"], &[]] {
            let mut words = vec!["dump", &file, "--length-prefixed=u64le"];
            words.extend(way);
            let query = arguments(&asked);
            words.extend(query.iter().map(String::as_str));
            let run = zs(&words);
            assert_eq!((run.status, &run.out), (0, &joined), "{words:?}");
        }
    }
}

#[test]
fn lengths_and_terminators() {
    let long = vec![b'a'; 300];
    let groups: [&[&[u8]]; 2] = [&[b"", b"\n\x00"], &[&long]];
    let folder = Folder::new();
    let file = folder.write("odd.zs", &Tree::new(&groups).bytes());
    let out = |words: &[&str]| zs(&[&["dump", &file][..], words].concat()).out;
    let uleb = [&b"\x00\x02\n\x00\xac\x02"[..], &long].concat();
    assert_eq!(out(&["--length-prefixed", "uleb128"]), uleb);
    let zero = [&b"\x00\n\x00\x00"[..], &long, b"\x00"].concat();
    assert_eq!(out(&["--terminator", r"\x00"]), zero);
    let none = [&b"\n\x00"[..], &long].concat();
    assert_eq!(out(&["--terminator", ""]), none);
    assert_eq!(out(&["--terminator", r"\r\n\\"]).len(), 302 + 3 * 3);
    assert_eq!(out(&["--count", "--scan"]), b"3\n");
}

#[test]
fn info_is_json_of_the_header() {
    let run = zs(&["info", CONTACTS]);
    assert_eq!((run.status, run.err.as_str()), (0, ""));
    for line in [
        "  \"header_length\": 165,",
        "  \"root_index_offset\": 43613,",
        "  \"root_index_length\": 60,",
        "  \"total_file_length\": 43673,",
        "  \"codec\": \"none\",",
        "  \"metadata_length\": 85,",
        "    \"root_index_level\": 3,",
        "    \"blocks\": 151,",
        "    \"records\": 1500",
    ] {
        assert!(run.text().lines().any(|given| given == line), "{line}");
    }
    assert!(run
        .text()
        .contains("\"metadata\": {\"about\": \"invented sample contacts\","));
    let only = zs(&["info", "-m", SMALL]);
    assert_eq!(only.text(), "{\"about\": \"invented sample contacts\"}\n");
}

#[test]
fn explain_shows_what_was_opened() {
    let file = fs::read(CONTACTS).expect("the sample");
    let asked = Query {
        prefix: b"Greta Mock".to_vec(),
        ..Query::default()
    };
    let found = reader::search(&file, &asked, AMPLE, AMPLE);
    for way in [&[][..], &["--unchecked"]] {
        let words = [&["explain", CONTACTS, "--prefix", "Greta Mock"][..], way].concat();
        let run = zs(&words);
        assert_eq!(run.status, 0);
        let text = run.text();
        let shown: Vec<u64> = text
            .lines()
            .filter_map(|line| line.split_whitespace().next()?.parse().ok())
            .collect();
        assert_eq!(shown, found.opened_list[..found.opened as usize]);
    }
    let text = zs(&["explain", CONTACTS, "--prefix", "Greta Mock"]).text();
    assert!(text.starts_with("43613  level 3  the root\n  25146  level 2  \""));
    assert!(text.contains(
        "\n      18445  level 0  \"Greta Invented\\t4\" to \"Greta Mockley\\t4\", 1 match\n"
    ));
    assert!(text.ends_with("\nopened 6 of 151 blocks, 5 matches, in vain: none\n"));
}

#[test]
fn explain_counts_blocks_opened_in_vain() {
    let text = zs(&["explain", CONTACTS, "--prefix", "Greta Nix"]).text();
    let due =
        "opened 4 of 151 blocks, 0 matches, in vain: 1 on level 0, 1 on level 1, 1 on level 2\n";
    assert!(text.ends_with(due), "{text}");
    let text = zs(&["explain", CONTACTS]).text();
    assert!(text.ends_with("opened 151 of 151 blocks, 1500 matches, in vain: none\n"));
    assert!(text.contains("\" and up, "));
}

#[test]
fn every_command_has_examples_in_its_help() {
    for words in [
        &["--help"][..],
        &["make", "--help"],
        &["validate", "--help"],
        &["dump", "--help"],
        &["info", "--help"],
        &["explain", "--help"],
    ] {
        let run = zs(words);
        assert_eq!(run.status, 0);
        assert!(run.text().contains("Examples:\n  zs "), "{words:?}");
        assert!(run
            .text()
            .contains("Exit status: 0 answered, 1 refused, 2 "));
    }
    let version = zs(&["--version"]);
    assert_eq!(
        version.text(),
        concat!("zs ", env!("CARGO_PKG_VERSION"), "\n")
    );
}

#[test]
fn an_archive_may_come_through_a_pipe() {
    let folder = Folder::new();
    for way in ["", "--unchecked"] {
        let line = format!("cat '{SMALL}' | $ZS dump /dev/stdin --count {way}");
        let run = shell(&line, &folder);
        assert_eq!((run.status, run.text().as_str()), (0, "14\n"));
    }
}
