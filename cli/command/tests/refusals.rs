//! Refusals and mistakes: numbers, places, exit status, and nothing written.

use std::fs::{self, File};

use crate::support::{damaged_sample, zs, Folder, CONTACTS, SMALL};
use zs_reference::corpus::Corpus;
use zs_reference::maker::{Image, Plan};
use zs_reference::reader;

#[test]
fn a_flipped_bit_is_refused_with_its_place() {
    let folder = Folder::new();
    let (bytes, place) = damaged_sample();
    let file = folder.write("damaged.zs", &bytes);
    let line = format!(
        "{file}: refused 14 at {place}: this block's checksum is wrong: its bytes were changed\n"
    );
    let run = zs(&["validate", &file]);
    let advice = "zs: what to do about 14: get an undamaged copy of the file\n";
    assert_eq!(
        (run.status, run.text(), run.err.as_str()),
        (1, line.clone(), advice)
    );
    for command in ["dump", "info", "explain"] {
        let run = zs(&[command, &file]);
        assert_eq!((run.status, run.out.len()), (1, 0));
        let advice = "zs: what to do: get an undamaged copy of the file\n";
        assert_eq!(run.err, format!("zs: {line}{advice}"));
    }
}

#[test]
fn every_file_of_the_corpus_gets_its_verdict() {
    let folder = Folder::new();
    let files = Corpus::whole().files;
    let mut words = vec![String::from("validate")];
    let mut due = String::new();
    for file in &files {
        let path = folder.write(&file.name, &file.bytes);
        let answer = reader::check(&file.bytes, 100_000);
        due.push_str(&match answer.number {
            0 => format!("{path}: valid"),
            number if answer.place == 0 => format!("{path}: refused {number}"),
            number => format!("{path}: refused {number} at {}", answer.place),
        });
        due.push('\n');
        words.push(path);
    }
    let run = zs(&words);
    assert_eq!(run.status, 1);
    let shortened: String = run
        .text()
        .lines()
        .map(|line| match line.find(": valid, ") {
            Some(at) => format!("{}: valid\n", &line[..at]),
            None => format!(
                "{}\n",
                line.splitn(3, ": ").take(2).collect::<Vec<_>>().join(": ")
            ),
        })
        .collect();
    assert_eq!(shortened, due);
}

#[test]
fn the_worst_of_several_files_decides() {
    let folder = Folder::new();
    let bad = folder.write("bad.zs", b"no archive");
    let missing = folder.name("missing.zs");
    let run = zs(&["validate", &bad, SMALL]);
    assert_eq!((run.status, run.text().lines().count()), (1, 2));
    let run = zs(&["validate", &missing, &bad, SMALL]);
    assert_eq!((run.status, run.text().lines().count()), (2, 2));
    let due = format!("zs: {missing}: No such file or directory\n");
    assert!(run.err.starts_with(&due), "{}", run.err);
}

#[test]
fn a_file_above_the_limit_is_refused_by_its_length() {
    let folder = Folder::new();
    let path = folder.name("long.zs");
    let file = File::create(&path).expect("a temporary file");
    file.set_len((1 << 30) + 1).expect("room for a sparse file");
    for words in [
        &["validate", &path][..],
        &["dump", &path],
        &["dump", &path, "--unchecked"],
        &["dump", &path, "--unchecked", "--scan"],
        &["explain", &path, "--unchecked"],
        &["info", &path],
    ] {
        let run = zs(words);
        assert_eq!(run.status, 1, "{words:?}");
        assert!(format!("{}{}", run.text(), run.err).contains(": refused 1: "));
    }
}

#[test]
fn inputs_that_cannot_be_read() {
    let folder = Folder::new();
    let missing = folder.name("missing.zs");
    let is_folder = folder.path().display().to_string();
    for input in [&missing, &is_folder] {
        for words in [
            &["validate", input][..],
            &["dump", input],
            &["dump", input, "--unchecked"],
            &["info", input],
            &["explain", input, "--unchecked"],
        ] {
            let run = zs(words);
            assert_eq!((run.status, run.out.len()), (2, 0), "{words:?}");
            assert!(run.err.contains(input.as_str()));
        }
    }
    let empty = folder.write("empty.zs", b"");
    assert_eq!(zs(&["validate", &empty]).status, 1);
    assert_eq!(zs(&["dump", &empty, "--unchecked"]).status, 1);
}

#[test]
fn mistakes_in_arguments() {
    for (words, says) in [
        (
            &["dump", CONTACTS, "--prefix", r"\q"][..],
            r"unknown escape \q",
        ),
        (&["dump", CONTACTS, "--stop", r"a\"], "at the end"),
        (&["dump", CONTACTS, "--length-prefixed", "u32"], "u32"),
        (
            &[
                "dump",
                CONTACTS,
                "--length-prefixed",
                "u64le",
                "--terminator",
                "x",
            ],
            "cannot be used with",
        ),
        (
            &["dump", CONTACTS, "--count", "--terminator", "x"],
            "cannot be used with",
        ),
        (&["dump", CONTACTS, "--max-results", "many"], "many"),
        (&["dump"], "FILE"),
        (&["validate"], "FILE"),
        (&["unpack", CONTACTS], "unpack"),
        (&[], "Usage"),
    ] {
        let run = zs(words);
        assert_eq!((run.status, run.out.len()), (2, 0), "{words:?}");
        assert!(run.err.contains(says), "{words:?}: {}", run.err);
    }
}

#[test]
fn more_matches_than_allowed() {
    let count = |most: &str, way: &str| {
        zs(&[
            "dump",
            CONTACTS,
            "--prefix",
            "Echo",
            "--max-results",
            most,
            way,
        ])
    };
    for way in ["--unchecked", "--scan", "--count"] {
        let run = count("39", way);
        assert_eq!((run.status, run.out.len()), (1, 0));
        assert!(run
            .err
            .contains(": refused 27: more records match than --max-results allows"));
        assert_eq!(count("40", way).status, 0);
        assert_eq!(count("0", way).status, 1);
        assert_eq!(count("18446744073709551615", way).status, 0);
    }
}

#[test]
fn a_refusal_writes_nothing() {
    let folder = Folder::new();
    let file = folder.write("damaged.zs", &damaged_sample().0);
    let out = folder.name("out");
    for way in ["--count", "--scan"] {
        assert_eq!(zs(&["dump", &file, way, "-o", &out]).status, 1);
        assert_eq!(
            zs(&["dump", CONTACTS, way, "--max-results", "3", "-o", &out]).status,
            1
        );
        assert_eq!(folder.files(), ["damaged.zs"]);
    }
    folder.write("out", b"kept");
    assert_eq!(zs(&["dump", &file, "-o", &out]).status, 1);
    assert_eq!(fs::read(&out).expect("the output"), b"kept");
    assert_eq!(folder.files(), ["damaged.zs", "out"]);
}

#[test]
fn a_file_that_asks_for_endless_openings_is_refused() {
    // Each index block names the one below three times: 3^62 ways down.
    let mut blocks = vec![Plan::data(&["a"])];
    blocks.extend((1..=63).map(|level: u8| Plan::index(level, &[("", usize::from(level) - 1); 3])));
    let folder = Folder::new();
    let file = folder.write("endless.zs", &Image::new(blocks).bytes());
    for words in [
        &["dump", &file, "--unchecked"][..],
        &["explain", &file, "--unchecked"],
        &["dump", &file, "--unchecked", "--max-results", "100000000"],
    ] {
        let run = zs(words);
        assert_eq!((run.status, run.out.len()), (1, 0));
        assert!(run.err.contains(": refused 20 at "), "{}", run.err);
    }
}

#[test]
fn a_wrong_key_hides_records_from_unchecked_searches_only() {
    // The second key is above the record that it leads to.
    let blocks = vec![
        Plan::data(&["a"]),
        Plan::data(&["b"]),
        Plan::index(1, &[("a", 0), ("c", 1)]),
    ];
    let folder = Folder::new();
    let file = folder.write("key.zs", &Image::new(blocks).bytes());
    let count = |way: &[&str]| zs(&[&["dump", &file, "--prefix=b", "--count"][..], way].concat());
    assert_eq!(count(&[]).status, 1);
    assert!(count(&[]).err.contains(": refused 24 at "));
    let unchecked = count(&["--unchecked"]);
    assert_eq!((unchecked.status, unchecked.text().as_str()), (0, "0\n"));
    assert!(unchecked.err.contains("promised for checked files only"));
    assert_eq!(count(&["--unchecked", "--scan"]).text(), "1\n");
}
