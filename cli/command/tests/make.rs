//! `zs make`: the archive holds the records of the input, in order, each as often as given.

use std::fs;

use crate::support::{
    accepted, nest_metadata, records_of, shell, u64le, zs, Folder, CONTACTS, SMALL,
};
use zs_reference::maker::random::Random;
use zs_reference::reader;

const LINES: &[&str] = &[];
const ULEB128: &[&str] = &["--length-prefixed", "uleb128"];
const U64LE: &[&str] = &["--length-prefixed", "u64le"];

/// Makes an archive of an input.
fn make(folder: &Folder, input: &[u8], words: &[&str]) -> Vec<u8> {
    let name = folder.name("made.zs");
    let fixed = ["make", "{}", "-", &name, "--force"];
    accepted(&name, &[&fixed, words].concat(), input)
}

/// Dumps the archive that was made.
fn dump(folder: &Folder, words: &[&str]) -> Vec<u8> {
    zs(&[&["dump", &folder.name("made.zs")], words].concat()).out
}

fn terminated(records: &[Vec<u8>], terminator: &[u8]) -> Vec<u8> {
    let records = records.iter();
    records
        .flat_map(|record| [record, terminator].concat())
        .collect()
}

/// Records of every kind: empty ones, equal ones, bytes FF, and lengths where a number takes a byte more.
fn all_kinds() -> Vec<Vec<u8>> {
    let mut records: Vec<Vec<u8>> = [0, 1, 126, 127, 128, 129, 16_383, 16_384]
        .map(|length| vec![b'a'; length])
        .into();
    let odd: [&[u8]; 8] = [
        b"",
        b"",
        b"\x00",
        b"\x00\n",
        b"\x7f",
        b"\x80",
        b"\xff",
        b"\xff\xff",
    ];
    records.extend(odd.map(Vec::from));
    records.extend(records.clone());
    records.sort();
    records
}

#[test]
fn length_prefixed_records_of_every_kind() {
    let folder = Folder::new();
    let records = all_kinds();
    let file = make(&folder, &u64le(&records), U64LE);
    assert!(records_of(&file) == records);
    // What is dumped makes the same archive, in either form.
    for form in [U64LE, ULEB128] {
        let dumped = dump(&folder, form);
        assert!(make(&folder, &dumped, form) == file);
    }
}

#[test]
fn terminated_records() {
    let folder = Folder::new();
    let records: Vec<Vec<u8>> = all_kinds()
        .into_iter()
        .map(|mut record| {
            record.retain(|byte| *byte != b'\n');
            record
        })
        .collect();
    for (shown, terminator) in [
        ("\\n", &b"\n"[..]),
        ("\\r\\n", b"\r\n"),
        ("\\n\\n", b"\n\n"),
        ("-\\xfe-", b"-\xfe-"),
    ] {
        let words = ["--terminator", shown];
        let input = terminated(&records, terminator);
        let file = make(&folder, &input, &words);
        assert!(records_of(&file) == records, "{shown}");
        assert!(dump(&folder, &words) == input, "{shown}");
    }
}

#[test]
fn a_last_record_without_terminator_is_a_record() {
    let folder = Folder::new();
    let words = ["--terminator", "\\r\\n"];
    for (input, way, due) in [
        (&b"a\nb"[..], LINES, &[&b"a"[..], b"b"][..]),
        (b"a\nb\n", LINES, &[b"a", b"b"]),
        (b"a", LINES, &[b"a"]),
        (b"\n", LINES, &[b""]),
        (b"\n\na\n", LINES, &[b"", b"", b"a"]),
        (b"a\r\nb\r", &words, &[b"a", b"b\r"]),
        (b"a\n", &words, &[b"a\n"]),
        (b"\r\n\r\r\n", &words, &[b"", b"\r"]),
    ] {
        assert_eq!(records_of(&make(&folder, input, way)), due, "{input:?}");
    }
}

#[test]
fn samples_are_made_again() {
    let folder = Folder::new();
    for sample in [CONTACTS, SMALL] {
        let records = records_of(&fs::read(sample).expect("the sample"));
        for form in [LINES, ULEB128, U64LE] {
            let dumped = zs(&[&["dump", sample], form].concat()).out;
            assert!(records_of(&make(&folder, &dumped, form)) == records);
            let hash = |file: &str| -> String {
                let text = zs(&["info", file]).text();
                let mut lines = text.lines().filter(|line| line.contains("sha256"));
                lines.next().expect("a hash").to_string()
            };
            assert_eq!(hash(&folder.name("made.zs")), hash(sample));
        }
    }
}

#[test]
fn drawn_records_and_counts() {
    let folder = Folder::new();
    let mut random = Random::new(12);
    for _ in 0..15 {
        let number = 1 + random.below(60);
        let drawn: Vec<Vec<u8>> = (0..number).map(|_| random.string(4)).collect();
        let mut sorted = drawn.clone();
        sorted.sort();
        let per_block = random.pick(&["1", "2", "3", "7", "65535"]);
        let per_index = random.pick(&["2", "3", "10", "65535"]);
        let counts = [
            "--records-per-block",
            per_block,
            "--entries-per-block",
            per_index,
        ];
        for (records, order) in [(&sorted, &[][..]), (&drawn, &["--sort"])] {
            let lines = make(
                &folder,
                &terminated(records, b"\n"),
                &[&counts, order].concat(),
            );
            assert!(records_of(&lines) == sorted);
            let others = [&counts, order, U64LE].concat();
            assert!(make(&folder, &u64le(records), &others) == lines);
            let dumped = dump(&folder, ULEB128);
            assert!(make(&folder, &dumped, &[&counts, ULEB128].concat()) == lines);
        }
    }
}

#[test]
fn records_are_sorted_as_unsigned_bytes() {
    let folder = Folder::new();
    let input = b"b\n\xff\na\nB\n\nab\n\x80\na\n\x7f\na";
    let due: [&[u8]; 10] = [
        b"", b"B", b"a", b"a", b"a", b"ab", b"b", b"\x7f", b"\x80", b"\xff",
    ];
    assert_eq!(records_of(&make(&folder, input, &["--sort"])), due);
    let unsorted = [&b"\x01b\x00\x02ab\x01a"[..], b"\x00"].concat();
    let file = make(&folder, &unsorted, &[&["--sort"], ULEB128].concat());
    let due: [&[u8]; 5] = [b"", b"", b"a", b"ab", b"b"];
    assert_eq!(records_of(&file), due);
}

#[test]
fn a_hundred_thousand_records() {
    let folder = Folder::new();
    let input: String = (0..100_000)
        .map(|number| format!("{number:06}\n"))
        .collect();
    for words in [
        &[][..],
        &["--records-per-block", "1", "--entries-per-block", "2"],
    ] {
        let file = make(&folder, input.as_bytes(), words);
        let records = records_of(&file);
        assert_eq!(records.len(), 100_000);
        assert!(terminated(&records, b"\n") == input.as_bytes());
        let name = folder.name("made.zs");
        let found = zs(&["dump", &name, "--prefix", "04217"]).text();
        assert_eq!(found.lines().count(), 10);
        assert_eq!(zs(&["dump", &name, "--count"]).text(), "100000\n");
    }
}

/// About so many bytes of records make a data block, and so many entries an index block, where nobody says how many.
const USUAL_BYTES: usize = 4 << 10;
const USUAL_ENTRIES: u64 = 16;

#[test]
fn usual_blocks_are_as_long_as_the_help_says() {
    let folder = Folder::new();
    let line = |number: usize| format!("Ada Blank {number:05}\t201-555-0123\n");
    let input: String = (0..20_000).map(line).collect();
    let file = make(&folder, input.as_bytes(), LINES);
    let blocks = reader::check(&file, file.len()).blocks as usize;
    let due = USUAL_BYTES / 2..2 * USUAL_BYTES;
    assert!(due.contains(&(file.len() / blocks)), "{blocks}");
    let kilobytes = USUAL_BYTES >> 10;
    let help = zs(&["make", "--help"]).text();
    for says in [
        format!("about {kilobytes} KiB of them, more where long records begin alike"),
        format!("[default: {USUAL_ENTRIES}]"),
    ] {
        assert!(help.contains(&says), "{help}");
    }
}

/// Notes of twenty thousand bytes that part early, and such that part late.
fn notes() -> [String; 2] {
    let long = "x".repeat(20_000);
    let early = |number: usize| format!("{number:03}{long}\n");
    let late = |number: usize| format!("{long}{number:03}\n");
    [(0..200).map(early).collect(), (0..200).map(late).collect()]
}

#[test]
fn long_records_make_a_block_each_unless_they_begin_alike() {
    let folder = Folder::new();
    // 200 data blocks, the index blocks over them, and the root; thirteen data blocks of 16 records and less, and the root. By a
    // hundredth and by a tenth the file is longer than its records.
    let index_blocks = 1 + (200 - 1) / USUAL_ENTRIES;
    let due = [200 + index_blocks + 1, 13 + 1];
    for ((input, blocks), part) in notes().iter().zip(due).zip([100, 10]) {
        let file = make(&folder, input.as_bytes(), LINES);
        assert_eq!(reader::check(&file, file.len()).blocks, blocks);
        let longest = input.len() + input.len() / part;
        assert!(file.len() < longest, "{}", file.len());
    }
    // Equal ones, whose keys would be whole records, stand in one data block.
    let input = format!("{}\n", "x".repeat(20_000)).repeat(8);
    let file = make(&folder, input.as_bytes(), LINES);
    assert_eq!(reader::check(&file, file.len()).blocks, 2);
}

#[test]
fn long_records_fit_however_long_their_keys() {
    let folder = Folder::new();
    for (per_block, per_index) in [("1", "2"), ("1", "3"), ("3", "2"), ("1", "65535")] {
        let words = [
            "--records-per-block",
            per_block,
            "--entries-per-block",
            per_index,
        ];
        for input in notes() {
            let file = make(&folder, input.as_bytes(), &words);
            assert!(terminated(&records_of(&file), b"\n") == input.as_bytes());
        }
    }
}

#[test]
fn inputs_are_files_or_standard_input() {
    let folder = Folder::new();
    folder.write("names", b"a\nb\n");
    let due = make(&folder, b"a\nb\n", LINES);
    for line in [
        "$ZS make '{}' names out",
        "$ZS make '{}' - out <names",
        "cat names | $ZS make '{}' /dev/stdin out",
        "mkfifo pipe; cat names >pipe & $ZS make '{}' pipe out",
        "(read line; $ZS make '{}' - out) <names",
    ] {
        let run = shell(line, &folder);
        assert_eq!((run.status, run.err.as_str()), (0, ""), "{line}");
        let file = fs::read(folder.name("out")).expect("the archive");
        if line.contains("read") {
            assert_eq!(records_of(&file), [b"b"]);
        } else {
            assert!(file == due, "{line}");
        }
        fs::remove_file(folder.name("out")).expect("the archive");
    }
}

#[test]
fn metadata_is_stored_as_it_is_given() {
    let folder = Folder::new();
    let about = "{\"about\": \"n\u{e9}\u{1f600}\u{7f}\\ud800\\u0000\",\r\n\t\"-\" : [1E9], \"\": 1, \"\": {}}";
    folder.write("about", format!("\r\n{about} \t\n\n").as_bytes());
    let run = shell("printf 'a\\n' >names; $ZS make @about names text", &folder);
    assert_eq!(run.status, 0, "{}", run.err);
    let run = shell("$ZS make @- names piped <about", &folder);
    assert_eq!(run.status, 0, "{}", run.err);
    let help = zs(&["make", "--help"]).text();
    assert!(help.contains("@FILE; @- is standard input"), "{help}");
    let given = format!(" {about}\n");
    let (names, out) = (folder.name("names"), folder.name("given"));
    assert_eq!(zs(&["make", &given, &names, &out]).status, 0);
    for file in ["text", "piped", "given"] {
        let file = folder.name(file);
        let shown = zs(&["info", "-m", &file]).out;
        assert_eq!(shown, [about.as_bytes(), b"\n"].concat());
        let bytes = fs::read(file).expect("the archive");
        assert_eq!(&bytes[96..][..about.len()], about.as_bytes());
    }
}

#[test]
fn metadata_may_be_nested_64_deep() {
    let folder = Folder::new();
    let (names, out) = (folder.write("names", b"a\n"), folder.name("out"));
    let metadata = nest_metadata(64);
    assert_eq!(zs(&["make", &metadata, &names, &out]).status, 0);
    assert_eq!(zs(&["info", "-m", &out]).text(), metadata + "\n");
}
