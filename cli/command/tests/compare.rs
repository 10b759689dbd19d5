//! `zs compare`: the records that two archives hold a different number of times, held to the independent reader.

use std::fs;

use crate::support::backups::{bytes, expect_differences, make};
use crate::support::{records_of, shell, zs, zs_with_input, Folder, Run, CONTACTS, OLDER, SMALL};
use zs_reference::maker::random::{tree, Random};
use zs_reference::maker::{Image, Plan, Tree};

#[test]
fn an_older_backup_differs_in_these_records() {
    let run = zs(&["compare", OLDER, CONTACTS]);
    let due = r"38	40	Echo Repeated\t201-555-0100
1	0	Greta Mockley\t617-555-0118
0	1	Jory Imagine\t412-555-0116
1	0	Lou\xffse Fictional\t412-555-0120
0	1	Lou\xffse Fictional\t412-555-0127
0	1	Lou\xffse Placeholder\t808-555-0142
0	1	\xff\xff\xffunlisted 59\t555-0159
";
    assert_eq!(
        (run.status, run.text().as_str(), run.err.as_str()),
        (3, due, "")
    );
    assert_eq!(
        zs(&["compare", OLDER, CONTACTS, "--count"]).text(),
        "7 differences, sum +4\n"
    );
    assert_eq!(
        zs(&["compare", CONTACTS, OLDER, "--count"]).text(),
        "7 differences, sum -4\n"
    );
    for (first, second) in [(OLDER, CONTACTS), (CONTACTS, OLDER), (SMALL, CONTACTS)] {
        expect_differences(first, second);
    }
}

#[test]
fn blocks_and_metadata_make_no_difference() {
    let folder = Folder::new();
    let records = records_of(&fs::read(CONTACTS).expect("the sample"));
    let made = [1, 2, 7, 1500].map(|number| make(&folder, &number.to_string(), &records, number));
    for first in &made {
        for second in made.iter().map(String::as_str).chain([CONTACTS]) {
            assert_eq!(expect_differences(first, second), []);
        }
    }
}

#[test]
fn a_file_is_the_same_as_itself() {
    let folder = Folder::new();
    fs::copy(SMALL, folder.name("a.zs")).expect("a copy");
    for line in [
        "$ZS compare a.zs a.zs",
        "$ZS compare a.zs ./a.zs",
        "ln -s a.zs link; $ZS compare link a.zs",
        "$ZS compare - a.zs <a.zs",
        "$ZS compare a.zs /dev/stdin <a.zs",
        "$ZS compare - /dev/stdin <a.zs",
        "cat a.zs | $ZS compare a.zs -",
    ] {
        let run = shell(line, &folder);
        let given = (run.status, run.text(), run.err);
        assert_eq!(given, (0, String::new(), String::new()), "{line}");
    }
    let run = shell("$ZS compare a.zs a.zs --count", &folder);
    assert_eq!(
        (run.status, run.text().as_str()),
        (0, "0 differences, sum 0\n")
    );
}

#[test]
fn copies_are_counted_over_block_ends() {
    let folder = Folder::new();
    let many = |copies: usize| {
        let repeated = vec![b"b".to_vec(); copies];
        [bytes(&["a"]), repeated, bytes(&["c"])].concat()
    };
    for (ours, theirs) in [(100, 98), (98, 100), (100, 100), (1, 100), (100, 1)] {
        for (per_block, other) in [(1, 1), (3, 7), (7, 102), (101, 2)] {
            let first = make(&folder, "first", &many(ours), per_block);
            let second = make(&folder, "second", &many(theirs), other);
            let due = match ours == theirs {
                true => vec![],
                false => vec![(b"b".to_vec(), [ours as u64, theirs as u64])],
            };
            assert_eq!(expect_differences(&first, &second), due);
        }
    }
}

#[test]
fn archives_without_a_common_record() {
    let folder = Folder::new();
    let first = make(&folder, "first", &bytes(&["", "b", "b", "d"]), 2);
    let second = make(&folder, "second", &bytes(&["a", "c", "c", "e"]), 1);
    assert_eq!(expect_differences(&first, &second).len(), 6);
    let below = make(&folder, "below", &bytes(&["", ""]), 1);
    assert_eq!(expect_differences(&below, &second).len(), 4);
    assert_eq!(expect_differences(&second, &below).len(), 4);
}

#[test]
fn drawn_archives() {
    let mut random = Random::new(35);
    let folder = Folder::new();
    let mut differing = 0;
    for _ in 0..150 {
        let names = ["first", "second"].map(|name| {
            let bytes = tree(&mut random, 9).bytes();
            folder.write(name, &bytes)
        });
        differing += expect_differences(&names[0], &names[1]).len();
    }
    assert!(differing > 500, "{differing}");
}

#[test]
fn each_record_is_on_one_line() {
    let folder = Folder::new();
    let records: [(&[u8], &str); 12] = [
        (b"", ""),
        (b"\x00\x1b[2K", r"\x00\x1b[2K"),
        (b"\t", r"\t"),
        (b"\n1\t0\tforged\n", r"\n1\t0\tforged\n"),
        (b"\r\n", r"\r\n"),
        (b" \"quoted\" ", " \"quoted\" "),
        (b"C:\\new: b", r"C:\\new: b"),
        (b"\x7f", r"\x7f"),
        (b"\xc2\x85\xe2\x80\xae", r"\xc2\x85\xe2\x80\xae"),
        ("é 文 e\u{301}".as_bytes(), "é 文 e\u{301}"),
        (b"caf\xe9", r"caf\xe9"),
        (b"\xff\xff", r"\xff\xff"),
    ];
    let mut sorted = records;
    sorted.sort_unstable();
    let given: Vec<Vec<u8>> = sorted.iter().map(|(record, _)| record.to_vec()).collect();
    let all = make(&folder, "all", &given, 3);
    let other = make(&folder, "other", &bytes(&["a"]), 3);
    let mut lines: Vec<String> = sorted.map(|(_, shown)| format!("1\t0\t{shown}\n")).into();
    let at = given.iter().position(|record| record.as_slice() > b"a");
    lines.insert(at.expect("a greater record"), "0\t1\ta\n".into());
    let run = zs(&["compare", &all, &other]);
    assert_eq!((run.status, run.text()), (3, lines.concat()));
    expect_differences(&all, &other);
}

#[test]
fn long_records_are_shown_whole() {
    let folder = Folder::new();
    let long = [vec![b'a'; 100_000], vec![0xff; 100_000], vec![b'\\'; 9]].concat();
    let first = make(&folder, "first", &[long], 1);
    assert_eq!(expect_differences(&first, SMALL).len(), 15 - 2);
}

#[test]
fn lists_are_long_enough() {
    // A block for each record of one archive, one for all of the other, and no record in both.
    let of = |kind: &str| -> Vec<Vec<u8>> {
        let record = |number| format!("{number:05}{kind}").into_bytes();
        (0..20_000).map(record).collect()
    };
    let folder = Folder::new();
    let first = make(&folder, "first", &of("a"), 1);
    let second = make(&folder, "second", &of("b"), 20_000);
    assert_eq!(expect_differences(&first, &second).len(), 40_000);
    assert_eq!(expect_differences(&second, &first).len(), 40_000);
}

#[test]
fn equal_records_take_no_list() {
    // Four million empty records, of a byte each. A list with five places for each would take 160 MiB.
    let file = |records: usize| {
        let records = vec![0; records];
        let blocks = vec![Plan::bytes(0, &records), Plan::index(1, &[("", 0)])];
        Image::new(blocks).bytes()
    };
    let folder = Folder::new();
    folder.write("many.zs", &file(1 << 22));
    folder.write("more.zs", &file((1 << 22) + 1));
    let line = "ulimit -v 60000; exec $ZS compare many.zs more.zs";
    let run = shell(line, &folder);
    let due = "4194304\t4194305\t\n";
    assert_eq!((run.status, run.text().as_str()), (3, due), "{}", run.err);
}

#[test]
fn reserved_blocks_are_passed_over() {
    let folder = Folder::new();
    let blocks = |level| {
        let blocks = vec![
            Plan::data(&["a", "b"]),
            Plan::bytes(level, b"\x01c"),
            Plan::data(&["b"]),
            Plan::index(1, &[("", 0), ("b", 2)]),
        ];
        Image::new(blocks).bytes()
    };
    let first = folder.write("first", &blocks(64));
    let second = folder.write("second", &Tree::new(&[&["a"]]).bytes());
    assert_eq!(
        expect_differences(&first, &second),
        [(b"b".to_vec(), [2, 0])]
    );
    let third = folder.write("third", &blocks(255));
    assert_eq!(expect_differences(&first, &third), []);
}

/// The lines of examples in the help, each up to two spaces, after which it may say what it is about.
fn examples() -> Vec<String> {
    let help = zs(&["compare", "--help"]).text();
    let (_, examples) = help.split_once("Examples:\n").expect("examples");
    let lines = examples.lines().map_while(|line| line.strip_prefix("  "));
    let command = |line: &str| line.split("   ").next().unwrap_or(line).to_string();
    lines.map(command).collect()
}

fn run_example(line: &str) -> Run {
    let folder = Folder::new();
    fs::copy(OLDER, folder.name("older.zs")).expect("a copy");
    fs::copy(CONTACTS, folder.name("newer.zs")).expect("a copy");
    for name in ["a.zs", "b.zs"] {
        fs::copy(SMALL, folder.name(name)).expect("a copy");
    }
    shell("gzip -k older.zs", &folder);
    let run = shell(&line.replace("zs compare", "$ZS compare"), &folder);
    assert_eq!(run.err, "", "{line}");
    if line.contains("-o differences") {
        let written = fs::read_to_string(folder.name("differences"));
        assert_eq!(written.expect("the output").lines().count(), 7);
    }
    run
}

#[test]
fn the_examples_of_the_help_work() {
    let due = [
        (3, 7, "38\t40\tEcho"),
        (0, 4, "0\t1\tJory"),
        (0, 7, "Echo"),
        (3, 0, ""),
        (3, 1, "7 differences, sum +4"),
        (3, 7, "38\t40\tEcho"),
        (0, 1, "the same records"),
    ];
    let examples = examples();
    assert_eq!(examples.len(), due.len(), "{examples:?}");
    for (line, (status, lines, first)) in examples.iter().zip(due) {
        let run = run_example(line);
        let text = run.text();
        assert_eq!(
            (run.status, text.lines().count()),
            (status, lines),
            "{line}"
        );
        assert!(text.starts_with(first), "{line}: {text}");
    }
    let help = zs(&["compare", "--help"]).text();
    let status =
        "Exit status: 0 no differences, 1 refused, 2 usage or input/output, 3 A and B differ.";
    assert!(help.contains(status), "{help}");
    let help = zs(&["--help"]).text();
    assert!(
        help.contains("  compare  ") && help.contains(", 3 compared files differ."),
        "{help}"
    );
}

#[test]
fn either_archive_may_come_through_a_pipe() {
    let (older, newer) = (fs::read(OLDER), fs::read(CONTACTS));
    let due = zs(&["compare", OLDER, CONTACTS]).text();
    let run = zs_with_input(&["compare", "-", CONTACTS], &older.expect("the sample"));
    assert_eq!((run.status, run.text()), (3, due.clone()));
    let run = zs_with_input(&["compare", OLDER, "-"], &newer.expect("the sample"));
    assert_eq!((run.status, run.text()), (3, due.clone()));
    let line = "mkfifo one two; cat older >one & cat newer >two & $ZS compare one two";
    let folder = Folder::new();
    fs::copy(OLDER, folder.name("older")).expect("a copy");
    fs::copy(CONTACTS, folder.name("newer")).expect("a copy");
    assert_eq!(shell(line, &folder).text(), due);
}
