//! `zs make` of an input that arrives: the same archive and the same refusals as of a file with the same bytes, however the bytes arrive.

use std::fs;
use std::io::Write;
use std::os::unix::process::ExitStatusExt;
use std::process::{Child, Command, Stdio};

use crate::support::{shell, u64le, zs, zs_with_input, Folder, Run, NO_JSON, ZS};
use zs_reference::maker::encode;
use zs_reference::maker::random::Random;

const LINES: &[&str] = &[];
const PAIRS: &[&str] = &["--terminator", "\\r\\n"];
const ULEB128: &[&str] = &["--length-prefixed", "uleb128"];
const U64LE: &[&str] = &["--length-prefixed", "u64le"];
/// Records are added as they arrive where their count in a block is given.
const COUNTS: &[&str] = &["--records-per-block", "3", "--entries-per-block", "2"];

/// Makes an archive of the file `input`, and gives it.
fn make_of_file(folder: &Folder, metadata: &str, input: &[u8], words: &[&str]) -> (Run, Vec<u8>) {
    let (input, out) = (folder.write("input", input), folder.name("out"));
    let fixed = ["make", metadata, &input, &out, "--force"];
    let mut run = zs(&[&fixed, words].concat());
    run.err = run.err.replace(&input, "-");
    (run, fs::read(&out).unwrap_or_default())
}

/// What a file gives a pipe has to give too.
fn compare(metadata: &str, input: &[u8], words: &[&str]) -> Run {
    let folder = Folder::new();
    let (due, file) = make_of_file(&folder, metadata, input, words);
    let out = folder.name("out");
    let _ = fs::remove_file(&out);
    let run = zs_with_input(&[&["make", metadata, "-", &out], words].concat(), input);
    assert_eq!(
        (run.status, &run.err),
        (due.status, &due.err),
        "{words:?} {input:?}"
    );
    assert_eq!(run.text(), due.text());
    assert!(fs::read(&out).unwrap_or_default() == file, "{words:?}");
    let left: &[&str] = if file.is_empty() { &[] } else { &["out"] };
    assert_eq!(folder.files(), [&["input"], left].concat());
    run
}

/// Sorted records, some of them equal and some empty.
fn draw(random: &mut Random) -> Vec<Vec<u8>> {
    let number = 1 + random.below(60);
    let mut records: Vec<Vec<u8>> = (0..number).map(|_| random.string(5)).collect();
    records.sort();
    records
}

/// The input of these records in a form. Records with the terminator in them are cut there, in a file and in a pipe.
fn write(records: &[Vec<u8>], form: &[&str]) -> Vec<u8> {
    let after = |end: &[u8]| records.iter().flat_map(|r| [r, end].concat()).collect();
    match form {
        LINES => after(b"\n"),
        PAIRS => after(b"\r\n"),
        U64LE => u64le(records),
        _ => records
            .iter()
            .flat_map(|record| [encode(record.len() as u64), record.clone()].concat())
            .collect(),
    }
}

#[test]
fn drawn_records_make_the_same_archive() {
    let mut random = Random::new(8);
    for form in [LINES, PAIRS, ULEB128, U64LE] {
        for _ in 0..8 {
            let input = write(&draw(&mut random), form);
            let per_block = random.pick(&["1", "2", "3", "7", "65535"]);
            let per_index = random.pick(&["2", "3", "65535"]);
            let words = [
                &["--records-per-block", per_block][..],
                &["--entries-per-block", per_index],
                form,
            ];
            compare("{}", &input, &words.concat());
        }
    }
}

#[test]
fn cut_and_changed_inputs_get_the_same_answer() {
    let mut random = Random::new(9);
    for form in [LINES, PAIRS, ULEB128, U64LE] {
        for _ in 0..8 {
            let mut input = write(&draw(&mut random), form);
            let at = random.below(input.len());
            input[at] ^= 1 << random.below(8);
            input.truncate(1 + random.below(input.len() + 4));
            compare("{}", &input, &[COUNTS, form].concat());
        }
    }
}

#[test]
fn refusals_are_those_of_a_file() {
    let wide = [b"\x00", &[0xff; 9][..], b"\x01a"].concat();
    for (input, form, number, says) in [
        (&b""[..], LINES, 28, "there are none: the input is empty"),
        (b"", U64LE, 28, "there are none: the input is empty"),
        (
            b"b\na\nc\n",
            LINES,
            29,
            r#"line 2, "a", is less than line 1, "b""#,
        ),
        (
            b"a\nb\nc\nd\n\n",
            LINES,
            29,
            r#"line 5, "", is less than line 4, "d""#,
        ),
        (b"\x01b\x01a", ULEB128, 29, "record 2"),
        // What is wrong with a length comes first, wherever it stands, and then the first record that is less.
        (b"\x01b\x01a\x80", ULEB128, 28, "record 3, after 4 bytes"),
        (b"\x01b\x01a\x01", ULEB128, 28, "record 3, after 4 bytes"),
        (
            b"\x01b\x01a\x81\x00b\x01c",
            ULEB128,
            28,
            "record 3, after 4 bytes",
        ),
        (&wide, ULEB128, 28, "more than nine bytes"),
        (b"b\na\nc\nb\n", LINES, 29, "line 2"),
        (b"\x01\0\0\0\0\0\0\0b\x01", U64LE, 28, "is cut off"),
        (
            b"\xff\xff\xff\xff\xff\xff\xff\xffab",
            U64LE,
            28,
            "with 2 bytes left",
        ),
    ] {
        let run = compare("{}", input, &[COUNTS, form].concat());
        let due = format!("zs: -: refused {number}: ");
        assert!(run.err.starts_with(&due), "{}", run.err);
        assert!(run.err.contains(says), "{}", run.err);
        assert_eq!(run.status, 1);
    }
}

#[test]
fn counts_and_metadata_come_before_the_input() {
    for (metadata, words, number, says) in [
        ("{oops}", COUNTS, 9, NO_JSON),
        (
            "{}",
            &["--records-per-block", "0"],
            30,
            "--records-per-block is 0",
        ),
        (
            "x",
            &["--records-per-block", "3", "--entries-per-block", "1"],
            30,
            "--entries-per-block is 1",
        ),
    ] {
        let run = compare(metadata, b"b\na\n", words);
        assert!(run.err.starts_with(&format!("zs: refused {number}: ")));
        assert!(run.err.contains(says), "{}", run.err);
        // Nothing is read: whoever opens a pipe into which nobody writes waits.
        let words = words.join(" ");
        let line = format!("mkfifo pipe; timeout 60 $ZS make '{metadata}' pipe out {words}");
        let run = shell(&line, &Folder::new());
        assert!(run.err.starts_with(&format!("zs: refused {number}: ")));
    }
}

/// Starts the command with its input open.
fn start(words: &[&str]) -> Child {
    Command::new("env")
        .args(["--default-signal", ZS])
        .args(words)
        .stdin(Stdio::piped())
        .stdout(Stdio::piped())
        .stderr(Stdio::piped())
        .spawn()
        .expect("the command runs")
}

/// Records of which some are longer than all that is read at a time.
fn long_records() -> Vec<Vec<u8>> {
    let lengths = [0, 1, 5, 100, 65_535, 65_536, 65_537, 200_000, 700_000];
    let mut records: Vec<Vec<u8>> = (0..20_000_u32)
        .map(|number| format!("{number:06}\r").into_bytes())
        .collect();
    for (number, length) in lengths.into_iter().enumerate() {
        records.push(format!("{number}9{}", "\r".repeat(length)).into_bytes());
    }
    records.sort();
    records
}

#[test]
fn pieces_of_any_length_make_the_same_archive() {
    let folder = Folder::new();
    let out = folder.name("out");
    for form in [LINES, PAIRS, ULEB128, U64LE] {
        let input = write(&long_records(), form);
        let words = [COUNTS, form].concat();
        let (_, file) = make_of_file(&folder, "{}", &input, &words);
        assert!(!file.is_empty());
        for length in [501, 65_535, 65_537] {
            let _ = fs::remove_file(&out);
            let mut child = start(&[&["make", "{}", "-", &out], &words[..]].concat());
            let mut pipe = child.stdin.take().expect("a pipe");
            for piece in input.chunks(length) {
                pipe.write_all(piece).expect("a reader");
            }
            drop(pipe);
            let run = Run::of(child.wait_with_output().expect("the command ends"));
            assert_eq!((run.status, run.err.as_str()), (0, ""));
            assert!(fs::read(&out).expect("the archive") == file, "{length}");
        }
    }
}

#[test]
fn pipes_and_devices_arrive_under_any_name() {
    let folder = Folder::new();
    let words = "out --records-per-block 2";
    folder.write("names", b"a\nb\nc\n");
    let (_, due) = make_of_file(&folder, "{}", b"a\nb\nc\n", &["--records-per-block", "2"]);
    fs::remove_file(folder.name("out")).expect("the archive");
    for line in [
        format!("$ZS make '{{}}' - {words} <names"),
        format!("cat names | $ZS make '{{}}' /dev/stdin {words}"),
        format!("mkfifo pipe; cat names >pipe & $ZS make '{{}}' pipe {words}"),
        format!("(echo 0; cat names) >more; (read line; $ZS make '{{}}' - {words}) <more"),
    ] {
        let run = shell(&line, &folder);
        assert_eq!((run.status, run.err.as_str()), (0, ""), "{line}");
        assert!(
            fs::read(folder.name("out")).expect("the archive") == due,
            "{line}"
        );
        fs::remove_file(folder.name("out")).expect("the archive");
    }
    for (input, says) in [
        ("/dev/null", "zs: /dev/null: refused 28: "),
        (".", "zs: .: Is a directory\n"),
        ("missing", "zs: missing: No such file or directory\n"),
        ("- <&-", "zs: -: it is closed\n"),
    ] {
        let run = shell(&format!("$ZS make '{{}}' {input} {words}"), &folder);
        assert!(run.err.contains(says), "{}", run.err);
    }
}

#[test]
fn a_writer_that_stops_half_way_leaves_nothing() {
    let input = u64le(&long_records());
    for length in [1, 7, 301, 65_536, 299_999, input.len() - 1] {
        let run = compare("{}", &input[..length], &[COUNTS, U64LE].concat());
        assert!(run.err.starts_with("zs: -: refused 28: "), "{}", run.err);
    }
}

#[test]
fn a_signal_while_the_input_arrives_leaves_nothing() {
    let folder = Folder::new();
    let input = u64le(&long_records());
    // INT and TERM.
    for signal in [2, 15] {
        for in_place in [&[][..], &["--in-place"]] {
            let out = folder.name("out");
            let words = [&["make", "{}", "-", &out], COUNTS, U64LE, in_place].concat();
            let mut child = start(&words);
            let pipe = child.stdin.as_mut().expect("a pipe");
            // A pipe holds less, so that some of it has been read then.
            pipe.write_all(&input[..300_000]).expect("a reader");
            shell(&format!("kill -{signal} {}", child.id()), &folder);
            let status = child.wait().expect("the command ends");
            assert_eq!(status.signal(), Some(signal));
            assert_eq!(folder.files(), Vec::<String>::new());
        }
    }
}

#[test]
fn memory_is_that_of_the_archive() {
    let folder = Folder::new();
    // Five million empty records of eight bytes each, which take one in the archive.
    let zeros = "head -c 40000000 /dev/zero";
    let words = "out --length-prefixed u64le --records-per-block 65535";
    let limit = "ulimit -v 45000";
    let line = format!("{zeros} | ({limit}; exec $ZS make '{{}}' - {words})");
    let run = shell(&line, &folder);
    assert_eq!((run.status, run.err.as_str()), (0, ""));
    let line = format!("{zeros} >input; {limit}; exec $ZS make '{{}}' input {words} --force");
    let run = shell(&line, &folder);
    let due = "zs: input: there isn't enough memory to read it\n";
    assert_eq!((run.status, run.err.as_str()), (2, due));
    // The archive alone takes more than there is.
    let lines = "head -c 40000000 /dev/zero | tr '\\0' '\\n'";
    let words = "more --records-per-block 1";
    let line = format!("{lines} | ({limit}; exec $ZS make '{{}}' - {words})");
    let run = shell(&line, &folder);
    let due = "zs: there isn't enough memory to make the archive\n";
    assert_eq!((run.status, run.err.as_str()), (2, due));
    assert_eq!(folder.files(), ["input", "out"]);
}
