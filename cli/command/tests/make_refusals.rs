//! Refusals of `zs make`: which record is at fault and why, in the library's order, and nothing is left.

use std::fs::File;

use crate::support::{
    expect_refusal, fail_to_make, nest_metadata, shell, zs, Folder, Run, NO_JSON,
};

const ULEB128: &[&str] = &["--length-prefixed", "uleb128"];
const U64LE: &[&str] = &["--length-prefixed", "u64le"];
const NONE: &[&str] = &[];

/// Makes an archive of an input in which something is wrong.
fn make(metadata: &str, input: &[u8], words: &[&str]) -> Run {
    fail_to_make(&["make", metadata, "-"], words, input)
}

/// Holds an input to its refusal.
fn refuse(metadata: &str, input: &[u8], words: &[&str], file: &str, number: u64, detail: &str) {
    let run = make(metadata, input, words);
    expect_refusal(&run, file, number, detail);
}

#[test]
fn records_out_of_order_are_shown() {
    for (input, words, detail) in [
        (
            &b"Ada\nCleo\nBea\nAda\n"[..],
            NONE,
            r#"line 3, "Bea", is less than line 2, "Cleo""#,
        ),
        (b"a\n\n", NONE, r#"line 2, "", is less than line 1, "a""#),
        (
            b"\xff\ta\n\x7f\"",
            NONE,
            r#"line 2, "\x7f\x22", is less than line 1, "\xff\ta""#,
        ),
        (
            b"a\0b\0ab\0",
            &["--terminator", "\\x00"],
            r#"record 3, "ab", is less than record 2, "b""#,
        ),
        (
            b"\x01b\x00",
            ULEB128,
            r#"record 2, "", is less than record 1, "b""#,
        ),
        (
            b"\x01\0\0\0\0\0\0\0b\x01\0\0\0\0\0\0\0a",
            U64LE,
            r#"record 2, "a", is less than record 1, "b""#,
        ),
    ] {
        refuse("{}", input, words, "-", 29, detail);
    }
    let (long, cut) = ("a".repeat(1000), "a".repeat(40));
    let detail = format!(r#"line 2, "{cut}".., is less than line 1, "b""#);
    refuse(
        "{}",
        format!("b\n{long}\n").as_bytes(),
        NONE,
        "-",
        29,
        &detail,
    );
    let run = make("{}", b"b\na\n", NONE);
    assert!(
        run.err.contains("zs: what to do: give --sort, or "),
        "{}",
        run.err
    );
}

#[test]
fn an_input_without_records() {
    let detail = "there are none: the input is empty";
    for words in [NONE, &["--terminator", "x"], &["--sort"], ULEB128, U64LE] {
        refuse("{}", b"", words, "-", 28, detail);
    }
}

#[test]
fn lengths_that_cannot_be_made_out() {
    let wide = [b"\x00", &[0xff; 9][..], b"\x01"].concat();
    for (input, words, detail) in [
        (
            &b"\x01a\x02b"[..],
            ULEB128,
            "record 2, after 2 bytes: its length is 2, with 1 byte left",
        ),
        (
            b"\x80",
            ULEB128,
            "record 1, after 0 bytes: its length is cut off by the end of the input",
        ),
        (
            b"\x00\xff\xff",
            ULEB128,
            "record 2, after 1 byte: its length is cut off by the end of the input",
        ),
        (
            &wide,
            ULEB128,
            "record 2, after 1 byte: its length takes more than nine bytes",
        ),
        (
            b"\x01a\x81\x00b",
            ULEB128,
            "record 2, after 2 bytes: its length isn't written in its shortest form",
        ),
        (
            b"\0\0\0\0\0\0\0\0\x01\0\0\0\0\0\0",
            U64LE,
            "record 2, after 8 bytes: its length is cut off by the end of the input",
        ),
        (
            b"\x03\0\0\0\0\0\0\0ab",
            U64LE,
            "record 1, after 0 bytes: its length is 3, with 2 bytes left",
        ),
        (
            b"\xff\xff\xff\xff\xff\xff\xff\xffab",
            U64LE,
            "record 1, after 0 bytes: its length is 18446744073709551615, with 2 bytes left",
        ),
    ] {
        refuse("{}", input, words, "-", 28, detail);
        refuse("{}", input, &[words, &["--sort"]].concat(), "-", 28, detail);
    }
}

#[test]
fn metadata_that_is_no_json_object() {
    for (metadata, detail) in [
        ("", "it is empty"),
        (" \n", "it is empty"),
        ("{", r#"it begins with "{" and ends with "{""#),
        ("about.json", r#"it begins with "a" and ends with "n""#),
        ("-", r#"it begins with "-" and ends with "-""#),
        ("[{}]", r#"it begins with "[" and ends with "]""#),
        ("\u{e9}{}", r#"it begins with "\xc3\xa9" and ends with "}""#),
        (
            "\u{feff}{}\n",
            r#"it begins with the byte order mark "\xef\xbb\xbf" and ends with "}""#,
        ),
        (
            "{}\u{a0}",
            r#"it begins with "{" and ends with the white space "\xc2\xa0""#,
        ),
        ("{oops}", NO_JSON),
        ("{'a': 1}", NO_JSON),
        ("{\"a\": 1,}", NO_JSON),
        ("{} {}", NO_JSON),
        (&nest_metadata(65), NO_JSON),
    ] {
        refuse(metadata, b"a\n", NONE, "", 9, detail);
    }
    refuse("@/dev/null", b"a\n", NONE, "@/dev/null", 9, "it is empty");
}

#[test]
fn metadata_that_is_not_utf_8() {
    let folder = Folder::new();
    for (metadata, detail) in [
        (&b"{\"\xe9\": 1}\n"[..], r#"after 2 bytes comes "\xe9""#),
        (
            b"{\"\xc3\xa9\": \"\xed\xa0\x80\"}",
            r#"after 8 bytes comes "\xed""#,
        ),
        (b"{\xc3", r#"after 1 byte comes "\xc3""#),
        (b"\xff\xfe{\0}\0", r#"after 0 bytes comes "\xff""#),
    ] {
        let file = format!("@{}", folder.write("about", metadata));
        refuse(
            &file,
            b"a\n",
            NONE,
            &file,
            9,
            &format!("it isn't UTF-8: {detail}"),
        );
    }
}

#[test]
fn what_metadata_has_to_be_is_said() {
    let run = make("{oops}", b"a\n", NONE);
    let due = "zs: refused 9: the metadata isn't one JSON object from { to }, in UTF-8 and nested at most 64 deep (";
    assert!(run.err.starts_with(due), "{}", run.err);
    let due = "\nzs: what to do: give one JSON object, quoted for the shell as in '{\"about\": \"names\"}', or @FILE for that of a file\n";
    assert!(run.err.ends_with(due), "{}", run.err);
}

#[test]
fn counts_out_of_range() {
    for count in ["0", "65536", "18446744073709551615"] {
        let words = ["--records-per-block", count];
        let detail = format!("--records-per-block is {count}");
        refuse("{}", b"a\n", &words, "", 30, &detail);
    }
    for count in ["0", "1", "65536", "18446744073709551615"] {
        let words = ["--entries-per-block", count];
        let detail = format!("--entries-per-block is {count}");
        refuse("{}", b"a\n", &words, "", 30, &detail);
    }
}

#[test]
fn of_several_faults_the_first_in_order_is_told() {
    let no_entries = ["--entries-per-block", "1"];
    let entries = "--entries-per-block is 1";
    refuse("x", b"", &no_entries, "", 30, entries);
    refuse(
        "x",
        b"",
        NONE,
        "",
        9,
        r#"it begins with "x" and ends with "x""#,
    );
    let cut = "record 3, after 3 bytes: its length is 1, with 0 bytes left";
    refuse("{}", b"\x01b\x00\x01", ULEB128, "-", 28, cut);
}

#[test]
fn counts_and_metadata_are_refused_before_the_input_is_read() {
    let folder = Folder::new();
    for (words, number) in [
        ("x missing out", 9),
        ("'{oops}' missing out", 9),
        ("'{}' missing out --records-per-block 0", 30),
    ] {
        let run = shell(&format!("$ZS make {words}"), &folder);
        assert_eq!(run.status, 1, "{}", run.err);
        let due = format!("zs: refused {number}: ");
        assert!(run.err.starts_with(&due), "{}", run.err);
    }
}

#[test]
fn an_input_longer_than_every_archive() {
    let folder = Folder::new();
    let file = File::create(folder.name("long")).expect("a temporary file");
    file.set_len((1 << 30) + 1).expect("room for a sparse file");
    for (words, what) in [
        ("'{}' long out", "input"),
        ("@long /dev/null out", "metadata"),
    ] {
        // Far less memory than the file is long.
        let run = shell(&format!("ulimit -v 200000; exec $ZS make {words}"), &folder);
        let due = format!(
            "zs: out: refused 31: the archive would be longer than 1073741824 bytes (2^30) \
             (the {what} alone has more than 1073741824 bytes)
zs: what to do: put the records into several archives\n"
        );
        assert_eq!((run.status, run.err), (1, due));
        assert_eq!(folder.files(), ["long"]);
    }
}

#[test]
fn standard_input_is_not_read_twice() {
    let folder = Folder::new();
    folder.write("about", b"{}");
    let due = "zs: standard input can't be both METADATA and INPUT\n";
    for words in [
        "@- -",
        "@/dev/stdin -",
        "@- /dev/stdin",
        "@- /dev/fd/0",
        "@/dev/fd/0 -",
        "@/dev/stdin /proc/self/fd/0",
    ] {
        for input in ["cat about | $ZS", "<about $ZS"] {
            let run = shell(&format!("{input} make {words} out"), &folder);
            assert_eq!((run.status, run.err.as_str()), (2, due), "{words}");
            assert_eq!(folder.files(), ["about"]);
        }
    }
    for words in ["@/dev/stdin about", "@about /dev/stdin"] {
        let line = format!("cat about | $ZS make {words} out --force");
        let run = shell(&line, &folder);
        assert_eq!((run.status, run.err.as_str()), (0, ""), "{words}");
    }
    let run = shell("$ZS make @- /dev/null more <&-", &folder);
    assert_eq!((run.status, run.err.as_str()), (2, "zs: -: it is closed\n"));
}

#[test]
fn too_little_memory_is_said() {
    let folder = Folder::new();
    let file = File::create(folder.name("long")).expect("a temporary file");
    file.set_len(60 << 20).expect("room for a sparse file");
    for (limit, says) in [
        (50_000, "long: there isn't enough memory to read it"),
        (100_000, "there isn't enough memory to make the archive"),
    ] {
        let run = shell(
            &format!("ulimit -v {limit}; exec $ZS make '{{}}' long out"),
            &folder,
        );
        assert_eq!((run.status, run.err), (2, format!("zs: {says}\n")));
        assert_eq!(folder.files(), ["long"]);
    }
}

#[test]
fn mistakes_in_arguments() {
    let folder = Folder::new();
    let records = "give a whole number from 1 to 65535";
    let entries = "give a whole number from 2 to 65535";
    let named = "zs: METADATA: @ needs the name of a file, as in @about.json\n";
    for (words, says) in [
        ("names out", "<OUT>"),
        ("- out", "<OUT>"),
        ("'{}' names out more", "more"),
        ("-x names out", "Found argument '-x'"),
        ("'{}' names out --records-per-block few", records),
        ("'{}' names out --records-per-block -1", records),
        (
            "'{}' names out --records-per-block 100000000000000000000000",
            records,
        ),
        ("'{}' names out --entries-per-block -2", entries),
        ("'{}' names out --entries-per-block 1.5", entries),
        ("'{}' names out --length-prefixed u32", "u32"),
        (
            "'{}' names out --length-prefixed u64le --terminator x",
            "cannot be used with",
        ),
        ("'{}' names out --terminator '\\q'", "unknown escape"),
        ("'{}' names out --terminator ''", "give a byte or more"),
        (
            "'{}' missing out",
            "zs: missing: No such file or directory\n",
        ),
        (
            "@missing names out",
            "zs: missing: No such file or directory\n",
        ),
        ("@ names out", named),
        ("'{}' . out", "zs: .: Is a directory\n"),
        ("'{}' - out <&-", "zs: -: it is closed\n"),
    ] {
        folder.write("names", b"a\n");
        let run = shell(&format!("$ZS make {words}"), &folder);
        assert_eq!((run.status, run.out.len()), (2, 0), "{words}: {}", run.err);
        assert!(run.err.contains(says), "{words}: {}", run.err);
        assert_eq!(folder.files(), ["names"], "{words}");
    }
    assert_eq!(zs(&["make"]).status, 2);
}
