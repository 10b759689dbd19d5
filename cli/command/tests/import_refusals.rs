//! Refusals of `zs import sim`: which record of the dump is at fault, in the library's order, and nothing is left.

use std::fs::File;

use crate::support::sim::{dump, free, Contact, FOURTEEN, NAME_LENGTH};
use crate::support::{expect_refusal, fail_to_make, shell, zs, Folder, Run, NO_JSON};

/// Imports a dump in which something is wrong.
fn import(dump: &[u8], words: &[&str]) -> Run {
    fail_to_make(&["import", "sim", "-"], words, dump)
}

/// The same from a card with so many bytes for a name.
fn import_by(name_length: usize, dump: &[u8]) -> Run {
    let name_length = name_length.to_string();
    import(dump, &["--name-length", &name_length, "--metadata", "{}"])
}

/// A contact whose number states so many bytes.
fn stating(name: &[u8], length: u8) -> Contact {
    let mut contact = Contact::new(name);
    contact.number[0] = length;
    contact
}

#[test]
fn dumps_that_are_not_whole_records() {
    let card = dump(&[Contact::new(b"Ada"), Contact::new(b"Bea")], NAME_LENGTH);
    for (name_length, length, says) in [
        (14, 27, "28: 0 records, and 27 bytes more"),
        (14, 29, "28: 1 record, and 1 byte more"),
        (14, 55, "28: 1 record, and 27 bytes more"),
        (0, 29, "14: 2 records, and 1 byte more"),
        (15, 56, "29: 1 record, and 27 bytes more"),
        (241, 56, "255: 0 records, and 56 bytes more"),
    ] {
        let run = import_by(name_length, &card[..length]);
        let detail = format!("it has {length} bytes, and a record has {says}");
        expect_refusal(&run, "-", 32, &detail);
    }
    let detail = "it has 1 byte, and a record has 28: 0 records, and 1 byte more";
    expect_refusal(&import(b"A", FOURTEEN), "-", 32, detail);
    let run = import_by(13, &card);
    let due = "zs: -: refused 32: the dump isn't whole records: its length is no multiple of the name length plus 14, or the name length \
        is above 241 (it has 56 bytes, and a record has 27: 2 records, and 2 bytes more)
zs: what to do: give as --name-length the length of a record on the card less 14, and the whole dump\n";
    assert_eq!(run.err, due);
}

#[test]
fn name_lengths_above_the_greatest_are_refused_before_anything_is_read() {
    let folder = Folder::new();
    for name_length in ["242", "255", "18446744073709551602", "18446744073709551615"] {
        let words = ["--name-length", name_length, "--metadata", "{}"];
        let detail = format!("--name-length is {name_length}");
        expect_refusal(&import(b"", &words), "", 32, &detail);
        let line =
            format!("$ZS import sim missing out --name-length {name_length} --metadata @missing");
        expect_refusal(&shell(&line, &folder), "", 32, &detail);
    }
}

#[test]
fn names_that_are_not_formed_as_names() {
    for (field, shown) in [
        // A first byte that begins no name.
        (&b"\x83"[..], r"\x83"),
        (b"\xfe\xff", r"\xfe\xff"),
        // Something after the name.
        (b"Ada\xffa", r"Ada\xffa"),
        (b"\xffAda", r"\xffAda"),
        (b"Ada\x80", r"Ada\x80"),
        (b"\x80\x00A\xff\xff\x00A", r"\x80\x00A\xff\xff\x00A"),
        (b"\x81\x01\x01AA", r"\x81\x01\x01AA"),
        (b"\x82\x01\x01\x00AA", r"\x82\x01\x01\x00AA"),
        // A lone byte after the pairs.
        (b"\x80A", r"\x80A"),
        (b"\x80\x00AA", r"\x80\x00AA"),
        // Codings that don't fit in the field.
        (b"\x81", r"\x81"),
        (b"\x81\x00", r"\x81\x00"),
        (b"\x81\x02\x01A", r"\x81\x02\x01A"),
        (b"\x81\xff\x01\xff\xff", r"\x81\xff\x01\xff\xff"),
        (b"\x82\x00\x01", r"\x82\x00\x01"),
        (b"\x82\x02\x01\x00A", r"\x82\x02\x01\x00A"),
    ] {
        let run = import_by(field.len(), &Contact::new(field).on_card(field.len()));
        let detail = format!("record 1 of 1, at byte 0: its name field is \"{shown}\"");
        expect_refusal(&run, "-", 33, &detail);
    }
    let long = Contact::new(&[0x83; 241]).on_card(241);
    let detail = format!(
        "record 1 of 1, at byte 0: its name field is \"{}\"..",
        r"\x83".repeat(40)
    );
    expect_refusal(&import_by(241, &long), "-", 33, &detail);
}

#[test]
fn numbers_that_state_too_many_bytes() {
    for (length, says) in [
        (12, "12 bytes"),
        (128, "128 bytes"),
        (254, "254 bytes"),
        (255, "255 bytes (FF): none is set"),
    ] {
        let card = stating(b"Ada", length).on_card(5);
        let detail = format!(
            r#"record 1 of 1, at byte 0: its name field is "Ada\xff\xff", and its number is stated as {says}"#
        );
        expect_refusal(&import_by(5, &card), "-", 34, &detail);
    }
    // A record without any byte of a name is no free one, and 11 bytes are allowed.
    let card = [stating(b"", 11).on_card(0), stating(b"", 12).on_card(0)].concat();
    let detail =
        r#"record 2 of 2, at byte 14: its name field is "", and its number is stated as 12 bytes"#;
    expect_refusal(&import_by(0, &card), "-", 34, detail);
}

#[test]
fn what_to_do_is_said() {
    let name = Contact::new(b"\x83").on_card(1);
    let due = "zs: -: refused 33: the name of a record isn't formed as one, or isn't followed by FF bytes to the end of its field \
        (record 1 of 1, at byte 0: its name field is \"\\x83\")
zs: what to do: give the right --name-length, or read the card again\n";
    assert_eq!(import_by(1, &name).err, due);
    let due = "zs: -: refused 34: a record states a number of more than 11 bytes \
        (record 1 of 1, at byte 0: its name field is \"a\", and its number is stated as 255 bytes (FF): none is set)
zs: what to do: give the right --name-length, or read the card again; where no number is set, set one on the card, or delete the record there\n";
    assert_eq!(import_by(1, &stating(b"a", 0xff).on_card(1)).err, due);
}

#[test]
fn the_first_record_at_fault_is_named() {
    let (good, gap) = (Contact::new(b"Ada").on_card(4), free(4));
    let (bad_name, bad_number) = (
        Contact::new(b"\x83").on_card(4),
        stating(b"Ada", 12).on_card(4),
    );
    let both = stating(b"\x83", 12).on_card(4);
    for (records, number, at) in [
        (vec![&good, &gap, &bad_name, &good], 33, 3),
        (vec![&gap, &good, &good, &bad_number, &bad_name], 34, 4),
        (vec![&bad_name, &bad_number], 33, 1),
        (vec![&good, &both, &bad_number], 33, 2),
        (vec![&bad_number, &both], 34, 1),
    ] {
        let card: Vec<u8> = records.iter().flat_map(|record| record.to_vec()).collect();
        let run = import_by(4, &card);
        let named = format!(
            "(record {at} of {}, at byte {}: ",
            records.len(),
            18 * (at - 1)
        );
        let begins = format!("zs: -: refused {number}: ");
        assert!(run.err.starts_with(&begins), "{}", run.err);
        assert!(run.err.contains(&named), "{}", run.err);
        assert_eq!(run.status, 1);
    }
    // The size comes before any record.
    let cut = [&bad_name[..], b"\xff"].concat();
    let detail = "it has 19 bytes, and a record has 18: 1 record, and 1 byte more";
    expect_refusal(&import_by(4, &cut), "-", 32, detail);
}

#[test]
fn a_record_far_behind_is_found() {
    let good = Contact::new(b"Ada").on_card(NAME_LENGTH);
    let mut card = good.repeat(200_000);
    card[28 * 199_999] = 0x83;
    let run = import(&card, FOURTEEN);
    let named = "(record 200000 of 200000, at byte 5599972: its name field is \"\\x83da\\xff";
    assert!(run.err.contains(named), "{}", run.err);
}

#[test]
fn dumps_without_records() {
    for (number, detail) in [
        (0, "the dump is empty"),
        (1, "its only record is free"),
        (2, "all its 2 records are free"),
        (250, "all its 250 records are free"),
    ] {
        let run = import(&free(NAME_LENGTH).repeat(number), FOURTEEN);
        let due = format!(
            "zs: -: refused 28: an archive needs at least one record, and the dump has none that isn't free ({detail})
zs: what to do: make sure that this is the dump of a card with contacts\n"
        );
        assert_eq!((run.status, run.err), (1, due));
    }
}

#[test]
fn counts_and_metadata_are_refused_before_the_dump_is_read() {
    let folder = Folder::new();
    folder.write("about", b"{oops}");
    for (words, file, number, detail) in [
        (
            "--metadata x",
            "",
            9,
            r#"it begins with "x" and ends with "x""#,
        ),
        ("--metadata @about", "@about", 9, NO_JSON),
        (
            "--metadata '{}' --records-per-block 0",
            "",
            30,
            "--records-per-block is 0",
        ),
        (
            "--metadata '{}' --entries-per-block 1",
            "",
            30,
            "--entries-per-block is 1",
        ),
    ] {
        let line = format!("$ZS import sim missing out --name-length 14 {words}");
        expect_refusal(&shell(&line, &folder), file, number, detail);
        assert_eq!(folder.files(), ["about"]);
    }
}

/// A file of zeros. They are records with a name that fills its field, each as long as the card allows.
fn zeros(folder: &Folder, length: u64) {
    let file = File::create(folder.name("long")).expect("a temporary file");
    file.set_len(length).expect("room for a sparse file");
}

#[test]
fn dumps_that_are_too_long() {
    let folder = Folder::new();
    // Far less memory than the files are long.
    for (name_length, longest) in [(0, 1 << 30), (1, 1 << 30), (2, 2 << 30), (241, 17 << 30)] {
        zeros(&folder, longest + 1);
        let words = format!("import sim long out --name-length {name_length} --metadata '{{}}'");
        let run = shell(&format!("ulimit -v 200000; exec $ZS {words}"), &folder);
        let limit = format!("more than {longest} bytes, and no longer dump is read");
        let due = format!("zs: long: it has {limit}; import it in parts\n");
        assert_eq!((run.status, run.err), (2, due));
        assert_eq!(folder.files(), ["long"]);
    }
}

#[test]
fn too_little_memory_is_said() {
    let folder = Folder::new();
    zeros(&folder, 255 << 18);
    for (limit, says) in [
        (50_000, "long: there isn't enough memory to read it"),
        (100_000, "there isn't enough memory to make the archive"),
    ] {
        let words = "import sim long out --name-length 241 --metadata '{}'";
        let run = shell(&format!("ulimit -v {limit}; exec $ZS {words}"), &folder);
        assert_eq!((run.status, run.err), (2, format!("zs: {says}\n")));
        assert_eq!(folder.files(), ["long"]);
    }
}

#[test]
fn standard_input_is_not_read_twice() {
    let folder = Folder::new();
    let due = "zs: standard input can't be both --metadata and DUMP\n";
    for words in ["- out --metadata @-", "/dev/stdin out --metadata @-"] {
        let run = shell(
            &format!("$ZS import sim {words} --name-length 14 </dev/null"),
            &folder,
        );
        assert_eq!((run.status, run.err.as_str()), (2, due), "{words}");
    }
}

#[test]
fn mistakes_in_arguments() {
    let folder = Folder::new();
    let range = "give a whole number from 0 to 241";
    for (words, says) in [
        ("sim", "--name-length <X>"),
        ("sim card out --metadata '{}'", "--name-length <X>"),
        ("sim card out --name-length 14", "--metadata <JSON>"),
        ("sim card --name-length 14 --metadata '{}'", "<OUT>"),
        ("sim card out more --name-length 14 --metadata '{}'", "more"),
        ("sim card out --name-length -1 --metadata '{}'", range),
        ("sim card out --name-length few --metadata '{}'", range),
        (
            "sim card out --name-length 14 --metadata '{}' --sort",
            "--sort",
        ),
        ("card out --name-length 14", "card"),
        ("", "Usage: zs import <COMMAND>"),
        (
            "sim card out --name-length 14 --metadata @",
            "zs: --metadata: @ needs the name of a file, as in @about.json\n",
        ),
        (
            "sim card out --name-length 14 --metadata @missing",
            "zs: missing: No such file or directory\n",
        ),
        (
            "sim missing out --name-length 14 --metadata '{}'",
            "zs: missing: No such file or directory\n",
        ),
        (
            "sim . out --name-length 14 --metadata '{}'",
            "zs: .: Is a directory\n",
        ),
        (
            "sim - out --name-length 14 --metadata '{}' <&-",
            "zs: -: it is closed\n",
        ),
    ] {
        folder.write("card", &Contact::new(b"Ada").on_card(NAME_LENGTH));
        let run = shell(&format!("$ZS import {words}"), &folder);
        assert_eq!((run.status, run.out.len()), (2, 0), "{words}: {}", run.err);
        assert!(run.err.contains(says), "{words}: {}", run.err);
        assert_eq!(folder.files(), ["card"], "{words}");
    }
    assert_eq!(zs(&["import"]).status, 2);
}
