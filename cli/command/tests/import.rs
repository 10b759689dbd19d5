//! `zs import sim`: the archive holds the contacts of the card, names byte for byte, each as often as the card has it.

use std::fs;

use crate::support::sim::{dump, free, sorted, Contact, FOURTEEN, NAME_LENGTH, NUMBER};
use crate::support::{accepted, records_of, shell, u64le, zs, zs_with_input, Folder, PHONEBOOK};
use zs_reference::maker::random::Random;
use zs_reference::samples;

const U64LE: &[&str] = &["--length-prefixed", "u64le"];

/// Imports a dump.
fn import(folder: &Folder, dump: &[u8], words: &[&str]) -> Vec<u8> {
    let name = folder.name("card.zs");
    let fixed = ["import", "sim", "-", &name, "--force"];
    accepted(&name, &[&fixed, words].concat(), dump)
}

/// Every byte as an escape.
fn escaped(bytes: &[u8]) -> String {
    bytes.iter().map(|byte| format!("\\x{byte:02x}")).collect()
}

/// Looks up the records of the archive that begin so, by the index and front to back.
fn look_up(folder: &Folder, prefix: &[u8]) -> Vec<u8> {
    let (name, prefix) = (folder.name("card.zs"), escaped(prefix));
    let words = [&["dump", &name, "--prefix", &prefix], U64LE].concat();
    let found = zs(&words).out;
    assert_eq!(zs(&[&words, &["--scan"][..]].concat()).out, found);
    found
}

/// Names in which bytes FF stand at every place where they may: as letters, in bases, across pairs, at the end.
const NAMES_WITH_FF: [&[u8]; 12] = [
    b"\x80\x00L\x00o\x00\xff\x00s\x00e",
    b"\x80\x00\xff",
    b"\x80\xff\x21\xff\x24\xff\x21",
    b"\x80\x00\xff\xff\x21",
    b"\x80\x00A\x00B\x00C\x00D\x00E\x00\xff",
    b"\x81\x05\x01Lo\xffse",
    b"\x81\x02\x01\xff\xff",
    b"\x81\x0b\xffHob Unreal\xff",
    b"\x81\x00\xff",
    b"\x82\x05\x00\x80Lo\xffse",
    b"\x82\x03\xff\xff\xa1\xff\xa1",
    b"\x82\x0a\xff\x00Hob Blank\xff",
];

#[test]
fn names_with_bytes_ff_survive_byte_for_byte() {
    let folder = Folder::new();
    let contacts: Vec<Contact> = NAMES_WITH_FF.map(Contact::new).into();
    let file = import(&folder, &dump(&contacts, NAME_LENGTH), FOURTEEN);
    let records = sorted(&contacts);
    assert_eq!(records_of(&file), records);
    assert_eq!(look_up(&folder, b""), u64le(&records));
    for contact in &contacts {
        for length in 1..=contact.name.len() {
            let prefix = &contact.name[..length];
            let begins = |record: &&Vec<u8>| record.starts_with(prefix);
            let due: Vec<Vec<u8>> = records.iter().filter(begins).cloned().collect();
            assert_eq!(look_up(&folder, prefix), u64le(&due), "{prefix:x?}");
        }
        // The name and the number after it, and nothing between.
        let whole = contact.in_archive();
        assert_eq!(look_up(&folder, &whole), u64le(&[whole]));
    }
}

#[test]
fn names_that_fill_their_field_and_names_without_a_byte() {
    let folder = Folder::new();
    let (long, letters) = (vec![b'a'; 241], vec![0xff; 238]);
    let counted = [&[0x81, 238, 0x01], &letters[..]].concat();
    let pairs = [&[0x80], &[0x00, 0xff].repeat(120)[..]].concat();
    for (name_length, name) in [
        (0, &b""[..]),
        (1, b""),
        (1, b"a"),
        (1, b"\x80"),
        (2, b"\x80"),
        (2, b"ab"),
        (3, b"\x80\x00\xff"),
        (3, b"\x81\x00\xff"),
        (4, b"\x80\x00\xff"),
        (4, b"\x82\x00\xff\xff"),
        (14, b""),
        (14, b"Fenn Fictional"),
        (241, b""),
        (241, &long[..114]),
        (241, &long[..113]),
        (241, &long),
        (241, &counted),
        (241, &pairs),
    ] {
        let contacts = [Contact::new(name)];
        let number = name_length.to_string();
        let words = ["--metadata", "{}", "--name-length", &number];
        let file = import(&folder, &dump(&contacts, name_length), &words);
        assert_eq!(records_of(&file), sorted(&contacts), "{name_length}");
    }
}

#[test]
fn equal_records_are_kept_and_free_ones_left_out() {
    let folder = Folder::new();
    let mut other = Contact::new(b"Echo");
    other.number[4] = 0x66;
    let contacts = [
        Contact::new(b"Echo"),
        other,
        Contact::new(b"Ada"),
        Contact::new(b"Echo"),
        Contact::new(b"Echo"),
    ];
    let mut records: Vec<Vec<u8>> = Vec::new();
    for contact in &contacts {
        records.extend([contact.on_card(NAME_LENGTH), free(NAME_LENGTH)]);
    }
    records.insert(0, free(NAME_LENGTH));
    let file = import(&folder, &records.concat(), FOURTEEN);
    assert_eq!(records_of(&file), sorted(&contacts));
    let count = |prefix| {
        let name = folder.name("card.zs");
        zs(&["dump", &name, "--prefix", prefix, "--count"]).text()
    };
    assert_eq!(count("Echo"), "4\n");
    assert_eq!(count(&format!("Echo{}", escaped(&NUMBER))), "3\n");
}

#[test]
fn the_whole_record_decides_the_order() {
    let folder = Folder::new();
    // Name first and number second would put these the other way round: the number of the first begins with 0b.
    let mut first = Contact::new(b"A");
    first.number[0] = 0x0b;
    let second = Contact::new(b"A\x05");
    let contacts = [first.clone(), second.clone()];
    let file = import(&folder, &dump(&contacts, NAME_LENGTH), FOURTEEN);
    assert_eq!(records_of(&file), [second, first].map(|c| c.in_archive()));
}

#[test]
fn drawn_dumps_make_what_make_does_of_their_records() {
    let folder = Folder::new();
    let mut random = Random::new(5);
    for name_length in [0, 1, 2, 3, 4, 5, 14, 20, 99, 100, 113, 114, 115, 241] {
        let number = 1 + random.below(60);
        let contacts: Vec<Contact> = (0..number)
            .map(|_| Contact::draw(&mut random, name_length))
            .collect();
        let mut dump = dump(&contacts, name_length);
        dump.extend(free(name_length));
        let per_block = random.pick(&["1", "2", "3", "65535"]);
        let counts = ["--records-per-block", per_block, "--entries-per-block", "3"];
        let name_length = name_length.to_string();
        let words = ["--name-length", &name_length, "--metadata", "{}"];
        let file = import(&folder, &dump, &[&words, &counts[..]].concat());
        assert!(records_of(&file) == sorted(&contacts), "{name_length}");
        let made = folder.name("made.zs");
        let make = ["make", "{}", "-", &made, "--force", "--sort"];
        let unsorted: Vec<Vec<u8>> = contacts.iter().map(Contact::in_archive).collect();
        let run = zs_with_input(&[&make, U64LE, &counts].concat(), &u64le(&unsorted));
        assert_eq!((run.status, run.err.as_str()), (0, ""));
        assert!(fs::read(made).expect("the archive") == file);
    }
}

#[test]
fn a_hundred_thousand_records() {
    let folder = Folder::new();
    let contact = |number: u32| Contact::new(format!("{number:06}").as_bytes());
    let contacts: Vec<Contact> = (0..100_000).rev().map(contact).collect();
    let file = import(&folder, &dump(&contacts, NAME_LENGTH), FOURTEEN);
    assert!(records_of(&file) == sorted(&contacts));
    let due: Vec<Vec<u8>> = (42_170..42_180).map(|n| contact(n).in_archive()).collect();
    assert_eq!(look_up(&folder, b"04217"), u64le(&due));
}

#[test]
fn the_sample_phonebook_is_imported_whole() {
    let folder = Folder::new();
    let records = samples::phonebook();
    let is_free = |record: &Vec<u8>| record.iter().all(|byte| *byte == 0xff);
    let due = records.iter().filter(|record| !is_free(record)).count();
    let card = fs::read(PHONEBOOK).expect("the sample");
    assert_eq!(records_of(&import(&folder, &card, FOURTEEN)).len(), due);
    for (prefix, due) in [
        (&b"Echo Repeated\x06"[..], 3),
        (b"Greta Mockley", 2),
        (b"\x80\x00L\x00o\x00\xff\x00s\x00e\x06\x81", 1),
        (b"\x80\x00\xff\xff\x21\x06\x81", 1),
        (b"\x81\x05\x01Lo\xffse\x06\x81", 1),
        (b"\x81\x0b\x01Hob Unreal\xff\x06\x81", 1),
        (b"\x82\x03\xff\x00\xa1\xa4\xa1\x06\x81", 1),
        (b"\x05\x81", 1),
        (b"\xff", 0),
    ] {
        let found = look_up(&folder, prefix);
        let words = ["dump", &folder.name("card.zs"), "--count", "--prefix"];
        let count = zs(&[&words[..], &[&escaped(prefix)]].concat()).text();
        assert_eq!((count, found.is_empty()), (format!("{due}\n"), due == 0));
    }
}

#[test]
fn dumps_are_files_or_standard_input() {
    let folder = Folder::new();
    let contacts = [Contact::new(b"Bea"), Contact::new(b"Ada")];
    let card = dump(&contacts, NAME_LENGTH);
    folder.write("card", &card);
    folder.write("one", &card[..card.len() / 2]);
    folder.write("other", &card[card.len() / 2..]);
    folder.write("about", b"{}\n");
    let due = import(&folder, &card, FOURTEEN);
    for line in [
        "$ZS import sim card out --name-length 14 --metadata '{}'",
        "$ZS import sim --metadata '{}' --name-length=14 - out <card",
        "cat one other | $ZS import sim - out --name-length 14 --metadata '{}'",
        "cat card | $ZS import sim /dev/stdin out --name-length 14 --metadata @about",
        "mkfifo pipe; cat card >pipe & $ZS import sim pipe out --name-length 14 --metadata '{}'",
        "$ZS import sim card out --name-length 14 --metadata @- <about",
    ] {
        let run = shell(line, &folder);
        assert_eq!((run.status, run.err.as_str()), (0, ""), "{line}");
        let made = fs::read(folder.name("out")).expect("the archive");
        assert!(made == due, "{line}");
        fs::remove_file(folder.name("out")).expect("the archive");
    }
}

#[test]
fn metadata_is_stored_as_it_is_given() {
    let folder = Folder::new();
    let about = "{\"about\": \"n\u{e9}\",\r\n\t\"\" : [1E9]}";
    let words = ["--name-length", "14", "--metadata", &format!(" {about}\n")];
    let card = dump(&[Contact::new(b"Ada")], NAME_LENGTH);
    import(&folder, &card, &words);
    let shown = zs(&["info", "-m", &folder.name("card.zs")]).text();
    assert_eq!(shown, format!("{about}\n"));
}

#[test]
fn help_has_examples() {
    assert!(zs(&["--help"]).text().contains("  import  "));
    let example = "  zs import sim card.adn card.zs --name-length 14 --metadata '";
    for words in [
        &["--help"][..],
        &["import", "--help"],
        &["import", "sim", "--help"],
    ] {
        let run = zs(words);
        assert_eq!((run.status, run.err.as_str()), (0, ""));
        assert!(run.text().contains(example), "{}", run.text());
    }
    let help = zs(&["import", "sim", "-h"]).text();
    for says in [
        "0 to 241: the length of a record less 14",
        "--records-per-block",
        "@FILE; @- is standard input",
        "--force",
        "Exit status: 0 answered, 1 refused, 2 usage or input/output.",
    ] {
        assert!(help.contains(says), "{help}");
    }
}
