//! The corpus: its claims, its limits and its stored form.

use std::collections::{BTreeMap, BTreeSet};

use crate::support::tree::faults;
use zs_reference::corpus::{
    decode_steps, encode_steps, published_file, Call, Case, Claim, Corpus, File, ALL_CALLS,
};
use zs_reference::reader::check;
use zs_reference::session::Step;
use zs_reference::sim::import;
use zs_reference::writer::{write, Counts};

/// Whether what a file's maker says of it is so.
fn holds(file: &File) -> bool {
    let checked = check(&file.bytes, 128);
    let answer = (checked.number, checked.place);
    let faults: Vec<u64> = faults(&file.bytes).into_iter().collect();
    match file.claim {
        Claim::Sound => answer == (0, 0) && faults.is_empty(),
        Claim::Only(number, place) => answer == (number, place) && faults == [number],
        Claim::First(number, place) => {
            answer == (number, place) && faults.contains(&number) && faults.len() > 1
        }
        Claim::Nothing => (answer.0 == 0) == faults.is_empty(),
        Claim::Records(number) => number_of(&file.bytes) == number,
        Claim::Dump(name_length, number) => {
            let imported = import(&file.bytes, name_length, usize::MAX);
            imported.err().unwrap_or(0) == number
        }
        Claim::Steps => {
            let steps: Vec<Step> = decode_steps(&file.bytes)
                .into_iter()
                .map(|(_, step)| step)
                .collect();
            encode_steps(&steps) == file.bytes
        }
    }
}

/// What the writer gives for these records with sound metadata and counts, and with room.
fn number_of(records: &[u8]) -> u64 {
    let counts = Counts {
        per_block: 1,
        per_index: 2,
    };
    write(b"{}", records, counts, usize::MAX).err().unwrap_or(0)
}

#[test]
fn claims_hold() {
    let corpus = Corpus::whole();
    let broken = corpus.files.iter().filter(|file| !holds(file));
    let broken: Vec<String> = broken
        .map(|file| {
            let checked = check(&file.bytes, 128);
            let faults = faults(&file.bytes);
            format!("{} {:?} {checked:?} {faults:?}", file.name, file.claim)
        })
        .collect();
    assert!(broken.is_empty(), "{broken:#?}");
}

#[test]
fn each_refusal_has_two_files() {
    let mut times: BTreeMap<u64, usize> = BTreeMap::new();
    let mut several = 0;
    for file in Corpus::whole().files {
        match file.claim {
            Claim::Only(number, _) => *times.entry(number).or_default() += 1,
            Claim::First(number @ (21 | 23), _) => *times.entry(number).or_default() += 1,
            Claim::First(_, _) => several += 1,
            Claim::Sound | Claim::Nothing => {}
            Claim::Records(_) | Claim::Dump(..) | Claim::Steps => {}
        }
    }
    for number in (2..=17).chain(19..=25) {
        let files = times.get(&number).copied().unwrap_or(0);
        assert!(files >= 2, "refusal {number} has {files} files");
    }
    assert!(several >= 12);
}

#[test]
fn each_refusal_of_writer_import_and_comparison_has_two_cases() {
    let compared: Vec<u64> = (2..=25).chain([0, 35]).collect();
    for (call, numbers) in [
        (Call::Write, &[0, 9, 28, 29, 30, 31][..]),
        (Call::ImportSim, &[0, 31, 32, 33, 34]),
        (Call::Compare, &compared),
    ] {
        let lines = Corpus::whole().with_calls(&[call]).lines();
        for number in numbers {
            let given = format!(": number {number} ");
            let cases = lines.lines().filter(|line| line.contains(&given)).count();
            assert!(cases >= 2, "{number} has {cases} cases");
        }
    }
}

#[test]
fn limits_hold() {
    let corpus = Corpus::whole();
    assert_eq!(corpus.broken_limit(), None);
    let names: BTreeSet<&str> = corpus.files.iter().map(|file| file.name.as_str()).collect();
    assert_eq!(names.len(), corpus.files.len());
    let named = corpus
        .cases
        .iter()
        .flat_map(|case| [Some(case.name.as_str()), case.second()]);
    assert_eq!(names, named.flatten().collect());
    let in_order = |takes_two: bool| {
        let cases = corpus.cases.iter();
        let cases = cases.filter(move |case| case.call.takes_two() == takes_two);
        let mut order: Vec<&str> = cases.map(|case| case.name.as_str()).collect();
        order.dedup();
        order
    };
    for takes_two in [false, true] {
        let order = in_order(takes_two);
        let files = corpus.files.iter().map(|file| file.name.as_str());
        let asked: Vec<&str> = files.filter(|name| order.contains(name)).collect();
        assert_eq!(order, asked);
    }
    let longest = corpus.files.iter().map(|file| file.bytes.len()).max();
    assert_eq!(longest, Some(65_536));
}

#[test]
fn same_bytes_each_time() {
    let (one, two) = (Corpus::whole(), Corpus::whole());
    assert_eq!(one.case_files(), two.case_files());
    assert_eq!(one.lines(), two.lines());
    let bytes = |corpus: &Corpus| -> Vec<Vec<u8>> {
        corpus.files.iter().map(|file| file.bytes.clone()).collect()
    };
    assert_eq!(bytes(&one), bytes(&two));
}

#[test]
fn calls_can_be_chosen() {
    for call in ALL_CALLS {
        let corpus = Corpus::whole().with_calls(&[call]);
        assert!(!corpus.cases.is_empty());
        assert!(corpus.cases.iter().all(|case| case.call == call));
    }
}

/// The files of docs/FORMAT.md that are written: the maker makes the same, and so does the second writer, at both sides of their length.
#[test]
fn published_files_are_due() {
    let corpus = Corpus::whole();
    let bytes_of = |name: &str| {
        let file = corpus.files.iter().find(|file| file.name == name);
        file.expect("a file of the corpus").bytes.as_slice()
    };
    let mut outputs: BTreeMap<&str, Vec<u16>> = BTreeMap::new();
    for case in &corpus.cases {
        if let Some(published) = published_file(case) {
            let made = case.name.strip_prefix("write-").expect("the records' name");
            assert_eq!(bytes_of(made), published);
            assert_eq!(
                case.line(bytes_of(&case.name), b""),
                case.line_of_file(published)
            );
            outputs.entry(made).or_default().push(case.result_places);
        }
    }
    for (made, length) in [("smallest", 130), ("two-blocks", 154)] {
        assert!(outputs[made].contains(&length) && outputs[made].contains(&(length - 1)));
    }
}

/// Reads a case back as README.md describes it.
fn decode(bytes: &mut &[u8]) -> Case {
    let name = String::from_utf8(take_short(bytes)).expect("a name");
    let number = take(bytes, 1)[0];
    let call = ALL_CALLS[usize::from(number) - 1];
    assert_eq!(call.number(), number);
    let mut case = Case::new(&name, call);
    case.start = take_short(bytes);
    case.stop_given = take(bytes, 1)[0] == 1;
    case.stop = take_short(bytes);
    case.prefix = take_short(bytes);
    case.result_places = take_number(bytes, 2) as u16;
    case.other_places = take_number(bytes, 2) as u16;
    case.offset = take_number(bytes, 8);
    case.length = take_number(bytes, 8);
    case
}

fn take<'a>(bytes: &mut &'a [u8], length: usize) -> &'a [u8] {
    let (taken, rest) = bytes.split_at(length);
    *bytes = rest;
    taken
}

fn take_short(bytes: &mut &[u8]) -> Vec<u8> {
    let length = take(bytes, 1)[0];
    take(bytes, usize::from(length)).to_vec()
}

fn take_number(bytes: &mut &[u8], length: usize) -> u64 {
    let digits = take(bytes, length).iter().rev();
    digits.fold(0, |sum, digit| sum * 256 + u64::from(*digit))
}

#[test]
fn cases_read_back() {
    let corpus = Corpus::whole();
    let stored = corpus.case_files().map(|(_, cases)| cases).concat();
    let mut rest = &stored[..];
    for case in &corpus.cases {
        assert_eq!(decode(&mut rest), *case);
    }
    assert!(rest.is_empty());
}

/// The line due for a case of the example with two data blocks.
fn line(call: Call, change: impl FnOnce(&mut Case)) -> String {
    let corpus = Corpus::whole();
    let two_blocks = corpus.files.iter().find(|file| file.name == "two-blocks");
    let mut case = Case::new("two-blocks", call);
    change(&mut case);
    case.line(&two_blocks.expect("the file").bytes, b"")
}

#[test]
fn lines_have_their_form() {
    let read = line(Call::Read, |case| {
        (case.prefix, case.result_places) = (b"b".to_vec(), 3);
    });
    let due =
        "two-blocks read - - 62: number 0 place 0 matches 2 results 476741369858 532575944706 0";
    assert_eq!(read, due);
    let read = line(Call::Read, |case| case.stop_given = true);
    let due = "two-blocks read - empty -: number 0 place 0 matches 0 results";
    assert_eq!(read, due);
    let check = line(Call::Check, |case| case.other_places = 3);
    let due = "two-blocks check 3: number 0 place 0 blocks 3 records 4 work 0 0 0";
    assert_eq!(check, due);
    let check = line(Call::Check, |_| {});
    let due = "two-blocks check 0: number 18 place 0 blocks 0 records 0 work";
    assert_eq!(check, due);
    let search = line(Call::Search, |case| {
        (case.start, case.other_places, case.result_places) = (b"b\xff".to_vec(), 4, 3);
    });
    let due = "two-blocks search 62ff - -: number 0 place 0 matches 3 opened 3 \
               openedlist 136 106 121 0 results 476741369858 532575944706 545460846593";
    assert_eq!(search, due);
    let record = line(Call::Record, |case| (case.offset, case.length) = (111, 2));
    let due = "two-blocks record 111 2: within yes part 111 2 bytes 62ff";
    assert_eq!(record, due);
    let record = line(Call::Record, |case| (case.offset, case.length) = (154, 1));
    let due = "two-blocks record 154 1: within no part 0 0 bytes -";
    assert_eq!(record, due);
}

#[test]
fn lines_of_stores_have_their_form() {
    let of_store = |i| line(Call::Store, |case| case.offset = i);
    assert_eq!(of_store(1), "two-blocks store 1: offset 106 length 48");
    assert_eq!(of_store(3), "two-blocks store 3: offset 0 length 8");
    assert_eq!(of_store(4), "two-blocks store 4: offset 0 length 0");
}

/// Of the files on which stores are asked for, those that have any: they begin with the good magic, and don't end before their header does.
#[test]
fn files_with_stores() {
    let lines = Corpus::whole().with_calls(&[Call::Store]).lines();
    let with_stores: Vec<&str> = lines
        .lines()
        .filter_map(|line| line.strip_suffix(" store 0: offset 0 length 8"))
        .collect();
    let due = [
        "smallest",
        "two-blocks",
        "meta-long",
        "8-cut-blocks",
        "6-h-0",
        "6-h-0-alone",
        "17-no-blocks",
    ];
    assert_eq!(
        BTreeSet::from_iter(with_stores.iter().copied()),
        BTreeSet::from(due)
    );
}

/// The hashes are those of the file in FORMAT.md with one zero after it, and of 129 zeros.
#[test]
fn lines_of_writes_have_their_form() {
    let counts = Counts {
        per_block: 1,
        per_index: 2,
    };
    let line = |output| Case::write("write-smallest", b"{}", counts, output).line(b"\0", b"");
    let due = "write-smallest write 7b7d 1 2 131: number 0 place 0 length 130 \
               output b6205e55dfe96cc5a31c096347049957268d1f5ca5819dcb8227c505bb4ab3c9";
    assert_eq!(line(131), due);
    let due = "write-smallest write 7b7d 1 2 129: number 31 place 0 length 0 \
               output 2c80619d7e7c58257293cda3a878c13e5856f4e06f6f90601276f7b9179c9e07";
    assert_eq!(line(129), due);
}

/// The hashes are those of the record after its length with one zero after it, and of 15 zeros.
#[test]
fn lines_of_imports_have_their_form() {
    let dump = b"A\xff\x01\x81\x02\x03\x04\x05\x06\x07\x08\x09\x0a\x0b\x0c\x0d";
    let line = |output| Case::import("import-one", 2, output).line(dump, b"");
    let due = "import-one import_sim 2 17: number 0 place 0 length 16 \
               output 61d637cad13d137ba18ddb22e911f7b733ddf0d215403e2975dedfabb6029594";
    assert_eq!(line(17), due);
    let due = "import-one import_sim 2 15: number 31 place 0 length 0 \
               output 5322fecfc92a5e3248a297a3df3eddfb9bd9049504272e4f572b87fa36d4b3bd";
    assert_eq!(line(15), due);
}

#[test]
fn lines_of_two_files_have_their_form() {
    let corpus = Corpus::whole().with_calls(&[Call::Compare, Call::Shown]);
    let lines = corpus.lines();
    for due in [
        "two-blocks compare smallest 3 20: number 0 place 0 which 0 differences 4 sum -3 \
         list 2 109 0 0 1 1 109 1 1 0 1 111 2 2 0 1 127 1 1 0 work 0 0 0",
        "two-blocks compare smallest 3 2: number 35 place 0 which 0 differences 0 sum 0 list 0 0 work 0 0 0",
        "smallest compare smallest 1 0: number 18 place 0 which 1 differences 0 sum 0 list work 0",
        "two-blocks compare 22-paper 12 6: number 22 place 106 which 2 differences 0 sum 0 \
         list 0 0 0 0 0 0 work 0 0 0 0 0 0 0 0 0 0 0 0",
        "two-blocks shown smallest 1 109 1: which 1 part 109 1 bytes 61",
        "two-blocks shown smallest 2 109 0: which 2 part 109 0 bytes -",
        "two-blocks shown smallest 2 130 1: which 1 part 0 0 bytes -",
    ] {
        assert!(lines.lines().any(|line| line == due), "{due}");
    }
}

/// Every refused comparison says which file is refused, but for 35, and gives no difference.
#[test]
fn lines_of_refused_comparisons() {
    let lines = Corpus::whole().with_calls(&[Call::Compare]).lines();
    let mut times: BTreeMap<(bool, &str), usize> = BTreeMap::new();
    for line in lines.lines() {
        let words: Vec<&str> = line.split(' ').collect();
        let at = |word: &str| words[1 + words.iter().position(|w| *w == word).expect("the word")];
        let of_file = !["0", "35"].contains(&at("number"));
        assert_eq!(of_file, at("which") != "0", "{line}");
        if at("number") != "0" {
            assert_eq!((at("differences"), at("sum")), ("0", "0"), "{line}");
        }
        *times.entry((of_file, at("which"))).or_default() += 1;
    }
    assert_eq!(times.len(), 3);
    assert!(times.values().all(|count| *count > 50), "{times:?}");
}
