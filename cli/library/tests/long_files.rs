//! Refusals 1 and 31 at the limit of length: 1 over sparse files that are mapped and never written, 31 over outputs that are longer. The
//! import has no such limit.
use std::fs::OpenOptions;
use zs_library::{
    check, compare, import_sim, map, read, search, write, Counts, Part, Query, Refused, Writer,
};

const LONGEST: u64 = 1 << 30;

fn number_of_sparse(name: &str, length: u64) -> u64 {
    let path = std::env::temp_dir().join(format!("zs-{}-{name}", std::process::id()));
    let file = OpenOptions::new()
        .read(true)
        .write(true)
        .create(true)
        .truncate(true)
        .open(&path)
        .expect("a temporary file");
    file.set_len(length).expect("room for a sparse file");
    // SAFETY: this test has just made the file, under a name with the number of this process; nobody changes it while it is mapped.
    let map = unsafe { map(&file) }.expect("a mapping");
    let all = Query {
        start: &[],
        stop: None,
        prefix: &[],
    };
    let mut results = [7u64; 4];
    let answer = read(&map, &all, &mut results);
    let checked = check(&map, &mut [7; 4]);
    let found = search(&map, &all, &mut [7; 4], &mut [7; 4]);
    let compared = compare(&map, b"", &mut [7; 4], &mut [7; 4]);
    drop(map);
    std::fs::remove_file(&path).expect("the temporary file");
    assert_eq!((answer.place, answer.matches, results), (0, 0, [0; 4]));
    assert_eq!([checked.number, found.number], [answer.number; 2]);
    assert_eq!((compared.number, compared.which), (answer.number, 1));
    answer.number
}

#[test]
fn one_byte_more_than_the_longest_file_is_refusal_1() {
    assert_eq!(number_of_sparse("too-long", LONGEST + 1), 1);
}

#[test]
fn the_longest_file_is_judged_by_its_bytes() {
    assert_eq!(number_of_sparse("longest", LONGEST), 3);
}

/// Zeros enough to compare an output with, part by part.
static ZEROS: [u8; 1 << 16] = [0; 1 << 16];

const COUNTS: Counts = Counts {
    per_block: 2,
    per_index: 2,
};

fn is_zeros(bytes: &[u8]) -> bool {
    let mut parts = bytes.chunks(ZEROS.len());
    parts.all(|part| part == &ZEROS[..part.len()])
}

/// An empty record and one of zero bytes, such that the file has this length. A header with the metadata `{}` has 106 bytes, the data
/// block 20 beside the long record, and the index block 17: its one key is empty.
fn input_for(file_length: u64) -> Vec<u8> {
    let record = file_length - 106 - 20 - 17;
    let mut input = vec![0; 6 + record as usize];
    for (place, digit) in input[1..6].iter_mut().enumerate() {
        *digit = 0x80 | (record >> (7 * place)) as u8;
    }
    input[5] &= 0x7f;
    input
}

#[test]
fn an_output_may_be_longer_than_the_longest_file_but_not_the_file() {
    let mut output = vec![7; LONGEST as usize + 1];
    let written = write(b"{}", b"\0", COUNTS, &mut output);
    assert_eq!((written.number, written.length), (0, 130));
    assert_eq!(check(&output[..130], &mut [7; 2]).number, 0);
    assert!(is_zeros(&output[130..]));

    let written = write(b"{}", &input_for(LONGEST + 1), COUNTS, &mut output);
    assert_eq!((written.number, written.place, written.length), (31, 0, 0));
    assert!(is_zeros(&output));
}

/// Both readers find one record that begins so, and it lies there.
fn expect_match(file: &[u8], prefix: &[u8], due: Part) {
    let query = Query {
        start: &[],
        stop: None,
        prefix,
    };
    let [mut read_results, mut search_results] = [[7; 1]; 2];
    let answer = read(file, &query, &mut read_results);
    let found = search(file, &query, &mut [7; 2], &mut search_results);
    assert_eq!([answer.number, found.number], [0; 2]);
    assert_eq!([answer.matches, found.matches], [1; 2]);
    assert_eq!(read_results, search_results);
    assert_eq!(read_results.map(Part::of_match), [due]);
}

#[test]
#[ignore = "checksums over 2 GiB and more"]
fn the_longest_file_is_written() {
    let mut output = vec![7; LONGEST as usize];
    let written = write(b"{}", &input_for(LONGEST), COUNTS, &mut output);
    assert_eq!((written.number, written.length), (0, LONGEST));
    let checked = check(&output, &mut [7; 2]);
    assert_eq!((checked.number, checked.blocks, checked.records), (0, 2, 2));
    expect_match(
        &output,
        &[0],
        Part {
            offset: 118,
            length: LONGEST - 143,
        },
    );
    let short = &mut output[1..];
    let written = write(b"{}", &input_for(LONGEST), COUNTS, short);
    assert_eq!((written.number, written.length), (31, 0));
    assert!(is_zeros(short));
}

const NO_ROOM: Refused = Refused {
    number: 31,
    place: 0,
};

/// A file that is begun in an output longer than a file may be, and a record of zero bytes with which its only data block ends at `end`. Beside
/// the record the block has its number of five bytes, the level, the record's number of five bytes, and the CRC.
fn begun_for(end: u64) -> (Writer, Vec<u8>) {
    let mut writer = Writer::on(vec![7; LONGEST as usize + 1]);
    assert_eq!(writer.begin(b"{}", COUNTS), Ok(()));
    let record = end - 106 - 5 - 1 - 5 - 8;
    (writer, vec![0; record as usize])
}

#[test]
fn a_session_has_an_output_longer_than_the_longest_file_but_not_the_file() {
    let (mut writer, record) = begun_for(LONGEST + 1);
    assert_eq!(writer.add(&record), Err(NO_ROOM));
    assert_eq!((writer.records(), writer.next_block()), (0, 106));
    assert!(is_zeros(&writer.output()[106..]));
    assert_eq!(writer.add(b""), Ok(()));
    assert_eq!(writer.add(&record), Err(NO_ROOM));
    assert_eq!((writer.records(), writer.next_block()), (1, 117));
    assert!(is_zeros(&writer.output()[117..]));
    assert_eq!(writer.finish(), Ok(()));
    assert_eq!(check(writer.standing(), &mut [7; 2]).number, 0);
}

/// The data blocks alone are as long as a file may be, so that no index fits.
#[test]
#[ignore = "checksums over 2 GiB and more"]
fn a_session_up_to_the_longest_file() {
    let (mut writer, record) = begun_for(LONGEST);
    assert_eq!(writer.add(&record), Ok(()));
    assert_eq!((writer.records(), writer.next_block()), (1, LONGEST));
    assert_eq!(writer.add(&record), Err(NO_ROOM));
    let before = writer.clone();
    assert_eq!(writer.finish(), Err(NO_ROOM));
    assert!(writer == before);
    // The index block has 17 bytes: its one key is empty.
    writer.start_afresh();
    assert_eq!(writer.begin(b"{}", COUNTS), Ok(()));
    assert_eq!(writer.add(&record[19..]), Ok(()));
    assert_eq!(writer.add(&[1]), Ok(()));
    assert_eq!(writer.finish(), Ok(()));
    assert_eq!(writer.next_block(), LONGEST);
    assert_eq!(check(writer.standing(), &mut [7; 2]).number, 0);
    let offset = writer.last_record();
    assert_eq!(offset, LONGEST - 17 - 8 - 1);
    expect_match(writer.standing(), &[1], Part { offset, length: 1 });
}

/// Equal records with the longest names, of which ours take 257 bytes each.
#[test]
#[ignore = "more than 2 GiB of memory"]
fn more_than_the_longest_file_is_imported() {
    let count = LONGEST as usize / 257 + 1;
    let record = [&[b'n'; 241][..], &[0; 14]].concat();
    let mut output = vec![7; 257 * count];
    let imported = import_sim(&record.repeat(count), 241, &mut output);
    assert_eq!((imported.number, imported.length), (0, 257 * count as u64));
    let due = [&[0xff, 0x01], &record[..]].concat();
    assert!(output.chunks(257).all(|record| record == due));
}
