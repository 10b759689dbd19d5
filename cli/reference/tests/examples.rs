//! The numbers and whole files of docs/FORMAT.md, section 8.

use zs_reference::corpus::Corpus;
use zs_reference::reader::{
    check, may_hold_match, metadata, number, read, record, search, unpack, within, NumberFault,
    Query,
};

fn file(name: &str) -> Vec<u8> {
    let corpus = Corpus::whole();
    let file = corpus.files.iter().find(|file| file.name == name);
    file.expect("a file of the corpus").bytes.clone()
}

fn prefix(prefix: &[u8]) -> Query {
    Query {
        prefix: prefix.to_vec(),
        ..Query::default()
    }
}

#[test]
fn numbers() {
    assert_eq!(number(b"\x00"), Ok((0, 1)));
    assert_eq!(number(b"\x7f"), Ok((127, 1)));
    assert_eq!(number(b"\x80\x01"), Ok((128, 2)));
    assert_eq!(number(b"\xff\x20"), Ok((4223, 2)));
    assert_eq!(number(b"\x80\x80\x80\x80\x20"), Ok((1 << 33, 5)));
    let widest = b"\xff\xff\xff\xff\xff\xff\xff\xff\x7f";
    assert_eq!(number(widest), Ok(((1 << 63) - 1, 9)));
    assert_eq!(number(b"\x80\x00"), Err(NumberFault::NotShortest));
    assert_eq!(number(&[0xff; 9]), Err(NumberFault::TooWide));
    assert_eq!(number(&[0xff; 10]), Err(NumberFault::TooWide));
    assert_eq!(number(b""), Err(NumberFault::CutOff));
    assert_eq!(number(b"\x80"), Err(NumberFault::CutOff));
    assert_eq!(number(&[0xff; 8]), Err(NumberFault::CutOff));
    assert_eq!(number(b"\x05\xff\xff"), Ok((5, 1)));
    assert_eq!(number(b"\x81\x80\x00"), Err(NumberFault::NotShortest));
}

#[test]
fn comparison() {
    assert!(b""[..] < b"\x00"[..]);
    assert!(b"\x61"[..] < b"\x61\x00"[..]);
    assert!(b"\x80"[..] > b"\x7f"[..]);
}

#[test]
fn opening() {
    let from = |start: &[u8]| Query {
        start: start.to_vec(),
        ..Query::default()
    };
    let until = |stop: &[u8]| Query {
        stop: Some(stop.to_vec()),
        ..Query::default()
    };
    assert!(may_hold_match(b"\x61", Some(b"\x62"), &from(b"\x62")));
    assert!(!may_hold_match(b"\x63", None, &until(b"\x63")));
    assert!(may_hold_match(b"\x61", Some(b"\x63"), &prefix(b"\x62")));
    assert!(may_hold_match(b"\xff", None, &prefix(b"\xff\xff")));
}

#[test]
fn smallest_file() {
    let file = file("smallest");
    assert_eq!(file.len(), 130);
    assert_eq!(file[..8], *b"\xab\x5a\x53\x66\x69\x4c\x65\x01");
    assert_eq!(file[8..16], 82_u64.to_le_bytes());
    assert_eq!(file[16..24], 117_u64.to_le_bytes());
    assert_eq!(file[24..32], 13_u64.to_le_bytes());
    assert_eq!(file[32..40], 130_u64.to_le_bytes());
    assert_eq!(file[72..88], *b"none\0\0\0\0\0\0\0\0\0\0\0\0");
    assert_eq!(file[88..96], 2_u64.to_le_bytes());
    assert_eq!(file[96..98], *b"{}");
    assert_eq!(file[106..109], *b"\x02\x00\x00");
    assert_eq!(file[117..122], *b"\x04\x01\x00\x6a\x0b");
    let checked = check(&file, 2);
    assert_eq!((checked.number, checked.place), (0, 0));
    assert_eq!((checked.blocks, checked.records), (2, 1));
    assert_eq!(check(&file, 1).number, 18);
    assert_eq!(read(&file, &Query::default(), 1).results, [468_151_435_264]);
    assert_eq!(unpack(468_151_435_264), (109, 0));
    assert_eq!(read(&file, &Query::default(), 0).number, 27);
}

#[test]
fn two_block_file() {
    let file = file("two-blocks");
    assert_eq!(file.len(), 154);
    assert_eq!(file[106..113], *b"\x06\x00\x01\x61\x02\x62\xff");
    assert_eq!(file[121..128], *b"\x06\x00\x02\x62\xff\x01\x63");
    assert_eq!(file[136..146], *b"\x09\x01\x00\x6a\x0f\x02\x62\xff\x79\x0f");
    let checked = check(&file, 3);
    assert_eq!((checked.number, checked.blocks, checked.records), (0, 3, 4));

    let found = search(&file, &prefix(b"\x62"), 3, 2);
    assert_eq!((found.number, found.matches), (0, 2));
    assert_eq!(found.results, [476_741_369_858, 532_575_944_706]);
    assert_eq!(found.opened_list, [136, 106, 121]);
    let answer = read(&file, &prefix(b"\x62"), 2);
    assert_eq!((answer.number, answer.matches), (0, 2));
    assert_eq!(answer.results, [476_741_369_858, 532_575_944_706]);
    assert_eq!(unpack(476_741_369_858), (111, 2));
    assert_eq!(unpack(532_575_944_706), (124, 2));

    let found = search(&file, &prefix(b"\x61"), 3, 2);
    assert_eq!(found.results, [468_151_435_265, 0]);
    assert_eq!(found.opened_list, [136, 106, 0]);
    assert_eq!((found.matches, found.opened), (1, 2));
    assert_eq!(unpack(468_151_435_265), (109, 1));
}

#[test]
fn two_block_file_without_room() {
    let file = file("two-blocks");
    let short = search(&file, &prefix(b"\x62"), 3, 1);
    assert_eq!((short.number, short.place), (27, 0));
    assert_eq!((short.matches, short.opened), (0, 0));
    assert_eq!((short.opened_list, short.results), (vec![0; 3], vec![0; 1]));
    let short = read(&file, &prefix(b"\x62"), 1);
    assert_eq!((short.number, short.place, short.matches), (27, 0, 0));
    assert_eq!(short.results, [0]);
    let short = search(&file, &prefix(b"\x62"), 2, 2);
    assert_eq!((short.number, short.place, short.opened), (26, 0, 0));
    assert_eq!((short.opened_list, short.results), (vec![0; 2], vec![0; 2]));
}

#[test]
fn later_block_named_first() {
    let file = file("22-paper");
    let checked = check(&file, 3);
    assert_eq!((checked.number, checked.place), (22, 106));
    assert_eq!((checked.blocks, checked.records), (0, 0));
}

#[test]
fn parts() {
    let file = [7_u8; 10];
    assert!(within(&file, 10, 0) && within(&file, 0, 10) && within(&[], 0, 0));
    assert!(!within(&file, 10, 1) && !within(&file, 11, 0));
    assert!(!within(&file, u64::MAX, u64::MAX) && !within(&file, 1, u64::MAX));
    assert_eq!(record(&file, 3, 4), (3, 4));
    assert_eq!(record(&file, 10, 0), (10, 0));
    assert_eq!(record(&file, 7, 4), (0, 0));
}

#[test]
fn metadata_of_files() {
    assert_eq!(metadata(&file("smallest")), (96, 2));
    assert_eq!(metadata(&file("extra-header")), (96, 2));
    assert_eq!(metadata(&file("extra-no-json")), (96, 2));
    assert_eq!(metadata(&file("meta-nested")), (96, 9));
    assert_eq!(metadata(&file("14-index")), (96, 2));
    for refused in [
        "2-smallest",
        "4-cut",
        "5-low-bit",
        "6-m-one-more",
        "8-cut-byte",
        "9-array",
    ] {
        assert_eq!(metadata(&file(refused)), (0, 0), "{refused}");
    }
}

#[test]
fn longer_than_allowed() {
    let file = vec![0_u8; (1 << 30) + 1];
    let query = Query::default();
    assert_eq!(check(&file, 0).number, 1);
    assert_eq!(read(&file, &query, 2).number, 1);
    assert_eq!(search(&file, &query, 0, 0).number, 1);
    assert_eq!(check(&file[1..], 0).number, 3);
}
