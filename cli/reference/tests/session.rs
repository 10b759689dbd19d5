//! The second session: bytes that can be worked out by hand, its refusals, the moves of an open block, and the writer's files.

use crate::support::results::records_at;
use crate::support::tree::faults;
use zs_reference::checksums::crc64;
use zs_reference::maker::random::Random;
use zs_reference::maker::{encode, Plan};
use zs_reference::reader::{check, read, Query};
use zs_reference::session::{figures, unfinished, Figures, Session, Step};
use zs_reference::writer::{write, Counts};

const AMPLE: usize = 1 << 20;

fn begin(per_block: u64, per_index: u64) -> Step {
    begin_with(b"{}", per_block, per_index)
}

fn begin_with(metadata: &[u8], per_block: u64, per_index: u64) -> Step {
    Step::Begin {
        metadata: metadata.to_vec(),
        counts: Counts {
            per_block,
            per_index,
        },
    }
}

fn add(record: &[u8]) -> Step {
    Step::Add(record.to_vec())
}

/// The session after these steps, none of which is refused.
fn after(room: usize, steps: &[Step]) -> Session {
    let mut session = Session::afresh(room);
    for step in steps {
        assert_eq!(session.take(step), Ok(()), "{step:?}");
    }
    session
}

/// A refused step gives this number and leaves everything as it was.
fn expect_refusal(session: &mut Session, step: &Step, number: u64) {
    let (output, figures, blocks) = (
        session.output(),
        session.figures(),
        session.blocks().to_vec(),
    );
    assert_eq!(session.take(step), Err(number), "{step:?}");
    assert_eq!(session.output(), output);
    assert_eq!(session.figures(), figures);
    assert_eq!(session.blocks(), blocks);
}

fn counted(records: u64, last: u64, next: u64) -> Figures {
    Figures {
        records,
        last,
        next,
    }
}

fn hex(bytes: &[u8]) -> String {
    bytes.iter().map(|byte| format!("{byte:02x}")).collect()
}

/// The header of an unfinished file with the metadata `{}`: 106 bytes.
const HEADER: &str = "ab5a53746f4265015200000000000000\
                      00000000000000000000000000000000\
                      00000000000000000000000000000000\
                      00000000000000000000000000000000\
                      00000000000000006e6f6e6500000000\
                      00000000000000000200000000000000\
                      7b7d0000000000000000";

/// The steps to the example with two data blocks of docs/FORMAT.md, and what stands after each.
#[test]
fn two_block_file() {
    let mut session = Session::afresh(154);
    assert_eq!(session.output(), [0; 154]);
    assert_eq!(session.figures(), counted(0, 0, 0));
    let whole = "ab5a5366694c65015200000000000000\
                 88000000000000001200000000000000\
                 9a0000000000000036d084f06260a0c6\
                 bcb8aa9150e1ef4910be942e1bb1e624\
                 e918bb056b0a3c406e6f6e6500000000\
                 00000000000000000200000000000000\
                 7b7d4804e1ff342a142b\
                 060001610262ffd6b5633b79cd7edc\
                 06000262ff0163ea05b28ba1c5e0cc\
                 0901006a0f0262ff790fc9ca9e52c2973e86";
    let first = format!("030001 61{}", hex(&crc64(b"\0\x01a").to_le_bytes()));
    let second = "060001610262ffd6b5633b79cd7edc";
    let third = format!("040002 62ff{}", hex(&crc64(b"\0\x02b\xff").to_le_bytes()));
    let fourth = "06000262ff0163ea05b28ba1c5e0cc";
    for (step, bytes, figures) in [
        (begin(2, 2), HEADER.to_string(), counted(0, 0, 106)),
        (add(b"a"), format!("{HEADER}{first}"), counted(1, 109, 118)),
        (
            add(b"b\xff"),
            format!("{HEADER}{second}"),
            counted(2, 111, 121),
        ),
        (
            add(b"b\xff"),
            format!("{HEADER}{second}{third}"),
            counted(3, 124, 134),
        ),
        (
            add(b"c"),
            format!("{HEADER}{second}{fourth}"),
            counted(4, 127, 136),
        ),
        (
            Step::Close,
            format!("{HEADER}{second}{fourth}"),
            counted(4, 127, 136),
        ),
        (Step::Finish, whole.to_string(), counted(4, 127, 154)),
    ] {
        assert_eq!(session.take(&step), Ok(()));
        assert_eq!(hex(session.standing()), bytes.replace(' ', ""), "{step:?}");
        assert_eq!(session.figures(), figures, "{step:?}");
        assert!(session.output().starts_with(session.standing()));
        assert_eq!(session.output().len(), 154);
    }
}

/// Steps that are none of their turn, whatever else is wrong with them.
#[test]
fn steps_out_of_turn() {
    let wrong_begin = begin_with(b"oops", 0, 0);
    let mut session = Session::afresh(0);
    for step in [add(b""), Step::Close, Step::Finish] {
        expect_refusal(&mut session, &step, 28);
    }
    session = after(106, &[begin(1, 2)]);
    for step in [
        begin(1, 2),
        wrong_begin.clone(),
        Step::Close,
        Step::Finish,
        Step::Close,
    ] {
        expect_refusal(&mut session, &step, 28);
    }
    session = after(130, &[begin(1, 2), add(b""), Step::Close]);
    expect_refusal(&mut session, &Step::Close, 28);
    expect_refusal(&mut session, &begin(1, 2), 28);
    assert_eq!(session.take(&Step::Finish), Ok(()));
    for step in [
        wrong_begin,
        add(b""),
        add(&[7; 99]),
        Step::Close,
        Step::Finish,
    ] {
        expect_refusal(&mut session, &step, 28);
    }
    assert_eq!(session.take(&Step::Afresh { room: 9 }), Ok(()));
    assert_eq!(
        (session.output(), session.figures()),
        (vec![0; 9], counted(0, 0, 0))
    );
}

#[test]
fn begin_refuses_counts_then_metadata_then_room() {
    let mut session = Session::afresh(105);
    for (per_block, per_index) in [(0, 2), (65_536, 2), (1, 1), (1, 65_536), (u64::MAX, 0)] {
        expect_refusal(&mut session, &begin_with(b"oops", per_block, per_index), 30);
    }
    expect_refusal(&mut session, &begin_with(b"oops", 1, 2), 9);
    expect_refusal(&mut session, &begin(65_535, 65_535), 31);
    assert_eq!(session.take(&Step::Grow(1)), Ok(()));
    assert_eq!(session.take(&begin(65_535, 65_535)), Ok(()));
}

#[test]
fn add_refuses_order_then_room() {
    let mut session = after(106 + 10, &[begin(9, 2)]);
    expect_refusal(&mut session, &add(b""), 31);
    session.take(&Step::Grow(2)).expect("more room");
    assert_eq!(session.take(&add(b"b")), Ok(()));
    for lower in [&b""[..], b"a", b"a\xff\xff", &[b'a'; 300]] {
        expect_refusal(&mut session, &add(lower), 29);
    }
    for no_lower in [&b"b"[..], b"b\0", b"c", &[0xff; 300]] {
        expect_refusal(&mut session, &add(no_lower), 31);
    }
    // With the block closed the next record takes eleven bytes more than itself.
    session.take(&Step::Grow(11)).expect("more room");
    session.take(&Step::Close).expect("a block");
    expect_refusal(&mut session, &add(b"a"), 29);
    expect_refusal(&mut session, &add(b"b"), 31);
    session.take(&Step::Grow(1)).expect("more room");
    assert_eq!(session.take(&add(b"b")), Ok(()));
    assert_eq!(session.figures(), counted(2, 121, 130));
}

/// The close that comes before an add to a full block is undone where the add is refused.
#[test]
fn refused_at_a_full_block() {
    let mut session = after(106 + 12 + 11, &[begin(1, 2), add(b"b")]);
    assert!(session.is_full());
    expect_refusal(&mut session, &add(b"a"), 29);
    expect_refusal(&mut session, &add(b"b"), 31);
    assert!(session.is_full());
    assert_eq!(session.take(&Step::Close), Ok(()));
}

/// The number of an open block takes a byte more from 128 and from 16,384 on, and what stands after it moves. A block of so many bytes, level
/// byte and payload, gets a record that makes it so long.
#[test]
fn moves() {
    for (before, longer, digits) in [
        (125, 127, [1, 1]),
        (126, 128, [1, 2]),
        (127, 129, [1, 2]),
        (127, 16_383, [1, 2]),
        (127, 16_384, [1, 3]),
        (16_381, 16_383, [2, 2]),
        (16_382, 16_384, [2, 3]),
        (16_383, 16_385, [2, 3]),
        (2_097_150, 2_097_152, [3, 4]),
        (127, 2_097_152, [1, 4]),
    ] {
        let records = [
            vec![0; record_of(before - 1)],
            vec![1; record_of(longer - before)],
        ];
        expect_move(&records, [before, longer], digits);
    }
    // A record of no bytes adds only its number.
    expect_move(&vec![Vec::new(); 127], [127, 128], [1, 2]);
}

/// The length of a record that takes so many bytes with its number.
fn record_of(size: usize) -> usize {
    let digits = (1..).find(|digits| encode((size - digits) as u64).len() == *digits);
    size - digits.expect("a number that fits")
}

/// Adds all records to one block, and looks at it before the last one and after it.
fn expect_move(records: &[Vec<u8>], extents: [usize; 2], digits: [usize; 2]) {
    let mut session = after(4 * AMPLE, &[begin(65_535, 2)]);
    for (at, record) in records.iter().enumerate() {
        assert_eq!(session.take(&add(record)), Ok(()));
        let left = records.len() - 1 - at;
        if left > 1 {
            continue;
        }
        let (extent, digits) = (extents[1 - left], digits[1 - left]);
        let number = encode(extent as u64);
        assert_eq!(number.len(), digits);
        let payload = Plan::data(&records[..=at]).payload(&[]);
        let due = [&number, &b"\0"[..], &payload].concat();
        assert_eq!(due.len(), digits + extent);
        assert_eq!(session.standing()[106..106 + due.len()], due);
        let next = 106 + due.len() + 8;
        let last = next - 8 - record.len();
        let figures = counted(at as u64 + 1, last as u64, next as u64);
        assert_eq!(session.figures(), figures);
    }
}

/// 31 of finish is the writer's, and leaves the data blocks as they are.
#[test]
fn finish_at_both_sides_of_its_room() {
    for early in [false, true] {
        let mut steps = vec![begin(2, 2), add(b"a"), add(b"b"), add(b"c"), add(b"d")];
        if early {
            steps.insert(2, Step::Close);
        }
        let mut whole = after(AMPLE, &steps);
        whole.take(&Step::Finish).expect("a file");
        let length = whole.standing().len();
        let mut session = after(length - 1, &steps);
        expect_refusal(&mut session, &Step::Finish, 31);
        session.take(&Step::Grow(1)).expect("more room");
        assert_eq!(session.take(&Step::Finish), Ok(()));
        assert_eq!(session.output(), whole.standing());
    }
}

/// Drawn records with blocks closed now and then: what the lists say, the figures say too, and the finished file is accepted and holds them.
#[test]
fn drawn_sessions() {
    let mut random = Random::new(8);
    let mut short = 0;
    for _ in 0..300 {
        let mut records: Vec<Vec<u8>> = (0..1 + random.below(20))
            .map(|_| random.string(4))
            .collect();
        records.sort();
        let (per_block, per_index) = (1 + random.below(4), 2 + random.below(3));
        let mut session = after(AMPLE, &[begin(per_block as u64, per_index as u64)]);
        for (at, record) in records.iter().enumerate() {
            session.take(&add(record)).expect("a record");
            if random.once_in(4) {
                session.take(&Step::Close).expect("a block");
            }
            let standing = session.standing();
            assert_eq!(standing, unfinished(b"{}", session.blocks()));
            assert_eq!(check(standing, AMPLE).number, 2);
            let next = standing.len();
            let last = (next - 8 - record.len()) as u64;
            assert_eq!(session.figures(), counted(1 + at as u64, last, next as u64));
        }
        let before = session.figures();
        session.take(&Step::Finish).expect("a file");
        let file = session.standing();
        let total = file.len() as u64;
        assert_eq!(
            session.figures(),
            counted(before.records, before.last, total)
        );
        assert_eq!((check(file, AMPLE).number, faults(file).len()), (0, 0));
        let found = read(file, &Query::default(), AMPLE);
        let numbers = &found.results[..records.len()];
        assert_eq!(records_at(file, numbers), records);
        short += compare_with_writer(&session, &records, per_block, per_index);
    }
    assert!((50..250).contains(&short), "{short}");
}

/// The writer's file is that of the session unless a block was closed early. Gives 1 where one was.
fn compare_with_writer(
    session: &Session,
    records: &[Vec<u8>],
    per_block: usize,
    per_index: usize,
) -> u32 {
    let counts = Counts {
        per_block: per_block as u64,
        per_index: per_index as u64,
    };
    let written = write(b"{}", &Plan::data(records).payload(&[]), counts, AMPLE);
    let is_same = written.as_deref() == Ok(session.standing());
    assert_ne!(is_same, session.has_short_block());
    u32::from(!is_same)
}

/// Bytes of any kind have figures.
#[test]
fn figures_of_other_bytes() {
    let file = after(AMPLE, &[begin(2, 2), add(b"a"), add(b"b"), Step::Finish]);
    let file = file.standing();
    assert_eq!(figures(b""), counted(0, 0, 0));
    for length in 0..file.len() {
        figures(&file[..length]);
        let mut other = file.to_vec();
        for byte in [0x00, 0x7f, 0xff] {
            other[length] = byte;
            figures(&other);
        }
    }
}
