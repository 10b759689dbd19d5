//! Sessions: the output and the figures after each step, refusals that change nothing, outputs that grow, and the writer's file.

use zs_library::{
    check, read, write, Counts, Part, Query, Refused, Session, Stepped, Writer, UNFINISHED,
};

const COUNTS: Counts = Counts {
    per_block: 2,
    per_index: 2,
};
const RECORDS: [&[u8]; 4] = [b"a", b"b\xff", b"b\xff", b"c"];
const INPUT: &[u8] = b"\x01a\x02b\xff\x02b\xff\x01c";

/// A header with the metadata `{}` takes so many bytes.
const HEADER: usize = 106;

/// What the writer makes of these records.
fn written(input: &[u8], counts: Counts) -> Vec<u8> {
    let mut output = vec![7; 5000];
    let answer = write(b"{}", input, counts, &mut output);
    assert_eq!(answer.number, 0);
    output.truncate(answer.length as usize);
    output
}

/// A file that is begun, with room for so many bytes after its header.
fn begun(counts: Counts, more: usize) -> Writer {
    let mut writer = Writer::new(HEADER + more);
    assert_eq!(writer.begin(b"{}", counts), Ok(()));
    writer
}

fn figures(writer: &Writer) -> [u64; 3] {
    [writer.records(), writer.last_record(), writer.next_block()]
}

/// A step is refused with this number, and nothing has changed.
fn expect_refusal(
    writer: &mut Writer,
    number: u64,
    step: impl FnOnce(&mut Writer) -> Result<(), Refused>,
) {
    let before = writer.clone();
    assert_eq!(step(writer), Err(Refused { number, place: 0 }));
    assert_eq!(*writer, before);
}

fn refuse_begin(writer: &mut Writer) {
    expect_refusal(writer, 28, |writer| writer.begin(b"{}", COUNTS));
    expect_refusal(writer, 28, |writer| {
        writer.begin(
            b"oops",
            Counts {
                per_block: 0,
                ..COUNTS
            },
        )
    });
}

#[test]
fn one_record_at_a_time() {
    let mut writer = Writer::on(vec![7; 160]);
    assert_eq!(writer.output(), [0; 160]);
    assert_eq!((figures(&writer), writer.standing()), ([0; 3], &[][..]));
    assert_eq!(writer.begin(b"{}", COUNTS), Ok(()));
    assert_eq!(figures(&writer), [0, 0, 106]);
    let due = [[1, 109, 118], [2, 111, 121], [3, 124, 134], [4, 127, 136]];
    for (record, due) in RECORDS.iter().zip(due) {
        assert_eq!(writer.add(record), Ok(()));
        assert_eq!(figures(&writer), due);
        let last = &writer.output()[due[1] as usize..][..record.len()];
        assert_eq!(last, *record);
        let output = writer.output();
        assert!(output.starts_with(&UNFINISHED));
        assert!(output[16..72].iter().all(|byte| *byte == 0));
        assert!(output[98..HEADER].iter().all(|byte| *byte == 0));
        assert!(output[due[2] as usize..].iter().all(|byte| *byte == 0));
        assert_eq!(check(output, &mut [7; 20]).number, 2);
    }
    assert_eq!(writer.finish(), Ok(()));
    assert_eq!(figures(&writer), [4, 127, 154]);
    assert_eq!(writer.output()[154..], [0; 6]);
    assert_eq!(writer.into_standing(), written(INPUT, COUNTS));
}

#[test]
fn the_file_is_the_writer_s_unless_a_block_is_closed_early() {
    for (closes, is_same) in [
        (&[][..], true),
        (&[2], true),
        (&[4], true),
        (&[2, 4], true),
        (&[1], false),
        (&[3], false),
        (&[1, 2, 3, 4], false),
    ] {
        let mut writer = begun(COUNTS, 200);
        for (count, record) in (1..).zip(RECORDS) {
            assert_eq!(writer.add(record), Ok(()));
            if closes.contains(&count) {
                assert_eq!(writer.close_block(), Ok(()));
            }
        }
        assert_eq!(writer.finish(), Ok(()));
        let file = writer.into_standing();
        assert_eq!(file == written(INPUT, COUNTS), is_same, "{closes:?}");
        let checked = check(&file, &mut [7; 20]);
        assert_eq!((checked.number, checked.records), (0, 4));
        let everything = Query {
            start: &[],
            stop: None,
            prefix: &[],
        };
        let mut results = [7; 4];
        assert_eq!(read(&file, &everything, &mut results).matches, 4);
        let parts = results.map(Part::of_match);
        let found = parts.map(|part| zs_library::bytes(&file, part.offset, part.length));
        assert_eq!(found, RECORDS);
    }
}

#[test]
fn steps_out_of_turn_are_refused_first() {
    let mut writer = Writer::new(0);
    expect_refusal(&mut writer, 28, |writer| writer.add(b""));
    expect_refusal(&mut writer, 28, Writer::close_block);
    expect_refusal(&mut writer, 28, Writer::finish);

    let mut writer = begun(COUNTS, 0);
    refuse_begin(&mut writer);
    expect_refusal(&mut writer, 28, Writer::close_block);
    expect_refusal(&mut writer, 28, Writer::finish);

    let mut writer = begun(COUNTS, 24);
    assert_eq!(writer.add(b""), Ok(()));
    assert_eq!(writer.close_block(), Ok(()));
    expect_refusal(&mut writer, 28, Writer::close_block);
    refuse_begin(&mut writer);
    assert_eq!(writer.finish(), Ok(()));
    refuse_begin(&mut writer);
    expect_refusal(&mut writer, 28, |writer| writer.add(b""));
    expect_refusal(&mut writer, 28, |writer| writer.add(&[7; 99]));
    expect_refusal(&mut writer, 28, Writer::close_block);
    expect_refusal(&mut writer, 28, Writer::finish);

    writer.start_afresh();
    assert_eq!(writer, Writer::new(130));
}

#[test]
fn begin_refuses_counts_then_metadata_then_room() {
    let mut writer = Writer::new(HEADER - 1);
    for (per_block, per_index) in [(0, 2), (65_536, 2), (1, 1), (1, 65_536), (1 << 32 | 1, 2)] {
        let counts = Counts {
            per_block,
            per_index,
        };
        expect_refusal(&mut writer, 30, |writer| writer.begin(b"oops", counts));
    }
    expect_refusal(&mut writer, 9, |writer| writer.begin(b"oops", COUNTS));
    expect_refusal(&mut writer, 31, |writer| writer.begin(b"{}", COUNTS));
    writer.grow(1);
    assert_eq!(writer.begin(b"{}", COUNTS), Ok(()));
    assert_eq!(writer, begun(COUNTS, 0));
}

/// The block is framed with the new record before its room is judged, and a full block is closed before that and stays full after a refusal.
#[test]
fn add_refuses_order_then_room() {
    let counts = Counts {
        per_block: 1,
        ..COUNTS
    };
    let mut writer = begun(counts, 11);
    expect_refusal(&mut writer, 31, |writer| writer.add(b"b"));
    writer.grow(1);
    assert_eq!(writer.add(b"b"), Ok(()));
    for room in 0..12 {
        expect_refusal(&mut writer, 29, |writer| writer.add(b"a\xff"));
        expect_refusal(&mut writer, 31, |writer| writer.add(b"b"));
        assert_eq!(writer.output().len(), HEADER + 12 + room);
        writer.grow(1);
    }
    assert_eq!(writer.add(b"b"), Ok(()));
    assert_eq!(figures(&writer), [2, 121, 130]);
}

/// As its length passes 127 bytes, and 16,383, a block's number takes one byte more, and so much room is needed.
#[test]
fn an_open_block_moves() {
    let counts = Counts {
        per_block: 9,
        ..COUNTS
    };
    // The lengths of records that are added, and of the block's number then. A record has its own number before it, and a block the level.
    for (lengths, digits) in [
        ([123, 1], [1, 1]),
        ([124, 1], [1, 2]),
        ([125, 1], [1, 2]),
        ([124, 16_255], [1, 2]),
        ([124, 16_256], [1, 3]),
        ([16_378, 1], [2, 2]),
        ([16_379, 1], [2, 3]),
        ([16_380, 1], [2, 3]),
    ] {
        let mut writer = begun(counts, 0);
        let mut input = Vec::new();
        for ((byte, length), digits) in (0..).zip(lengths).zip(digits) {
            let record = vec![byte; length];
            input.extend(number(record.len()));
            input.extend(&record);
            let needed = HEADER + digits + 1 + input.len() + 8;
            writer.grow(needed - 1 - writer.output().len());
            expect_refusal(&mut writer, 31, |writer| writer.add(&record));
            writer.grow(1);
            assert_eq!(writer.add(&record), Ok(()));
            let last = (needed - 8 - record.len()) as u64;
            assert_eq!(figures(&writer), [1 + u64::from(byte), last, needed as u64]);
            let block = &writer.output()[HEADER..];
            assert_eq!(block[..digits], number(1 + input.len()));
            assert_eq!(block[digits], 0);
            assert_eq!(block[digits + 1..][..input.len()], input);
        }
        writer.grow(100);
        assert_eq!(writer.finish(), Ok(()));
        let mut output = vec![7; 40_000];
        let answer = write(b"{}", &input, counts, &mut output);
        assert_eq!(writer.standing(), &output[..answer.length as usize]);
    }
}

/// A number in its shortest form, of at most three bytes.
fn number(value: usize) -> Vec<u8> {
    let digit = |place: u32| (value >> (7 * place)) as u8;
    match value {
        0..=127 => vec![digit(0)],
        128..=16_383 => vec![digit(0) | 0x80, digit(1)],
        _ => vec![digit(0) | 0x80, digit(1) | 0x80, digit(2)],
    }
}

/// Where the index doesn't fit, what was written of it is cleared again.
#[test]
fn finish_at_every_room() {
    let length = written(INPUT, COUNTS).len();
    let mut writer = begun(COUNTS, 30);
    for record in RECORDS {
        assert_eq!(writer.add(record), Ok(()));
    }
    for room in HEADER + 30..length {
        assert_eq!(writer.output().len(), room);
        expect_refusal(&mut writer, 31, Writer::finish);
        writer.grow(1);
    }
    assert_eq!(writer.finish(), Ok(()));
    assert_eq!(writer.output(), written(INPUT, COUNTS));
}

/// The same with values of one's own.
#[test]
fn sessions_are_values() {
    let mut output = [7; 200];
    let session = Session::afresh(&mut output);
    assert_eq!(output, [0; 200]);
    let begun = session.begin(b"{}", COUNTS, &mut output);
    assert_eq!((begun.number, begun.place, begun.session.next), (0, 0, 106));
    let kept = output;
    let added = begun.session.add(b"a", &mut output);
    assert_eq!(added.session.records, 1);
    // The output of the step before, and the session of that step: the step comes out the same.
    let mut other = kept;
    assert_eq!(begun.session.add(b"a", &mut other), added);
    assert_eq!(other, output);
    let closed = added.session.close_block(&output);
    assert_eq!((closed.number, closed.session.next), (0, 118));
    let finished = closed.session.finish(&mut output);
    assert_eq!(finished.number, 0);
    let end = finished.session.next as usize;
    assert_eq!(output[..end], written(b"\x01a", COUNTS));
    let refused = finished.session.add(b"b", &mut output);
    let due = Stepped {
        number: 28,
        ..finished
    };
    assert_eq!(refused, due);
}

/// A session is nothing but its numbers, the figures first.
#[test]
fn numbers_of_a_session() {
    let numbers = [1, 2, 3, 4, 5, 6, 7, 8, 9, 10, 11];
    let session = Session::from_numbers(numbers);
    assert_eq!(session.numbers(), numbers);
    assert_eq!((session.records, session.last, session.next), (1, 2, 3));
    assert_eq!(Session::afresh(&mut []).numbers()[..3], [0; 3]);
}
