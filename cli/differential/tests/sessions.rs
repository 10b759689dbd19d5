//! Sessions by enumeration about the lengths at which an open block moves, and sessions of very many records. Then what the maker of steps promises.

use zs_differential::call::Call;
use zs_differential::compare::compare;
use zs_differential::scripts::{draw_steps, needed};
use zs_library::{check, Counts, Session, Writer};
use zs_reference::maker::random::Random;
use zs_reference::maker::Plan;
use zs_reference::session::{self, unfinished, Step};
use zs_reference::writer::{self, write};

fn begin(per_block: u64, per_index: u64) -> Step {
    Step::Begin {
        metadata: b"{}".to_vec(),
        counts: writer::Counts {
            per_block,
            per_index,
        },
    }
}

/// Takes the steps with both implementations, which must agree, and gives the numbers.
fn numbers(steps: &[Step]) -> Vec<u64> {
    let call = Call::Session {
        steps: steps.to_vec(),
    };
    let outcome = compare(&mut Random::new(1), &[], &call);
    assert_eq!(outcome.differences, Vec::<String>::new(), "{}", call.text());
    outcome.steps.iter().map(|(_, number)| *number).collect()
}

/// Two records of these lengths in one block: for the second one and for finish the output is a byte too short, then just long enough.
fn expect_edges(lengths: [usize; 2]) {
    let [first, second] = [0, 1].map(|at| Step::Add(vec![at as u8; lengths[at]]));
    let mut model = session::Session::afresh(1 << 30);
    for step in [begin(2, 2), first.clone()] {
        model.take(&step).expect("a step");
    }
    let room = needed(&model, &second);
    model.take(&second).expect("a record");
    let total = needed(&model, &Step::Finish);
    let given = numbers(&[
        Step::Afresh { room: room - 1 },
        begin(2, 2),
        first,
        second.clone(),
        Step::Grow(1),
        second,
        Step::Grow(total - 1 - room),
        Step::Finish,
        Step::Grow(1),
        Step::Finish,
    ]);
    assert_eq!(given, [0, 0, 31, 0, 31, 0], "{lengths:?}");
}

/// Every length of a first record with which the block has about 128 bytes, or about 16,384, and second records of few bytes, and of as many as
/// lead to the next such length.
#[test]
fn every_length_about_a_move() {
    for first in (0..4).chain(118..132).chain(16_374..16_388) {
        for second in 1..6 {
            expect_edges([first, second]);
        }
    }
    for first in [0, 1, 100, 122, 123, 124, 125, 126, 127, 128] {
        let left = 16_384 - first;
        for second in left - 12..left + 2 {
            expect_edges([first, second]);
        }
    }
}

/// Records with which the block has about 2,097,152 bytes, from which on its number takes four.
#[test]
fn a_number_of_four_bytes() {
    const MOVE: usize = 2_097_152;
    for lengths in [
        [MOVE - 6, 1],
        [MOVE - 7, 1],
        [MOVE - 8, 1],
        [20, MOVE - 26],
        [20, MOVE - 27],
        [16_000, MOVE - 16_010],
    ] {
        expect_edges(lengths);
    }
}

/// Adds records that rise, and looks at the figures after each, and at the whole output now and then.
fn add_many(count: u32, counts: Counts) {
    let records: Vec<Vec<u8>> = (0..count)
        .map(|number| (number / 2).to_be_bytes().to_vec())
        .collect();
    let blocks = |length: usize| -> Vec<Vec<Vec<u8>>> {
        let chunks = records[..length].chunks(counts.per_block as usize);
        chunks.map(<[_]>::to_vec).collect()
    };
    let mut writer = Writer::new(16 * records.len() + 1000);
    assert_eq!(writer.begin(b"{}", counts), Ok(()));
    for (at, record) in records.iter().enumerate() {
        while writer.add(record).is_err() {
            writer.grow(writer.output().len());
        }
        let last = writer.last_record() as usize;
        assert_eq!(writer.records(), 1 + at as u64);
        assert_eq!(writer.output()[last..last + 4], record[..]);
        assert_eq!(writer.next_block() as usize, last + 4 + 8);
        if at % 9001 == 9000 {
            assert!(writer.standing() == unfinished(b"{}", &blocks(at + 1)));
        }
    }
    while writer.finish().is_err() {
        writer.grow(writer.output().len());
    }
    let input = Plan::data(&records).payload(&[]);
    let (per_block, per_index) = (counts.per_block, counts.per_index);
    let counts = writer::Counts {
        per_block,
        per_index,
    };
    let due = write(b"{}", &input, counts, usize::MAX).expect("a file");
    assert!(writer.standing() == due);
    let checked = check(writer.standing(), &mut vec![7; due.len() / 11]);
    assert_eq!((checked.number, checked.records), (0, u64::from(count)));
}

/// As many as a data block holds and one more, blocks of one record under many levels, and about as many as an index block holds.
#[test]
fn very_many_records() {
    for (count, per_block, per_index) in [
        (65_536, 65_535, 2),
        (20_000, 1, 2),
        (65_536, 1, 65_535),
        (50_000, 7, 100),
    ] {
        let counts = Counts {
            per_block,
            per_index,
        };
        add_many(count, counts);
    }
}

/// The steps begin afresh, and nothing is refused for what the maker didn't mean: most files come to an end.
#[test]
fn steps_lead_to_files() {
    let mut random = Random::new(2);
    let (mut finished, mut steps_taken) = (0, 0);
    for _ in 0..300 {
        let steps = draw_steps(&mut random);
        assert!(matches!(steps[0], Step::Afresh { .. }));
        steps_taken += steps.len();
        let mut session = session::Session::afresh(0);
        for step in &steps {
            let taken = session.take(step);
            finished += usize::from(taken.is_ok() && matches!(step, Step::Finish));
        }
    }
    assert!(finished > 200, "{finished} files");
    assert!((10..40).contains(&(steps_taken / 300)), "{steps_taken}");
}

/// A session of another output is answered, and leaves alone what is around it.
#[test]
fn sessions_of_other_outputs() {
    let mut outputs = [[7; 400], [9; 400]];
    let sessions = outputs
        .iter_mut()
        .map(|output| Session::afresh(&mut output[100..300]));
    let sessions: Vec<Session> = sessions.collect();
    let counts = Counts {
        per_block: 2,
        per_index: 2,
    };
    let begun = sessions[0].begin(b"{}", counts, &mut outputs[0][100..300]);
    let added = begun.session.add(b"a", &mut outputs[0][100..300]);
    assert_eq!(added.number, 0);
    for stepped in [begun, added] {
        for number in [
            stepped.session.add(b"b", &mut outputs[1][100..200]).number,
            stepped.session.finish(&mut outputs[1][150..300]).number,
            stepped.session.close_block(&outputs[1][..0]).number,
        ] {
            assert!([0, 28, 29, 31].contains(&number), "{number}");
        }
    }
    assert_eq!(outputs[1][..100], [9; 100]);
    assert_eq!(outputs[1][300..], [9; 100]);
}
