//! Steps of sessions: every step out of turn, refusals of every kind, outputs just long enough and a byte too short, and blocks that move.

use super::{encode_steps, Call, Case, Claim, Corpus, LONGEST_DATA};
use crate::maker::random::Random;
use crate::session::{Session, Step};
use crate::writer::Counts;

/// More bytes than any step here needs.
const PLENTY: usize = 1 << 20;

/// Adds the steps and their cases.
pub fn add(corpus: &mut Corpus) {
    add_example(corpus);
    add_turns(corpus);
    add_begins(corpus);
    add_adds(corpus);
    add_full_blocks(corpus);
    add_moves(corpus);
    add_early_closes(corpus);
    add_afresh(corpus);
    add_longest(corpus);
    for number in 0..4 {
        add_drawn(corpus, number);
    }
}

/// Steps that are being put together, and where they lead.
struct Steps {
    steps: Vec<Step>,
    session: Session,
}

impl Steps {
    /// Starts afresh, on an output of so many bytes.
    fn new(room: usize) -> Self {
        let mut steps = Steps {
            steps: Vec::new(),
            session: Session::afresh(0),
        };
        steps.take(Step::Afresh { room });
        steps
    }

    /// Takes a step, whether it is refused or not.
    fn take(&mut self, step: Step) -> &mut Self {
        let _ = self.session.take(&step);
        self.steps.push(step);
        self
    }

    fn add(&mut self, record: &[u8]) -> &mut Self {
        self.take(Step::Add(record.to_vec()))
    }

    /// The bytes that a step needs which isn't refused, or is for want of room alone.
    fn needed(&self, step: &Step) -> usize {
        let mut ample = self.session.clone();
        let grown = ample.take(&Step::Grow(PLENTY));
        let taken = grown.and_then(|()| ample.take(step));
        taken.map_or(0, |()| ample.standing().len())
    }

    /// Makes the output so long, if it isn't longer.
    fn grow_to(&mut self, room: usize) -> &mut Self {
        let missing = room.saturating_sub(self.session.room());
        self.take(Step::Grow(missing))
    }

    /// Takes a step with an output that is a byte too short, if it isn't longer already, and again with one that is just long enough.
    fn take_tightly(&mut self, step: Step) -> &mut Self {
        let needed = self.needed(&step);
        self.grow_to(needed.saturating_sub(1));
        if self.session.room() < needed {
            self.take(step.clone()).grow_to(needed);
        }
        self.take(step)
    }

    fn add_to(&self, corpus: &mut Corpus, name: &str) {
        corpus.add_file(name, encode_steps(&self.steps), Claim::Steps);
        corpus.cases.push(Case::new(name, Call::Session));
    }
}

fn begin_with(metadata: &[u8], per_block: u64, per_index: u64) -> Step {
    Step::Begin {
        metadata: metadata.to_vec(),
        counts: Counts {
            per_block,
            per_index,
        },
    }
}

fn begin(per_block: u64, per_index: u64) -> Step {
    begin_with(b"{}", per_block, per_index)
}

/// The example with two data blocks of docs/FORMAT.md, with zeros behind it, and to the byte.
fn add_example(corpus: &mut Corpus) {
    for (name, room) in [("session-example", 160), ("session-exact", 154)] {
        let mut steps = Steps::new(room);
        steps.take(begin(2, 2));
        steps.add(b"a").add(b"b\xff").add(b"b\xff").add(b"c");
        steps.take(Step::Finish).add_to(corpus, name);
    }
    let mut steps = Steps::new(0);
    steps.take_tightly(begin(1, 2));
    steps.take_tightly(Step::Add(Vec::new()));
    steps.take_tightly(Step::Finish);
    steps.add_to(corpus, "session-smallest");
}

/// Every step before begin, after it, with an open block, with a closed one, and once finished.
fn add_turns(corpus: &mut Corpus) {
    let every = [
        begin(1, 2),
        begin_with(b"oops", 0, 0),
        Step::Add(b"a".to_vec()),
        Step::Close,
        Step::Close,
        Step::Finish,
    ];
    let mut steps = Steps::new(200);
    steps.add(b"").take(Step::Close).take(Step::Finish);
    steps.take(begin(2, 2)).take(Step::Close).take(Step::Finish);
    steps.take(begin(2, 2)).take(begin_with(b"", 0, 9));
    steps.add(b"a").take(begin(2, 2)).take(Step::Close);
    steps.take(Step::Close).take(begin(2, 2));
    steps.take(Step::Finish);
    for step in every {
        steps.take(step);
    }
    steps.take(Step::Grow(9)).take(Step::Afresh { room: 209 });
    steps.take(Step::Close).add_to(corpus, "session-turns");
}

/// 30, 9 and 31 of begin, alone and together, and metadata of some bytes.
fn add_begins(corpus: &mut Corpus) {
    let mut steps = Steps::new(50);
    for (per_block, per_index) in [
        (0, 2),
        (65_536, 2),
        (1, 1),
        (1, 65_536),
        ((1 << 32) + 1, 2),
        (u64::MAX, u64::MAX),
    ] {
        steps.take(begin_with(b"{oops}", per_block, per_index));
    }
    for metadata in [&b""[..], b"{", b"[]", b"{oops}", b"{} "] {
        steps.take(begin_with(metadata, 1, 2));
    }
    steps.take(begin(65_535, 65_535));
    steps.take_tightly(begin_with(b"{\"about\": \"sessions\"}", 65_535, 65_535));
    steps.take_tightly(Step::Add(b"a".to_vec()));
    steps.take_tightly(Step::Finish);
    steps.add_to(corpus, "session-begin");
}

/// Records that are lower, equal and greater, with and without room.
fn add_adds(corpus: &mut Corpus) {
    let mut steps = Steps::new(106);
    steps.take(begin(9, 2));
    steps.take_tightly(Step::Add(b"b".to_vec()));
    for record in [&b""[..], b"a", b"a\xff\xff", &[b'a'; 300], b"b", b"b\0"] {
        steps.add(record);
    }
    for record in [&b"b"[..], b"b", b"b\0", b"b\xff", b"\x80", b"\xff"] {
        steps.take_tightly(Step::Add(record.to_vec()));
    }
    steps.add(b"\xfe\xff").add(b"\x7f");
    steps.take_tightly(Step::Finish);
    steps.add_to(corpus, "session-add");
}

/// Refusals where the next record begins a block, and equal records on both sides.
fn add_full_blocks(corpus: &mut Corpus) {
    for per_block in 1..=2 {
        let mut steps = Steps::new(106);
        steps.take(begin(per_block, 2));
        for record in [&b""[..], b"", b"a", b"a", b"b", b"b", b"b"] {
            steps.take_tightly(Step::Add(record.to_vec()));
            if record > b"a" {
                steps.add(b"a");
            }
        }
        steps.take_tightly(Step::Finish);
        steps.add_to(corpus, &format!("session-full-{per_block}"));
    }
}

/// Blocks that pass 127 bytes, and 16,383, and both at once: with their second record level and payload have as many bytes as the name says.
fn add_moves(corpus: &mut Corpus) {
    for (name, lengths) in [
        ("session-127", [123, 1]),
        ("session-128", [124, 1]),
        ("session-129", [125, 1]),
        ("session-16383", [16_378, 1]),
        ("session-16384", [16_379, 1]),
        ("session-16385", [16_380, 1]),
        ("session-to-16383", [124, 16_255]),
        ("session-to-16384", [124, 16_256]),
    ] {
        let mut steps = Steps::new(106);
        let first = Step::Add(vec![0; lengths[0]]);
        let needed = steps.take(begin(5, 2)).needed(&first);
        steps.grow_to(needed).take(first);
        steps.take_tightly(Step::Add(vec![1; lengths[1]]));
        steps.take_tightly(Step::Add(vec![2]));
        steps.take_tightly(Step::Finish);
        steps.add_to(corpus, name);
    }
}

/// Blocks closed early, once and often, with a full one, and last of all.
fn add_early_closes(corpus: &mut Corpus) {
    let letters: Vec<u8> = (b'a'..=b'm').collect();
    for (name, closes) in [
        ("session-early-one", &b"a"[..]),
        ("session-early-full", b"cf"),
        ("session-early-last", b"m"),
        ("session-early-all", &letters),
        ("session-early-some", b"behk"),
    ] {
        let mut steps = Steps::new(300);
        steps.take(begin(3, 2));
        for letter in &letters {
            steps.add(&vec![*letter; 1 + usize::from(letter % 4)]);
            if closes.contains(letter) {
                steps.take(Step::Close);
            }
        }
        steps.take(Step::Grow(80)).take(Step::Finish);
        steps.take_tightly(Step::Finish);
        steps.take(Step::Close).add_to(corpus, name);
    }
}

/// Starting afresh on shorter and longer outputs, in the middle of a file and after its end.
fn add_afresh(corpus: &mut Corpus) {
    let mut steps = Steps::new(0);
    for room in [10, 106, 130, 300, 106, 131, 65_536, 130] {
        steps.take(Step::Afresh { room }).take(begin(1, 2));
        steps.add(b"").take(Step::Close).take(Step::Finish);
    }
    steps.take(Step::Afresh { room: 0 }).take(Step::Grow(130));
    steps.take(begin(1, 2)).add(b"").take(Step::Finish);
    steps.add_to(corpus, "session-afresh");
}

/// A file as long as the longest output of a case. Beside its record, the only data block has 3 bytes of its number, the level, 3 bytes of the
/// record's number and the CRC. The index block has 15 bytes.
fn add_longest(corpus: &mut Corpus) {
    let length = LONGEST_DATA - 106 - 15 - 3 - 1 - 3 - 8;
    let mut steps = Steps::new(LONGEST_DATA);
    steps.take(begin(1, 2)).add(&vec![0x5a; length]);
    steps.take(Step::Finish).add_to(corpus, "session-longest");
}

/// Drawn records, with blocks closed and lower records now and then, and outputs that grow.
fn add_drawn(corpus: &mut Corpus, number: u64) {
    let mut random = Random::new(800 + number);
    let mut steps = Steps::new(100 + random.below(20));
    let per_block = 1 + random.below(4) as u64;
    steps.take_tightly(begin(per_block, 2 + random.below(2) as u64));
    let mut records: Vec<Vec<u8>> = (0..9).map(|_| random.string(5)).collect();
    records.sort();
    for record in &records {
        match random.below(6) {
            0 => steps.take(Step::Close),
            1 => steps.add(&random.string(2)),
            2 => steps.take(Step::Grow(random.below(30))),
            _ => &mut steps,
        }
        .take_tightly(Step::Add(record.clone()));
    }
    steps.take_tightly(Step::Finish);
    steps.add_to(corpus, &format!("session-drawn-{number}"));
}
