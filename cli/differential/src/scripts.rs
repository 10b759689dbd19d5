//! Steps of sessions: files begun, added to and finished, refusals of every kind among them, and outputs about as long as needed.

use crate::faults::bad_metadata;
use crate::inputs::{counts, spoil_counts};
use crate::shapes::metadata;
use crate::strings::{row, Kind};
use zs_reference::maker::random::Random;
use zs_reference::maker::{encode, Plan};
use zs_reference::session::{Session, Step};
use zs_reference::writer::Counts;

/// More bytes than any step needs.
const PLENTY: usize = 1 << 40;

/// Lengths of an open block, level and payload, about those with which its number takes one byte more.
const SHORT: [usize; 6] = [100, 125, 126, 127, 127, 128];
const LONG: [usize; 5] = [16_382, 16_383, 16_383, 16_384, 16_385];

/// Draws the steps of a session, starting afresh first.
pub fn draw_steps(random: &mut Random) -> Vec<Step> {
    let mut intended = Intended::default();
    intended.add_file(random);
    if random.once_in(4) {
        intended.take(Step::Afresh { room: PLENTY });
        intended.add_file(random);
    }
    let mut script = Script::default();
    script.take(Step::Afresh {
        room: intended.draw_room(random),
    });
    for step in &intended.steps {
        match step {
            Step::Afresh { .. } => {
                let same = script.session.room();
                let other = intended.draw_room(random);
                let room = random.pick(&[same, other]);
                script.take(Step::Afresh { room });
            }
            step => script.try_step(random, step),
        }
    }
    script.finish_at_last(random);
    script.steps
}

/// How many bytes an output needs for a step that is refused with 31, or isn't refused.
pub fn needed(session: &Session, step: &Step) -> usize {
    let mut session = session.clone();
    let grown = session.take(&Step::Grow(PLENTY));
    let taken = grown.and_then(|()| session.take(step));
    taken.map_or(0, |()| session.standing().len())
}

/// The length of the open block, level and payload; 0 where none is open.
pub fn extent(session: &Session) -> usize {
    match session.open_block() {
        [] => 0,
        records => 1 + Plan::data(records).payload(&[]).len(),
    }
}

/// Steps as they would be taken with plenty of room.
#[derive(Debug)]
struct Intended {
    steps: Vec<Step>,
    session: Session,
    /// How many bytes the steps need that aren't refused.
    needs: Vec<usize>,
}

impl Default for Intended {
    fn default() -> Self {
        Intended {
            steps: Vec::new(),
            session: Session::afresh(PLENTY),
            needs: Vec::new(),
        }
    }
}

impl Intended {
    fn take(&mut self, step: Step) {
        let taken = self.session.take(&step);
        if taken.is_ok() && !self.session.standing().is_empty() {
            self.needs.push(self.session.standing().len());
        }
        self.steps.push(step);
    }

    /// Bytes of an output: plenty, as many as some step needs, or a byte less. The last step needs most, and the first one least.
    fn draw_room(&self, random: &mut Random) -> usize {
        let any = self.needs.get(random.below(self.needs.len())).copied();
        let first = self.needs.first().copied();
        let most = self.needs.iter().max().copied().unwrap_or(0);
        let need = match random.below(8) {
            0 => return random.below(most + 1),
            1 => return most + 1 + random.below(99),
            2 => first.unwrap_or(0),
            3..=5 => any.unwrap_or(0),
            _ => most,
        };
        need.saturating_sub(random.pick(&[0, 1, 1]))
    }

    /// Adds the steps of a file, with refused ones before, within and after it.
    fn add_file(&mut self, random: &mut Random) {
        for _ in 0..random.pick(&[0, 0, 1, 2]) {
            let step = self.draw_stray(random);
            if !matches!(step, Step::Begin { .. }) {
                self.take(step);
            }
        }
        for _ in 0..random.pick(&[0, 1]) {
            let step = wrong_begin(random);
            self.take(step);
        }
        let mut source = Source::draw(random);
        let begin = Step::Begin {
            metadata: metadata(random),
            counts: source.counts(random),
        };
        self.take(begin);
        for _ in 0..random.pick(&[1, 2, 3, 4, 6, 9]) {
            if random.once_in(4) {
                let stray = self.draw_stray(random);
                self.take(stray);
            }
            let record = source.next(random, &self.session);
            self.take(Step::Add(record));
            if random.once_in(6) {
                self.take(Step::Close);
            }
        }
        if !random.once_in(8) {
            self.take(Step::Finish);
        }
        for _ in 0..random.pick(&[0, 0, 1, 2, 3]) {
            let stray = self.draw_stray(random);
            self.take(stray);
        }
    }

    /// Draws a step that is most likely refused at this point, or closes a block.
    fn draw_stray(&mut self, random: &mut Random) -> Step {
        let lower = lower_record(random, &self.session);
        match random.below(8) {
            0 => wrong_begin(random),
            1 => Step::Begin {
                metadata: metadata(random),
                counts: counts(random),
            },
            2 | 3 => Step::Close,
            4 if self.session.blocks().is_empty() || self.session.is_finished() => Step::Finish,
            5 if !self.session.is_begun() => Step::Add(random.string(5)),
            _ => lower.map_or(Step::Close, Step::Add),
        }
    }
}

/// 30, 9, or both of them.
fn wrong_begin(random: &mut Random) -> Step {
    let (mut counts, mut metadata) = (counts(random), metadata(random));
    let which = random.below(3);
    if which != 0 {
        spoil_counts(random, &mut counts);
    }
    if which != 1 {
        metadata = bad_metadata(random);
    }
    Step::Begin { metadata, counts }
}

/// 29: a beginning of the last record, or one that parts from it with a lower byte, and may be much longer. None where no record is lower.
fn lower_record(random: &mut Random, session: &Session) -> Option<Vec<u8>> {
    let last = session.blocks().last()?.last()?;
    let at = random.below(last.len());
    let byte = *last.get(at)?;
    let mut lower = last[..at].to_vec();
    if byte > 0 && !random.once_in(3) {
        lower.push(random.pick(&[0, byte - 1]));
        lower.extend(vec![0xff; random.pick(&[0, 1, 3, 300])]);
    }
    Some(lower)
}

/// Where records come from.
#[derive(Debug)]
enum Source {
    /// From a list of records that rise.
    Listed(std::vec::IntoIter<Vec<u8>>),
    /// Of lengths that make the open block as long as matters.
    Filling,
}

impl Source {
    fn draw(random: &mut Random) -> Self {
        if random.once_in(2) {
            return Source::Filling;
        }
        let mut records = row(random);
        if random.once_in(2) {
            let kind = Kind::draw(random);
            records = (0..9).map(|_| kind.string(random)).collect();
            records.sort();
        }
        Source::Listed(records.into_iter())
    }

    /// Few records in a block, but for those that are to fill one.
    fn counts(&self, random: &mut Random) -> Counts {
        let counts = counts(random);
        match self {
            Source::Listed(_) => counts,
            Source::Filling => Counts {
                per_block: random.pick(&[2, 3, 9, 65_535]),
                ..counts
            },
        }
    }

    /// The next record, which isn't less than the last one.
    fn next(&mut self, random: &mut Random, session: &Session) -> Vec<u8> {
        let records = session.blocks();
        let last = records.last().and_then(|block| block.last()).cloned();
        match self {
            Source::Listed(records) => records.next().unwrap_or_else(|| last.unwrap_or_default()),
            Source::Filling => {
                let count = records.iter().map(Vec::len).sum::<usize>() as u16;
                let mut record = (1 + count).to_be_bytes().to_vec();
                let length = draw_length(random, session).max(record.len());
                record.resize(length, random.pick(&[0x00, 0x61, 0xff]));
                record
            }
        }
    }
}

/// The length of a record that fills the open block, or a new one where that is full, as far as matters.
fn draw_length(random: &mut Random, session: &Session) -> usize {
    let open = if session.is_full() {
        0
    } else {
        extent(session)
    };
    let extents = match open {
        0 => [&SHORT[..], &LONG[..1]].concat(),
        1..=127 => [&SHORT[3..], &[129], &LONG].concat(),
        _ => LONG.to_vec(),
    };
    length_of(random.pick(&extents).saturating_sub(open.max(1)))
}

/// The length of a record that takes so many bytes with its number, or one less where there is none.
fn length_of(size: usize) -> usize {
    let lengths = (0..=size).rev().take(4);
    let mut fitting = lengths.filter(|length| length + encode(*length as u64).len() <= size);
    fitting.next().unwrap_or(0)
}

/// Steps as they are taken.
#[derive(Debug)]
struct Script {
    steps: Vec<Step>,
    session: Session,
}

impl Default for Script {
    fn default() -> Self {
        Script {
            steps: Vec::new(),
            session: Session::afresh(0),
        }
    }
}

impl Script {
    /// Takes a step, and gives the number of its refusal, or 0.
    fn take(&mut self, step: Step) -> u64 {
        let number = self.session.take(&step).err().unwrap_or(0);
        self.steps.push(step);
        number
    }

    /// Takes a step, at times after the output has grown. Where it is refused for want of room, it is mostly taken again with an output that
    /// has grown: to a byte less than needed, to just as much, to more, or not enough.
    fn try_step(&mut self, random: &mut Random, step: &Step) {
        if random.once_in(12) {
            let bytes = random.pick(&[0, 1, 2, 20]);
            self.grow(bytes);
        }
        if self.take(step.clone()) != 31 || random.once_in(3) {
            return;
        }
        let missing = needed(&self.session, step) - self.session.room();
        match random.below(5) {
            0 | 1 => {
                self.grow(missing - 1);
                self.take(step.clone());
                self.grow(1);
            }
            2 => self.grow(missing),
            3 => self.grow(missing + random.below(50)),
            _ => self.grow(random.below(missing)),
        }
        self.take(step.clone());
    }

    fn grow(&mut self, bytes: usize) {
        self.take(Step::Grow(bytes));
    }

    /// Mostly finishes a file that is left unfinished, with an output that has grown as needed.
    fn finish_at_last(&mut self, random: &mut Random) {
        if !self.session.is_begun() || random.once_in(3) {
            return;
        }
        let most = needed(&self.session, &Step::Finish);
        self.grow(most.saturating_sub(self.session.room()));
        self.take(Step::Finish);
    }
}
