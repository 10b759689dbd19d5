//! What the steps of a session are like: their turn, their room, and what they do to blocks.

use std::collections::BTreeSet;

use crate::call::Call;
use crate::calls::Asked;
use crate::drawing::root_level;
use crate::scripts::{extent, needed};
use zs_reference::reader::is_metadata;
use zs_reference::session::{Session, Step};

/// What a step may be like, in words, and the test.
type Kind = (&'static str, fn(&Seen) -> bool);

const KINDS: &[Kind] = &[
    ("an add before begin", |at| at.is_early() && at.is_add()),
    ("a close before begin", |at| at.is_early() && at.is_close()),
    ("a finish before begin", |at| {
        at.is_early() && at.is_finish()
    }),
    ("begin twice", |at| {
        at.gives(28) && at.is_begin() && at.before.is_begun()
    }),
    ("begin twice with a wrong count or wrong metadata", |at| {
        at.gives(28) && at.is_wrong_begin() && at.before.is_begun()
    }),
    ("a begin once finished", |at| at.is_late() && at.is_begin()),
    ("an add once finished", |at| at.is_late() && at.is_add()),
    ("a close once finished", |at| at.is_late() && at.is_close()),
    ("a finish once finished", |at| {
        at.is_late() && at.is_finish()
    }),
    ("a close before the first record", |at| {
        at.is_idle() && at.is_close() && at.before.blocks().is_empty()
    }),
    ("a close of a closed block", |at| {
        at.is_idle() && at.is_close() && !at.before.blocks().is_empty()
    }),
    ("a finish without records", |at| {
        at.is_idle() && at.is_finish()
    }),
    ("starting afresh within a file", |at| {
        at.is_afresh() && at.before.is_begun()
    }),
    ("starting afresh once finished", |at| {
        at.is_afresh() && at.before.is_finished()
    }),
    ("a wrong count and wrong metadata", |at| {
        at.gives(30) && !is_metadata(at.metadata())
    }),
    ("wrong metadata and too little room", |at| {
        at.gives(9) && at.before.room() < 104 + at.metadata().len()
    }),
    ("a lower record and too little room", |at| {
        at.gives(29) && at.record().len() > at.before.room() - at.before.standing().len() + 20
    }),
    ("a begin to the byte", |at| at.is_begin() && at.is_exact()),
    ("a begin one byte short", |at| {
        at.is_begin() && at.is_short(1)
    }),
    ("an add to the byte", |at| at.is_add() && at.is_exact()),
    ("an add one byte short", |at| at.is_add() && at.is_short(1)),
    ("an add to the byte that closes a full block", |at| {
        at.is_add() && at.is_exact() && at.before.is_full()
    }),
    ("an add one byte short to a full block", |at| {
        at.is_add() && at.is_short(1) && at.before.is_full()
    }),
    ("an add to the byte that moves the block", |at| {
        at.is_exact() && at.is_moved()
    }),
    (
        "an add that is short by the byte of the block's number",
        |at| at.is_add() && at.is_short(1) && at.is_wider(),
    ),
    ("a finish to the byte", |at| at.is_finish() && at.is_exact()),
    ("a finish one byte short", |at| {
        at.is_finish() && at.is_short(1)
    }),
    ("a finish without any room for the index", |at| {
        at.is_finish() && at.gives(31) && at.before.standing().len() == at.before.room()
    }),
    ("a finish short by more than a byte", |at| {
        at.is_finish() && at.gives(31) && !at.is_short(1)
    }),
    ("a block that passes 127 bytes", |at| at.passes(0, 1)),
    ("a block that passes 16,383 bytes", |at| at.passes(1, 2)),
    ("a block that passes both at once", |at| at.passes(0, 2)),
    ("a block of 127 bytes", |at| at.has_extent(127)),
    ("a block of 128 bytes", |at| at.has_extent(128)),
    ("a block of 16,383 bytes", |at| at.has_extent(16_383)),
    ("a block of 16,384 bytes", |at| at.has_extent(16_384)),
    ("an add to a full block", |at| {
        at.is_add() && at.gives(0) && at.before.is_full()
    }),
    ("a lower record for a full block", |at| {
        at.gives(29) && at.before.is_full()
    }),
    ("a block closed early and added to", |at| {
        at.is_add() && at.after.has_short_block() && !at.before.has_short_block()
    }),
    ("a full block closed", |at| {
        at.is_close() && at.gives(0) && at.before.is_full()
    }),
    ("a finish with a full block open", |at| {
        at.is_finish() && at.gives(0) && at.before.is_full()
    }),
    ("a finish with a block open that isn't full", |at| {
        at.is_finish() && at.gives(0) && !at.before.is_full() && extent(at.before) > 0
    }),
    ("a finish with no block open", |at| {
        at.is_finish() && at.gives(0) && extent(at.before) == 0
    }),
    ("an empty record first", |at| {
        at.is_add() && at.gives(0) && at.record().is_empty() && at.last().is_none()
    }),
    ("an equal record", |at| {
        at.is_add() && at.gives(0) && at.last() == Some(at.record())
    }),
    ("an equal record in the next block", |at| {
        at.is_add() && at.gives(0) && at.last() == Some(at.record()) && at.begins_block()
    }),
    ("an output that grows while a block is open", |at| {
        at.is_growth() && extent(at.before) > 0
    }),
    ("an output that grows while no block is open", |at| {
        at.is_growth() && at.before.is_begun() && extent(at.before) == 0
    }),
    ("an output that grows once finished", |at| {
        at.is_growth() && at.before.is_finished()
    }),
    (
        "a finished file with two levels of index blocks and more",
        |at| at.is_finish() && at.gives(0) && root_level(at.after.standing()) > Some(1),
    ),
    ("a finished file that the writer makes too", |at| {
        at.is_finish() && at.gives(0) && !at.after.has_short_block() && at.after.blocks().len() > 1
    }),
    ("a finished file with a block closed early", |at| {
        at.is_finish() && at.gives(0) && at.after.has_short_block()
    }),
];

/// The kinds in words.
pub fn names() -> impl Iterator<Item = &'static str> {
    KINDS.iter().map(|(name, _)| *name)
}

/// The kinds that the steps of a session have; none where the calls are others.
pub fn kinds(calls: &[Asked]) -> BTreeSet<&'static str> {
    let mut kinds = BTreeSet::new();
    for (call, _) in calls {
        if let Call::Session { steps } = call {
            add_kinds(steps, &mut kinds);
        }
    }
    kinds
}

fn add_kinds(steps: &[Step], kinds: &mut BTreeSet<&'static str>) {
    let mut session = Session::afresh(0);
    for step in steps {
        let before = session.clone();
        let number = session.take(step).err().unwrap_or(0);
        let seen = Seen {
            step,
            before: &before,
            after: &session,
            number,
        };
        let held = KINDS.iter().filter(|(_, holds)| holds(&seen));
        kinds.extend(held.map(|(name, _)| *name));
    }
}

/// A step, and the session before and after it.
struct Seen<'a> {
    step: &'a Step,
    before: &'a Session,
    after: &'a Session,
    /// The refusal, or 0.
    number: u64,
}

impl Seen<'_> {
    fn is_afresh(&self) -> bool {
        matches!(self.step, Step::Afresh { .. })
    }

    fn is_begin(&self) -> bool {
        matches!(self.step, Step::Begin { .. })
    }

    fn is_add(&self) -> bool {
        matches!(self.step, Step::Add(_))
    }

    fn is_close(&self) -> bool {
        matches!(self.step, Step::Close)
    }

    fn is_finish(&self) -> bool {
        matches!(self.step, Step::Finish)
    }

    fn is_growth(&self) -> bool {
        matches!(self.step, Step::Grow(1..))
    }

    fn gives(&self, number: u64) -> bool {
        self.number == number
    }

    /// Before begin.
    fn is_early(&self) -> bool {
        self.gives(28) && !self.before.is_begun() && !self.before.is_finished()
    }

    /// Once finished.
    fn is_late(&self) -> bool {
        self.gives(28) && self.before.is_finished()
    }

    /// Refused with 28 between begin and finish.
    fn is_idle(&self) -> bool {
        self.gives(28) && self.before.is_begun()
    }

    /// The metadata that a file is begun with.
    fn metadata(&self) -> &[u8] {
        match self.step {
            Step::Begin { metadata, .. } => metadata,
            _ => &[],
        }
    }

    /// Whether begin would be refused on any output.
    fn is_wrong_begin(&self) -> bool {
        let number = Session::afresh(usize::MAX).take(self.step);
        self.is_begin() && number.is_err()
    }

    /// Whether the step fills the output to its last byte.
    fn is_exact(&self) -> bool {
        self.gives(0) && self.after.standing().len() == self.after.room()
    }

    /// Whether the output has so many bytes too few.
    fn is_short(&self, missing: usize) -> bool {
        self.gives(31) && needed(self.before, self.step) == self.before.room() + missing
    }

    /// The record that is added.
    fn record(&self) -> &[u8] {
        match self.step {
            Step::Add(record) => record,
            _ => &[],
        }
    }

    /// The last record before the step.
    fn last(&self) -> Option<&[u8]> {
        let block = self.before.blocks().last()?;
        block.last().map(Vec::as_slice)
    }

    /// Whether a record begins a block.
    fn begins_block(&self) -> bool {
        self.after.blocks().len() > self.before.blocks().len()
    }

    /// Whether a record makes the number of an open block longer, from so many bytes more than one to so many.
    fn passes(&self, before: usize, after: usize) -> bool {
        let widths = [self.before, self.after].map(|session| width(extent(session)));
        self.is_add() && !self.begins_block() && widths == [Some(before), Some(after)]
    }

    /// Whether a record moves the payload of an open block.
    fn is_moved(&self) -> bool {
        self.passes(0, 1) || self.passes(1, 2) || self.passes(0, 2)
    }

    /// Whether a record that doesn't fit would move the payload.
    fn is_wider(&self) -> bool {
        let mut grown = self.before.clone();
        let room = needed(self.before, self.step);
        let taken = grown
            .take(&Step::Grow(room))
            .and_then(|()| grown.take(self.step));
        let widths = [self.before, &grown].map(|session| width(extent(session)));
        taken.is_ok() && !self.before.is_full() && widths[0].is_some() && widths[0] < widths[1]
    }

    /// Whether a record makes the open block so long.
    fn has_extent(&self, length: usize) -> bool {
        self.is_add() && self.gives(0) && extent(self.after) == length
    }
}

/// By how many bytes the number of a block so long is longer than one byte; none where no block is open.
fn width(extent: usize) -> Option<usize> {
    match extent {
        0 => None,
        1..=127 => Some(0),
        128..=16_383 => Some(1),
        _ => Some(2),
    }
}
