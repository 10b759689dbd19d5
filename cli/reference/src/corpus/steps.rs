//! The steps of a session as stored cases have them, and the lines due for them.

use super::case::{hex, Case};
use crate::checksums::sha256;
use crate::session::{Session, Step};
use crate::writer::Counts;

/// Bytes of a step before its metadata or its record.
const FIXED: usize = 19;

impl Step {
    /// The number that stands for the step, and the word in a line.
    fn kind(&self) -> (u8, &'static str) {
        match self {
            Step::Afresh { .. } => (1, "afresh"),
            Step::Begin { .. } => (2, "begin"),
            Step::Add(_) => (3, "add"),
            Step::Close => (4, "close"),
            Step::Finish => (5, "finish"),
            Step::Grow(_) => (6, "grow"),
        }
    }

    /// The metadata or the record.
    fn bytes(&self) -> &[u8] {
        match self {
            Step::Begin { metadata, .. } => metadata,
            Step::Add(record) => record,
            _ => &[],
        }
    }
}

/// Steps one after the other. Starting afresh and growth have the bytes of the output from then on for their first number. No metadata or record
/// has more than 65,535 bytes.
pub fn encode_steps(steps: &[Step]) -> Vec<u8> {
    let mut out = Vec::new();
    let mut room = 0;
    for step in steps {
        let numbers = match step {
            Step::Afresh { room: bytes } => {
                room = *bytes;
                [room as u64, 0]
            }
            Step::Grow(bytes) => {
                room += bytes;
                [room as u64, 0]
            }
            Step::Begin { counts, .. } => [counts.per_block, counts.per_index],
            _ => [0, 0],
        };
        out.push(step.kind().0);
        out.extend((step.bytes().len() as u16).to_le_bytes());
        out.extend(numbers.map(u64::to_le_bytes).concat());
        out.extend(step.bytes());
    }
    out
}

/// The steps that bytes hold, each with its position, up to the first thing that is none.
pub fn decode_steps(stored: &[u8]) -> Vec<(usize, Step)> {
    let mut steps = Vec::new();
    let (mut at, mut room) = (0, 0);
    while let Some((step, size)) = stored.get(at..).and_then(|rest| decode(rest, room)) {
        match step {
            Step::Afresh { room: bytes } => room = bytes,
            Step::Grow(bytes) => room += bytes,
            _ => {}
        }
        steps.push((at, step));
        at += size;
    }
    steps
}

/// The first step, and how many bytes it takes.
fn decode(stored: &[u8], room: usize) -> Option<(Step, usize)> {
    let number = |at: usize| {
        let digits = stored.get(at..at + 8)?.try_into().ok()?;
        Some(u64::from_le_bytes(digits))
    };
    let (first, second) = (number(3)?, number(11)?);
    let length = usize::from(stored[1]) + 256 * usize::from(stored[2]);
    let bytes = stored.get(FIXED..FIXED + length)?.to_vec();
    let step = match stored[0] {
        1 => Step::Afresh {
            room: first as usize,
        },
        2 => Step::Begin {
            metadata: bytes,
            counts: Counts {
                per_block: first,
                per_index: second,
            },
        },
        3 => Step::Add(bytes),
        4 => Step::Close,
        5 => Step::Finish,
        6 => Step::Grow((first as usize).checked_sub(room)?),
        _ => return None,
    };
    Some((step, FIXED + length))
}

impl Case {
    /// A line for each step, but for growth: where it stands, what it is, the bytes of the output, and the answer with the hash of the whole
    /// output.
    pub(super) fn session_lines(&self, stored: &[u8]) -> String {
        let mut session = Session::afresh(0);
        let mut lines = Vec::new();
        for (at, step) in decode_steps(stored) {
            let number = session.take(&step).err().unwrap_or(0);
            if matches!(step, Step::Grow(_)) {
                continue;
            }
            let figures = session.figures();
            let line = format!(
                "{} {} {at} {} {}: number {number} place 0 records {} last {} next {} output {}",
                self.name,
                self.call.word(),
                step.kind().1,
                session.room(),
                figures.records,
                figures.last,
                figures.next,
                hex(&sha256([&session.output()[..]])),
            );
            lines.push(line);
        }
        lines.join("\n")
    }
}
