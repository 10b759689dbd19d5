//! Steps with a session or an output that no step handed back: nothing but safety is promised. Every step returns, writes nothing outside its
//! output, and gives one of its own numbers; and what it gives doesn't depend on bytes outside.

use crate::faults::bad_metadata;
use crate::inputs::{counts, spoil_counts};
use crate::outcome::Outcome;
use crate::session_cases::lend_step;
use zs_library::refusals::numbers;
use zs_library::Session;
use zs_reference::maker::random::Random;
use zs_reference::session::Step;

/// So many numbers a session has.
const NUMBERS: usize = 11;

/// Takes a step with another session than this one, or another output.
pub fn try_stranger(outcome: &mut Outcome, random: &mut Random, session: &Session, output: &[u8]) {
    let output = draw_output(random, output);
    let session = draw_session(random, session, output.len());
    let step = draw_step(random);
    let (call, stepped, after) = lend_step(outcome, random, &step, session, &output);
    outcome.strangers.push((call, stepped.number));
    let again = lend_step(outcome, random, &step, session, &output);
    let is_same = (call, stepped, &after) == (again.0, again.1, &again.2);
    outcome.require(is_same, "a step depends on bytes outside");
    let is_own = stepped.number == 0 || numbers(call).any(|number| number == stepped.number);
    outcome.require(is_own, "a number that isn't of this step");
    outcome.compare("place of a stranger", 0, stepped.place);
    outcome.compare("length", output.len() as u64, after.len() as u64);
}

/// An output: this one, with some bytes changed, cut, longer, or of any bytes.
fn draw_output(random: &mut Random, output: &[u8]) -> Vec<u8> {
    let mut other = output.to_vec();
    match random.below(6) {
        0 => {
            let most = random.pick(&[110, output.len() + 1]);
            other.truncate(random.below(most));
        }
        1 => other.extend(random.string(40)),
        2 => {
            let any = |_: &u8| random.next() as u8;
            other = output.iter().map(any).collect();
        }
        3 => {
            for _ in 0..1 + random.below(8) {
                let at = random.below(output.len());
                let byte = random.pick(&[0x00, 0x01, 0x7f, 0x80, 0xff]);
                if let Some(place) = other.get_mut(at) {
                    *place = byte;
                }
            }
        }
        _ => {}
    }
    other
}

/// A session: this one, with some numbers changed, of zeros, or of any numbers.
fn draw_session(random: &mut Random, session: &Session, room: usize) -> Session {
    let mut numbers = session.numbers();
    let (own, room) = (numbers, room as u64);
    let any = |random: &mut Random| {
        let far = random.pick(&[1 << 16, 1 << 30, 1 << 32, 1 << 63]);
        let (another, wild) = (random.pick(&own), random.next());
        let base = random.pick(&[0, 1, 2, 106, room, own[2], another, far, wild]);
        base.wrapping_add(random.pick(&[0, 0, 1, 8, u64::MAX, u64::MAX - 7]))
    };
    match random.below(6) {
        0 => {}
        1 => numbers = [0; NUMBERS],
        2 => numbers = [0; NUMBERS].map(|_| any(random)),
        _ => {
            for _ in 0..1 + random.below(3) {
                numbers[random.below(NUMBERS)] = any(random);
            }
        }
    }
    Session::from_numbers(numbers)
}

/// Any step but starting afresh, which takes no session.
fn draw_step(random: &mut Random) -> Step {
    match random.below(8) {
        0 | 1 => {
            let mut counts = counts(random);
            if random.once_in(4) {
                spoil_counts(random, &mut counts);
            }
            let bad = bad_metadata(random);
            let metadata = if random.once_in(4) {
                bad
            } else {
                b"{}".to_vec()
            };
            Step::Begin { metadata, counts }
        }
        2 => Step::Close,
        3 | 4 => Step::Finish,
        _ => {
            let byte = random.pick(&[0x00, 0x61, 0xff]);
            let length = random.pick(&[0, 0, 1, 5, 20, 130, 16_400]);
            Step::Add(vec![byte; length])
        }
    }
}
