//! The opening test against all short byte strings over a small alphabet.

use zs_reference::maker::random::Random;
use zs_reference::reader::{may_hold_match, Query};

const ALPHABET: [u8; 4] = [0x00, 0x61, 0x62, 0xff];

/// All strings over the alphabet of at most so many bytes.
fn strings(longest: usize) -> Vec<Vec<u8>> {
    let mut all = vec![Vec::new()];
    let mut row = all.clone();
    for _ in 0..longest {
        let longer = |string: &Vec<u8>| ALPHABET.map(|byte| [&string[..], &[byte]].concat());
        row = row.iter().flat_map(longer).collect();
        all.extend(row.iter().cloned());
    }
    all
}

/// Which of at most 128 strings meet a condition, one bit for each.
fn marks(world: &[Vec<u8>], condition: impl Fn(&[u8]) -> bool) -> u128 {
    let met = world
        .iter()
        .enumerate()
        .filter(|(_, string)| condition(string));
    met.fold(0, |marks, (bit, _)| marks | 1 << bit)
}

/// A choice that may be left out, and the strings it lets through.
fn with_none(
    choices: &[Vec<u8>],
    lets_through: impl Fn(&[u8]) -> u128,
) -> Vec<(Option<Vec<u8>>, u128)> {
    let given = choices.iter().map(|c| (Some(c.clone()), lets_through(c)));
    std::iter::once((None, u128::MAX)).chain(given).collect()
}

#[test]
fn agrees_with_all_short_strings() {
    let world = strings(3);
    let choices = strings(2);
    let at_least = |floor: &Vec<u8>| marks(&world, |s| s >= &floor[..]);
    let lowers: Vec<u128> = choices.iter().map(at_least).collect();
    let uppers = with_none(&choices, |upper| marks(&world, |s| s <= upper));
    let stops = with_none(&choices, |stop| marks(&world, |s| s < stop));
    for prefix in &choices {
        let beginning = marks(&world, |s| s.starts_with(prefix));
        for (stop, below) in &stops {
            for (start, from) in choices.iter().zip(&lowers) {
                let query = Query {
                    start: start.clone(),
                    stop: stop.clone(),
                    prefix: prefix.clone(),
                };
                let matching = beginning & below & from;
                assert_eq!(marks_of_matches(&world, &query), matching);
                compare_bounds(&query, matching, &choices, &lowers, &uppers);
            }
        }
    }
}

fn marks_of_matches(world: &[Vec<u8>], query: &Query) -> u128 {
    marks(world, |string| query.matches(string))
}

fn compare_bounds(
    query: &Query,
    matching: u128,
    choices: &[Vec<u8>],
    lowers: &[u128],
    uppers: &[(Option<Vec<u8>>, u128)],
) {
    for (lower, above) in choices.iter().zip(lowers) {
        for (upper, under) in uppers {
            let exists = matching & above & under != 0;
            let says = may_hold_match(lower, upper.as_deref(), query);
            assert_eq!(says, exists, "{lower:?} {upper:?} {query:?}");
        }
    }
}

/// Three bytes everywhere, against all strings of at most four.
#[test]
fn agrees_on_longer_samples() {
    let world = strings(4);
    let mut random = Random::new(7);
    for _ in 0..4000 {
        let lower = random.string(3);
        let upper = (!random.once_in(4)).then(|| random.string(3));
        let query = Query {
            start: random.string(3),
            stop: (!random.once_in(3)).then(|| random.string(3)),
            prefix: random.string(3),
        };
        let between = |string: &&Vec<u8>| {
            **string >= lower && upper.as_ref().map_or(true, |upper| *string <= upper)
        };
        let exists = world.iter().filter(between).any(|s| query.matches(s));
        let says = may_hold_match(&lower, upper.as_deref(), &query);
        assert_eq!(says, exists, "{lower:?} {upper:?} {query:?}");
    }
}
