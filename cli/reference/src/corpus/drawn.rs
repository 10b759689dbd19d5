//! Files drawn from fixed seeds: sound ones, bent ones and broken ones.

use super::{Claim, Corpus};
use crate::maker::random::{bend, break_bytes, query, tree, Random};

/// Adds the files.
pub fn add(corpus: &mut Corpus) {
    for number in 0..10 {
        add_sound(corpus, number);
    }
    for number in 0..40 {
        add_bent(corpus, number);
    }
    for number in 0..10 {
        add_broken(corpus, number);
    }
}

/// An accepted file with three queries.
fn add_sound(corpus: &mut Corpus, number: u64) {
    let name = format!("drawn-{number:02}");
    let mut random = Random::new(1000 + number);
    corpus.add_sound(&name, tree(&mut random, 8).bytes());
    for _ in 0..3 {
        corpus.ask(&name, &query(&mut random));
    }
    corpus.ask_records(&name, &query(&mut random), 1);
}

/// A file with one or two things changed, all checksums right.
fn add_bent(corpus: &mut Corpus, number: u64) {
    let name = format!("bent-{number:02}");
    let mut random = Random::new(2000 + number);
    let mut image = tree(&mut random, 5).image();
    bend(&mut random, &mut image);
    if random.once_in(3) {
        bend(&mut random, &mut image);
    }
    corpus.add_file(&name, image.bytes(), Claim::Nothing);
    corpus.ask_usual(&name);
    corpus.ask_search(&name, &query(&mut random));
}

/// A file with bytes changed and nothing mended.
fn add_broken(corpus: &mut Corpus, number: u64) {
    let name = format!("broken-{number:02}");
    let mut random = Random::new(3000 + number);
    let mut file = tree(&mut random, 4).bytes();
    break_bytes(&mut random, &mut file);
    corpus.add_file(&name, file, Claim::Nothing);
    corpus.ask_usual(&name);
}
