//! The check refuses flipped bits and every cut of the samples.

use std::fs;
use std::thread;

use crate::support::{CONTACTS, SMALL};
use zs_library::check;

/// Room for every block of a sample.
const ROOM: usize = 200;
const THREADS: usize = 4;

/// The check's number, with room for every block.
fn number(file: &[u8], work: &mut [u64]) -> u64 {
    check(file, work).number
}

/// Flips bits of each byte from `first` on, `THREADS` bytes apart. `bits` gives those of a byte by its place.
fn flip_bits(mut file: Vec<u8>, first: usize, bits: fn(usize) -> Vec<usize>) {
    let mut work = [0; ROOM];
    for at in (first..file.len()).step_by(THREADS) {
        for bit in bits(at) {
            file[at] ^= 1 << bit;
            assert_ne!(number(&file, &mut work), 0, "byte {at}, bit {bit}");
            file[at] ^= 1 << bit;
        }
    }
    assert_eq!(number(&file, &mut work), 0);
}

fn flip_bits_of(sample: &str, bits: fn(usize) -> Vec<usize>) {
    let file = fs::read(sample).expect("the sample");
    thread::scope(|threads| {
        for first in 0..THREADS {
            let copy = file.clone();
            threads.spawn(move || flip_bits(copy, first, bits));
        }
    });
}

#[test]
fn every_flipped_bit_of_a_short_file_is_refused() {
    flip_bits_of(SMALL, |_| (0..8).collect());
}

#[test]
fn a_flipped_bit_in_any_byte_is_refused() {
    flip_bits_of(CONTACTS, |at| vec![at % 8]);
}

#[test]
fn every_cut_is_refused() {
    let mut work = [0; ROOM];
    for sample in [SMALL, CONTACTS] {
        let file = fs::read(sample).expect("the sample");
        for length in 0..file.len() {
            assert_ne!(number(&file[..length], &mut work), 0, "length {length}");
        }
    }
}
