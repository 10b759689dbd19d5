//! How long it takes to have the bytes of a file, way by way: to read or map it, to look at each line of the cache, and to free it.
//!
//!     cargo run --offline --release --example reading FILE [ROUNDS]
//!
//! The ways take turns; medians. Nobody may change the file meanwhile.

use std::env;
use std::fs::{self, File};
use std::io::{self, Read};
use std::time::Instant;

use memmap2::{Advice, MmapMut, MmapOptions};

const HUGE_PAGE: usize = 1 << 21;
const CACHE_LINE: usize = 64;

/// A way to have the bytes of a file. It gives what [`look_at`] makes of them.
type Way = fn(&File, usize) -> io::Result<u8>;

const WAYS: [(&str, Way); 6] = [
    ("read into a list", read_list),
    ("read into memory, 256 KiB at a time", |file, length| {
        read_pages(file, length, 1 << 18, false)
    }),
    ("read into memory at once", |file, length| {
        read_pages(file, length, length, false)
    }),
    ("read into memory in huge pages at once", |file, length| {
        read_pages(file, length, length, true)
    }),
    ("map", |file, _| map(file, false)),
    ("map, all pages at once", |file, _| map(file, true)),
];

fn main() -> io::Result<()> {
    let mut words = env::args().skip(1);
    let path = words.next().ok_or(io::ErrorKind::InvalidInput)?;
    let rounds = words.next().and_then(|word| word.parse().ok());
    let sum = look_at(&fs::read(&path)?);
    let mut times = vec![Vec::new(); WAYS.len()];
    for _ in 0..rounds.unwrap_or(40).max(1) {
        for (times, (name, way)) in times.iter_mut().zip(WAYS) {
            let (found, time, processor) = measure(&path, way)?;
            assert_eq!(found, sum, "{name}");
            times.push((time, processor));
        }
    }
    println!("| way | time | processor time |\n|---|---|---|");
    for (mut times, (name, _)) in times.into_iter().zip(WAYS) {
        let time = median(&mut times, |(time, _)| time);
        let processor = median(&mut times, |(_, processor)| processor);
        println!("| {name} | {time:.1} ms | {processor:.1} ms |");
    }
    Ok(())
}

fn read_list(mut file: &File, length: usize) -> io::Result<u8> {
    let mut bytes = Vec::with_capacity(length + 1);
    file.read_to_end(&mut bytes)?;
    Ok(look_at(&bytes))
}

/// Reads so many bytes at a time into memory of the process' own.
fn read_pages(mut file: &File, length: usize, step: usize, huge: bool) -> io::Result<u8> {
    let whole = length + HUGE_PAGE - 1;
    let mut memory = MmapMut::map_anon(whole - whole % HUGE_PAGE)?;
    if huge {
        memory.advise(Advice::HugePage)?;
    }
    for part in memory[..length].chunks_mut(step) {
        file.read_exact(part)?;
    }
    Ok(look_at(&memory[..length]))
}

fn map(file: &File, populate: bool) -> io::Result<u8> {
    let mut options = MmapOptions::new();
    if populate {
        options.populate();
    }
    // SAFETY: nobody changes the file while it is mapped, as is said above.
    let mapping = unsafe { options.map(file) }?;
    Ok(look_at(&mapping))
}

/// Looks at a byte in each line of the cache, and gives their sum.
fn look_at(bytes: &[u8]) -> u8 {
    let lines = bytes.iter().step_by(CACHE_LINE);
    lines.fold(0, |sum: u8, byte| sum.wrapping_add(*byte))
}

/// What one turn gives, and its time and processor time in milliseconds.
fn measure(path: &str, way: Way) -> io::Result<(u8, f64, f64)> {
    let file = File::open(path)?;
    let length = file.metadata()?.len() as usize;
    let (start, processor) = (Instant::now(), processor_time());
    let sum = way(&file, length)?;
    let time = start.elapsed().as_secs_f64() * 1e3;
    Ok((sum, time, processor_time() - processor))
}

/// How long this process has run, in milliseconds.
fn processor_time() -> f64 {
    let mut time = libc::timespec {
        tv_sec: 0,
        tv_nsec: 0,
    };
    // SAFETY: the call fills the struct that it is lent.
    unsafe { libc::clock_gettime(libc::CLOCK_PROCESS_CPUTIME_ID, &mut time) };
    time.tv_sec as f64 * 1e3 + time.tv_nsec as f64 / 1e6
}

fn median(turns: &mut [(f64, f64)], of: fn((f64, f64)) -> f64) -> f64 {
    turns.sort_by(|one, other| of(*one).total_cmp(&of(*other)));
    of(turns[turns.len() / 2])
}
