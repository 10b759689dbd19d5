//! The independent reader or the second writer, once for each line of standard input; prints the time in nanoseconds and the answer.
//!
//!     reference check FILE                             number, place, blocks and records
//!     reference write INPUT PER_BLOCK PER_INDEX FILE   1 where what is made of INPUT, with these counts, is FILE; else 0
//!
//! It is a program of its own because it is built twice: with portable checksums and with the processor's instructions for SHA.
#![forbid(unsafe_code)]

use std::fs::read;
use std::io::{self, BufRead, Write};
use std::time::Instant;

use zs_reference::reader::{check, metadata, Checked};
use zs_reference::writer::{write, Counts};

fn main() -> io::Result<()> {
    let words: Vec<String> = std::env::args().skip(1).collect();
    let words: Vec<&str> = words.iter().map(String::as_str).collect();
    match words[..] {
        ["check", file] => {
            let file = read(file)?;
            let tell = |a: Checked| vec![a.number, a.place, a.blocks, a.records];
            answer_lines(|| check(&file, usize::MAX), tell)
        }
        ["write", input, per_block, per_index, file] => {
            let (input, file) = (read(input)?, read(file)?);
            let counts = Counts {
                per_block: count(per_block)?,
                per_index: count(per_index)?,
            };
            let (offset, length) = metadata(&file);
            let metadata = &file[offset as usize..][..length as usize];
            let tell = |made: Result<Vec<u8>, u64>| vec![u64::from(made.as_ref() == Ok(&file))];
            answer_lines(|| write(metadata, &input, counts, usize::MAX), tell)
        }
        _ => Err(io::ErrorKind::InvalidInput.into()),
    }
}

fn count(word: &str) -> io::Result<u64> {
    word.parse().map_err(|_| io::ErrorKind::InvalidInput.into())
}

/// Does the work for each line, and prints how long it took and what is to be told of its result.
fn answer_lines<T>(work: impl Fn() -> T, tell: impl Fn(T) -> Vec<u64>) -> io::Result<()> {
    let mut out = io::stdout();
    for line in io::stdin().lock().lines() {
        line?;
        let start = Instant::now();
        let result = work();
        let time = start.elapsed().as_nanos();
        let answer: Vec<String> = tell(result).iter().map(u64::to_string).collect();
        writeln!(out, "{time} {}", answer.join(" "))?;
        out.flush()?;
    }
    Ok(())
}
