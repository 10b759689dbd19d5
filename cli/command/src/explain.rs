//! `zs explain`: the blocks that a search opened, with level, bounds and matches.

use std::collections::BTreeMap;
use std::io::{self, Write};

use zs_library::Query;

use crate::answers::{search, Answer, Contents};
use crate::archive::Archive;
use crate::arguments::Explain;
use crate::escapes::quote;
use crate::failure::Failure;
use crate::layout::records;
use crate::output::{self, format_count};
use crate::progress;
use crate::walk::{Bounds, Walk};

pub fn run(asked: &Explain) -> Result<(), Failure> {
    let archive = Archive::open(&asked.file, &asked.trust)?;
    let (file, known) = (archive.bytes(), archive.known);
    let query = asked.selection.query();
    let answer = progress::show_while("searching", &asked.file, file.len(), || {
        search(file, &query, known, None)
    })?;
    archive.qualify_answer(&asked.file);
    output::write(&asked.file, &|out| {
        let in_vain = write_blocks(file, &query, &answer, out)?;
        writeln!(out, "{}", summarise(&answer, known, &in_vain))
    })
}

/// Writes a line for each block that was opened, and counts those in vain. Matches come in the order of the data blocks that hold them.
fn write_blocks(
    file: &[u8],
    query: &Query,
    answer: &Answer,
    out: &mut dyn Write,
) -> io::Result<InVain> {
    let mut in_vain = InVain::default();
    let mut matches = answer.matches().peekable();
    let mut found = 0;
    // The list of the library decides which blocks are shown; the walk knows their bounds.
    for (offset, opened) in answer.opened.iter().zip(Walk::new(file, query)) {
        debug_assert_eq!(*offset, opened.offset);
        let level = opened.block.level;
        let indent = "  ".repeat(opened.depth);
        let bounds = describe_bounds(opened.bounds);
        write!(out, "{indent}{offset}  level {level}  {bounds}")?;
        in_vain.leave(opened.depth, found);
        in_vain.enter(level, found);
        if level == 0 {
            let here = records(&opened.block)
                .filter(|record| matches.next_if_eq(record).is_some())
                .count() as u64;
            write!(out, ", {}", format_count(here, "match", "matches"))?;
            found += here;
        }
        writeln!(out)?;
    }
    in_vain.leave(1, found);
    Ok(in_vain)
}

/// Counts the blocks that lead to no match.
#[derive(Default)]
struct InVain {
    /// The way down to the last block: each level, and how many matches there were before.
    way: Vec<(u8, u64)>,
    by_level: BTreeMap<u8, u64>,
}

impl InVain {
    fn enter(&mut self, level: u8, matches: u64) {
        self.way.push((level, matches));
    }

    /// Leaves all blocks that are so deep or deeper.
    fn leave(&mut self, depth: usize, matches: u64) {
        while self.way.len() > depth {
            match self.way.pop() {
                Some((level, before)) if before == matches => {
                    *self.by_level.entry(level).or_insert(0) += 1;
                }
                _ => {}
            }
        }
    }
}

fn describe_bounds(bounds: Option<Bounds>) -> String {
    match bounds {
        Some(Bounds {
            lower,
            upper: Some(upper),
        }) => format!("{} to {}", quote(lower), quote(upper)),
        Some(Bounds { lower, upper: None }) => format!("{} and up", quote(lower)),
        None => String::from("the root"),
    }
}

/// How many blocks were opened, and how many of those below the root led to no match.
fn summarise(answer: &Answer, known: Option<Contents>, in_vain: &InVain) -> String {
    let levels: Vec<String> = in_vain
        .by_level
        .iter()
        .map(|(level, number)| format!("{number} on level {level}"))
        .collect();
    let in_vain = if levels.is_empty() {
        String::from("none")
    } else {
        levels.join(", ")
    };
    format!(
        "opened {}, {}, in vain: {in_vain}",
        count_opened(answer.opened.len() as u64, known),
        format_count(answer.count(), "match", "matches")
    )
}

/// Says how many blocks were opened, and of how many, where that is known.
fn count_opened(opened: u64, known: Option<Contents>) -> String {
    let count = |number| format_count(number, "block", "blocks");
    match known {
        Some(contents) => format!("{opened} of {}", count(contents.blocks)),
        None => count(opened),
    }
}
