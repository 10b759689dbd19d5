//! Runs of many drawings, and what is saved of them.

use std::fs;
use std::io;
use std::path::PathBuf;

use crate::call::Call;
use crate::compare::compare;
use crate::drawing::{draw, list_edges, Drawing};
use crate::outcome::Outcome;
use crate::tally::Tally;

/// No more cases than this are saved in one run; more of them say little.
const MOST_SAVED: u64 = 200;

/// A run and its counts so far.
#[derive(Debug)]
pub struct Run {
    /// What every drawing is drawn from.
    pub seed: u64,
    /// Counts so far.
    pub tally: Tally,
    /// Where cases that differ are saved.
    folder: PathBuf,
}

impl Run {
    /// A run without drawings yet.
    pub fn new(seed: u64, folder: PathBuf) -> Self {
        Run {
            seed,
            tally: Tally::default(),
            folder,
        }
    }

    /// Makes the next drawings, compares all of their calls, and saves what differs.
    ///
    /// # Errors
    /// Says why a case can't be saved.
    pub fn step(&mut self) -> io::Result<()> {
        let number = self.tally.steps;
        self.tally.steps += 1;
        for (part, drawing) in draw(self.seed, number).into_iter().enumerate() {
            self.compare_all(&format!("{number}-{part}"), drawing)?;
        }
        Ok(())
    }

    /// Compares the recognisers of metadata on the texts that are the same with every seed, and saves what differs.
    ///
    /// # Errors
    /// Says why a case can't be saved.
    pub fn compare_edges(&mut self) -> io::Result<()> {
        for (number, drawing) in list_edges().enumerate() {
            self.compare_all(&format!("edge-{number}"), drawing)?;
        }
        Ok(())
    }

    /// Compares all calls of a drawing.
    fn compare_all(&mut self, name: &str, mut drawing: Drawing) -> io::Result<()> {
        self.tally.add_kinds(&drawing);
        for (at, (call, room)) in drawing.calls.iter().enumerate() {
            let outcome = compare(&mut drawing.random, &drawing.bytes, call);
            self.tally.add(drawing.accepted, call, *room, &outcome);
            if !outcome.differences.is_empty() {
                self.save(&format!("{name}-{at}"), &drawing.bytes, call, &outcome)?;
            }
        }
        Ok(())
    }

    /// Saves the file or both, the records, the dump, the text or the steps, and the call with what differs; prints the same.
    fn save(&self, name: &str, bytes: &[u8], call: &Call, outcome: &Outcome) -> io::Result<()> {
        if self.tally.differing > MOST_SAVED {
            return Ok(());
        }
        let name = format!("{}-{name}", self.seed);
        let stored = match call {
            Call::Write { .. } => format!("{name}.records"),
            Call::ImportSim { .. } => format!("{name}.adn"),
            Call::IsMetadata => format!("{name}.json"),
            Call::Session { .. } => format!("{name}.steps"),
            _ => format!("{name}.zs"),
        };
        let cases = self.tally.cases();
        let text = format!(
            "file: {stored}, {} bytes\n{}after {cases} cases, these differ:\n  {}\n",
            bytes.len(),
            call.text(),
            outcome.differences.join("\n  ")
        );
        fs::create_dir_all(&self.folder)?;
        fs::write(self.folder.join(stored), bytes)?;
        if let Some(second) = call.second() {
            fs::write(self.folder.join(format!("{name}.second.zs")), second)?;
        }
        fs::write(self.folder.join(format!("{name}.txt")), &text)?;
        println!("{text}saved in {}\n", self.folder.display());
        Ok(())
    }
}
