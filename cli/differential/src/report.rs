//! The counts of a run as a table and in words.

use std::fmt;

use crate::dump_kinds;
use crate::keys;
use crate::pair_kinds;
use crate::show_kinds;
use crate::store_kinds;
use crate::tally::{Tally, STEPS};
use zs_library::refusals::GREATEST;

impl Tally {
    /// Writes how often each call gave each number.
    fn write_numbers(&self, out: &mut fmt::Formatter<'_>) -> fmt::Result {
        writeln!(
            out,
            "number    check     read   search    write   import  compare    begin      add    close   finish"
        )?;
        for number in 0..=GREATEST {
            let counts = self.columns().map(|(_, column)| column.count(number));
            if counts.iter().any(|count| *count > 0) {
                let counts = counts.map(|count| format!(" {count:8}"));
                writeln!(out, "{number:6}{}", counts.concat())?;
            }
        }
        Ok(())
    }

    fn write_readers(&self, out: &mut fmt::Formatter<'_>) -> fmt::Result {
        writeln!(
            out,
            "accepted files, one for each query: {} searches, {} with matches; {} reads, {} with matches",
            self.search.answered, self.search.matched, self.read.answered, self.read.matched
        )?;
        writeln!(
            out,
            "  with two or more levels below the root: {} searches, {} with matches",
            self.deep, self.deep_matched
        )?;
        writeln!(
            out,
            "  just enough places: {} searches, {} reads, {} checks",
            self.search.exact, self.read.exact, self.check.exact
        )?;
        writeln!(
            out,
            "  one place short: {} opened lists, {} + {} result lists, {} work lists",
            self.search.first_short,
            self.search.results_short,
            self.read.results_short,
            self.check.first_short
        )
    }

    fn write_inputs(&self, out: &mut fmt::Formatter<'_>) -> fmt::Result {
        writeln!(
            out,
            "inputs written: {}, one byte short: {}, too short with whole records as keys: {}",
            self.write.answered, self.write.first_short, self.write.whole_short
        )?;
        writeln!(out, "  where their data blocks meet:")?;
        for (name, count) in keys::names().zip(self.kinds) {
            writeln!(out, "    {count:4} have {name}")?;
        }
        Ok(())
    }

    fn write_dumps(&self, out: &mut fmt::Formatter<'_>) -> fmt::Result {
        writeln!(
            out,
            "dumps imported: {}, one byte short: {}; name fields of {} lengths",
            self.import.answered,
            self.import.first_short,
            self.name_lengths.len()
        )?;
        for (name, count) in dump_kinds::names().zip(self.dump_kinds) {
            writeln!(out, "    {count:4} have {name}")?;
        }
        Ok(())
    }

    fn write_stores(&self, out: &mut fmt::Formatter<'_>) -> fmt::Result {
        let [there, none] = self.stores;
        writeln!(
            out,
            "stores: {there} asked for that there are, {none} that there aren't"
        )?;
        writeln!(
            out,
            "  cuts by how many whole stores arrive, and what the check gives then:"
        )?;
        for ((whole, number), count) in &self.cuts {
            writeln!(out, "    {count:4} after {whole}: {number}")?;
        }
        writeln!(out, "  files by what was asked of them:")?;
        for (name, count) in store_kinds::names().zip(self.store_kinds) {
            writeln!(out, "    {count:4} have {name}")?;
        }
        Ok(())
    }

    fn write_pairs(&self, out: &mut fmt::Formatter<'_>) -> fmt::Result {
        writeln!(
            out,
            "pairs compared: {}, with differences: {}; one place short: {} work lists, {} lists; the second refused: {}",
            self.compare.answered,
            self.compare.matched,
            self.compare.first_short,
            self.compare.results_short,
            self.compare_second.values().sum::<u64>()
        )?;
        for (name, count) in pair_kinds::names().zip(self.pair_kinds) {
            writeln!(out, "    {count:4} have {name}")?;
        }
        let [there, none] = self.shown;
        writeln!(
            out,
            "  parts of them: {there} that are there, {none} that aren't"
        )?;
        for (name, count) in show_kinds::names().zip(self.show_kinds) {
            writeln!(out, "    {count:4} were asked for {name}")?;
        }
        Ok(())
    }

    fn write_sessions(&self, out: &mut fmt::Formatter<'_>) -> fmt::Result {
        writeln!(out, "sessions started afresh: {}", self.afresh)?;
        for (name, count) in self.session_kinds() {
            writeln!(out, "    {count:4} have {name}")?;
        }
        writeln!(
            out,
            "  steps with sessions and outputs that no step handed back, and what they gave:"
        )?;
        for (step, column) in STEPS.iter().zip(&self.strangers) {
            let numbers = column.numbers.iter();
            let counts = numbers.map(|(number, count)| format!(" {number}: {count} times"));
            let counts: Vec<String> = counts.collect();
            writeln!(out, "    {step:?}{}", counts.join(","))?;
        }
        Ok(())
    }
}

impl fmt::Display for Tally {
    fn fmt(&self, out: &mut fmt::Formatter<'_>) -> fmt::Result {
        self.write_numbers(out)?;
        let [within, outside] = self.records;
        writeln!(out, "record: {within} within the file, {outside} not")?;
        let [sound, refused] = self.metadata;
        writeln!(
            out,
            "metadata: {sound} files with a sound header, {refused} not"
        )?;
        let [metadata, others] = self.texts;
        writeln!(out, "texts: {metadata} are metadata, {others} not")?;
        self.write_readers(out)?;
        self.write_inputs(out)?;
        self.write_dumps(out)?;
        self.write_stores(out)?;
        self.write_pairs(out)?;
        self.write_sessions(out)?;
        write!(
            out,
            "{} files, inputs, dumps, sessions and rows of bytes and texts, {} cases, {} differ",
            self.steps,
            self.cases(),
            self.differing
        )
    }
}
