//! What was measured: tables in Markdown, and the goals with their verdicts.

use std::fmt::Write;
use std::path::Path;

/// What a ratio should be.
#[derive(Debug, Clone, Copy)]
pub enum Goal {
    /// No more than this.
    AtMost(f64),
    /// No less than this.
    AtLeast(f64),
    /// Just measured.
    None,
}

impl Goal {
    fn words(self) -> String {
        match self {
            Goal::AtMost(limit) => format!("≤ {limit:.2}"),
            Goal::AtLeast(limit) => format!("≥ {limit:.2}"),
            Goal::None => "-".to_string(),
        }
    }

    fn verdict(self, ratio: f64) -> String {
        let missed = |part: f64| match 100.0 * part {
            percent if percent < 0.5 => "**missed by less than 1 %**".to_string(),
            percent => format!("**missed by {percent:.0} %**"),
        };
        match self {
            Goal::AtMost(limit) if ratio > limit => missed(ratio / limit - 1.0),
            Goal::AtLeast(limit) if ratio < limit => missed(1.0 - ratio / limit),
            Goal::None => "-".to_string(),
            _ => "met".to_string(),
        }
    }
}

/// A table and what is to be known about it.
pub struct Table {
    title: String,
    about: String,
    head: Vec<String>,
    rows: Vec<Vec<String>>,
}

impl Table {
    /// A table without rows.
    pub fn new(title: &str, about: &str, head: &[&str]) -> Self {
        Table {
            title: title.to_string(),
            about: about.to_string(),
            head: head.iter().map(|cell| cell.to_string()).collect(),
            rows: Vec::new(),
        }
    }

    /// Adds a row.
    pub fn add_row(&mut self, cells: &[&str]) {
        self.rows
            .push(cells.iter().map(|cell| cell.to_string()).collect());
    }

    fn markdown(&self) -> String {
        let line = |cells: &mut dyn Iterator<Item = &str>| {
            format!("| {} |\n", cells.collect::<Vec<_>>().join(" | "))
        };
        let mut out = format!("### {}\n\n{}\n\n", self.title, self.about);
        out += &line(&mut self.head.iter().map(String::as_str));
        out += &"|---".repeat(self.head.len());
        out += "|\n";
        for row in &self.rows {
            out += &line(&mut row.iter().map(String::as_str));
        }
        out
    }
}

/// Everything that was measured.
pub struct Report {
    machine: String,
    goals: Table,
    tables: Vec<Table>,
}

impl Report {
    /// A report of nothing yet.
    pub fn new(machine: String) -> Self {
        let about = "A ratio above 1 in a row that says \"time\" means slower, in a row that says \"speed\" faster.";
        Report {
            machine,
            goals: Table::new("Goals", about, &["what", "ratio", "goal", "verdict"]),
            tables: Vec::new(),
        }
    }

    /// Adds a ratio, if it was measured, and what it should be.
    pub fn add_goal(&mut self, what: &str, measured: impl Into<Option<f64>>, goal: Goal) {
        let measured = measured.into();
        let or_none = |cell: Option<String>| cell.unwrap_or_else(|| "-".to_string());
        self.goals.add_row(&[
            what,
            &or_none(measured.map(ratio)),
            &goal.words(),
            &or_none(measured.map(|ratio| goal.verdict(ratio))),
        ]);
    }

    /// Adds a table.
    pub fn add_table(&mut self, table: Table) {
        self.tables.push(table);
    }

    /// All of it, the goals first.
    pub fn markdown(&self) -> String {
        let mut out = format!("{}\n", self.machine);
        for table in std::iter::once(&self.goals).chain(&self.tables) {
            // Writing to a string can't fail.
            let _ = write!(out, "\n{}", table.markdown());
        }
        out
    }
}

/// A time in the unit that suits it.
pub fn time(seconds: f64) -> String {
    match seconds {
        s if s < 0.0 => format!("-{}", time(-s)),
        s if s < 1e-6 => format!("{:.0} ns", s * 1e9),
        s if s < 1e-3 => format!("{:.1} µs", s * 1e6),
        s if s < 1.0 => format!("{:.1} ms", s * 1e3),
        s => format!("{s:.2} s"),
    }
}

/// Bytes per second.
pub fn speed(bytes: usize, seconds: f64) -> String {
    format!("{:.0} MB/s", bytes as f64 / seconds / 1e6)
}

/// A size in megabytes.
pub fn size(bytes: usize) -> String {
    format!("{:.1} MB", bytes as f64 / 1e6)
}

/// The size of a file; 0 where there is none.
pub fn file_size(file: &Path) -> String {
    size(std::fs::metadata(file).map_or(0, |about| about.len() as usize))
}

/// A ratio.
pub fn ratio(ratio: f64) -> String {
    format!("{ratio:.2}")
}
