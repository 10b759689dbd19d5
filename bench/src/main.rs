//! Measures the proved library against others, all in one run, and prints the tables in Markdown.
//!
//!     zs-bench --zs PATH --library PATH --portable PATH --accelerated PATH [--before-zs PATH --before-library PATH]
//!         [--quick | --write DOCS]
//!
//! `--quick` uses small sizes, to see that everything runs. `--write` puts the tables into DOCS/PERFORMANCE.md, between its two marks,
//! and the growth curves into DOCS/growth.svg. `--library` names a shared object of the library, `--before-zs` and `--before-library` the
//! command and the library of an earlier build, which are then measured too.
//!
//! * [`records`], [`shapes`], [`archive`]: what is measured on, made by the independent reader's maker; [`phonebooks`]: what is imported;
//!   [`backups`]: what is compared.
//! * [`input`]: what the proved writer is given.
//! * [`clock`], [`others`], [`foreign`], [`idiomatic`]: time, other programs, other libraries, the same in plain Rust.
//! * [`loaded`]: the library and an earlier build of it, loaded side by side.
//! * [`sections`]: one module for each group of rows. Each compares answers before it measures.
//! * [`report`], [`chart`], [`machine`]: tables, goals, curves and the machine.
#![deny(unsafe_code)]

mod archive;
mod backups;
mod chart;
mod clock;
#[allow(unsafe_code)]
mod foreign;
mod idiomatic;
mod input;
#[allow(unsafe_code)]
mod loaded;
mod machine;
mod others;
mod phonebooks;
mod records;
mod report;
mod sections;
mod shapes;

use std::collections::HashMap;
use std::path::{Path, PathBuf};

use archive::Archive;
use chart::Panel;
use loaded::{Libraries, Library};
use others::Programs;
use report::Report;
use sections::{
    block_sizes, checking, checksums, comparing, crc_lengths, earlier_build, earlier_library,
    growth, importing, keys, lookups, metadata, profile, results, sessions, writing, Setting, FULL,
    QUICK,
};
use shapes::Shape;

const FIRST_MARK: &str = "<!-- measured -->\n";
const LAST_MARK: &str = "<!-- end of what is measured -->\n";

/// What is asked for.
struct Arguments {
    programs: Programs,
    libraries: Libraries,
    quick: bool,
    write: Option<PathBuf>,
}

/// A folder for files that are measured on, removed however the program ends.
struct Folder(PathBuf);

impl Folder {
    fn new() -> std::io::Result<Self> {
        let path = std::env::temp_dir().join(format!("zs-bench-{}", std::process::id()));
        std::fs::create_dir(&path)?;
        Ok(Folder(path))
    }
}

impl Drop for Folder {
    fn drop(&mut self) {
        // What can't be removed stays in the folder for temporary files.
        let _ = std::fs::remove_dir_all(&self.0);
    }
}

fn main() -> Result<(), String> {
    let arguments = arguments(std::env::args().skip(1))?;
    let folder = Folder::new().map_err(|error| error.to_string())?;
    let write_to = arguments.write.clone();
    let (report, panels) = measure(arguments, &folder.0);
    drop(folder);
    println!("{}", report.markdown());
    match write_to {
        Some(docs) => write(&docs, &report, &panels),
        None => Ok(()),
    }
}

fn arguments(mut words: impl Iterator<Item = String>) -> Result<Arguments, String> {
    let mut quick = false;
    let mut paths = HashMap::new();
    while let Some(word) = words.next() {
        match word.as_str() {
            "--quick" => quick = true,
            "--zs" | "--library" | "--before-zs" | "--before-library" | "--portable"
            | "--accelerated" | "--write" => {
                let path = words.next().ok_or(format!("{word} what?"))?;
                paths.insert(word, PathBuf::from(path));
            }
            _ => return Err(format!("{word}: not understood")),
        }
    }
    let needed = |name| paths.get(name).cloned().ok_or(format!("{name} is needed"));
    Ok(Arguments {
        programs: Programs {
            zs: needed("--zs")?,
            before: paths.get("--before-zs").cloned(),
            portable: needed("--portable")?,
            accelerated: needed("--accelerated")?,
        },
        libraries: Libraries {
            now: Library::load(&needed("--library")?)?,
            before: match paths.get("--before-library") {
                Some(path) => Some(Library::load(path)?),
                None => None,
            },
        },
        quick,
        write: paths.get("--write").cloned(),
    })
}

/// Measures everything. A wrong answer on any side ends the program.
fn measure(arguments: Arguments, folder: &Path) -> (Report, [Panel; 2]) {
    let sizes = if arguments.quick { QUICK } else { FULL };
    let records = records::records(sizes.records);
    let lines = folder.join("records.txt");
    std::fs::write(&lines, records::lines(&records)).expect("room for the lines");
    let setting = Setting {
        sizes,
        programs: arguments.programs,
        libraries: arguments.libraries,
        folder,
        records: &records,
        lines: &lines,
    };
    let mut report = Report::new(machine::describe());
    let mut archive = Archive::new(Shape::Plain.archive(&records), records.len());
    let file = folder.join("records.zs");
    std::fs::write(&file, &archive.bytes).expect("room for the archive");
    crc_lengths::measure(&setting, &archive.bytes, &mut report);
    earlier_library::measure(&setting, &archive, &mut report);
    profile::measure(&setting, &mut archive, &mut report);
    checking::measure(&setting, &mut archive, &file, &mut report);
    lookups::measure(&setting, &archive, &file, &mut report);
    results::measure(&setting, &archive, &file, &mut report);
    checksums::measure(&setting, &archive.bytes, &mut report);
    drop(archive);
    metadata::measure(&setting, &mut report);
    writing::measure(&setting, &mut report);
    sessions::measure(&setting, &mut report);
    importing::measure(&setting, &mut report);
    comparing::measure(&setting, &mut report);
    earlier_build::measure(&setting, &file, &mut report);
    block_sizes::measure(&setting, &mut report);
    keys::measure(&setting, &mut report);
    let panels = growth::measure(&setting, &mut report);
    (report, panels)
}

/// Puts the tables between the marks of the document, and the curves beside it.
fn write(docs: &Path, report: &Report, panels: &[Panel]) -> Result<(), String> {
    let document = docs.join("PERFORMANCE.md");
    let text = std::fs::read_to_string(&document).map_err(|error| error.to_string())?;
    let marks = (text.find(FIRST_MARK), text.find(LAST_MARK));
    let (first, last) = match marks {
        (Some(first), Some(last)) => (first + FIRST_MARK.len(), last),
        _ => return Err("PERFORMANCE.md has lost its marks".to_string()),
    };
    let text = format!(
        "{}\n{}\n{}",
        &text[..first],
        report.markdown(),
        &text[last..]
    );
    let written = std::fs::write(&document, text);
    let written =
        written.and_then(|()| std::fs::write(docs.join("growth.svg"), chart::svg(panels)));
    written.map_err(|error| error.to_string())
}
