//! `make-archives DIR [read] [check] [search] [record] [write] [import_sim] [store] [compare] [shown] [session]`
//!
//! Writes the corpus: `DIR/data/*` are the files, `DIR/data/cases`, `DIR/data/more-cases`,
//! `DIR/data/write-cases`, `DIR/data/import-cases`, `DIR/data/session-cases` and `DIR/data/compare-cases` the cases of
//! the calls named (all ten if none is), and `DIR/stdout` the lines due. The same calls always give the same bytes.

use std::error::Error;
use std::fs;
use std::path::Path;
use std::process::ExitCode;

use zs_reference::corpus::{Call, Corpus, ALL_CALLS};

const USAGE: &str =
    "usage: make-archives DIR [read] [check] [search] [record] [write] [import_sim] [store] [compare] [shown] [session]";

fn main() -> ExitCode {
    let arguments: Vec<String> = std::env::args().skip(1).collect();
    let (folder, calls) = match parse(&arguments) {
        Some(parsed) => parsed,
        None => {
            eprintln!("{USAGE}");
            return ExitCode::from(2);
        }
    };
    match write(Path::new(folder), &calls) {
        Ok(summary) => {
            println!("{summary}");
            ExitCode::SUCCESS
        }
        Err(error) => {
            eprintln!("make-archives: {error}");
            ExitCode::FAILURE
        }
    }
}

/// Gives the folder and the calls asked for.
fn parse(arguments: &[String]) -> Option<(&str, Vec<Call>)> {
    let (folder, words) = arguments.split_first()?;
    let call = |word: &String| ALL_CALLS.into_iter().find(|call| call.word() == word);
    let calls: Vec<Call> = words.iter().map(call).collect::<Option<_>>()?;
    if calls.is_empty() {
        Some((folder, ALL_CALLS.to_vec()))
    } else {
        Some((folder, calls))
    }
}

/// Writes everything and says how much it was.
fn write(folder: &Path, calls: &[Call]) -> Result<String, Box<dyn Error>> {
    let corpus = Corpus::whole().with_calls(calls);
    if let Some(complaint) = corpus.broken_limit() {
        return Err(complaint.into());
    }
    let data = folder.join("data");
    fs::create_dir_all(&data)?;
    for file in &corpus.files {
        fs::write(data.join(&file.name), &file.bytes)?;
    }
    for (name, cases) in corpus.case_files() {
        fs::write(data.join(name), cases)?;
    }
    fs::write(folder.join("stdout"), corpus.lines())?;
    warn_of_other_files(&data, &corpus)?;
    let bytes: usize = corpus.files.iter().map(|file| file.bytes.len()).sum();
    Ok(format!(
        "{} files ({bytes} bytes), {} cases ({} bytes)",
        corpus.files.len(),
        corpus.cases.len(),
        corpus
            .case_files()
            .map(|(_, cases)| cases.len())
            .iter()
            .sum::<usize>(),
    ))
}

/// Warns of files that another run left; they stay.
fn warn_of_other_files(data: &Path, corpus: &Corpus) -> Result<(), Box<dyn Error>> {
    let cases = corpus.case_files().map(|(name, _)| name);
    for entry in fs::read_dir(data)? {
        let name = entry?.file_name().to_string_lossy().into_owned();
        let known =
            cases.contains(&name.as_str()) || corpus.files.iter().any(|file| file.name == name);
        if !known {
            eprintln!(
                "make-archives: {name} in {} isn't of this corpus",
                data.display()
            );
        }
    }
    Ok(())
}
