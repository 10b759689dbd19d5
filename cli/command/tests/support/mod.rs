//! Runs the command, and keeps its files in a folder that is removed afterwards.

pub mod backups;
pub mod faults;
pub mod sim;
pub mod states;

use std::ffi::OsStr;
use std::fs;
use std::io::Write;
use std::path::{Path, PathBuf};
use std::process::{Command, ExitStatus, Output, Stdio};
use std::sync::atomic::{AtomicUsize, Ordering};
use std::thread::sleep;
use std::time::Duration;

use zs_reference::reader::{self, Query};
pub const ZS: &str = env!("CARGO_BIN_EXE_zs");
pub const CONTACTS: &str = concat!(env!("CARGO_MANIFEST_DIR"), "/../../samples/contacts.zs");
pub const OLDER: &str = concat!(
    env!("CARGO_MANIFEST_DIR"),
    "/../../samples/contacts-older.zs"
);
pub const SMALL: &str = concat!(env!("CARGO_MANIFEST_DIR"), "/../../samples/small.zs");
pub const PHONEBOOK: &str = concat!(
    env!("CARGO_MANIFEST_DIR"),
    "/../../samples/sim-phonebook.adn"
);

/// What is said of metadata in UTF-8 that begins and ends as it should.
pub const NO_JSON: &str = "what stands between the braces isn't JSON, or is nested too deep; \
     often a name or a text lacks its double quotes, or a comma stands before } or ]";

/// What a run gave.
#[derive(Debug)]
pub struct Run {
    pub status: i32,
    pub out: Vec<u8>,
    pub err: String,
}

impl Run {
    pub fn of(output: Output) -> Self {
        Run {
            status: output.status.code().unwrap_or(-1),
            out: output.stdout,
            err: String::from_utf8_lossy(&output.stderr).into_owned(),
        }
    }

    pub fn text(&self) -> String {
        String::from_utf8_lossy(&self.out).into_owned()
    }
}

pub fn zs<S: AsRef<OsStr>>(arguments: &[S]) -> Run {
    let mut command = Command::new(ZS);
    command.args(arguments).stdin(Stdio::null());
    Run::of(command.output().expect("the command runs"))
}

/// Runs the command with these bytes on its standard input, through a pipe.
pub fn zs_with_input<S: AsRef<OsStr>>(arguments: &[S], input: &[u8]) -> Run {
    let mut child = Command::new(ZS)
        .args(arguments)
        .stdin(Stdio::piped())
        .stdout(Stdio::piped())
        .stderr(Stdio::piped())
        .spawn()
        .expect("the command runs");
    // A refusal may come before the input is read.
    let _ = child.stdin.take().expect("a pipe").write_all(input);
    Run::of(child.wait_with_output().expect("the command ends"))
}

/// Makes the archive `name` of an input. Command and independent reader accept it and count what the command says is in it.
pub fn accepted(name: &str, words: &[&str], input: &[u8]) -> Vec<u8> {
    let run = zs_with_input(words, input);
    assert_eq!((run.status, run.err.as_str()), (0, ""), "{words:?}");
    let file = fs::read(name).expect("the archive");
    let checked = reader::check(&file, file.len());
    assert_eq!(checked.number, 0, "{words:?}");
    let ending = |number: u64| if number == 1 { "" } else { "s" };
    let (records, blocks) = (checked.records, checked.blocks);
    let counts = format!("{records} record{} in {blocks} blocks", ending(records));
    let due = format!("{name}: made, {counts}, {} bytes\n", file.len());
    assert_eq!(run.text(), due);
    let verdict = zs(&["validate", name]);
    assert_eq!(verdict.text(), format!("{name}: valid, {counts}\n"));
    file
}

/// Runs a line of the shell; `$ZS` is the command.
pub fn shell(line: &str, folder: &Folder) -> Run {
    let mut command = Command::new("sh");
    command
        .args(["-c", line])
        .env("ZS", ZS)
        .current_dir(folder.path());
    Run::of(command.output().expect("a shell runs"))
}

/// A folder that is removed with what is in it.
pub struct Folder(PathBuf);

impl Folder {
    pub fn new() -> Self {
        static NEXT: AtomicUsize = AtomicUsize::new(0);
        let number = NEXT.fetch_add(1, Ordering::Relaxed);
        let name = format!("zs-command-{}-{number}", std::process::id());
        let path = std::env::temp_dir().join(name);
        fs::create_dir_all(&path).expect("a temporary folder");
        Folder(path)
    }

    pub fn path(&self) -> &Path {
        &self.0
    }

    /// The path of a file in the folder.
    pub fn name(&self, file: &str) -> String {
        self.0.join(file).display().to_string()
    }

    pub fn write(&self, file: &str, bytes: &[u8]) -> String {
        fs::write(self.0.join(file), bytes).expect("a temporary file");
        self.name(file)
    }

    /// The names of all files in the folder, hidden ones too.
    pub fn files(&self) -> Vec<String> {
        let entries = fs::read_dir(&self.0).expect("the temporary folder");
        let name = |entry: std::io::Result<fs::DirEntry>| entry.expect("an entry").file_name();
        let mut names: Vec<String> = entries
            .map(|entry| name(entry).to_string_lossy().into_owned())
            .collect();
        names.sort();
        names
    }
}

impl Drop for Folder {
    fn drop(&mut self) {
        let _ = fs::remove_dir_all(&self.0);
    }
}

/// Runs a command that would make an archive of an input in which something is wrong; OUT stands between `before` and `after`. Nothing is
/// left, and a file that was to be replaced is kept.
pub fn fail_to_make(before: &[&str], after: &[&str], input: &[u8]) -> Run {
    let folder = Folder::new();
    let out = folder.name("out");
    let words = [before, &[&out], after].concat();
    let run = zs_with_input(&words, input);
    assert_eq!(folder.files(), Vec::<String>::new());
    folder.write("out", b"kept");
    let again = zs_with_input(&[&words, &["--force"][..]].concat(), input);
    assert_eq!((again.status, &again.err), (run.status, &run.err));
    assert_eq!(folder.files(), ["out"]);
    assert_eq!(fs::read(&out).expect("the old file"), b"kept");
    assert_eq!(run.out.len(), 0);
    Run {
        err: run.err.replace(&out, "OUT"),
        ..run
    }
}

/// Holds a run to a refusal: number, what is said in brackets, and what to do. `file` is the one that is named, if one is.
pub fn expect_refusal(run: &Run, file: &str, number: u64, detail: &str) {
    let name = match file {
        "" => String::new(),
        _ => format!("{file}: "),
    };
    let (first, second) = run.err.split_once('\n').expect("two lines");
    assert_eq!(run.status, 1, "{first}");
    assert!(
        first.starts_with(&format!("zs: {name}refused {number}: "))
            && first.ends_with(&format!(" ({detail})")),
        "{first}"
    );
    assert!(second.starts_with("zs: what to do: "), "{second}");
    assert_eq!(second.lines().count(), 1, "{second}");
}

/// An object in which arrays are nested, so many of both.
pub fn nest_metadata(depth: usize) -> String {
    let (open, close) = ("[".repeat(depth - 1), "]".repeat(depth - 1));
    format!("{{\"a\": {open}{close}}}")
}

/// The sample with one bit flipped in its first data block, and the place of that block.
pub fn damaged_sample() -> (Vec<u8>, usize) {
    let mut file = fs::read(CONTACTS).expect("the sample");
    let header = u64::from_le_bytes(file[8..16].try_into().expect("eight bytes"));
    let place = 24 + header as usize;
    file[place + 20] ^= 1;
    (file, place)
}

/// The records of an archive, by the independent reader.
pub fn records_of(file: &[u8]) -> Vec<Vec<u8>> {
    matching_records(file, &Query::default())
}

/// Those of them that match.
pub fn matching_records(file: &[u8], query: &Query) -> Vec<Vec<u8>> {
    let answer = reader::read(file, query, file.len());
    assert_eq!(answer.number, 0);
    let matches = answer.results.iter().take(answer.matches as usize);
    let parts = matches.map(|number| reader::unpack(*number));
    parts
        .map(|(offset, length)| file[offset as usize..][..length as usize].to_vec())
        .collect()
}

/// Records, each after its length in eight bytes.
pub fn u64le(records: &[Vec<u8>]) -> Vec<u8> {
    let records = records.iter();
    records
        .flat_map(|record| [&(record.len() as u64).to_le_bytes(), record.as_slice()].concat())
        .collect()
}

/// The names of temporary files in which something is written.
pub fn unfinished(folder: &Folder) -> Vec<String> {
    let is_begun =
        |name: &String| fs::metadata(folder.name(name)).map_or(0, |about| about.len()) > 0;
    let is_temporary = |name: &String| name.starts_with(".zs-") && name.ends_with(".tmp");
    let mut files = folder.files();
    files.retain(|name| is_temporary(name) && is_begun(name));
    files
}

/// Starts the command, and sends a signal once some of its output is written. The output may be there before.
pub fn interrupt(arguments: &[&str], signal: i32, folder: &Folder) -> ExitStatus {
    let mut child = Command::new("env")
        .args(["--default-signal", ZS])
        .args(arguments)
        .current_dir(folder.path())
        .stdout(Stdio::null())
        .stderr(Stdio::null())
        .spawn()
        .expect("the command runs");
    while unfinished(folder).is_empty() {
        if let Some(status) = child.try_wait().expect("a status") {
            return status;
        }
        sleep(Duration::from_micros(200));
    }
    shell(&format!("kill -{signal} {}", child.id()), folder);
    child.wait().expect("the command ends")
}
