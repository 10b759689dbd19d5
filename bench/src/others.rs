//! Other programs, run as processes.

use std::fmt::{self, Display, Formatter};
use std::io::{self, BufRead, BufReader, Read, Write};
use std::path::{Path, PathBuf};
use std::process::{Child, ChildStdin, ChildStdout, Command, Stdio};

/// Where the programs are that were built for this bench.
pub struct Programs {
    /// The command `zs`.
    pub zs: PathBuf,
    /// `zs` of an earlier build, if one is named.
    pub before: Option<PathBuf>,
    /// `reference` with portable checksums.
    pub portable: PathBuf,
    /// `reference` with the processor's instructions for SHA.
    pub accelerated: PathBuf,
}

/// A program, its arguments, and the status with which it has to end.
pub struct Call {
    program: PathBuf,
    arguments: Vec<String>,
    status: i32,
}

impl Call {
    /// A call that is made when it is run.
    pub fn new(program: impl AsRef<Path>, arguments: &[&str]) -> Self {
        Call {
            program: program.as_ref().to_path_buf(),
            arguments: arguments.iter().map(|word| word.to_string()).collect(),
            status: 0,
        }
    }

    /// The same call, which has to end with another status.
    pub fn ending(self, status: i32) -> Self {
        Call { status, ..self }
    }

    fn command(&self) -> Command {
        let mut command = Command::new(&self.program);
        command.args(&self.arguments).env("LC_ALL", "C");
        command.stdin(Stdio::null()).stderr(Stdio::null());
        command
    }

    /// Runs the program and ignores its output.
    pub fn run(&self) {
        let status = self.command().stdout(Stdio::null()).status();
        let code = status.ok().and_then(|status| status.code());
        assert!(code == Some(self.status), "{self} failed");
    }

    /// Runs the program and gives what it wrote.
    pub fn output(&self) -> Vec<u8> {
        let output = self.command().output();
        match output {
            Ok(output) if output.status.code() == Some(self.status) => output.stdout,
            _ => panic!("{self} failed"),
        }
    }

    /// Runs the program, which writes more than a pipe holds, and gives how many bytes of memory it had in use at most when it began to
    /// write.
    pub fn peak_memory(&self) -> usize {
        let child = self.command().stdout(Stdio::piped()).spawn();
        let mut child = child.unwrap_or_else(|_| panic!("{self} failed"));
        let mut output = child.stdout.take().expect("a pipe");
        // It can't end before the pipe is read, so there is a process to look at.
        let begun = output.read_exact(&mut [0]);
        let peak = begun.ok().and_then(|()| peak_memory(child.id()));
        let read = io::copy(&mut output, &mut io::sink());
        let status = read.and_then(|_| child.wait());
        let code = status.ok().and_then(|status| status.code());
        assert!(code == Some(self.status), "{self} failed");
        peak.unwrap_or_else(|| panic!("{self}: its memory isn't known"))
    }
}

/// How many bytes of memory a process that runs has had in use at most.
fn peak_memory(process: u32) -> Option<usize> {
    let status = std::fs::read_to_string(format!("/proc/{process}/status")).ok()?;
    let line = status
        .lines()
        .find_map(|line| line.strip_prefix("VmHWM:"))?;
    let kibibytes: usize = line.trim().strip_suffix(" kB")?.parse().ok()?;
    Some(1024 * kibibytes)
}

impl Display for Call {
    fn fmt(&self, out: &mut Formatter) -> fmt::Result {
        write!(
            out,
            "{} {}",
            self.program.display(),
            self.arguments.join(" ")
        )
    }
}

/// The first line that a program writes about itself; `unknown` where it can't be run.
pub fn version(program: &str, argument: &str) -> String {
    let output = Command::new(program).arg(argument).output();
    let text = output.map_or(Vec::new(), |output| output.stdout);
    let text = String::from_utf8_lossy(&text);
    text.lines().next().unwrap_or("unknown").to_string()
}

/// Has `sqlite3` import lines into a new database, in which they are the primary key and nothing else.
pub fn import_lines(lines: &Path, database: &Path) -> Call {
    let words: [&str; 5] = [
        &database.to_string_lossy(),
        "create table records(record text primary key) without rowid",
        ".mode ascii",
        ".separator \u{1f} \\n",
        &format!(".import {} records", lines.display()),
    ];
    Call::new("sqlite3", &words)
}

/// The independent reader or the second writer in a process of its own, with its files in its memory.
pub struct Reference {
    child: Child,
    asked: ChildStdin,
    told: BufReader<ChildStdout>,
}

/// What it says.
pub struct Told {
    /// How long it took.
    pub seconds: f64,
    /// The numbers of its answer.
    pub answer: Vec<u64>,
}

impl Reference {
    /// Starts the program.
    pub fn start(program: &Path, arguments: &[&str]) -> Self {
        let mut command = Command::new(program);
        command.args(arguments);
        command.stdin(Stdio::piped()).stdout(Stdio::piped());
        let mut child = command.spawn().expect("the independent reader");
        match (child.stdin.take(), child.stdout.take()) {
            (Some(asked), Some(told)) => Reference {
                child,
                asked,
                told: BufReader::new(told),
            },
            _ => panic!("no pipes to the independent reader"),
        }
    }

    /// Has it do its work once.
    pub fn ask(&mut self) -> Told {
        let mut line = String::new();
        let asked = self
            .asked
            .write_all(b"\n")
            .and_then(|()| self.asked.flush());
        let told = asked.and_then(|()| self.told.read_line(&mut line));
        assert!(told.is_ok(), "the independent reader is gone");
        let numbers: Vec<u64> = line
            .split_whitespace()
            .filter_map(|word| word.parse().ok())
            .collect();
        match numbers.split_first() {
            Some((time, answer)) => Told {
                seconds: *time as f64 / 1e9,
                answer: answer.to_vec(),
            },
            None => panic!("the independent reader said {line:?}"),
        }
    }
}

impl Drop for Reference {
    fn drop(&mut self) {
        // It may have ended already; either way nothing is left to do.
        let _ = self.child.kill();
        let _ = self.child.wait();
    }
}
