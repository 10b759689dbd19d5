//! Where answers are written: standard output, or a file that appears only when it is whole, unless an archive is to be written in place.

use std::fs::{File, Metadata, OpenOptions};
use std::io::{self, BufWriter, ErrorKind, Write};
use std::os::unix::fs::MetadataExt;
use std::path::Path;

use crate::cut_files::note_writing;
use crate::escapes::escape_name;
use crate::failure::{in_words, Failure};
use crate::input::system_path;
use crate::storing::{carry_out, store_new, store_over, sync_folder};
use crate::system;
use crate::target::{folder_of, Target};
use crate::unfinished::{Unfinished, USUAL};

const BUFFER: usize = 1 << 16;

/// What writes an answer.
pub type Writing<'a> = dyn Fn(&mut dyn Write) -> io::Result<()> + 'a;

/// Where an answer goes, and what it is called in messages.
pub struct Output {
    name: String,
    target: Target,
    /// Whether a file that comes to have this name meanwhile is replaced.
    replaces: bool,
    /// Whether an archive is written to the target itself, and not under a temporary name.
    in_place: bool,
}

impl Output {
    /// Finds a file, or standard output where none (or `-`) is named. Nothing is opened for writing yet.
    pub fn find(path: Option<&Path>) -> Result<Self, Failure> {
        let (name, target) = match path.filter(|path| *path != Path::new("-")) {
            None => ("standard output".into(), Target::standard_output()),
            Some(path) => (escape_name(path), Target::find(path)),
        };
        match target {
            Ok(target) => Ok(Output {
                name,
                target,
                replaces: true,
                in_place: false,
            }),
            Err(error) => Err(describe(&name, &error)),
        }
    }

    /// An archive isn't replaced by its own records, and nothing is added to it.
    pub fn refuse_archive(&self, archive: &Path) -> Result<(), Failure> {
        self.refuse_input(archive, "archive")
    }

    /// What is read isn't written. `what` says what it is.
    pub fn refuse_input(&self, input: &Path, what: &str) -> Result<(), Failure> {
        if self.is_file(input) {
            let name = escape_name(input);
            let words = format!("{name}: the output is the {what} itself; name another output");
            return Err(Failure::Trouble(words));
        }
        Ok(())
    }

    /// From here on a file that has this name is kept, also one that comes to have it.
    pub fn keep_existing(&mut self) -> Result<(), Failure> {
        self.replaces = false;
        match self.target {
            Target::Plain(..) => Err(describe(&self.name, &ErrorKind::AlreadyExists.into())),
            _ => Ok(()),
        }
    }

    /// From here on an archive goes to the target itself, which has to be a plain file.
    pub fn write_in_place(&mut self) -> Result<(), Failure> {
        if !self.is_plain() {
            let reason = "only a plain file, given by its name, can be; leave out --in-place";
            let words = format!("can't write {} in place: {reason}", self.name);
            return Err(Failure::Trouble(words));
        }
        self.in_place = true;
        Ok(())
    }

    /// Whether this is a plain file, or will be one.
    pub fn is_plain(&self) -> bool {
        self.plain().is_some()
    }

    /// The path of a plain file, and the file that is there already.
    fn plain(&self) -> Option<(&Path, Option<&Metadata>)> {
        match &self.target {
            Target::Plain(path, about) => Some((path, Some(about))),
            Target::New(path) => Some((path, None)),
            Target::Open(_) | Target::Special(_) => None,
        }
    }

    pub fn is_file(&self, path: &Path) -> bool {
        self.target.is_same_file(system_path(path))
    }

    /// Sees that a file can be made where this one will be. A pipe or a device isn't tried.
    pub fn try_folder(&self) -> Result<(), Failure> {
        let made = match (self.in_place, self.plain()) {
            (false, Some((path, old))) => create_beside(path, old),
            (true, Some((path, None))) => Unfinished::create(path.to_path_buf(), USUAL),
            // No file is made.
            (true, Some((_, Some(_)))) | (_, None) => return Ok(()),
        };
        // The file is removed at once.
        made.map(drop).map_err(|error| describe(&self.name, &error))
    }

    /// Writes an answer front to back.
    pub fn write(&self, writing: &Writing) -> Result<(), Failure> {
        let to_disk = |file: &File| write_buffered(file, writing).and_then(|()| file.sync_all());
        let outcome = match &self.target {
            Target::Open(file) => write_through(file, writing),
            Target::Special(path) => OpenOptions::new()
                .write(true)
                .open(path)
                .and_then(|file| write_through(&file, writing)),
            Target::Plain(path, about) => self.write_whole(path, Some(about), &to_disk),
            Target::New(path) => self.write_whole(path, None, &to_disk),
        };
        if let (Ok(()), Some((path, _))) = (&outcome, self.plain()) {
            // The file is whole under this name or under the old one.
            let _ = sync_folder(path);
        }
        outcome.map_err(|error| match error.kind() {
            ErrorKind::BrokenPipe => Failure::ReaderGone,
            _ => describe(&self.name, &error),
        })
    }

    /// Writes an archive: a plain file by its stores, and anything else front to back, since a pipe takes nothing in another order.
    pub fn store(&self, archive: &[u8]) -> Result<(), Failure> {
        let (path, old) = match self.plain() {
            Some(plain) => plain,
            None => return self.write(&|out| out.write_all(archive)),
        };
        let outcome = match (self.in_place, old) {
            (false, _) => self.write_whole(path, old, &|file| carry_out(archive, file)),
            (true, None) => match store_new(path, archive) {
                Err(error) if self.replaces && error.kind() == ErrorKind::AlreadyExists => {
                    store_over(path, archive)
                }
                outcome => outcome,
            },
            (true, Some(_)) => store_over(path, archive),
        };
        outcome.map_err(|error| describe(&self.name, &error))?;
        match self.in_place {
            true => Ok(()),
            false => sync_folder(path).map_err(|error| doubt_name(&self.name, &error)),
        }
    }

    /// Fills a file under a temporary name beside the target, and gives it its name once everything is there.
    fn write_whole(
        &self,
        target: &Path,
        old: Option<&Metadata>,
        filling: &Filling,
    ) -> io::Result<()> {
        let new = create_beside(target, old)?;
        filling(new.file())?;
        match self.replaces {
            true => new.rename(target),
            false => new.take_free_name(target),
        }
    }
}

/// Writes an answer to standard output, unless that is the archive.
pub fn write(archive: &Path, writing: &Writing) -> Result<(), Failure> {
    let output = Output::find(None)?;
    output.refuse_archive(archive)?;
    output.write(writing)
}

/// Writes a text to standard output.
pub fn print(text: &str) -> Result<(), Failure> {
    Output::find(None)?.write(&|out| out.write_all(text.as_bytes()))
}

/// Gives a number and what it counts.
pub fn format_count(number: u64, one: &str, more: &str) -> String {
    match number {
        1 => format!("1 {one}"),
        _ => format!("{number} {more}"),
    }
}

fn describe(name: &str, error: &io::Error) -> Failure {
    let words = match error.raw_os_error() {
        Some(libc::EBADF) => "it isn't open for writing".into(),
        _ if error.kind() == ErrorKind::AlreadyExists => {
            "it is there already; --force replaces it".into()
        }
        _ => in_words(error),
    };
    Failure::Trouble(format!("can't write {name}: {words}"))
}

/// Writes to what takes every part of an answer at once, as a pipe does.
fn write_through(file: &File, writing: &Writing) -> io::Result<()> {
    note_writing();
    write_buffered(file, writing)
}

/// Writes to what is open already, whole blocks at a time.
fn write_buffered(file: &File, writing: &Writing) -> io::Result<()> {
    let mut buffered = BufWriter::with_capacity(BUFFER, file);
    let outcome = writing(&mut buffered).and_then(|()| buffered.flush());
    // After a failure nothing more is tried, as dropping the buffer would.
    drop(buffered.into_parts());
    outcome
}

/// What gives an empty file its contents, up to their being on the disk.
type Filling<'a> = dyn Fn(&File) -> io::Result<()> + 'a;

/// Says what is left to fear where only the folder isn't on the disk.
fn doubt_name(name: &str, error: &io::Error) -> Failure {
    let words = "the archive is whole and in its place, but at a power cut its name may be lost";
    Failure::Trouble(format!(
        "{name}: {words}: {error}; look after the disk, then run sync"
    ))
}

fn create_beside(target: &Path, old: Option<&Metadata>) -> io::Result<Unfinished> {
    let folder = folder_of(target);
    match old {
        Some(old) => create_like(old, folder),
        None => Unfinished::create_in(folder, USUAL),
    }
}

/// Creates a file with the owner, the group and the permissions of the one that it will replace. Before, nobody else may open it.
fn create_like(old: &Metadata, folder: &Path) -> io::Result<Unfinished> {
    let temporary = Unfinished::create_in(folder, 0o600)
        .map_err(|error| explain("no file can be made beside it", &error))?;
    let file = temporary.file();
    let new = file.metadata()?;
    if (new.uid(), new.gid()) != (old.uid(), old.gid()) {
        system::give_owner(file, old.uid(), old.gid())
            .map_err(|error| explain("its owner and group can't be kept", &error))?;
    }
    if new.mode() != old.mode() {
        file.set_permissions(old.permissions())?;
    }
    Ok(temporary)
}

/// Says why a file isn't replaced, and what to do.
fn explain(what: &str, error: &io::Error) -> io::Error {
    let advice = "name a new file elsewhere, or write into this one with >";
    let words = format!("{what} ({}); {advice}", in_words(error));
    io::Error::new(error.kind(), words)
}
