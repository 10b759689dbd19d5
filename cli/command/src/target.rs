//! What the name of an output stands for.

use std::fs::{self, Metadata, OpenOptions};
use std::io::{self, ErrorKind};
use std::os::unix::ffi::OsStrExt;
use std::os::unix::fs::{FileTypeExt, MetadataExt};
use std::os::unix::io::RawFd;
use std::path::{Path, PathBuf};

use crate::system::{lend_descriptor, Lent};

/// More links one after the other are a loop, as the system has it.
const MOST_LINKS: usize = 40;

/// Where an answer goes.
pub enum Target {
    /// What whoever started the command has opened: standard output, or a number in /dev/fd. It is written through, also where it is a
    /// plain file.
    Open(Lent),
    /// A device or a pipe. It is written as it is.
    Special(PathBuf),
    /// A plain file. It is replaced, and keeps owner and permissions.
    Plain(PathBuf, Metadata),
    /// A name that is free.
    New(PathBuf),
}

impl Target {
    pub fn standard_output() -> io::Result<Self> {
        lend_descriptor(1).map(Target::Open)
    }

    /// Finds what a name stands for, and refuses what can't be written.
    pub fn find(name: &Path) -> io::Result<Self> {
        let (path, descriptor) = follow_links(name)?;
        if let Some(number) = descriptor {
            return lend_descriptor(number).map(Target::Open);
        }
        match fs::metadata(&path) {
            Ok(about) if about.is_file() => {
                refuse_read_only(&path, &about)?;
                Ok(Target::Plain(path, about))
            }
            Ok(about) if about.is_dir() => Err(io::Error::from_raw_os_error(libc::EISDIR)),
            Ok(_) => Ok(Target::Special(path)),
            Err(error) if error.kind() == ErrorKind::NotFound => accept_free_name(path),
            Err(error) => Err(error),
        }
    }

    /// Whether this is the file that a path names. Devices and pipes are never the same: what is written there isn't read back.
    pub fn is_same_file(&self, path: &Path) -> bool {
        let own = match self {
            Target::Open(file) => file.metadata(),
            Target::Special(path) => fs::metadata(path),
            Target::Plain(_, about) => Ok(about.clone()),
            Target::New(_) => return false,
        };
        match (own, fs::metadata(path)) {
            (Ok(own), Ok(other)) => {
                let stored = own.is_file() || own.file_type().is_block_device();
                stored && (own.dev(), own.ino()) == (other.dev(), other.ino())
            }
            _ => false,
        }
    }
}

/// The folder that a name stands in.
pub fn folder_of(path: &Path) -> &Path {
    match path.parent() {
        Some(folder) if !folder.as_os_str().is_empty() => folder,
        Some(_) => Path::new("."),
        None => path,
    }
}

/// Follows links up to a file or a free name, or up to the number of a descriptor.
fn follow_links(name: &Path) -> io::Result<(PathBuf, Option<RawFd>)> {
    let mut path = name.to_path_buf();
    for _ in 0..=MOST_LINKS {
        let descriptor = find_descriptor(&path)?;
        match fs::read_link(&path) {
            Ok(next) if descriptor.is_none() => path = folder_of(&path).join(next),
            _ => return Ok((path, descriptor)),
        }
    }
    Err(io::Error::from_raw_os_error(libc::ELOOP))
}

/// Gives the number that a name in /proc/self/fd stands for; /dev/fd leads there. What looks like a link there is none: whoever
/// follows it gets another handle, and writes from the start of the file.
fn find_descriptor(path: &Path) -> io::Result<Option<RawFd>> {
    let folder = match fs::canonicalize(folder_of(path)) {
        Ok(folder) if folder.starts_with("/proc") && folder.ends_with("fd") => folder,
        _ => return Ok(None),
    };
    let is_folder = |own: &str| matches!(fs::canonicalize(own), Ok(own) if own == folder);
    if !is_folder("/proc/self/fd") && !is_folder("/proc/thread-self/fd") {
        return Err(refuse("it belongs to another process"));
    }
    let name = path.file_name().and_then(|name| name.to_str());
    Ok(name.and_then(|name| name.parse().ok()))
}

/// A file that nobody may write isn't replaced: not by root, and not where its folder would allow it.
fn refuse_read_only(path: &Path, about: &Metadata) -> io::Result<()> {
    if about.permissions().readonly() {
        return Err(refuse("it is read-only"));
    }
    OpenOptions::new().write(true).open(path).map(drop)
}

fn refuse(reason: &str) -> io::Error {
    io::Error::new(ErrorKind::Other, reason)
}

/// A free name needs a folder.
fn accept_free_name(path: PathBuf) -> io::Result<Target> {
    if path.as_os_str().as_bytes().ends_with(b"/") {
        return Err(io::Error::from_raw_os_error(libc::EISDIR));
    }
    fs::metadata(folder_of(&path))?;
    Ok(Target::New(path))
}
