//! A file that isn't finished: it is removed unless it gets its name or keeps the one that it has, also where a signal ends the process.

use std::collections::hash_map::RandomState;
use std::fs::{self, File, OpenOptions};
use std::hash::{BuildHasher, Hasher};
use std::io::{self, ErrorKind};
use std::os::unix::fs::OpenOptionsExt;
use std::path::{Path, PathBuf};

use crate::signals::{forget_unfinished, hold_signals, remember_unfinished, remove_unfinished};

/// The permissions of a new file.
pub const USUAL: u32 = 0o666;

/// An unfinished file. The process has at most one.
pub struct Unfinished {
    file: File,
    path: PathBuf,
}

impl Unfinished {
    /// Creates a file under a temporary name, which is one of 2^64 and drawn.
    pub fn create_in(folder: &Path, mode: u32) -> io::Result<Self> {
        let drawn = RandomState::new().build_hasher().finish();
        Self::create(folder.join(format!(".zs-{drawn:016x}.tmp")), mode)
    }

    /// Creates a file of this name, if nothing has it, with these permissions, less what the umask takes away.
    pub fn create(path: PathBuf, mode: u32) -> io::Result<Self> {
        // A signal finds no file or one that is remembered, and never one that somebody else has made.
        hold_signals(|| {
            let mut options = OpenOptions::new();
            let options = options.write(true).create_new(true).mode(mode);
            let file = options.open(&path)?;
            remember_unfinished(&path)?;
            Ok(Unfinished { file, path })
        })
    }

    pub fn file(&self) -> &File {
        &self.file
    }

    /// Gives the file its name, in place of what has that name. Its contents have to be on the disk before.
    pub fn rename(self, target: &Path) -> io::Result<()> {
        fs::rename(&self.path, target)?;
        self.keep();
        Ok(())
    }

    /// Gives the file its name, if nothing has that name. Its contents have to be on the disk before.
    pub fn take_free_name(self, target: &Path) -> io::Result<()> {
        match fs::hard_link(&self.path, target) {
            // Some file systems have no hard links.
            Err(error) if error.kind() != ErrorKind::AlreadyExists => self.rename(target),
            // The temporary name is removed with this value.
            linked => linked,
        }
    }

    /// From here on the file is a finished one.
    pub fn keep(self) {
        forget_unfinished();
    }
}

impl Drop for Unfinished {
    fn drop(&mut self) {
        // Otherwise a signal could end the process when the name is forgotten, and the file still there.
        hold_signals(remove_unfinished);
    }
}
