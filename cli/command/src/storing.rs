//! How an archive comes to the disk: by the stores that the library gives, so that a power cut leaves no wrong file.

use std::fs::{File, OpenOptions};
use std::io::{self, ErrorKind};
use std::os::unix::fs::FileExt;
use std::path::Path;

use zs_library::{stores, Store, UNFINISHED};

use crate::failure::in_words;
use crate::target::folder_of;
use crate::unfinished::{Unfinished, USUAL};

/// What the system answers of folders that can't be opened, or can't be synced at all.
const NEVER_SYNCED: [libc::c_int; 6] = [
    libc::EACCES,
    libc::EBADF,
    libc::EINVAL,
    libc::ENOSYS,
    libc::ENOTSUP,
    libc::EPERM,
];

/// Carries the stores of an archive out on an empty file, in their order. The last one, which makes the file a finished one, isn't begun
/// before the others are on the disk, and it is there as well when this returns. After a failure the file isn't a finished one.
pub fn carry_out(archive: &[u8], file: &File) -> io::Result<()> {
    let all: Vec<Store> = stores(archive).collect();
    let (last, others) = all.split_last().ok_or_else(lack_stores)?;
    for store in others {
        file.write_all_at(store.bytes, store.offset)?;
    }
    file.sync_all()?;
    let finished = file.write_all_at(last.bytes, last.offset);
    let finished = finished.and_then(|()| file.sync_all());
    if finished.is_err() {
        take_back(file);
    }
    finished
}

/// Makes the file an unfinished one, or an empty one, as far as the disk lets it.
fn take_back(file: &File) {
    let unfinished = file.write_all_at(&UNFINISHED, 0);
    let _ = unfinished
        .or_else(|_| file.set_len(0))
        .and_then(|()| file.sync_all());
}

fn lack_stores() -> io::Error {
    io::Error::new(ErrorKind::InvalidData, "the library gives no stores of it")
}

/// Makes an archive under its own name. After a failure it is removed.
pub fn store_new(target: &Path, archive: &[u8]) -> io::Result<()> {
    let new = Unfinished::create(target.to_path_buf(), USUAL)?;
    sync_folder(target)?;
    carry_out(archive, new.file())?;
    new.keep();
    Ok(())
}

/// Makes an archive of a file that is there. That is emptied first, so that nothing of what it held can stand under the new magic. After a
/// failure it stays, unfinished.
pub fn store_over(target: &Path, archive: &[u8]) -> io::Result<()> {
    let file = OpenOptions::new().write(true).open(target)?;
    file.set_len(0)?;
    let stored = file.sync_all().and_then(|()| carry_out(archive, &file));
    stored.map_err(|error| {
        let left =
            "what it held is gone, and what it holds now is refused as unfinished or as no ZS file";
        let words = format!("{}; {left}; make it again with --force", in_words(&error));
        io::Error::new(error.kind(), words)
    })
}

/// Has the names in the target's folder brought to the disk, unless that is a folder which can't be synced at all.
pub fn sync_folder(target: &Path) -> io::Result<()> {
    let synced = File::open(folder_of(target)).and_then(|folder| folder.sync_all());
    let is_never = |code: libc::c_int| NEVER_SYNCED.contains(&code);
    match synced {
        Err(error) if !error.raw_os_error().map_or(false, is_never) => {
            let words = format!("its folder can't be synced ({})", in_words(&error));
            Err(io::Error::new(error.kind(), words))
        }
        _ => Ok(()),
    }
}
