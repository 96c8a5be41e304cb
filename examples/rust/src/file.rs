//! The file that a store is in, and its name.
use crate::sys;
use std::ffi::{OsStr, OsString};
use std::fs::{self, File, OpenOptions, TryLockError};
use std::io::{self, ErrorKind, Write};
use std::os::fd::AsRawFd;
use std::os::unix::fs::{FileExt, MetadataExt};
use std::path::Path;

/// Locks a file. One that was opened to append is refused: what is written to it goes to its end, wherever it is to be.
pub fn lock(file: &File) -> io::Result<()> {
    let flags = unsafe { sys::fcntl(file.as_raw_fd(), sys::F_GETFL) };
    if flags & sys::O_APPEND != 0 {
        return Err(io::Error::from(ErrorKind::InvalidInput));
    }
    file.try_lock().map_err(io::Error::from)
}

/// The name of the draft of the file of this name.
pub fn draft_of(path: &Path) -> OsString {
    let mut draft = path.as_os_str().to_owned();
    draft.push(".nsf-draft");
    draft
}

// Whether the file that is open has this name.
fn has_name(file: &File, name: &OsStr) -> io::Result<bool> {
    let found = file.metadata()?;
    match fs::symlink_metadata(name) {
        Ok(named) => Ok((found.dev(), found.ino()) == (named.dev(), named.ino())),
        Err(error) if error.kind() == ErrorKind::NotFound => Ok(false),
        Err(error) => Err(error),
    }
}

/// Locks the draft, where it has its name still: whoever has that lock makes the file, or removes it. Else it is
/// another's (`WouldBlock`).
pub fn own(file: &File, draft: &OsStr) -> io::Result<()> {
    match file.try_lock() {
        Err(TryLockError::Error(error)) => Err(error),
        Ok(()) if has_name(file, draft)? => Ok(()),
        _ => Err(io::Error::from(ErrorKind::WouldBlock)),
    }
}

// Whether the file begins as a draft does: with a store, plain or of blocks, or with zeros, as far as it has a first
// sector.
fn is_draft(file: &File) -> io::Result<bool> {
    let mut first = [0; 512];
    file.read_at(&mut first, 0)?;
    Ok(first.starts_with(b"NSFINDEX") || first.starts_with(b"NSFBLOCK") || first == [0; 512])
}

// Removes the draft of a making that was cut off. The error is `WouldBlock` where another process makes the file now,
// and `AlreadyExists` where something else has the name.
fn remove_left(draft: &OsStr) -> io::Result<()> {
    let as_taken = |error: io::Error| match error.kind() {
        ErrorKind::NotFound => io::Error::from(ErrorKind::WouldBlock),
        _ => error,
    };
    if !fs::symlink_metadata(draft).map_err(as_taken)?.is_file() {
        return Err(io::Error::from(ErrorKind::AlreadyExists));
    }
    let file = File::open(draft).map_err(as_taken)?;
    own(&file, draft)?;
    if !is_draft(&file)? {
        return Err(io::Error::from(ErrorKind::AlreadyExists));
    }
    fs::remove_file(draft)
}

/// Makes and locks the file of the draft, in place of one that was left.
pub fn begin(draft: &OsStr) -> io::Result<File> {
    let new = || {
        let mut options = OpenOptions::new();
        options.read(true).write(true).create_new(true).open(draft)
    };
    let file = match new() {
        Err(error) if error.kind() == ErrorKind::AlreadyExists => {
            remove_left(draft)?;
            new()?
        }
        made => made?,
    };
    own(&file, draft)?;
    Ok(file)
}

/// Writes so many sectors of zeros into an empty file, all of them safe. Where that is refused, it is empty again.
pub fn fill(file: &mut File, sectors: u64) -> io::Result<()> {
    let filled = (0..sectors)
        .try_for_each(|_| file.write_all(&[0; 512]))
        .and_then(|()| file.sync_all());
    if filled.is_err() {
        let _ = file.set_len(0);
    }
    filled
}

// Syncs the folder that the path stands in, so that its names are safe.
fn sync_folder(path: &Path) -> io::Result<()> {
    let folder = path.parent().filter(|it| !it.as_os_str().is_empty());
    File::open(folder.unwrap_or(Path::new(".")))?.sync_all()
}

// A store has no more bytes than this.
const LENGTH_MAX: u64 = 512 << 23;

/// Opens and locks the file of this name, which is safe then, if its folder may be read. One that has lost its name
/// meanwhile is refused, and so is what is no file, or too long for a store.
pub fn take(path: &Path) -> io::Result<File> {
    let file = OpenOptions::new().read(true).write(true).open(path)?;
    lock(&file)?;
    let found = file.metadata()?;
    if found.nlink() == 0 {
        return Err(io::Error::from(ErrorKind::NotFound));
    }
    if !found.is_file() || found.len() > LENGTH_MAX {
        return Err(io::Error::from(ErrorKind::InvalidInput));
    }
    let draft = draft_of(path);
    if has_name(&file, &draft)? {
        // who made it was cut off once it had its name
        fs::remove_file(draft)?;
    }
    match sync_folder(path) {
        Err(error) if error.kind() != ErrorKind::PermissionDenied => Err(error),
        _ => Ok(file),
    }
}

/// Gives the file of the draft its name, which is safe then. Where it is refused, it has the draft's name alone.
pub fn publish(draft: &OsStr, path: &Path) -> io::Result<()> {
    fs::hard_link(draft, path)?;
    let published = sync_folder(path).and_then(|()| fs::remove_file(draft));
    if published.is_err() {
        let _ = fs::remove_file(path);
    }
    published
}
