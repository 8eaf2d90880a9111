//! Filing a sheet whole or not at all: it is written to a file beside it, flushed to disk, and renamed.
//!
//! That file has a name of its own and is locked as long as its process lives. What a killed run left behind is not
//! locked: the next run takes it away.

use std::ffi::OsStr;
use std::fs::{self, File, OpenOptions};
use std::io::{self, ErrorKind, Write};
use std::os::unix::fs::{fchown, MetadataExt};
use std::path::{Path, PathBuf};
use std::process;
use std::sync::atomic::{AtomicUsize, Ordering};

const BEGINS: &str = ".floors-";
const ENDS: &str = ".part";

/// Another run may take a file of ours for one left behind, in the moment before it is locked: then it is written again.
const TRIES: usize = 5;

/// Puts these bytes into the sheet's file, in place of what is there. Once all is written and before it is renamed it asks
/// whether that is still wanted: the answer is whether it was.
pub fn file(sheet: &Path, bytes: &[u8], is_wanted: impl Fn() -> bool) -> io::Result<bool> {
    let mut tries = 1;
    loop {
        match file_once(sheet, bytes, &is_wanted) {
            Err(fault) if fault.kind() == ErrorKind::NotFound && tries < TRIES => tries += 1,
            done => return done,
        }
    }
}

fn file_once(sheet: &Path, bytes: &[u8], is_wanted: impl Fn() -> bool) -> io::Result<bool> {
    let (part, file) = new_part(folder_of(sheet))?;
    let written = write(&file, bytes, sheet);
    let filed = match written {
        Ok(()) if is_wanted() => fs::rename(&part, sheet).map(|()| true),
        written => written.map(|()| false),
    };
    if !matches!(filed, Ok(true)) {
        // The first fault is the one to tell.
        let _ = fs::remove_file(&part);
    }
    filed
}

/// Owner and permissions are those of the former sheet, as far as this user may and the file system can.
fn write(mut file: &File, bytes: &[u8], sheet: &Path) -> io::Result<()> {
    file.write_all(bytes)?;
    if let Ok(former) = fs::metadata(sheet) {
        let _ = fchown(file, Some(former.uid()), Some(former.gid()));
        let _ = file.set_permissions(former.permissions());
    }
    file.sync_all()
}

/// A new file in the folder, locked.
fn new_part(folder: &Path) -> io::Result<(PathBuf, File)> {
    static NEXT: AtomicUsize = AtomicUsize::new(0);
    loop {
        let number = NEXT.fetch_add(1, Ordering::Relaxed);
        let part = folder.join(format!("{BEGINS}{}-{number}{ENDS}", process::id()));
        match OpenOptions::new().write(true).create_new(true).open(&part) {
            Err(fault) if fault.kind() == ErrorKind::AlreadyExists => continue,
            opened => {
                let file = opened?;
                // Where files cannot be locked none is ever taken away.
                let _ = file.try_lock();
                return Ok((part, file));
            }
        }
    }
}

/// Whether a file of this name is one of those that are renamed.
pub fn is_part(name: &OsStr) -> bool {
    let numbers = name.to_str().and_then(|name| name.strip_prefix(BEGINS)?.strip_suffix(ENDS)?.split_once('-'));
    let is_number = |digits: &str| !digits.is_empty() && digits.bytes().all(|digit| digit.is_ascii_digit());
    numbers.is_some_and(|(process, number)| is_number(process) && is_number(number))
}

/// Removes such a file if the process that wrote it has gone. If that cannot be done the file is in nobody's way.
pub fn remove_left_behind(part: &Path) {
    let _ = File::open(part).map(|file| file.try_lock().is_ok() && fs::remove_file(part).is_ok());
}

/// Makes the names of a folder last, as the bytes of its files do. Some file systems know of no such thing.
pub fn flush_folder(folder: &Path) -> io::Result<()> {
    match File::open(folder)?.sync_all() {
        Err(fault) if [ErrorKind::InvalidInput, ErrorKind::Unsupported].contains(&fault.kind()) => Ok(()),
        flushed => flushed,
    }
}

/// The folder that a file is in.
pub fn folder_of(file: &Path) -> &Path {
    match file.parent() {
        Some(folder) if !folder.as_os_str().is_empty() => folder,
        _ => Path::new("."),
    }
}
