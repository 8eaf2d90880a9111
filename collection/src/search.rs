//! From the paths of a command line to the jobs they name.

use std::collections::HashSet;
use std::ffi::{OsStr, OsString};
use std::fs::{self, DirEntry, FileType};
use std::io;
use std::os::unix::fs::MetadataExt;
use std::path::{Path, PathBuf};

use crate::filing::{folder_of, is_part, remove_left_behind};
use crate::finding::Trouble;
use crate::signals;

/// Searches paths. Jobs come in the order of the paths, those of a folder in the order of their names; none comes twice.
#[derive(Default)]
pub struct Search {
    pub jobs: Vec<PathBuf>,
    /// Sheets without a job beside them, of which nobody can say whether they are right.
    pub strays: Vec<PathBuf>,
    /// What kept the search from finding more.
    pub troubles: Vec<Trouble>,
    /// Whether to take away what killed runs have left behind.
    is_tidying: bool,
    seen: HashSet<(PathBuf, OsString)>,
}

impl Search {
    pub fn new(is_tidying: bool) -> Search {
        Search { is_tidying, ..Search::default() }
    }

    /// A job file or a folder.
    pub fn path(&mut self, path: &Path) {
        match fs::metadata(path) {
            Ok(data) if data.is_dir() && data.nlink() == 0 => {
                self.troubles.push(Trouble::new(path, "has been removed"))
            }
            Ok(data) if data.is_dir() => self.folder(path),
            Ok(_) if !is_job(path) => self.troubles.push(Trouble::new(path, "is neither a folder nor called NAME.job")),
            Ok(_) => {
                let folder = canonical(folder_of(path));
                self.job(&folder, path.to_path_buf());
            }
            Err(fault) => self.troubles.push(Trouble::read(path, &fault)),
        }
    }

    fn folder(&mut self, folder: &Path) {
        if signals::interrupted() {
            return;
        }
        let (entries, faults) = entries_of(folder);
        let known = canonical(folder);
        let names: HashSet<OsString> = entries.iter().map(|(name, _)| name.clone()).collect();
        for (name, kind) in entries {
            let path = if folder == Path::new(".") { PathBuf::from(&name) } else { folder.join(&name) };
            if self.is_tidying && kind.is_file() && is_part(&name) {
                remove_left_behind(&path);
            } else if is_hidden(&name) {
                continue;
            } else if kind.is_dir() {
                self.folder(&path);
            } else if is_job(&path) && !leads_to_folder(&path, kind) {
                self.job(&known, path);
            } else if is_stray(&path, &names) {
                self.strays.push(path);
            }
        }
        for fault in faults {
            self.troubles.push(Trouble::read(folder, &fault));
        }
    }

    fn job(&mut self, folder: &Path, path: PathBuf) {
        let name = path.file_name().unwrap_or_default().to_os_string();
        if self.seen.insert((folder.to_path_buf(), name)) {
            self.jobs.push(path);
        }
    }
}

/// What is in a folder, in the order of the names, and what could not be read of it.
fn entries_of(folder: &Path) -> (Vec<(OsString, FileType)>, Vec<io::Error>) {
    let mut entries = Vec::new();
    let mut faults = Vec::new();
    match fs::read_dir(folder) {
        Ok(all) => {
            for entry in all {
                let kind = |entry: DirEntry| entry.file_type().map(|kind| (entry.file_name(), kind));
                match entry.and_then(kind) {
                    Ok(entry) => entries.push(entry),
                    Err(fault) => faults.push(fault),
                }
            }
        }
        Err(fault) => faults.push(fault),
    }
    entries.sort_by(|(one, _), (other, _)| one.cmp(other));
    (entries, faults)
}

fn is_job(path: &Path) -> bool {
    has_ending(path, "job")
}

/// Whether it is a sheet whose job is not among these names.
fn is_stray(path: &Path, names: &HashSet<OsString>) -> bool {
    let job = path.with_extension("job");
    has_ending(path, "sheet") && job.file_name().is_some_and(|job| !names.contains(job))
}

fn has_ending(path: &Path, ending: &str) -> bool {
    path.extension().is_some_and(|found| found == ending)
}

fn is_hidden(name: &OsStr) -> bool {
    name.as_encoded_bytes().starts_with(b".")
}

/// Whether a link leads to a folder. Links to folders are not followed: they could lead round in a ring.
fn leads_to_folder(path: &Path, kind: FileType) -> bool {
    kind.is_symlink() && fs::metadata(path).is_ok_and(|data| data.is_dir())
}

/// The folder by a name that no other has, so that a job which is named twice is seen to be one.
fn canonical(folder: &Path) -> PathBuf {
    fs::canonicalize(folder).unwrap_or_else(|_| folder.to_path_buf())
}
