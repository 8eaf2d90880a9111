//! What the tests of `floors` share: folders of their own, the program run in them, and what must come of a collection.

#![allow(dead_code)] // No test uses all of it.

pub mod mixed;
pub mod nobody;
pub mod shim;

use std::collections::BTreeMap;
use std::fs;
use std::os::unix::ffi::OsStrExt;
use std::path::{Path, PathBuf};
use std::process::{self, Command};
use std::sync::atomic::{AtomicUsize, Ordering};

use harness::baseline;
use harness::child::{finish, piped, Ended};
use harness::gen::collection::{collection, Entry};
use harness::model::answer::{unpack, PLAN};
use harness::model::check::check;
use harness::model::job::Job;
use harness::model::limits::{sheet_least, store_least};

/// Enough for every job.
const STORE: usize = 10_489_856;

/// A folder that goes with the test.
pub struct Folder(pub PathBuf);

impl Folder {
    pub fn new() -> Folder {
        Folder::within(Path::new(env!("CARGO_TARGET_TMPDIR")))
    }

    pub fn within(place: &Path) -> Folder {
        static NEXT: AtomicUsize = AtomicUsize::new(0);
        let path = place.join(format!("floors-{}-{}", process::id(), NEXT.fetch_add(1, Ordering::Relaxed)));
        fs::create_dir(&path).expect("a folder");
        Folder(path)
    }

    /// With a collection in it that has no sheets.
    pub fn with_jobs(count: usize, seed: u64) -> (Folder, Vec<Entry>) {
        let (folder, entries) = (Folder::new(), collection(count, seed));
        for entry in &entries {
            folder.put(&entry.name, entry.job.text());
        }
        (folder, entries)
    }

    pub fn path(&self, name: &str) -> PathBuf {
        self.0.join(name)
    }

    pub fn put(&self, name: &str, bytes: impl AsRef<[u8]>) {
        let path = self.path(name);
        fs::create_dir_all(path.parent().expect("a folder")).expect("a folder");
        fs::write(path, bytes).expect("a file");
    }

    pub fn get(&self, name: &str) -> Vec<u8> {
        fs::read(self.path(name)).expect("a file")
    }

    /// All files in it, with their bytes, by their names from here; links and pipes have none.
    pub fn files(&self) -> BTreeMap<Vec<u8>, Vec<u8>> {
        let mut all = BTreeMap::new();
        let mut folders = vec![self.0.clone()];
        while let Some(folder) = folders.pop() {
            for entry in fs::read_dir(folder).expect("a folder") {
                let path = entry.expect("an entry").path();
                let kind = path.symlink_metadata().expect("an entry").file_type();
                if kind.is_dir() {
                    folders.push(path);
                } else {
                    let name = path.strip_prefix(&self.0).expect("a name from here").as_os_str().as_bytes();
                    let bytes = if kind.is_file() { fs::read(&path).expect("a file") } else { Vec::new() };
                    all.insert(name.to_vec(), bytes);
                }
            }
        }
        all
    }

    /// Runs `floors` in it.
    pub fn floors(&self, words: &[&str]) -> Ran {
        self.floors_with(words, b"")
    }

    pub fn floors_with(&self, words: &[&str], input: &[u8]) -> Ran {
        let mut command = self.command();
        command.args(words);
        ran(command, input)
    }

    pub fn command(&self) -> Command {
        let mut command = Command::new(env!("CARGO_BIN_EXE_floors"));
        command.current_dir(&self.0);
        command
    }
}

impl Drop for Folder {
    fn drop(&mut self) {
        let _ = fs::remove_dir_all(&self.0);
    }
}

/// How it ended: with which status, or -1 if it was killed.
pub struct Ran {
    pub status: i32,
    pub out: String,
    pub err: String,
}

impl Ran {
    /// Fails unless it ended so.
    pub fn expect(self, status: i32, out: &str, err: &str) -> Ran {
        let told = (self.status, self.out.as_str(), self.err.as_str());
        assert_eq!(told, (status, out, err));
        self
    }

    pub fn summary(&self) -> &str {
        self.out.lines().last().unwrap_or_default()
    }
}

pub fn ran(command: Command, input: &[u8]) -> Ran {
    let child = piped(command).spawn().expect("the program");
    let Ended { status, out, err } = finish(child, vec![input.to_vec()]).expect("an end");
    let text = |bytes: Vec<u8>| String::from_utf8(bytes).expect("text");
    Ran { status: status.code().unwrap_or(-1), out: text(out), err: text(err) }
}

/// Whether the job has a plan, by the planner in plain Rust.
pub fn has_plan(job: &Job) -> bool {
    let (mut store, mut sheet) = (vec![0; store_least(job)], vec![0; sheet_least(job)]);
    unpack(baseline::plan(&job.text(), &mut store, &mut sheet)).0 == PLAN
}

/// What the check must answer, by the harness's model: number and line.
pub fn judged(job: &[u8], sheet: &[u8]) -> (u8, usize) {
    check(job, STORE, sheet)
}

/// Whether the sheet is a right one.
pub fn is_right(job: &[u8], sheet: &[u8]) -> bool {
    judged(job, sheet).0 <= 1
}

/// The name of the sheet.
pub fn sheet_name(job: &str) -> String {
    format!("{}.sheet", job.strip_suffix(".job").expect("the name of a job"))
}

/// A text with its tabs, which are shown as spaces.
pub fn tabs(text: &str) -> Vec<u8> {
    harness::examples::tabs(text)
}
