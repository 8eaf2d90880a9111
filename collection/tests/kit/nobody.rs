//! A user for whom files and folders can be closed: for root, nothing is.

use std::fs::{self, Permissions};
use std::os::unix::fs::{chown, PermissionsExt};
use std::os::unix::process::CommandExt;
use std::path::{Path, PathBuf};
use std::process::Command;

use super::{ran, Folder, Ran};

const NOBODY: u32 = 65_534;

extern "C" {
    fn geteuid() -> u32;
}

fn is_root() -> bool {
    // Safety: it only answers.
    unsafe { geteuid() == 0 }
}

/// A folder of nobody's, where nobody can start the program.
pub struct Theirs {
    folder: Folder,
    program: Folder,
}

impl Theirs {
    pub fn new() -> Theirs {
        let place = std::env::temp_dir();
        let (folder, program) = (Folder::within(&place), Folder::within(&place));
        // By another process: a file that this one writes cannot be run while any child begun meanwhile has it open.
        let copied = Command::new("cp").arg(env!("CARGO_BIN_EXE_floors")).arg(&program.0).status();
        assert!(copied.is_ok_and(|copied| copied.success()));
        set_mode(&program.0, 0o755);
        Theirs { folder, program }
    }

    pub fn folder(&self) -> &Folder {
        &self.folder
    }

    pub fn close(&self, name: &str, mode: u32) {
        set_mode(&self.folder.path(name), mode);
    }

    /// Runs the program as nobody, to whom everything in the folder belongs.
    pub fn floors(&self, words: &[&str]) -> Ran {
        let mut command = self.as_them(Command::new(self.program()));
        command.args(words);
        ran(command, b"")
    }

    pub fn program(&self) -> PathBuf {
        self.program.path("floors")
    }

    pub fn as_them(&self, mut command: Command) -> Command {
        command.current_dir(&self.folder.0);
        if is_root() {
            give(&self.folder.0);
            command.uid(NOBODY).gid(NOBODY);
        }
        command
    }
}

fn give(path: &Path) {
    chown(path, Some(NOBODY), Some(NOBODY)).expect("another owner");
    if path.is_dir() {
        for entry in fs::read_dir(path).expect("a folder") {
            give(&entry.expect("an entry").path());
        }
    }
}

fn set_mode(path: &Path, mode: u32) {
    fs::set_permissions(path, Permissions::from_mode(mode)).expect("other permissions");
}
