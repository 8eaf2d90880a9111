//! `floors` with a shim before its C library, which tells of its calls and can make them fail or wait.

use std::fs;
use std::path::PathBuf;
use std::process::Command;
use std::sync::OnceLock;

use super::{ran, Folder, Ran};

/// Builds the shim, once for all tests of a file.
fn shim() -> &'static PathBuf {
    static BUILT: OnceLock<PathBuf> = OnceLock::new();
    BUILT.get_or_init(|| {
        let object = PathBuf::from(env!("CARGO_TARGET_TMPDIR")).join(format!("calls-{}.so", std::process::id()));
        let source = concat!(env!("CARGO_MANIFEST_DIR"), "/tests/shim/calls.c");
        let gcc =
            Command::new("gcc").args(["-shared", "-fPIC", "-O1", "-o"]).arg(&object).args([source, "-ldl"]).status();
        assert!(gcc.is_ok_and(|status| status.success()));
        object
    })
}

pub fn command(folder: &Folder, words: &[&str], settings: &[(&str, &str)]) -> Command {
    let mut command = folder.command();
    command.args(words).env("LD_PRELOAD", shim()).envs(settings.iter().copied());
    command
}

/// What it did to files, call by call, and how it ended.
pub fn calls(folder: &Folder, words: &[&str], settings: &[(&str, &str)]) -> (Vec<String>, Ran) {
    let notes = Folder::new();
    let mut command = command(folder, words, settings);
    command.env("CALLS", notes.path("calls"));
    let ran = ran(command, b"");
    let text = fs::read_to_string(notes.path("calls")).unwrap_or_default();
    (text.lines().map(str::to_string).collect(), ran)
}
