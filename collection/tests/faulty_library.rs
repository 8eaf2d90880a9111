//! `floors` over a library whose planner is wrong: the check is asked before a sheet is filed, and no such sheet is.

mod kit;

use std::path::{Path, PathBuf};
use std::process::Command;

use harness::child::output;
use harness::examples::A;
use kit::{ran, tabs, Folder};

const ROOT: &str = concat!(env!("CARGO_MANIFEST_DIR"), "/..");

/// The program, linked to the faulty library.
fn program(folder: &Path) -> PathBuf {
    let mut gcc = Command::new("gcc");
    gcc.arg("-c").arg(format!("-I{ROOT}/include")).arg(format!("{ROOT}/collection/tests/shim/faulty.c"));
    gcc.arg("-o").arg(folder.join("faulty.o"));
    output(gcc, Vec::new());
    let mut ar = Command::new("ar");
    ar.arg("rc").arg(folder.join("libcartfloor.a")).arg(folder.join("faulty.o"));
    output(ar, Vec::new());
    let mut cargo = Command::new(env!("CARGO"));
    cargo.args(["build", "--quiet", "--offline", "--bin", "floors", "--manifest-path"]);
    cargo.arg(format!("{ROOT}/collection/Cargo.toml")).arg("--target-dir").arg(folder.join("target"));
    cargo.env("CARTFLOOR_LIBRARY", folder);
    output(cargo, Vec::new());
    folder.join("target/debug/floors")
}

#[test]
fn a_sheet_that_the_check_turns_back_is_not_filed() {
    let (built, folder) = (Folder::new(), Folder::new());
    let program = program(&built.0);
    folder.put("a.job", tabs(A.job));
    folder.put("b.job", tabs(A.job));
    folder.put("b.sheet", tabs(A.sheet));
    let before = folder.files();
    let run = |words: &[&str], input: &[u8]| {
        let mut command = Command::new(&program);
        command.args(words).current_dir(&folder.0);
        ran(command, input)
    };
    let told = |name: &str| format!("{name}: error: the check turned the planner's sheet back; nothing was filed\n");
    for words in [&["plan", "-q"][..], &["plan", "-q", "--again"], &["plan", "-q", "--force"], &["status", "-q"]] {
        let ended = run(words, b"");
        assert_eq!((ended.status, ended.err), (2, told("a.job") + &told("b.job")), "{words:?}");
        assert_eq!(folder.files(), before, "{words:?}");
    }
    run(&["plan", "-"], &tabs(A.job)).expect(2, "", &told("-"));
}
