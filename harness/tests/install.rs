//! `./install` as it is run: the three files, a program that is built with them, and what a refusal leaves alone.

use std::collections::BTreeMap;
use std::fs;
use std::io;
use std::os::unix::fs::symlink;
use std::path::{Path, PathBuf};
use std::process::Command;

use harness::child::{finish, output, piped, Ended};
use harness::header::library;

const ROOT: &str = concat!(env!("CARGO_MANIFEST_DIR"), "/..");

/// An empty folder for one test.
fn folder(name: &str) -> PathBuf {
    let folder = Path::new(env!("CARGO_TARGET_TMPDIR")).join("install").join(name);
    if folder.exists() {
        fs::remove_dir_all(&folder).expect("a folder to remove");
    }
    fs::create_dir_all(&folder).expect("a folder");
    folder
}

fn install(from: &Path, words: &[&str]) -> Ended {
    let stamp = format!("{}.begun", library());
    let hint = "run `./install` once by hand, since it proves first, for longer than a test may";
    assert!(Path::new(&stamp).is_file(), "there is no {stamp}: {hint}");
    let mut command = Command::new(fs::canonicalize(format!("{ROOT}/install")).expect("a script"));
    command.args(words).current_dir(from);
    finish(piped(command).spawn().expect("a script that starts"), Vec::new()).expect("a script that ends")
}

fn assert_installs(from: &Path, prefix: &str) {
    let Ended { status, out, err } = install(from, &[prefix]);
    assert_eq!((status.code(), text(out), text(err)), (Some(0), String::new(), String::new()));
}

fn text(bytes: Vec<u8>) -> String {
    String::from_utf8(bytes).expect("text")
}

/// Every file under a folder, by its path from there, with its bytes. Links are not followed.
fn files(folder: &Path) -> BTreeMap<String, Vec<u8>> {
    let mut found = BTreeMap::new();
    let mut folders = vec![folder.to_path_buf()];
    while let Some(next) = folders.pop() {
        for path in fs::read_dir(next).expect("a folder").map(|entry| entry.expect("an entry").path()) {
            if path.is_symlink() {
                continue;
            } else if path.is_dir() {
                folders.push(path);
            } else {
                let name = path.strip_prefix(folder).expect("a path below").display().to_string();
                found.insert(name, fs::read(&path).expect("a file"));
            }
        }
    }
    found
}

/// The version as a compiler reads it in the header.
fn version() -> String {
    let mut gcc = Command::new("gcc");
    gcc.args(["-E", "-P", "-x", "c", "-include", &format!("{ROOT}/include/cartfloor.h"), "-"]);
    let read = text(output(gcc, b"CARTFLOOR_VERSION\n".to_vec()));
    read.lines().last().expect("a line").trim_matches('"').to_string()
}

fn expected(prefix: &Path) -> BTreeMap<String, Vec<u8>> {
    let described = format!(
        "prefix={}\nlibdir=${{prefix}}/lib\nincludedir=${{prefix}}/include\n\nName: cartfloor\n\
         Description: Plans for cart floors, a check of their sheets, and floors from grid maps\nVersion: {}\n\
         Cflags: -I\"${{includedir}}\"\nLibs: -L\"${{libdir}}\" -lcartfloor\n",
        prefix.display(),
        version()
    );
    let header = fs::read(format!("{ROOT}/include/cartfloor.h")).expect("a header");
    let archive = fs::read(library()).expect("a library");
    let named = [
        ("include/cartfloor.h", header),
        ("lib/libcartfloor.a", archive),
        ("lib/pkgconfig/cartfloor.pc", described.into()),
    ];
    named.map(|(name, bytes)| (name.to_string(), bytes)).into()
}

#[test]
fn three_files_in_a_prefix_that_is_named_from_here() {
    let here = fs::canonicalize(folder("from here")).expect("a folder");
    assert_installs(&here, "to/a prefix");
    let prefix = here.join("to/a prefix");
    assert_eq!(files(&prefix), expected(&prefix));
}

#[test]
fn what_was_there_is_replaced_or_stays() {
    let prefix = fs::canonicalize(folder("used before")).expect("a folder");
    let mut all = expected(&prefix);
    all.insert("lib/of others.a".to_string(), b"old".to_vec());
    fs::create_dir_all(prefix.join("include")).and(fs::create_dir_all(prefix.join("lib/pkgconfig"))).expect("folders");
    for name in all.keys() {
        fs::write(prefix.join(name), "old").expect("a file");
    }
    assert_installs(Path::new(ROOT), prefix.to_str().expect("a name in UTF-8"));
    assert_eq!(files(&prefix), all);
}

#[test]
fn the_installed_archive_shows_the_calls_alone() {
    let prefix = folder("for symbols");
    assert_installs(&prefix, ".");
    let mut symbols = Command::new(format!("{ROOT}/harness/symbols"));
    symbols.arg(prefix.join("lib/libcartfloor.a"));
    output(symbols, Vec::new());
}

/// What a compiler is told of the prefix: by pkg-config where there is one, in a file, since gcc reads there what
/// pkg-config quotes.
fn flags(prefix: &Path) -> Vec<String> {
    let prefix = prefix.display();
    let mut config = Command::new("pkg-config");
    config.args(["--cflags", "--libs", "cartfloor"]);
    config.env("PKG_CONFIG_LIBDIR", format!("{prefix}/lib/pkgconfig")).env_remove("PKG_CONFIG_PATH");
    if Command::new("pkg-config").arg("--version").output().is_err() {
        return vec![format!("-I{prefix}/include"), format!("-L{prefix}/lib"), "-lcartfloor".to_string()];
    }
    let file = format!("{prefix}/flags");
    fs::write(&file, output(config, Vec::new())).expect("a file of flags");
    vec![format!("@{file}")]
}

#[test]
fn the_controller_is_built_with_what_is_installed() {
    let prefix = folder("for a controller");
    assert_installs(&prefix, ".");
    let program = prefix.join("controller");
    let mut gcc = Command::new("gcc");
    gcc.args(["-std=c99", "-Wall", "-Wextra", "-Wpedantic", "-Wconversion", "-Werror", "-o"]).arg(&program);
    gcc.arg(format!("{ROOT}/examples/controller.c")).args(flags(&prefix));
    output(gcc, Vec::new());
    let [job, sheet] = ["job", "sheet"].map(|end| fs::read(format!("{ROOT}/examples/a.{end}")).expect("an example"));
    assert_eq!(text(output(Command::new(program), job)), text(sheet));
}

#[test]
fn wrong_uses() {
    let here = folder("of wrong uses");
    for words in [&[][..], &[""], &["a", "b"], &["--help", "a"], &["a", "--help"], &["--prefix=a"], &["-h"], &["--"]] {
        let Ended { status, out, err } = install(&here, words);
        assert_eq!((status.code(), text(out)), (Some(2), String::new()), "{words:?}");
        assert_usage(&text(err));
    }
    let Ended { status, out, err } = install(&here, &["--help"]);
    assert_eq!((status.code(), text(err)), (Some(0), String::new()));
    assert_usage(&text(out));
    assert_eq!(fs::read_dir(here).expect("a folder").count(), 0, "something was made");
}

fn assert_usage(printed: &str) {
    assert!(printed.starts_with("usage: ./install PREFIX") && printed.lines().count() == 1, "{printed:?}");
}

#[test]
fn a_prefix_that_is_a_file() {
    let here = folder("with a file");
    fs::write(here.join("file"), "a file").expect("a file");
    assert_refused(&here, "file");
    assert_refused(&here, "file/below");
}

/// One of the three files cannot be written: none is there then that was not there before.
#[test]
fn a_prefix_without_a_place_for_each() {
    let here = folder("not for each");
    let refused_with = |at: &str, put: fn(&Path) -> io::Result<()>| {
        let (prefix, place) = (here.join("prefix"), here.join("prefix").join(at));
        fs::create_dir_all(place.parent().expect("a folder above"))
            .and_then(|()| put(&place))
            .expect("something there");
        assert_refused(&here, "prefix");
        fs::remove_dir_all(prefix).expect("a folder to remove");
    };
    for at in ["lib/libcartfloor.a", "include/cartfloor.h", "lib/pkgconfig/cartfloor.pc"] {
        refused_with(at, |place| fs::create_dir(place));
    }
    for at in ["lib", "include", "lib/pkgconfig"] {
        refused_with(at, |place| fs::write(place, "a file"));
    }
    // A folder in which nobody can make a file.
    for at in ["include", "lib/pkgconfig"] {
        refused_with(at, |place| symlink("/proc", place));
    }
}

#[test]
fn a_prefix_that_the_description_cannot_name() {
    let here = folder("not to be named");
    for name in ["a \"b\"", "a#b", "a$b", "a\\b", "a`b", "a\nb", "a\n", "a\tb", "a "] {
        assert_refused(&here, name);
    }
}

/// Where one is does not matter, if the prefix is named from the root.
#[test]
fn from_a_folder_that_the_description_could_not_name() {
    let here = fs::canonicalize(folder("with a #")).expect("a folder");
    let prefix = fs::canonicalize(folder("named from the root")).expect("a folder");
    assert_installs(&here, prefix.to_str().expect("a name in UTF-8"));
    assert_eq!(files(&prefix), expected(&prefix));
    assert_refused(&here, ".");
}

fn assert_refused(from: &Path, prefix: &str) {
    let before = files(from);
    let Ended { status, out, err } = install(from, &[prefix]);
    assert_eq!((status.code(), text(out)), (Some(1), String::new()), "{prefix:?}");
    assert!(text(err).contains("install: nothing installed: "), "{prefix:?} is refused without a message");
    assert_eq!(files(from), before, "{prefix:?}");
}
