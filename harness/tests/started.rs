//! The scripts `floorplan`, `floormap` and `floors`, started many at once: one of them builds, the others wait for it, and
//! each does its work. Where nothing is to be built, none of them says or builds anything.

use std::fs;
use std::os::unix::fs::symlink;
use std::process::{Child, Command};
use std::sync::{Mutex, MutexGuard, PoisonError};

use harness::child::{finish, output, piped, Ended};

/// One test at a time: what one has built another would have to build no more.
static TURN: Mutex<()> = Mutex::new(());

fn my_turn() -> MutexGuard<'static, ()> {
    TURN.lock().unwrap_or_else(PoisonError::into_inner)
}

const ROOT: &str = concat!(env!("CARGO_MANIFEST_DIR"), "/..");

/// A script, the words it is given, and the files of an example: what it reads, and what it is to write.
struct Script {
    name: &'static str,
    words: &'static [&'static str],
    example: [&'static str; 2],
}

const FLOORPLAN: Script = Script { name: "floorplan", words: &[], example: ["a.job", "a.sheet"] };
const FLOORMAP: Script = Script { name: "floormap", words: &[], example: ["packing.map", "packing.floor"] };
const FLOORS: Script = Script { name: "floors", words: &["plan", "-"], example: ["a.job", "a.sheet"] };

impl Script {
    /// What it reads, and what it is to write.
    fn texts(&self) -> [Vec<u8>; 2] {
        self.example.map(|name| fs::read(format!("{ROOT}/examples/{name}")).expect("an example"))
    }
}

/// Starts a script so many times and gives each its example; what each says on standard error.
fn start(times: usize, script: &Script) -> Vec<String> {
    let [input, expected] = script.texts();
    let child = |_| {
        let mut command = Command::new(format!("{ROOT}/{}", script.name));
        command.args(script.words);
        piped(command).spawn().expect("the script")
    };
    let children: Vec<Child> = (0..times).map(child).collect();
    let end = |child| {
        let Ended { status, out, err } = finish(child, vec![input.clone()]).expect("an end");
        let said = String::from_utf8_lossy(&err).into_owned();
        assert!(status.success() && out == expected, "{}: {status}\n{said}", script.name);
        said
    };
    children.into_iter().map(end).collect()
}

/// `begun` is the file that says when the building began.
fn many_at_once(script: &Script, begun: &str, builds: &str) {
    let _turn = my_turn();
    start(1, script);
    fs::remove_file(format!("{ROOT}/{begun}")).expect("a file that says when the building began");
    let said = start(8, script);
    let builders = said.iter().filter(|said| said.contains(builds)).count();
    assert_eq!(builders, 1, "{said:?}");
    let others = said.iter().filter(|said| !said.contains(builds));
    assert!(
        others.clone().all(|said| ["", "waiting for another process that builds\n"].contains(&said.as_str())),
        "{said:?}"
    );
    assert_eq!(start(8, script), [""; 8], "nothing to build");
}

#[test]
fn floorplan() {
    many_at_once(&FLOORPLAN, "target/bin/floorplan.begun", "proving and building floorplan");
}

#[test]
fn floormap() {
    many_at_once(&FLOORMAP, "target/bin/floormap.begun", "proving and building floormap");
}

#[test]
fn floors() {
    many_at_once(&FLOORS, "collection/target/release/floors.begun", "building floors");
}

/// Called by a link from another folder, and with a `CDPATH`, which changes what `cd` does and prints.
#[test]
fn from_elsewhere() {
    let _turn = my_turn();
    let folder = format!("{}/a folder {}", env!("CARGO_TARGET_TMPDIR"), std::process::id());
    fs::create_dir_all(&folder).expect("a folder");
    for script in [FLOORPLAN, FLOORMAP, FLOORS] {
        let link = format!("{folder}/{}", script.name);
        let _ = fs::remove_file(&link);
        symlink(format!("{ROOT}/{}", script.name), &link).expect("a link");
        let mut command = Command::new(&link);
        command.args(script.words).current_dir("/").env("CDPATH", ROOT);
        let [input, expected] = script.texts();
        assert_eq!(output(command, input), expected, "{}", script.name);
    }
    fs::remove_dir_all(&folder).expect("a folder of ours");
}

#[test]
fn programs_take_no_words() {
    for (name, usage) in [("floorplan", "usage: ./floorplan < JOB"), ("floormap", "usage: ./floormap < MAP")] {
        let mut command = Command::new(format!("{ROOT}/{name}"));
        command.arg("--help");
        let child = piped(command).spawn().expect("the script");
        let Ended { status, out, err } = finish(child, Vec::new()).expect("an end");
        assert_eq!((status.code(), out.len()), (Some(2), 0), "{name}");
        assert!(err.starts_with(usage.as_bytes()) && err.ends_with(b")\n"), "{name}");
    }
}
