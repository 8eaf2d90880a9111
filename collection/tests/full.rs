//! A disk that is full, a limit on the size of files, and outputs that take nothing: what cannot be written is named, the
//! rest goes on, and no file is ever half a sheet.

mod kit;

use std::fs::File;
use std::os::unix::process::ExitStatusExt;
use std::process::{Command, Stdio};

use harness::examples::{e_in_bay, A, D, G};
use kit::{is_right, ran, sheet_name, tabs, Folder};

/// A small file system in memory, if this user may have one.
struct Disk(Folder);

impl Disk {
    fn new(size: &str) -> Option<Disk> {
        let folder = Folder::new();
        let options = format!("size={size}");
        let made = Command::new("mount").args(["-t", "tmpfs", "-o", &options, "none"]).arg(&folder.0).output();
        made.is_ok_and(|made| made.status.success()).then_some(Disk(folder))
    }

    fn resize(&self, size: &str) {
        let options = format!("remount,size={size}");
        let done = Command::new("mount").args(["-o", &options]).arg(&self.0 .0).status();
        assert!(done.is_ok_and(|done| done.success()));
    }
}

impl Drop for Disk {
    fn drop(&mut self) {
        let _ = Command::new("umount").arg("--lazy").arg(&self.0 .0).status();
    }
}

#[test]
fn a_full_disk() {
    let Some(disk) = Disk::new("128k") else {
        eprintln!("not tried: this user may not mount a file system");
        return;
    };
    let folder = &disk.0;
    let (job, _) = e_in_bay();
    // A page for each file: 32 in all, of which the jobs take 20.
    let names: Vec<String> = (0..20).map(|i| format!("{i:02}.job")).collect();
    for name in &names {
        folder.put(name, &job);
    }
    let ran = folder.floors(&["plan", "-q"]);
    assert_eq!(ran.status, 2);
    let filed = names.iter().filter(|name| folder.path(&sheet_name(name)).exists()).count();
    assert!((1..20).contains(&filed), "{filed} of 20 filed");
    assert_eq!(ran.out.matches(": error: no sheet; the answer is PLAN\n").count(), 20 - filed);
    assert_eq!(ran.err.matches(": error: cannot be written: No space left on device").count(), 20 - filed);
    assert_eq!(ran.err.lines().count(), 20 - filed, "{}", ran.err);
    assert_all_right(folder, 20 + filed);

    disk.resize("1m");
    folder.floors(&["plan", "-q"]).expect(0, "", "");
    assert_all_right(folder, 40);
}

/// So many files, all of them jobs and right sheets.
fn assert_all_right(folder: &Folder, count: usize) {
    let files = folder.files();
    for (name, bytes) in &files {
        if let Some(stem) = name.strip_suffix(b".sheet") {
            assert!(is_right(&files[&[stem, b".job"].concat()], bytes), "{:?}", String::from_utf8_lossy(name));
        } else {
            assert!(name.ends_with(b".job"), "{:?}", String::from_utf8_lossy(name));
        }
    }
    assert_eq!(files.len(), count);
}

/// 512 bytes, which the sheet of job E with a bay passes.
#[test]
fn a_limit_on_the_size_of_files() {
    let folder = Folder::new();
    folder.put("a.job", tabs(A.job));
    folder.put("e.job", e_in_bay().0);
    folder.put("g.job", tabs(G.job));
    let mut shell = Command::new("sh");
    shell.args(["-c", "ulimit -f 1; exec \"$0\" plan -q", env!("CARGO_BIN_EXE_floors")]).current_dir(&folder.0);
    let named = "e.sheet: error: cannot be written: File too large (os error 27)\n";
    ran(shell, b"").expect(2, "e.job: error: no sheet; the answer is PLAN\n", named);
    assert_all_right(&folder, 5);
    folder.floors(&["plan", "-q"]).expect(0, "", "");
    assert_all_right(&folder, 6);
}

fn full() -> Stdio {
    File::options().write(true).open("/dev/full").expect("a device").into()
}

/// Runs with these outputs; the status, and what came to those that are pipes of the test's.
fn to(out: Stdio, err: Stdio, words: &str, folder: &Folder) -> (Option<i32>, String, String) {
    let mut command = folder.command();
    command.args(words.split(' ')).stdin(File::open(folder.path("a.job")).expect("a job"));
    let ended = command.stdout(out).stderr(err).spawn().expect("the program").wait_with_output().expect("an end");
    assert_eq!(ended.status.signal(), None);
    let text = |bytes: Vec<u8>| String::from_utf8(bytes).expect("text");
    (ended.status.code(), text(ended.stdout), text(ended.stderr))
}

/// The writing end of a pipe whose other end is closed.
fn unheard() -> Stdio {
    let (reader, writer) = std::io::pipe().expect("a pipe");
    drop(reader);
    writer.into()
}

/// Both outputs in one file: what is said first stands first.
#[test]
fn in_one_file() {
    let folder = Folder::new();
    folder.put("a.job", tabs(A.job));
    folder.put("a.sheet", tabs(A.sheet));
    folder.put("b.job/c.job", tabs(D.job));
    folder.put("b.job/c.sheet/x", "");
    let mut shell = Command::new("sh");
    shell.args(["-c", "exec \"$0\" status 2>&1"]).arg(env!("CARGO_BIN_EXE_floors")).current_dir(&folder.0);
    let lines = "a.sheet: right PLAN\nb.job/c.sheet: error: cannot be read: it is no file\n\
        2 jobs: 2 plan, 0 cannot, 0 refused; sheets: 1 right, 0 missing, 0 wrong; 1 not read or not written\n";
    ran(shell, b"").expect(2, lines, "");
}

#[test]
fn outputs_that_take_nothing() {
    let folder = Folder::new();
    folder.put("a.job", tabs(A.job));
    folder.put("d.job", tabs(D.job));
    folder.put("d.sheet", tabs(D.sheet));
    let named = "floors: standard output cannot be written: No space left on device (os error 28)\n";
    for words in ["status", "check", "status --format json", "status --format tsv -q", "plan -", "status -"] {
        let is_full = to(full(), Stdio::piped(), words, &folder);
        assert!(is_full.0 == Some(2) && is_full.2.contains(named), "{words}: {is_full:?}");
        let is_unheard = to(unheard(), Stdio::piped(), words, &folder);
        assert!(is_unheard.0 == Some(2) && !is_unheard.2.contains("cannot be written"), "{words}: {is_unheard:?}");
    }
    for words in ["--help", "explain", "--version"] {
        assert_eq!(to(full(), Stdio::piped(), words, &folder), (Some(2), String::new(), String::new()));
    }
    // The sheets are filed nevertheless.
    assert_eq!(to(unheard(), Stdio::piped(), "plan", &folder).0, Some(2));
    assert_eq!(folder.get("a.sheet"), tabs(A.sheet));
    // Nobody is told, and the status says it.
    let quiet = to(Stdio::piped(), full(), "status missing.job d.job", &folder);
    assert!(quiet.0 == Some(2) && quiet.1.starts_with("d.sheet: right PLAN\n"), "{quiet:?}");
}
