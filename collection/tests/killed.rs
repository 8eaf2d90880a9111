//! Runs that are killed or interrupted, many at once, and folders that vanish meanwhile: no file is ever half a sheet, and
//! the next run does what is left.

mod kit;

use std::collections::BTreeMap;
use std::fs;
use std::os::unix::process::ExitStatusExt;
use std::process::{Child, Command, Stdio};
use std::thread;
use std::time::Duration;

use harness::child::{finish, piped, Ended};
use kit::{is_right, Folder};

const HUP: i32 = 1;
const INT: i32 = 2;
const TERM: i32 = 15;

extern "C" {
    fn kill(process: i32, signal: i32) -> i32;
    fn signal(number: i32, handler: usize) -> usize;
}

fn send(child: &Child, signal: i32) {
    // Safety: the child has not been waited for, so that the number is its own.
    unsafe { kill(child.id() as i32, signal) };
}

/// The sheets are all right. What else is there are jobs, and files that were to be renamed.
fn assert_no_half_sheet(files: &BTreeMap<Vec<u8>, Vec<u8>>) -> (usize, usize) {
    let (mut sheets, mut parts) = (0, 0);
    for (name, bytes) in files {
        if let Some(stem) = name.strip_suffix(b".sheet") {
            assert!(is_right(&files[&[stem, b".job"].concat()], bytes), "{:?}", String::from_utf8_lossy(name));
            sheets += 1;
        } else if name.ends_with(b".part") {
            parts += 1;
        } else {
            assert!(name.ends_with(b".job"), "{:?}", String::from_utf8_lossy(name));
        }
    }
    (sheets, parts)
}

fn plan(folder: &Folder) -> Command {
    let mut command = folder.command();
    command.args(["plan", "-q"]).stdin(Stdio::null());
    command
}

/// A run over 200 jobs takes some 50 ms here; it is killed after 1 ms, 2 ms and so on, each time with no sheets at first.
#[test]
fn killed_at_many_moments() {
    let (folder, entries) = Folder::with_jobs(200, 2);
    let mut halfway = 0;
    for moment in 0..60 {
        let mut child = plan(&folder).spawn().expect("the program");
        thread::sleep(Duration::from_millis(moment));
        let _ = child.kill();
        child.wait().expect("an end");
        let (sheets, _) = assert_no_half_sheet(&folder.files());
        halfway += usize::from(sheets > 0 && sheets < entries.len());
        if moment % 3 == 0 {
            folder.floors(&["plan", "-q"]).expect(0, "", "");
            assert_eq!(assert_no_half_sheet(&folder.files()), (entries.len(), 0), "after {moment} ms");
        }
        for entry in &entries {
            let _ = fs::remove_file(folder.path(&kit::sheet_name(&entry.name)));
        }
    }
    assert!(halfway > 0, "no run came halfway");
}

/// An interrupt ends the run behind the jobs that are begun, and leaves nothing behind.
#[test]
fn interrupted() {
    for number in [HUP, INT, TERM] {
        // Safety: no handler is run. By `nohup` or behind a shell's `&` the tests would hand on that it is ignored.
        unsafe { signal(number, 0) };
        let (folder, entries) = Folder::with_jobs(3000, 3);
        let child = piped(plan(&folder)).spawn().expect("the program");
        while !folder.path("0010/0.sheet").exists() {
            thread::sleep(Duration::from_millis(1));
        }
        send(&child, number);
        let Ended { status, out, err } = finish(child, Vec::new()).expect("an end");
        assert_eq!((status.signal(), out.len()), (Some(number), 0));
        let (sheets, parts) = assert_no_half_sheet(&folder.files());
        assert_eq!(parts, 0);
        assert!(sheets < entries.len());
        let named = format!("floors: interrupted after {sheets} of {} jobs\n", entries.len());
        assert_eq!(String::from_utf8_lossy(&err), named);
    }
}

/// As `nohup` starts a program.
#[test]
fn a_hang_up_that_is_ignored() {
    let (folder, entries) = Folder::with_jobs(1000, 7);
    let mut shell = Command::new("sh");
    shell.args(["-c", "trap '' HUP; exec \"$0\" plan -q"]).arg(env!("CARGO_BIN_EXE_floors")).current_dir(&folder.0);
    let child = piped(shell).spawn().expect("the program");
    while !folder.path("0010/0.sheet").exists() {
        thread::sleep(Duration::from_millis(1));
    }
    send(&child, HUP);
    let Ended { status, .. } = finish(child, Vec::new()).expect("an end");
    assert_eq!((status.code(), assert_no_half_sheet(&folder.files())), (Some(0), (entries.len(), 0)));
}

/// As many threads as are asked for, and one that reports.
#[test]
fn threads() {
    let (folder, _) = Folder::with_jobs(1000, 8);
    for (words, threads) in [(["-j", "1"], 2), (["-j", "5"], 6)] {
        let mut child = piped(plan(&folder)).args(words).arg("--force").spawn().expect("the program");
        let tasks = format!("/proc/{}/task", child.id());
        let mut most = 0;
        while child.try_wait().expect("a child to wait for").is_none() {
            most = most.max(fs::read_dir(&tasks).map_or(0, Iterator::count));
        }
        assert_eq!((finish(child, Vec::new()).expect("an end").status.code(), most), (Some(0), threads));
    }
}

#[test]
fn many_at_once() {
    let (folder, entries) = Folder::with_jobs(300, 4);
    for round in 0..4 {
        let children: Vec<Child> = (0..8).map(|_| piped(plan(&folder)).spawn().expect("the program")).collect();
        for child in children {
            let Ended { status, out, err } = finish(child, Vec::new()).expect("an end");
            let told = (status.code(), String::from_utf8_lossy(&out), String::from_utf8_lossy(&err));
            assert_eq!(told, (Some(0), "".into(), "".into()), "round {round}");
        }
        assert_eq!(assert_no_half_sheet(&folder.files()), (entries.len(), 0));
        for entry in &entries {
            fs::remove_file(folder.path(&kit::sheet_name(&entry.name))).expect("a sheet");
        }
    }
}

/// What is in the folders that stay is planned; of those that go, some files cannot be read or written.
#[test]
fn folders_that_vanish() {
    for moment in [5, 10, 15, 20, 30, 40] {
        let (folder, entries) = Folder::with_jobs(200, 5);
        let child = piped(plan(&folder)).spawn().expect("the program");
        thread::sleep(Duration::from_millis(moment));
        for number in 10..40 {
            // A sheet that is filed meanwhile can keep the folder: then it goes in the next round.
            while fs::remove_dir_all(folder.path(&format!("{number:04}"))).is_err() {}
        }
        let Ended { status, out, err } = finish(child, Vec::new()).expect("an end");
        let (out, err) = (String::from_utf8_lossy(&out), String::from_utf8_lossy(&err));
        assert!(
            matches!(status.code(), Some(0 | 2)) && out.lines().all(|line| line.contains("no sheet")),
            "{status}\n{out}\n{err}"
        );
        assert!(err.lines().all(|line| line.contains(": error: cannot be ")), "{err}");
        assert_no_half_sheet(&folder.files());
        let stay = entries.iter().filter(|entry| folder.path(&entry.name).exists());
        assert!(
            stay.clone().count() == 50 && stay.clone().all(|entry| folder.path(&kit::sheet_name(&entry.name)).exists())
        );
    }
}
