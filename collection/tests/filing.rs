//! How sheets are filed: in which order, what becomes of faults on the way, of files left behind, and of a sheet or a job
//! that somebody else changes meanwhile.

mod kit;

use std::ffi::OsStr;
use std::fs::{self, File, TryLockError};
use std::os::unix::ffi::OsStrExt;
use std::os::unix::fs::{symlink, MetadataExt};
use std::path::PathBuf;
use std::process::Command;
use std::thread;
use std::time::Duration;

use harness::child::{finish, piped};
use harness::examples::{A, B, D};
use kit::nobody::Theirs;
use kit::shim::{calls, command};
use kit::{ran, tabs, Folder};

fn two_jobs() -> Folder {
    let folder = Folder::new();
    folder.put("1/a.job", tabs(A.job));
    folder.put("2/b.job", tabs(B.job));
    folder.put("2/b.sheet", tabs("PLAN 0\n"));
    folder
}

/// The calls with the numbers in names of files to be renamed left out.
fn plain(calls: &[String]) -> Vec<String> {
    let digits = |text: &str| text.chars().filter(|c| !c.is_ascii_digit()).collect::<String>();
    calls.iter().map(|call| if call.contains(".part") { digits(call) } else { call.clone() }).collect()
}

const PART: [&str; 2] = ["create .floors--.part", "flush .floors--.part"];

#[test]
fn written_flushed_renamed_and_the_folder_flushed() {
    let folder = two_jobs();
    let (calls, ran) = calls(&folder, &["plan", "--again", "-j1", "-q"], &[]);
    ran.expect(0, "", "");
    let [create, flush] = PART;
    let expected =
        [create, flush, "rename a.sheet", create, flush, "rename b.sheet", "flush-folder 1", "flush-folder 2"];
    assert_eq!(plain(&calls), expected);
    assert_eq!((folder.get("1/a.sheet"), folder.get("2/b.sheet")), (tabs(A.sheet), tabs(B.sheet)));
}

#[test]
fn nothing_is_written_where_nothing_is_due() {
    let folder = two_jobs();
    for words in [&["status"][..], &["check"], &["plan", "--again", "--dry-run"]] {
        assert_eq!(calls(&folder, words, &[]).0, [""; 0], "{words:?}");
    }
    folder.floors(&["plan", "--again", "-q"]).expect(0, "", "");
    for words in [&["plan"][..], &["plan", "--again"], &["plan", "--force"]] {
        assert_eq!(calls(&folder, words, &[]).0, [""; 0], "{words:?}");
    }
}

/// The former sheet stays, the new file goes, and both sheets are named.
#[test]
fn faults_on_the_way() {
    let told = "1/a.sheet: error: cannot be written: Input/output error (os error 5)\n\
                2/b.sheet: error: cannot be written: Input/output error (os error 5)\n";
    let shown = "1/a.job: error: no sheet; the answer is PLAN\n2/b.sheet:1: error[11]: the sheet is not in the form\n";
    for call in ["flush", "rename"] {
        let folder = two_jobs();
        let before = folder.files();
        let (calls, ran) = calls(&folder, &["plan", "--again", "-q"], &[("FAIL", call)]);
        ran.expect(2, shown, told);
        assert_eq!(calls.iter().filter(|call| call.starts_with("remove .floors-")).count(), 2, "{calls:?}");
        assert_eq!(folder.files(), before, "{call}");
    }
    let folder = two_jobs();
    let told = "1: error: cannot be flushed to disk: Input/output error (os error 5)\n\
                2: error: cannot be flushed to disk: Input/output error (os error 5)\n";
    calls(&folder, &["plan", "--again", "-q"], &[("FAIL", "flush-folder")]).1.expect(2, "", told);
    assert_eq!((folder.get("1/a.sheet"), folder.get("2/b.sheet")), (tabs(A.sheet), tabs(B.sheet)));
}

/// A file that a killed run left behind goes, one of a run that is alive stays, and so does all that is none of ours.
#[test]
fn files_left_behind() {
    let folder = Folder::new();
    folder.put("a.job", tabs(A.job));
    let (gone, alive) = (".floors-1-1.part", ".floors-2-0.part");
    let others =
        [".floors-notes.part", ".floors-1-.part", ".floors-1.part", ".x.part", "floors-1-1.part", ".floors-1-1.part~"];
    for name in others.iter().chain([&gone, &alive]) {
        folder.put(name, "half a sheet");
    }
    let lock = File::open(folder.path(alive)).expect("a file");
    lock.lock().expect("a lock");
    let pipe = Command::new("mkfifo").arg(folder.path(".floors-3-3.part")).status();
    assert!(pipe.is_ok_and(|made| made.success()));
    symlink("a.job", folder.path(".floors-4-4.part")).expect("a link");
    fs::create_dir(folder.path(".floors-5-5.part")).expect("a folder");
    for words in [&["status", "-q"][..], &["check", "-q"], &["plan", "--dry-run", "-q"], &["plan", "-q", "a.job"]] {
        folder.floors(words);
        assert!(folder.path(gone).exists(), "{words:?}");
    }
    folder.floors(&["plan", "-q"]).expect(0, "", "");
    assert!(!folder.path(gone).exists());
    for name in others.iter().chain([&alive, &".floors-3-3.part", &".floors-4-4.part", &".floors-5-5.part"]) {
        assert!(folder.path(name).symlink_metadata().is_ok(), "{name}");
    }
    drop(lock);
    folder.floors(&["plan", "-q"]).expect(0, "", "");
    assert!(!folder.path(alive).exists());
}

/// A file that is being written is locked, so that no other run takes it for one left behind.
#[test]
fn a_file_being_written_is_locked() {
    let folder = Folder::new();
    folder.put("a.job", tabs(A.job));
    let child = piped(command(&folder, &["plan", "-q"], &[("SLOW", "3000")])).spawn().expect("the program");
    let part = part_in(&folder);
    // The flush comes after the lock, and takes three seconds.
    thread::sleep(Duration::from_millis(300));
    let file = File::open(&part).expect("a file that is being written");
    assert!(matches!(file.try_lock(), Err(TryLockError::WouldBlock)));
    folder.floors(&["plan", "-q", "--dry-run"]);
    folder.floors(&["status", "-q"]);
    assert!(part.exists());
    assert_eq!(finish(child, Vec::new()).expect("an end").status.code(), Some(0));
    assert_eq!(folder.get("a.sheet"), tabs(A.sheet));
}

/// Waits until there is a file to be renamed.
fn part_in(folder: &Folder) -> PathBuf {
    loop {
        let files = folder.files();
        if let Some(name) = files.keys().find(|name| name.ends_with(b".part")) {
            return folder.0.join(OsStr::from_bytes(name));
        }
        thread::sleep(Duration::from_millis(1));
    }
}

/// While a sheet is flushed somebody files another one, or changes the job.
#[test]
fn changed_meanwhile() {
    let job = tabs("FLOOR 2\nTRACK 0 1\nCART 0\nCALL 0 2\n");
    let folder = Folder::new();
    let planned = folder.floors_with(&["plan", "-"], &job).out.into_bytes();
    let right = ["PLAN 1\nPATH 0 0 0 0 0\n", "PLAN 1\nPATH 0 0 0 1 0\n"].map(tabs);
    let other = right.iter().find(|sheet| **sheet != planned).expect("two sheets that differ");
    let meanwhile = |words: &[&str], name: &str, bytes: &[u8]| {
        let child = piped(command(&folder, words, &[("SLOW", "1500")])).spawn().expect("the program");
        part_in(&folder);
        folder.put(name, bytes);
        let ended = finish(child, Vec::new()).expect("an end");
        (ended.status.code(), String::from_utf8(ended.out).expect("text"))
    };
    folder.put("x.job", &job);
    let summary = "1 job: 1 plan, 0 cannot, 0 refused; sheets: 1 right, 0 missing, 0 wrong";
    assert_eq!(meanwhile(&["plan"], "x.sheet", other), (Some(0), format!("{summary}\n")));
    assert_eq!(&folder.get("x.sheet"), other, "a right sheet is not touched");

    folder.put("x.sheet", "PLAN\t7\n");
    assert_eq!(meanwhile(&["plan", "--again"], "x.sheet", other), (Some(0), format!("{summary}\n")));
    assert_eq!(&folder.get("x.sheet"), other);

    fs::remove_file(folder.path("x.sheet")).expect("a sheet");
    let filed = format!("x.sheet: filed PLAN\n{summary}; 1 filed\n");
    assert_eq!(meanwhile(&["plan"], "x.job", &tabs(D.job)), (Some(0), filed));
    assert_eq!(folder.get("x.sheet"), tabs(D.sheet), "of the job as it is now");
    assert_eq!(folder.files().len(), 2);
}

/// Of a sheet that is a link the link is replaced, and what it leads to stays.
#[test]
fn a_sheet_that_is_a_link() {
    let folder = Folder::new();
    folder.put("a.job", tabs(A.job));
    folder.put("elsewhere", "PLAN\t0\n");
    symlink("elsewhere", folder.path("a.sheet")).expect("a link");
    folder.floors(&["plan", "--again", "-q"]).expect(0, "", "");
    assert_eq!((folder.get("a.sheet"), folder.get("elsewhere")), (tabs(A.sheet), b"PLAN\t0\n".to_vec()));
    assert!(folder.path("a.sheet").symlink_metadata().is_ok_and(|data| data.is_file()));
}

/// Where this user may give files away, the new sheet belongs to whom the former one did.
#[test]
fn the_owner_stays() {
    let folder = two_jobs();
    let path = folder.path("2/b.sheet");
    let _ = std::os::unix::fs::chown(&path, Some(65_534), Some(65_534));
    let owner = || fs::metadata(&path).map(|data| (data.uid(), data.gid())).expect("a sheet");
    let before = owner();
    folder.floors(&["plan", "--again", "-q"]).expect(0, "", "");
    assert_eq!((owner(), folder.get("2/b.sheet")), (before, tabs(B.sheet)));
}

/// The longest sheet there is: more than 64 KiB, both to be written and to be read.
#[test]
fn the_longest_sheet() {
    let folder = Folder::new();
    let lines = |word: &str, more: &str| (192..256).map(|cell| format!("{word} {cell}{more}\n")).collect::<String>();
    folder.put("x.job", tabs(&format!("FLOOR 256\n{}{}", lines("CART", ""), lines("BAY", " 255"))));
    folder.floors(&["plan", "-q"]).expect(0, "", "");
    let path = |i: usize| format!("PATH {i} {i}{}\n", format!(" {}", 192 + i).repeat(256));
    let expected = format!("PLAN 64\n{}", (0..64).map(path).collect::<String>());
    assert!(expected.len() > 65_536);
    assert_eq!(folder.get("x.sheet"), tabs(&expected), "no track and no lift: every cart stands");
    folder.floors(&["check", "-q"]).expect(0, "", "");
}

/// Without further threads the work is done by those that there are.
#[test]
fn no_threads_to_be_had() {
    let theirs = Theirs::new();
    let folder = theirs.folder();
    for i in 0..40 {
        folder.put(&format!("{i:02}.job"), tabs(A.job));
    }
    let mut limited = theirs.as_them(Command::new("bash"));
    limited.args(["-c", "ulimit -u 1; exec \"$0\" plan -j 64"]).arg(theirs.program());
    let ended = ran(limited, b"");
    assert_eq!((ended.status, ended.err.as_str()), (0, ""));
    assert!(ended
        .out
        .ends_with("40 jobs: 40 plan, 0 cannot, 0 refused; sheets: 40 right, 0 missing, 0 wrong; 40 filed\n"));
}
