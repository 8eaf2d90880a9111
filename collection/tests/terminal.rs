//! Colour and progress: on a terminal and nowhere else.

mod kit;

use std::ffi::{c_char, CStr, OsStr};
use std::fs::File;
use std::io::Read;
use std::os::fd::FromRawFd;
use std::os::unix::ffi::OsStrExt;
use std::process::{Command, Stdio};
use std::thread;

use kit::mixed::mixed;
use kit::Folder;

const READ_WRITE: i32 = 2;

extern "C" {
    fn posix_openpt(flags: i32) -> i32;
    fn grantpt(terminal: i32) -> i32;
    fn unlockpt(terminal: i32) -> i32;
    fn ptsname_r(terminal: i32, name: *mut c_char, len: usize) -> i32;
}

/// A terminal: what is written to it can be read here, and the end that programs have.
fn terminal() -> (File, File) {
    let mut name = [0u8; 64];
    // Safety: the name has the length that is said, and ends with a zero; the number is of a new file of ours.
    let ours = unsafe {
        let number = posix_openpt(READ_WRITE);
        assert!(number >= 0 && grantpt(number) == 0 && unlockpt(number) == 0, "no terminal");
        assert_eq!(ptsname_r(number, name.as_mut_ptr().cast(), name.len()), 0);
        File::from_raw_fd(number)
    };
    let name = CStr::from_bytes_until_nul(&name).expect("a name");
    let theirs = File::options().read(true).write(true).open(OsStr::from_bytes(name.to_bytes())).expect("a terminal");
    (ours, theirs)
}

/// Runs a command with a terminal where it is asked for; what came to the terminal, and to standard output else.
fn on_terminal(mut command: Command, has_out: bool, has_err: bool) -> (String, String) {
    let (mut ours, theirs) = terminal();
    let end = |is_terminal: bool| match is_terminal {
        true => Stdio::from(theirs.try_clone().expect("a terminal")),
        false => Stdio::piped(),
    };
    let child = command.stdin(Stdio::null()).stdout(end(has_out)).stderr(end(has_err)).spawn().expect("the program");
    // The command and this side hold the other end too: only when all have gone does the terminal end.
    drop((command, theirs));
    let reading = thread::spawn(move || {
        let mut bytes = Vec::new();
        // A terminal that nobody has open any more ends with a fault.
        let _ = ours.read_to_end(&mut bytes);
        bytes
    });
    let ended = child.wait_with_output().expect("an end");
    let text = |bytes: Vec<u8>| String::from_utf8(bytes).expect("text");
    (text(reading.join().expect("what was read")), text(ended.stdout))
}

fn floors(folder: &Folder, words: &[&str]) -> Command {
    let mut command = folder.command();
    command.args(words).env_remove("NO_COLOR").env("TERM", "xterm");
    command
}

#[test]
fn colour() {
    let folder = mixed();
    let (coloured, _) = on_terminal(floors(&folder, &["status"]), true, false);
    assert!(coloured.contains("floor 1/a.sheet: right \x1b[32mPLAN\x1b[0m\r\n"), "{coloured}");
    assert!(coloured.contains("r.job:3: \x1b[1;31merror[7]\x1b[0m: a second cart on a cell\r\n"), "{coloured}");
    let plain = folder.floors(&["status"]).out.replace('\n', "\r\n");
    assert!(!plain.contains('\x1b'));
    let without = |name: &str, value: &str| {
        let mut command = floors(&folder, &["status"]);
        command.env(name, value);
        on_terminal(command, true, false).0
    };
    assert_eq!(without("NO_COLOR", "1"), plain);
    assert_eq!(without("NO_COLOR", ""), coloured);
    assert_eq!(without("TERM", "dumb"), plain);
    for format in ["tsv", "json"] {
        let (shown, _) = on_terminal(floors(&folder, &["status", "--format", format]), true, false);
        assert!(!shown.contains('\x1b'), "{shown}");
    }
}

#[test]
fn progress() {
    let (folder, entries) = Folder::with_jobs(1500, 6);
    let (shown, out) = on_terminal(floors(&folder, &["plan", "-j1"]), false, true);
    let last = format!(" of {} jobs\r\x1b[K", entries.len());
    assert!(shown.contains(&last) && shown.ends_with("\r\x1b[K"), "{shown}");
    assert!(out.ends_with("; 1500 filed\n") && !out.contains('\x1b'));
    // Both outputs on one terminal: what is shown of the progress goes before each line.
    let (both, _) = on_terminal(floors(&folder, &["plan", "-j1", "--force"]), true, true);
    let shown = both.matches(&last).count();
    assert_eq!(both.matches(" of 1500 jobs").count(), shown);
    assert!(
        both.lines().all(|line| !line.rsplit("\x1b[K").next().unwrap_or_default().contains(" of 1500 jobs")),
        "{both}"
    );
    let (quiet, out) = on_terminal(floors(&folder, &["plan", "--force", "-q"]), false, true);
    assert_eq!((quiet.as_str(), out.as_str()), ("", ""));
    let ran = folder.floors(&["status", "-j1"]);
    assert_eq!(ran.err, "");
}
