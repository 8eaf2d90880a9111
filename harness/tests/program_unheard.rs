//! The programs `floorplan` and `floormap` where nobody takes what they write: they end by themselves, and say nothing
//! elsewhere.
//!
//! The README says nothing of this. What is held is that a program never hangs and, where the system does not end it, is
//! not ended by a fault of its own; which status it ends with is left open.

use std::fs::File;
use std::os::unix::process::ExitStatusExt;
use std::process::{Child, Command};

use harness::child::{finish, piped, Ended};
use harness::examples::{e_in_bay, tabs, REFUSED};
use harness::program::{floormap, floorplan};

/// Runs each program on a text that has an answer of some length, and on one that is refused.
fn runs(start: impl Fn(&str) -> Child) -> [Ended; 4] {
    let row = ".".repeat(64);
    let map = format!("type octile\nheight 4\nwidth 64\nmap\n{row}\n{row}\n{row}\n{row}\n").into_bytes();
    let inputs = [
        (floorplan(), e_in_bay().0),
        (floorplan(), tabs(REFUSED[1].0)),
        (floormap(), map),
        (floormap(), b"type\n".to_vec()),
    ];
    inputs.map(|(program, input)| finish(start(program), vec![input]).expect("a program that ends"))
}

fn assert_quiet(ended: &Ended) {
    assert!(ended.out.is_empty() && ended.err.is_empty(), "{:?} and {:?}", ended.out, ended.err);
}

#[test]
fn a_closed_output() {
    let start = |program: &str| {
        let mut shell = Command::new("sh");
        shell.args(["-c", "exec \"$0\" >&-", program]);
        piped(shell).spawn().expect("a shell")
    };
    for ended in runs(start) {
        assert_quiet(&ended);
        assert_eq!(ended.status.signal(), None);
    }
}

#[test]
fn a_full_device() {
    // A system without the device has nothing to try.
    let full = || File::options().write(true).open("/dev/full");
    if full().is_err() {
        return;
    }
    let start =
        |program: &str| piped(Command::new(program)).stdout(full().expect("the device")).spawn().expect("a program");
    for ended in runs(start) {
        assert_quiet(&ended);
        assert_eq!(ended.status.signal(), None);
    }
}

#[test]
fn a_pipe_without_a_reader() {
    let start = |program: &str| {
        let mut child = piped(Command::new(program)).spawn().expect("a program");
        // Before it has its input, so before it writes.
        drop(child.stdout.take());
        child
    };
    // The system ends a program that writes here, unless it asks for an error instead.
    runs(start).iter().for_each(assert_quiet);
}
