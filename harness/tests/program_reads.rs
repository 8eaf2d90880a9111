//! How much the programs read: one byte more than the longest text that is not too long, and they wait for nothing behind it.

use std::fs::File;
use std::io::{Seek, Write};
use std::process::{Command, Stdio};

use harness::child::{finish, piped, Ended};
use harness::program::{floormap, floorplan};

/// Each with the most that it reads, and what it writes of so many letters x.
fn programs() -> [(&'static str, usize, &'static str); 2] {
    [(floorplan(), 16_385, "REFUSED\t2\t0\n"), (floormap(), 4196, "REFUSED\t13\t1\n")]
}

fn assert_wrote(ended: Ended, expected: &str) {
    assert_eq!((ended.status.code(), String::from_utf8(ended.out).as_deref()), (Some(0), Ok(expected)));
}

/// A file's place is that of whoever reads it.
#[test]
fn no_more_is_read() {
    for (i, (program, most, expected)) in programs().into_iter().enumerate() {
        let path = format!("{}/long input {i}", env!("CARGO_TARGET_TMPDIR"));
        std::fs::write(&path, [b'x'; 100_000]).expect("a file");
        let mut file = File::open(&path).expect("a file");
        let mut command = piped(Command::new(program));
        command.stdin(Stdio::from(file.try_clone().expect("the same file")));
        assert_wrote(finish(command.spawn().expect("a program"), Vec::new()).expect("an end"), expected);
        assert_eq!(file.stream_position().expect("a place"), most as u64, "{program}");
    }
}

/// The pipe has no end until the program has ended.
#[test]
fn no_more_is_waited_for() {
    for (program, most, expected) in programs() {
        let mut child = piped(Command::new(program)).spawn().expect("a program");
        let mut pipe = child.stdin.take().expect("its input");
        pipe.write_all(&vec![b'x'; most]).expect("a pipe that takes it");
        assert_wrote(finish(child, Vec::new()).expect("an end"), expected);
        drop(pipe);
    }
}
