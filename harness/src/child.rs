//! Child processes, fed through a pipe and never waited for longer than a deadline.

use std::io::{ErrorKind, Read, Write};
use std::process::{Child, ChildStdin, Command, ExitStatus, Stdio};
use std::thread::{self, JoinHandle};
use std::time::{Duration, Instant};

/// Every child is done in seconds, also on a busy machine; one that hangs is ended after this, and the test fails.
const DEADLINE: Duration = Duration::from_secs(120);

/// Between two pieces of an input: long enough for the child to have read the first and to wait for the second.
const PAUSE: Duration = Duration::from_millis(10);

/// How a child ended, and what it wrote to those of its outputs that are pipes.
pub struct Ended {
    pub status: ExitStatus,
    pub out: Vec<u8>,
    pub err: Vec<u8>,
}

/// The command with pipes for its input and its outputs.
pub fn piped(mut command: Command) -> Command {
    command.stdin(Stdio::piped()).stdout(Stdio::piped()).stderr(Stdio::piped());
    command
}

/// Gives a child its input piece by piece, then the end of it, and waits. `Err` says that it did not end by itself.
pub fn finish(mut child: Child, pieces: Vec<Vec<u8>>) -> Result<Ended, String> {
    let feeding = child.stdin.take().map(|pipe| thread::spawn(move || feed(pipe, &pieces)));
    let (out, err) = (all_of(child.stdout.take()), all_of(child.stderr.take()));
    let status = wait(&mut child);
    if let Some(feeding) = feeding {
        feeding.join().expect("an input that can be written");
    }
    let (out, err) = (out.join().expect("an output"), err.join().expect("an output"));
    Ok(Ended { status: status?, out, err })
}

/// What a command prints that must succeed.
pub fn output(command: Command, input: Vec<u8>) -> Vec<u8> {
    let name = format!("{:?}", command.get_program());
    let child = piped(command).spawn().unwrap_or_else(|fault| panic!("{name}: {fault}"));
    let Ended { status, out, err } = finish(child, vec![input]).unwrap_or_else(|fault| panic!("{name}: {fault}"));
    assert!(status.success(), "{name}: {status}\n{}", String::from_utf8_lossy(&err));
    out
}

/// A child may end, or stop reading, before it has had everything.
fn feed(mut pipe: ChildStdin, pieces: &[Vec<u8>]) {
    for (i, piece) in pieces.iter().enumerate() {
        if i > 0 {
            thread::sleep(PAUSE);
        }
        match pipe.write_all(piece) {
            Err(fault) if fault.kind() == ErrorKind::BrokenPipe => return,
            written => written.expect("a pipe that can be written"),
        }
    }
}

/// Reads in a thread of its own, so that a child with much to say is not held up.
fn all_of<R: Read + Send + 'static>(pipe: Option<R>) -> JoinHandle<Vec<u8>> {
    thread::spawn(move || {
        let mut bytes = Vec::new();
        if let Some(mut pipe) = pipe {
            pipe.read_to_end(&mut bytes).expect("a pipe that can be read");
        }
        bytes
    })
}

fn wait(child: &mut Child) -> Result<ExitStatus, String> {
    let begun = Instant::now();
    while begun.elapsed() < DEADLINE {
        if let Some(status) = child.try_wait().expect("a child to wait for") {
            return Ok(status);
        }
        thread::sleep(Duration::from_millis(1));
    }
    child.kill().and_then(|()| child.wait()).expect("a child to end");
    Err(format!("it did not end within {} seconds", DEADLINE.as_secs()))
}
