//! Interrupts end a run between two jobs, and a limit on the size of files is a fault like any other.

use std::process;
use std::sync::atomic::{AtomicI32, Ordering};

const HUP: i32 = 1;
const INT: i32 = 2;
const TERM: i32 = 15;
const XFSZ: i32 = 25;
const DEFAULT: usize = 0;
const IGNORED: usize = 1;

extern "C" {
    fn signal(number: i32, handler: usize) -> usize;
    fn raise(number: i32) -> i32;
}

/// The signal that came, 0 before.
static CAME: AtomicI32 = AtomicI32::new(0);

/// The first one is noted; a second one ends the process at once.
extern "C" fn note(number: i32) {
    CAME.store(number, Ordering::Relaxed);
    // Safety: both are allowed in a handler.
    unsafe { signal(number, DEFAULT) };
}

/// From now on an interrupt is noted and the process goes on. One that is ignored, as `nohup` has it, stays so.
pub fn note_interrupts() {
    let handler: extern "C" fn(i32) = note;
    for number in [HUP, INT, TERM] {
        // Safety: the handler only stores a number.
        unsafe {
            if signal(number, handler as usize) == IGNORED {
                signal(number, IGNORED);
            }
        }
    }
}

/// A file that would pass the limit on its size cannot be written, and the process goes on.
pub fn let_long_files_fail() {
    // Safety: no handler is run.
    unsafe { signal(XFSZ, IGNORED) };
}

pub fn interrupted() -> bool {
    CAME.load(Ordering::Relaxed) != 0
}

/// Ends as the interrupt would have ended it, so that whoever started the process sees that. The first process of a
/// container is not ended so: for it the exit status that a shell would give.
pub fn end_if_interrupted() {
    let number = CAME.load(Ordering::Relaxed);
    if number != 0 {
        // Safety: the handler is the default one again, which ends the process.
        unsafe { raise(number) };
        process::exit(128 + number);
    }
}
