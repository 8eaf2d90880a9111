//! How far a run has come, on a terminal: one line, which goes before anything else is written.

use std::io::{self, Write};
use std::time::{Duration, Instant};

const BETWEEN: Duration = Duration::from_millis(100);

pub struct Progress {
    pub all: usize,
    pub done: usize,
    is_wanted: bool,
    is_shown: bool,
    last: Instant,
}

impl Progress {
    pub fn new(all: usize, is_wanted: bool) -> Progress {
        Progress { all, done: 0, is_wanted, is_shown: false, last: Instant::now() }
    }

    /// One more job is done.
    pub fn step(&mut self) {
        self.done += 1;
        if self.is_wanted && self.last.elapsed() >= BETWEEN {
            self.last = Instant::now();
            self.is_shown = true;
            print(format_args!("{} of {} jobs", self.done, self.all));
        }
    }

    pub fn hide(&mut self) {
        if self.is_shown {
            self.is_shown = false;
            print(format_args!("\r\x1b[K"));
        }
    }
}

fn print(text: std::fmt::Arguments) {
    let _ = io::stderr().write_fmt(text);
}
