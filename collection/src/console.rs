//! Standard error, and what kind of outputs there are.

use std::env;
use std::fmt::Display;
use std::io::{self, ErrorKind, Write};

use crate::finding::Trouble;
use crate::report::shown_name;

/// Says something on standard error; there is nobody to tell where that fails.
pub fn complain(what: impl Display) {
    let _ = writeln!(io::stderr(), "{what}");
}

/// Whoever has closed a pipe knows that it takes nothing more; of any other fault of standard output people are told.
pub fn tell_of_output(fault: &io::Error) {
    if fault.kind() != ErrorKind::BrokenPipe {
        complain(format_args!("floors: standard output cannot be written: {fault}"));
    }
}

pub fn tell(trouble: &Trouble) {
    complain(format_args!("{}: error: {}", shown_name(&trouble.path), trouble.what));
}

pub fn takes_colour() -> bool {
    env::var_os("NO_COLOR").is_none_or(|value| value.is_empty())
        && env::var_os("TERM").is_none_or(|name| name != "dumb")
}
