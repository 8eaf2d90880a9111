//! A collection of floors: job files, each with its sheet beside it, looked at, planned and filed by the library
//! `cartfloor`. Every verdict here is the library's.
//!
//! `options` reads the command line, `help` has its words; `run` carries a command out. `search` finds the jobs; `crew`
//! lets threads look at them and gives back what they find in the order of the names; `look` does that for one job, with
//! `buffers` for the library's calls and `filing` for the sheet. A `finding` is what comes of a job: `report` writes it
//! down, in the words that `words` has for each answer. `piped` is for a job on standard input; `console`, `progress` and
//! `signals` are for whoever sits before it.

pub mod buffers;
pub mod console;
pub mod crew;
pub mod filing;
pub mod finding;
pub mod help;
pub mod look;
pub mod options;
pub mod piped;
pub mod progress;
pub mod report;
pub mod run;
pub mod search;
pub mod signals;
pub mod words;
