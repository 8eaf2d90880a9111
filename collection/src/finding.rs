//! What was found of one job and its sheet.

use std::fmt;
use std::io;
use std::path::{Path, PathBuf};

use crate::buffers::Verdict;
use crate::words::{self, CANNOT, PLAN};

/// A refusal as the library gives it.
#[derive(Clone, Copy, PartialEq, Eq, Debug)]
pub struct Refusal {
    pub number: u8,
    pub line: u64,
}

/// The sheet as it was found.
#[derive(Clone, Copy, PartialEq, Eq, Debug)]
pub enum Sheet {
    Right,
    Wrong(Refusal),
    Missing,
    /// It could not be read, or nothing can be said of it: its job is refused, or could not be read.
    Unknown,
}

/// What became of it.
#[derive(Clone, Copy, PartialEq, Eq, Debug)]
pub enum Filing {
    /// The sheet was to be left as it was.
    Left,
    Filed,
    /// It would have been filed.
    Due,
    Failed,
}

/// A file that could not be read or written.
pub struct Trouble {
    pub path: PathBuf,
    pub what: String,
}

impl Trouble {
    pub fn new(path: &Path, what: impl fmt::Display) -> Trouble {
        Trouble { path: path.to_path_buf(), what: what.to_string() }
    }

    pub fn read(path: &Path, fault: &io::Error) -> Trouble {
        Trouble::new(path, format_args!("cannot be read: {fault}"))
    }

    pub fn written(path: &Path, fault: &io::Error) -> Trouble {
        Trouble::new(path, format_args!("cannot be written: {fault}"))
    }
}

pub struct Finding {
    pub job: PathBuf,
    /// `None` if the job could not be read.
    pub verdict: Option<Verdict>,
    /// What the answer means, and what to do about it.
    pub says: &'static str,
    pub advice: &'static str,
    pub sheet: Sheet,
    pub filing: Filing,
    pub troubles: Vec<Trouble>,
}

impl Finding {
    pub fn of(job: &Path) -> Finding {
        Finding {
            job: job.to_path_buf(),
            verdict: None,
            says: "",
            advice: "",
            sheet: Sheet::Unknown,
            filing: Filing::Left,
            troubles: Vec::new(),
        }
    }

    /// The library's answer that counts, and its line: to the job if it is refused, else to the sheet if there is one.
    pub fn answer(&self) -> Option<Refusal> {
        let passed = |number| Some(Refusal { number, line: 0 });
        match (self.verdict?, self.sheet_now()) {
            (Verdict::Refused(refusal), _) | (_, Sheet::Wrong(refusal)) => Some(refusal),
            (Verdict::Plan, Sheet::Right) => passed(PLAN),
            (Verdict::Cannot, Sheet::Right) => passed(CANNOT),
            (_, Sheet::Missing | Sheet::Unknown) => None,
        }
    }

    /// Finds the words for it, in view of the job's text.
    pub fn tell(&mut self, job: &[u8]) {
        let words = self.answer().and_then(|answer| words::of(answer.number));
        (self.says, self.advice) = match (self.verdict, words) {
            (Some(Verdict::Refused(refusal)), Some(words)) => (words.of_line(job, refusal.line), words.advice),
            (_, Some(words)) => (words.says, words.advice),
            (_, None) if self.sheet_now() == Sheet::Missing => words::NO_SHEET,
            (_, None) => ("", ""),
        };
    }

    /// The sheet as it is after the run.
    pub fn sheet_now(&self) -> Sheet {
        match self.filing {
            Filing::Filed => Sheet::Right,
            _ => self.sheet,
        }
    }

    pub fn is_refused(&self) -> bool {
        matches!(self.verdict, Some(Verdict::Refused(_)))
    }

    /// Whether the job is refused, or its sheet missing or wrong.
    pub fn is_wrong(&self) -> bool {
        self.is_refused() || matches!(self.sheet_now(), Sheet::Wrong(_) | Sheet::Missing)
    }
}

/// The job that is read from standard input, whose sheet goes to standard output.
pub const PIPED: &str = "-";

/// The file of a job's sheet: `x.sheet` for `x.job`.
pub fn sheet_of(job: &Path) -> PathBuf {
    match job.as_os_str() == PIPED {
        true => job.to_path_buf(),
        false => job.with_extension("sheet"),
    }
}
