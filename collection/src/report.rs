//! What is printed of the findings: lines for people, a table with tabs, or JSON; at the end a summary.

mod json;
mod names;
mod summary;
mod tsv;
mod tty;

pub use names::shown_name;
pub use summary::Summary;
pub use tty::text as told;

use std::io::{self, Write};

use crate::buffers::Verdict;
use crate::finding::{Filing, Finding, Sheet};
use crate::options::{Options, Shown};

#[derive(Clone, Copy, PartialEq, Eq, Debug)]
pub enum Format {
    Tty,
    Tsv,
    Json,
}

/// What is asked for of a report.
#[derive(Clone, Copy)]
pub struct Manner {
    pub format: Format,
    pub shown: Shown,
    pub is_quiet: bool,
    pub is_coloured: bool,
    pub fails_on_cannot: bool,
}

impl Manner {
    pub fn of(options: &Options, is_coloured: bool) -> Manner {
        Manner {
            format: options.format,
            shown: options.shown,
            is_quiet: options.is_quiet,
            is_coloured: is_coloured && options.format == Format::Tty,
            fails_on_cannot: options.fails_on_cannot,
        }
    }

    /// Whether this is a fault, as the command has it.
    pub fn is_fault(self, finding: &Finding) -> bool {
        finding.is_wrong() || self.fails_on_cannot && finding.verdict == Some(Verdict::Cannot)
    }

    fn shows(self, finding: &Finding) -> bool {
        let is_asked_for = match self.shown {
            Shown::All => true,
            Shown::Changes => finding.filing != Filing::Left,
            Shown::Wrong => false,
        };
        is_asked_for && !self.is_quiet || self.is_fault(finding) || !finding.troubles.is_empty()
    }
}

/// Writes findings one after the other. Once a write has failed nothing more is written, and the run goes on.
pub struct Report<W: Write> {
    out: W,
    manner: Manner,
    rows: usize,
    pub failed: Option<io::Error>,
}

impl<W: Write> Report<W> {
    pub fn new(out: W, manner: Manner) -> Report<W> {
        let mut report = Report { out, manner, rows: 0, failed: None };
        match manner.format {
            Format::Tty => {}
            Format::Tsv => report.write(tsv::HEAD),
            Format::Json => report.write(json::HEAD),
        }
        report
    }

    pub fn finding(&mut self, finding: &Finding) {
        if !self.manner.shows(finding) {
            return;
        }
        let text = match self.manner.format {
            Format::Tty => tty::text(finding, self.manner),
            Format::Tsv => tsv::row(finding),
            Format::Json => json::row(finding, self.rows == 0),
        };
        self.rows += 1;
        self.write(&text);
    }

    /// The end of the report. A table has no place for the summary: it is returned for standard error.
    pub fn finish(&mut self, summary: &Summary) -> Option<String> {
        let line = (!self.manner.is_quiet).then(|| format!("{summary}\n"));
        let beside = match (self.manner.format, line) {
            (Format::Json, _) => {
                self.write(&json::tail(summary));
                None
            }
            (Format::Tty, Some(line)) => {
                self.write(&line);
                None
            }
            (_, line) => line,
        };
        self.flush();
        beside
    }

    pub fn flush(&mut self) {
        if self.failed.is_none() {
            self.failed = self.out.flush().err();
        }
    }

    fn write(&mut self, text: &str) {
        if self.failed.is_none() {
            self.failed = self.out.write_all(text.as_bytes()).err();
        }
    }
}

/// The words of tables and JSON for a finding: job, sheet, filing.
fn states(finding: &Finding) -> [&'static str; 3] {
    let job = match finding.verdict {
        Some(Verdict::Plan) => "plan",
        Some(Verdict::Cannot) => "cannot",
        Some(Verdict::Refused(_)) => "refused",
        None => "unknown",
    };
    let sheet = match finding.sheet_now() {
        Sheet::Right => "right",
        Sheet::Wrong(_) => "wrong",
        Sheet::Missing => "missing",
        Sheet::Unknown => "unknown",
    };
    let filing = match finding.filing {
        Filing::Left => "left",
        Filing::Filed => "filed",
        Filing::Due => "due",
        Filing::Failed => "failed",
    };
    [job, sheet, filing]
}
