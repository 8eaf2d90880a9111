//! A command from its options to its exit status.

use std::collections::BTreeSet;
use std::io::{self, BufWriter, IsTerminal, Write};
use std::mem;
use std::path::PathBuf;

use crate::console::{complain, takes_colour, tell, tell_of_output};
use crate::crew::look_at_all;
use crate::filing::{flush_folder, folder_of};
use crate::finding::{Filing, Finding, Trouble};
use crate::options::Options;
use crate::piped::piped;
use crate::progress::Progress;
use crate::report::{shown_name, Manner, Report, Summary};
use crate::search::Search;
use crate::signals;

const RIGHT: u8 = 0;
const FAULTS: u8 = 1;
pub const TROUBLES: u8 = 2;

/// The exit status.
pub fn status(has_faults: bool, has_troubles: bool) -> u8 {
    match (has_faults, has_troubles) {
        (_, true) => TROUBLES,
        (true, false) => FAULTS,
        (false, false) => RIGHT,
    }
}

pub fn run(options: &Options) -> u8 {
    signals::let_long_files_fail();
    match options.is_piped() {
        true => piped(options),
        false => all(options),
    }
}

fn all(options: &Options) -> u8 {
    signals::note_interrupts();
    let mut search = Search::new(options.task.writes());
    for path in &options.paths {
        search.path(path);
    }
    let mut run = Run::new(options, search.jobs.len());
    for trouble in &search.troubles {
        run.trouble(trouble);
    }
    for stray in search.strays.iter().filter(|_| !options.is_quiet) {
        complain(format_args!("{}: warning: no job beside it", shown_name(stray)));
    }
    look_at_all(&search.jobs, options.task, options.threads, |finding| run.finding(&finding));
    let status = run.end();
    signals::end_if_interrupted();
    status
}

/// What has been found so far.
pub struct Run {
    manner: Manner,
    report: Report<Box<dyn Write>>,
    progress: Progress,
    summary: Summary,
    has_faults: bool,
    filed_in: BTreeSet<PathBuf>,
}

impl Run {
    pub fn new(options: &Options, jobs: usize) -> Run {
        let is_terminal = io::stdout().is_terminal();
        let manner = Manner::of(options, is_terminal && takes_colour());
        let out: Box<dyn Write> = match is_terminal {
            true => Box::new(io::stdout()),
            false => Box::new(BufWriter::with_capacity(1 << 16, io::stdout())),
        };
        Run {
            manner,
            report: Report::new(out, manner),
            progress: Progress::new(jobs, !options.is_quiet && io::stderr().is_terminal()),
            summary: Summary::default(),
            has_faults: false,
            filed_in: BTreeSet::new(),
        }
    }

    pub fn finding(&mut self, finding: &Finding) {
        self.progress.hide();
        self.summary.add(finding);
        self.has_faults |= self.manner.is_fault(finding);
        if finding.filing == Filing::Filed {
            self.filed_in.insert(folder_of(&finding.job).to_path_buf());
        }
        self.report.finding(finding);
        for trouble in &finding.troubles {
            // What comes first is to be seen first.
            self.report.flush();
            tell(trouble);
        }
        self.progress.step();
    }

    fn trouble(&mut self, trouble: &Trouble) {
        self.summary.count("troubles", 1);
        tell(trouble);
    }

    /// The exit status.
    pub fn end(mut self) -> u8 {
        self.progress.hide();
        for folder in mem::take(&mut self.filed_in) {
            if let Err(fault) = flush_folder(&folder) {
                self.trouble(&Trouble::new(&folder, format_args!("cannot be flushed to disk: {fault}")));
            }
        }
        if let Some(line) = self.report.finish(&self.summary) {
            let _ = io::stderr().write_all(line.as_bytes());
        }
        if signals::interrupted() {
            complain(format_args!("floors: interrupted after {} of {} jobs", self.progress.done, self.progress.all));
        }
        if let Some(fault) = &self.report.failed {
            tell_of_output(fault);
        }
        status(self.has_faults, self.summary.of("troubles") > 0 || self.report.failed.is_some())
    }
}
