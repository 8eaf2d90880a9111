//! One job on standard input.

use std::io::{self, IsTerminal, Read, Write};
use std::path::Path;

use crate::buffers::Buffers;
use crate::console::{takes_colour, tell, tell_of_output};
use crate::finding::{Filing, Finding, Sheet, Trouble, PIPED};
use crate::look::{planner_and_check_differ, Task, Which, TEXT_ENOUGH};
use crate::options::Options;
use crate::report::{told, Manner};
use crate::run::{status, Run, TROUBLES};

/// Its sheet goes to standard output, and what is wrong to standard error. Without a sheet to be written, what is found
/// goes where that of a folder goes.
pub fn piped(options: &Options) -> u8 {
    let path = Path::new(PIPED);
    let mut job = Vec::new();
    if let Err(fault) = io::stdin().lock().take(TEXT_ENOUGH).read_to_end(&mut job) {
        tell(&Trouble::read(path, &fault));
        return TROUBLES;
    }
    let mut buffers = Buffers::default();
    let Some((verdict, sheet)) = buffers.plan(&job) else {
        tell(&planner_and_check_differ(path));
        return TROUBLES;
    };
    let mut finding = Finding { verdict: Some(verdict), ..Finding::of(path) };
    let mut is_written = true;
    if !finding.is_refused() {
        finding.sheet = Sheet::Missing;
        (finding.filing, is_written) = match options.task {
            Task { which: Which::None, .. } => (Filing::Left, true),
            Task { is_dry: true, .. } => (Filing::Due, true),
            _ => (Filing::Filed, written(sheet)),
        };
    }
    finding.tell(&job);
    if options.task.which == Which::None {
        let mut run = Run::new(options, 1);
        run.finding(&finding);
        return run.end();
    }
    let manner = Manner::of(options, io::stderr().is_terminal() && takes_colour());
    if manner.is_fault(&finding) || finding.filing == Filing::Due {
        let _ = io::stderr().write_all(told(&finding, manner).as_bytes());
    }
    status(manner.is_fault(&finding), !is_written)
}

/// Whether standard output took the sheet.
fn written(sheet: &[u8]) -> bool {
    let mut out = io::stdout().lock();
    match out.write_all(sheet).and_then(|()| out.flush()) {
        Ok(()) => true,
        Err(fault) => {
            tell_of_output(&fault);
            false
        }
    }
}
