//! Lines for people, faults as compilers write them.

use std::path::Path;

use super::{shown_name, Manner};
use crate::buffers::Verdict;
use crate::finding::{sheet_of, Filing, Finding, Sheet};

const RED: &str = "1;31";
const GREEN: &str = "32";
const YELLOW: &str = "33";

pub fn text(finding: &Finding, manner: Manner) -> String {
    let sheet = sheet_of(&finding.job);
    let said = |what: &str| format!("{}: {what} {}\n", shown_name(&sheet), answer(finding, manner));
    match (finding.sheet_now(), finding.filing) {
        _ if finding.is_refused() => error(&finding.job, finding, manner),
        (_, Filing::Due) => said("would be filed:"),
        (Sheet::Missing, _) => error(&finding.job, finding, manner),
        (Sheet::Wrong(_), _) => error(&sheet, finding, manner),
        (Sheet::Right, _) if manner.is_fault(finding) => error(&sheet, finding, manner),
        (Sheet::Right, Filing::Filed) => said("filed"),
        (Sheet::Right, _) => said("right"),
        // That a file could not be read is said on standard error.
        (Sheet::Unknown, _) => String::new(),
    }
}

/// The word that the job's sheet begins with.
fn answer(finding: &Finding, manner: Manner) -> String {
    match finding.verdict {
        Some(Verdict::Plan) => paint(GREEN, "PLAN", manner),
        Some(Verdict::Cannot) => paint(YELLOW, "CANNOT", manner),
        _ => String::new(),
    }
}

/// What is wrong about a file, and what to do.
fn error(path: &Path, finding: &Finding, manner: Manner) -> String {
    let place = shown_name(path);
    let what = match finding.answer() {
        Some(found) => {
            let line = if found.line == 0 { String::new() } else { format!(":{}", found.line) };
            let error = paint(RED, &format!("error[{}]", found.number), manner);
            format!("{line}: {error}: {}", finding.says)
        }
        None => {
            format!(": {}: {}; the answer is {}", paint(RED, "error", manner), finding.says, answer(finding, manner))
        }
    };
    match manner.is_quiet {
        true => format!("{place}{what}\n"),
        false => format!("{place}{what}\n    to do: {}\n", finding.advice),
    }
}

fn paint(colour: &str, text: &str, manner: Manner) -> String {
    match manner.is_coloured {
        true => format!("\x1b[{colour}m{text}\x1b[0m"),
        false => text.to_string(),
    }
}
