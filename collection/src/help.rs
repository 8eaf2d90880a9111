//! What `--help` prints, for all and for each command.

/// The help for a command.
pub fn of(command: &str) -> Option<&'static str> {
    match command {
        "status" => Some(STATUS),
        "plan" => Some(PLAN),
        "check" => Some(CHECK),
        "explain" => Some(EXPLAIN),
        _ => None,
    }
}

pub const ALL: &str = "\
floors: a collection of jobs and their sheets, planned and checked by the proved library

    floors status [PATH…]     every job with its sheet: right PLAN, right CANNOT, wrong, missing, job refused
    floors plan [PATH…]       writes the missing sheets; --again also those that are wrong; --force all; --dry-run none
    floors check [PATH…]      status, and nothing but what is wrong is shown
    floors explain [N]        what a number means and what to do about it; of all numbers without N

PATH is a job file, a folder (searched with its folders for *.job, hidden names left out), or - alone, for one job on
standard input. Without PATH: the folder one is in. The sheet of x.job is x.sheet beside it.

Options of status, plan and check
    -j N, --jobs N            so many threads, each with up to 17 MB; all cores by default. The output does not depend on it
    --format tty|tsv|json     lines for people (the default), a table with tabs, or JSON
    --fail-on cannot          a right CANNOT is a fault too
    -q, --quiet               only what is wrong is shown: no progress, and for people no advice and no summary
    --                        what follows are paths
    -h, --help                more of a command: floors plan --help

    floors --version          the version

Exit status: 0 nothing is wrong; 1 a sheet is wrong or missing, or a job is refused; 2 wrong use, or a file could not be
read or written. Files that could not be read or written are named on standard error, and the rest goes on.
";

const STATUS: &str = "\
floors status [PATH…] [-j N] [--format tty|tsv|json] [--fail-on cannot] [-q]

Shows every job with its sheet. The library's check says of each sheet whether it is right; where it is wrong or missing,
the planner says what the job's answer is. Nothing is written.

    031/1.sheet: right PLAN
    031/2.job:14: error[7]: a second cart on a cell
        to do: strike that line
    031/3.job: error: no sheet; the answer is CANNOT
        to do: floors plan writes it

With - for PATH a job is read from standard input; it has no sheet. A sheet that is found in a folder without a job beside
it is named on standard error: nobody can say whether it is right.

--format tsv has a line for each job that is shown, and a first line with the names of its fields: path, job (plan, cannot,
refused, unknown), sheet (right, wrong, missing, unknown), filing (filed, due, failed, left), number, line, words. Number
and line are the library's answer to the job if that is refused, else to the sheet, and empty where there is none. In names
a control character, a backslash and a byte that is no UTF-8 are written as \\n, \\\\ or \\xff. The summary goes to standard
error.
--format json is one object: jobs, an array of objects with the same fields and to_do, number and line left out where there
is none; and summary. Where a name is no UTF-8, path_hex has its bytes.
";

const PLAN: &str = "\
floors plan [PATH…] [--again | --force] [--dry-run] [-j N] [--format tty|tsv|json] [--fail-on cannot] [-q]

Writes the sheets that are missing. Each is checked by the library before it is filed, and filed whole or not at all: a
file beside it is written, flushed to disk and renamed. Shown are the sheets that were filed, and what is wrong.

    --again       also those that are wrong
    --force       all. A right sheet from another hand is replaced by the planner's; one with the same bytes is not touched
    --dry-run     none: shows what would be filed

Without --force a right sheet is never touched. A sheet that is a link is replaced by a file. With - for PATH the job is read
from standard input, the sheet goes to standard output, and what is wrong to standard error, in lines for people.
";

const CHECK: &str = "\
floors check [PATH…] [-j N] [--format tty|tsv|json] [--fail-on cannot] [-q]

As status, and nothing but what is wrong is shown: wrong sheets, missing ones, refused jobs. Nothing is written.
";

const EXPLAIN: &str = "\
floors explain [N]

Says what the number N means and what to do about it: of the answers that the library gives, and of error[N] in what
status, plan and check show. Without N: of all numbers.
";
