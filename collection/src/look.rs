//! Looking at one job and its sheet, and planning it.

use std::fs::OpenOptions;
use std::io::{self, ErrorKind, Read};
use std::os::unix::fs::OpenOptionsExt;
use std::path::{Path, PathBuf};

use crate::buffers::{Buffers, Verdict};
use crate::filing;
use crate::finding::{sheet_of, Filing, Finding, Sheet, Trouble};
use crate::words::{BAD_SHEET, WRONG_SHEET};

/// A byte more than a job may have: of a longer text, so much is enough for its refusal.
pub const TEXT_ENOUGH: u64 = cartfloor::TEXT_MAX as u64 + 1;

/// A byte more than any right sheet has. In a longer text the first bad line either begins and ends within these bytes, or
/// is the line that they end in.
const SHEET_ENOUGH: u64 = cartfloor::SHEET_MOST as u64 + 1;

/// Somebody else may change a job or its sheet while it is planned: then it is looked at again.
const TRIES: usize = 5;

/// Opens a pipe without waiting for whoever writes to it.
const NONBLOCK: i32 = 0o4000;

/// Which sheets are to be written.
#[derive(Clone, Copy, PartialEq, Eq, PartialOrd, Ord, Debug)]
pub enum Which {
    None,
    Missing,
    /// Those that are wrong, too.
    Wrong,
    All,
}

#[derive(Clone, Copy, Debug)]
pub struct Task {
    pub which: Which,
    /// They are only to be named.
    pub is_dry: bool,
}

impl Task {
    /// Whether any sheet may be written.
    pub fn writes(self) -> bool {
        self.which != Which::None && !self.is_dry
    }

    fn is_due(self, sheet: Sheet) -> bool {
        match sheet {
            Sheet::Missing => self.which >= Which::Missing,
            Sheet::Wrong(_) => self.which >= Which::Wrong,
            Sheet::Right => self.which >= Which::All,
            Sheet::Unknown => false,
        }
    }
}

/// A job and its sheet as they were read.
struct Texts<'a> {
    job_path: &'a Path,
    job: Vec<u8>,
    sheet_path: PathBuf,
    sheet: Option<Vec<u8>>,
}

impl Texts<'_> {
    /// Whether the files are still the same.
    fn are_unchanged(&self) -> bool {
        text_of(self.job_path, TEXT_ENOUGH).is_ok_and(|job| job == self.job)
            && text_of(&self.sheet_path, SHEET_ENOUGH).ok() == self.sheet
    }
}

/// Looks at a job and its sheet, and files a sheet if one is due.
pub fn look(path: &Path, task: Task, buffers: &mut Buffers) -> Finding {
    let again = (0..TRIES).find_map(|_| looked(path, task, buffers));
    again.unwrap_or_else(|| Finding {
        troubles: vec![Trouble::new(path, "was changed again and again while it was planned")],
        ..Finding::of(path)
    })
}

/// `None` if job or sheet were changed before a sheet could be filed: then that sheet is not the one that is due.
fn looked(path: &Path, task: Task, buffers: &mut Buffers) -> Option<Finding> {
    let mut finding = Finding::of(path);
    let job = match text_of(path, TEXT_ENOUGH) {
        Ok(job) => job,
        Err(fault) => {
            finding.troubles.push(Trouble::read(path, &fault));
            return Some(finding);
        }
    };
    let sheet_path = sheet_of(path);
    let sheet = text_of(&sheet_path, SHEET_ENOUGH);
    match &sheet {
        Ok(sheet) => check(&job, sheet, buffers, &mut finding),
        Err(fault) if fault.kind() == ErrorKind::NotFound => finding.sheet = Sheet::Missing,
        Err(fault) => finding.troubles.push(Trouble::read(&sheet_path, fault)),
    }
    let texts = Texts { job_path: path, job, sheet_path, sheet: sheet.ok() };
    if finding.sheet != Sheet::Right || task.is_due(Sheet::Right) {
        plan(&texts, task, buffers, &mut finding)?;
    }
    finding.tell(&texts.job);
    Some(finding)
}

/// A sheet that passes tells the job's verdict; of one that does not, the planner has to say it.
fn check(job: &[u8], sheet: &[u8], buffers: &mut Buffers, finding: &mut Finding) {
    match buffers.check(job, sheet) {
        Verdict::Refused(refusal) if [BAD_SHEET, WRONG_SHEET].contains(&refusal.number) => {
            finding.sheet = Sheet::Wrong(refusal);
        }
        Verdict::Refused(_) => {}
        passed => {
            finding.verdict = Some(passed);
            finding.sheet = Sheet::Right;
        }
    }
}

/// The planner's verdict, and its sheet filed if one is due. `None` as above.
fn plan(texts: &Texts, task: Task, buffers: &mut Buffers, finding: &mut Finding) -> Option<()> {
    let Some((verdict, sheet)) = buffers.plan(&texts.job) else {
        finding.troubles.push(planner_and_check_differ(&finding.job));
        return Some(());
    };
    finding.verdict = Some(verdict);
    if finding.is_refused() {
        finding.sheet = Sheet::Unknown;
    } else if task.is_due(finding.sheet) && texts.sheet.as_deref() != Some(sheet) {
        finding.filing = match task.is_dry {
            true => Filing::Due,
            false => file(texts, sheet, finding)?,
        };
    }
    Some(())
}

fn file(texts: &Texts, sheet: &[u8], finding: &mut Finding) -> Option<Filing> {
    match filing::file(&texts.sheet_path, sheet, || texts.are_unchanged()) {
        Ok(is_filed) => is_filed.then_some(Filing::Filed),
        Err(fault) => {
            finding.troubles.push(Trouble::written(&texts.sheet_path, &fault));
            Some(Filing::Failed)
        }
    }
}

/// It is proved that this does not happen; a broken machine could make it happen.
pub fn planner_and_check_differ(job: &Path) -> Trouble {
    Trouble::new(job, "the check turned the planner's sheet back; nothing was filed")
}

/// The bytes of a file, up to so many. Only of a file: a pipe could be waited for without end, and its opening too.
fn text_of(path: &Path, most: u64) -> io::Result<Vec<u8>> {
    let file = OpenOptions::new().read(true).custom_flags(NONBLOCK).open(path)?;
    let data = file.metadata()?;
    if !data.is_file() {
        return Err(io::Error::other("it is no file"));
    }
    let mut text = Vec::with_capacity(data.len().min(most) as usize + 1);
    file.take(most).read_to_end(&mut text)?;
    Ok(text)
}
