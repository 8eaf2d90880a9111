//! One call held against the model: the answer, and every byte of every buffer.

mod map;
mod planner;
mod told;

pub use map::{answer_to_map, library_on_map, map};
pub use planner::{plan, planned};
pub use told::assert_found;

use crate::examples::{tabs, BUFFER};
use crate::ffi::{self, Checker, Library};
use crate::gen::cases::Case;
use crate::gen::Rng;
use crate::model::answer::unpack;
use crate::model::check::{self, store_after};

/// The answer and the line, if they are the model's and all bytes are as they must be; else what differs.
pub fn check(checker: &dyn Checker, case: &Case, rng: &mut Rng) -> Result<(u8, usize), String> {
    let expected = check::check(&case.job, case.store_len, &case.sheet);
    let checked = ffi::check(checker, &case.job, case.store_len, &case.sheet, rng);
    let checked = checked.map_err(|what| report(&what, case))?;
    let found = unpack(checked.packed);
    if found != expected {
        return Err(report(&format!("answers {found:?}, not {expected:?}"), case));
    }
    if checked.store != store_after(expected.0, &checked.store_lent) {
        return Err(report(&format!("store not as it must be after {expected:?}"), case));
    }
    Ok(expected)
}

/// The library's answer and line; panics where anything differs from the model.
pub fn library_on(case: &Case, rng: &mut Rng) -> (u8, usize) {
    check(&Library, case, rng).unwrap_or_else(|difference| panic!("{difference}"))
}

/// The same for a case told by hand, its noise from a seed of its own.
pub fn library(job: &[u8], store_len: usize, sheet: &[u8]) -> (u8, usize) {
    let case = Case { job: job.to_vec(), store_len, sheet: sheet.to_vec() };
    let seed = job.len() as u64 ^ (sheet.len() as u64) << 32;
    library_on(&case, &mut Rng::new(seed))
}

/// The library's answer to a job text and its line, told by the check of a sheet without paths.
pub fn answer_to(job: &[u8]) -> (u8, usize) {
    library(job, 4096, b"PLAN\t0\n")
}

/// Job texts, with spaces for tabs, that are turned back with one number: text, line.
pub fn assert_turned_back(number: u8, rows: &[(&str, usize)]) {
    for &(job, line) in rows {
        assert_eq!(answer_to(&tabs(job)), (number, line), "{job:?}");
    }
}

/// Sheets of one job, with spaces for tabs, and what the library's check says of each: text, answer, line.
pub fn assert_sheets(job: &str, rows: &[(&str, u8, usize)]) {
    for &(sheet, answer, line) in rows {
        let found = library(&tabs(job), BUFFER, &tabs(sheet));
        assert_eq!(found, (answer, line), "{sheet:?} for {job:?}");
    }
}

fn report(what: &str, case: &Case) -> String {
    let (job, sheet) = (show(&case.job), show(&case.sheet));
    format!("{what}\nstore of {} bytes, job\n{job}\nsheet\n{sheet}", case.store_len)
}

/// A text for the eye, whole unless it is longer than a job or a right sheet can be.
pub fn show(text: &[u8]) -> String {
    let beginning = &text[..text.len().min(100_000)];
    beginning.escape_ascii().to_string().replace("\\n", "\\n\n")
}
