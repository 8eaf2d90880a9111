//! One call of the planner held against the model: the answer, the sheet, and every byte of every buffer.

use super::{check, report, show};
use crate::ffi::{self, Library, Planned};
use crate::gen::cases::Case;
use crate::gen::Rng;
use crate::model::answer::{is_refusal, unpack, Refusal};
use crate::model::check::store_after;
use crate::model::planner::refusal_of;

/// The answer and the sheet, empty after a refusal; panics where anything is not as it must be.
pub fn plan(job: &[u8], store_len: usize, sheet_len: usize, rng: &mut Rng) -> (u8, Vec<u8>) {
    planned(job, store_len, sheet_len, rng).unwrap_or_else(|difference| panic!("{difference}"))
}

/// The answer and the sheet, empty after a refusal, or what is not as it must be.
///
/// A sheet has to pass the library's check, and the model's, with the answer that it came with. Whether PLAN or CANNOT
/// is right follows from that, for no job has both.
pub fn planned(job: &[u8], store_len: usize, sheet_len: usize, rng: &mut Rng) -> Result<(u8, Vec<u8>), String> {
    let report = |what| format!("{what}\nstore of {store_len} bytes, sheet of {sheet_len}, job\n{}", show(job));
    let planned = ffi::plan(job, store_len, sheet_len, rng).map_err(report)?;
    let (answer, sheet) = match refusal_of(job, store_len, sheet_len) {
        Some(refusal) => nothing_written(&planned, refusal).map_err(report)?,
        None => sheet_written(&planned).map_err(report)?,
    };
    if planned.store != store_after(answer, &planned.store_lent) {
        return Err(report(format!("store not as it must be after {answer}")));
    }
    if !is_refusal(answer) {
        passes(job, store_len, answer, sheet, rng)?;
    }
    Ok((answer, sheet.to_vec()))
}

/// A refusal comes with no sheet: all of its buffer is as lent.
fn nothing_written(planned: &Planned, refusal: Refusal) -> Result<(u8, &[u8]), String> {
    let (found, expected) = (unpack(planned.packed), (refusal.number, refusal.line));
    if found != expected {
        return Err(format!("answers {found:?}, not {expected:?}"));
    }
    if planned.sheet != planned.sheet_lent {
        return Err(format!("a refusal, {expected:?}, that changes the sheet buffer"));
    }
    Ok((refusal.number, &[]))
}

fn sheet_written(planned: &Planned) -> Result<(u8, &[u8]), String> {
    let (answer, written) = unpack(planned.packed);
    if is_refusal(answer) || written > planned.sheet.len() {
        return Err(format!("answers {:?} for a job that is accepted", (answer, written)));
    }
    let (sheet, behind) = planned.sheet.split_at(written);
    if behind != &planned.sheet_lent[written..] {
        return Err("a byte behind the sheet's text was changed".into());
    }
    Ok((answer, sheet))
}

/// Whether the library's check and the model's agree with the planner about its sheet.
fn passes(job: &[u8], store_len: usize, answer: u8, sheet: &[u8], rng: &mut Rng) -> Result<(), String> {
    let case = Case { job: job.to_vec(), store_len, sheet: sheet.to_vec() };
    let passed = check(&Library, &case, rng)?;
    if passed != (answer, 0) {
        let what = format!("the planner answers {answer} with a sheet that gets {passed:?}");
        return Err(report(&what, &case));
    }
    Ok(())
}
