//! Which calls the planner must turn back. What it must answer else, `gen::plans` finds out by trying.

use super::answer::{refusal, Refusal, SHEET_TOO_SHORT};
use super::check::accepted;
use super::limits::sheet_least;

/// The refusal where it plans nothing.
pub fn refusal_of(job: &[u8], store_len: usize, sheet_len: usize) -> Option<Refusal> {
    match accepted(job, store_len) {
        Err(refusal) => Some(refusal),
        Ok(job) if sheet_len < sheet_least(&job) => Some(refusal(SHEET_TOO_SHORT)),
        Ok(_) => None,
    }
}
