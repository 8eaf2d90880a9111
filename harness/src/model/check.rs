//! What the check must answer, and what either call must leave in the store.

use super::answer::*;
use super::job::Job;
use super::limits;
use super::plan::is_plan;
use super::sheet::{Choke, Sheet};
use super::{choke, reader, sheet, walks};

/// The answer and the line, 0 with a sheet that passes.
pub fn check(job: &[u8], store_len: usize, sheet: &[u8]) -> (u8, usize) {
    match verdict(job, store_len, sheet) {
        Ok(answer) => (answer, 0),
        Err(refusal) => (refusal.number, refusal.line),
    }
}

fn verdict(job: &[u8], store_len: usize, sheet: &[u8]) -> Result<u8, Refusal> {
    let job = accepted(job, store_len)?;
    match sheet::read(sheet, &job)? {
        Sheet::Plan(plan) if is_plan(&job, &plan) => Ok(PLAN),
        Sheet::Cannot(chokes) if is_true_list(&job, &chokes) => Ok(CANNOT),
        _ => Err(refusal(WRONG_SHEET)),
    }
}

/// The job, where none of 2 to 9 turns it back, which planner and check have in common.
pub fn accepted(job: &[u8], store_len: usize) -> Result<Job, Refusal> {
    let job = reader::read(job)?;
    if store_len < limits::store_least(&job) {
        return Err(refusal(STORE_TOO_SHORT));
    }
    Ok(job)
}

/// A true choke list in the written order. That it has fewer points than the job has calls is a matter of form.
fn is_true_list(job: &Job, chokes: &[Choke]) -> bool {
    choke::is_in_order(chokes) && stops_every_walk(job, chokes)
}

/// By the definition where all walks can be written out, else layer by layer.
fn stops_every_walk(job: &Job, chokes: &[Choke]) -> bool {
    match walks::can_be_written_out(job) {
        true => walks::stops_every_walk(job, chokes),
        false => choke::stops_every_walk(job, chokes),
    }
}

/// The store after a call of planner or check: all zero after 0 or 1, as lent after a refusal.
pub fn store_after(answer: u8, lent: &[u8]) -> Vec<u8> {
    match is_refusal(answer) {
        true => lent.to_vec(),
        false => vec![0; lent.len()],
    }
}
