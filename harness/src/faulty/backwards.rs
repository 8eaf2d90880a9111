//! Whether a choke list is true, backwards: from the calls, at each step at which they can be met, to the carts at step 0.

use super::bays::Closed;
use super::Fault;
use crate::model::job::{Call, End, Job};
use crate::model::sheet::Choke;

/// From cells that lead on at a step a walk goes to a call without standing on a choke point or a closed cell.
pub fn stops_every_walk(job: &Job, chokes: &[Choke], fault: Fault) -> bool {
    let closed = Closed::by_bays(job, fault);
    let is_closed = |cell, step| fault != Fault::IgnoresBaysInLists && closed.at(cell, step);
    let mut leads_on = vec![false; job.cells];
    if fault == Fault::StopsWalksOfSparesToo && job.spares() > 0 {
        leads_on.fill(true);
    }
    for step in (0..=job.last()).rev() {
        leads_on = one_step_before(job, &leads_on);
        for (number, call) in job.calls.iter().enumerate() {
            let is_whole = chokes.contains(&Choke::Call(number));
            leads_on[call.cell] = match ends_here(call, step, is_whole, fault) {
                true => true,
                false => leads_on[call.cell] && !takes_off(call, step, is_whole, fault),
            };
        }
        for (cell, leads_on) in leads_on.iter_mut().enumerate() {
            *leads_on = *leads_on && !is_closed(cell, step) && !chokes.contains(&Choke::Cell { step, cell });
        }
    }
    let looked_at = if fault == Fault::StopsWalksOfFirstCarts { job.calls.len() } else { job.carts.len() };
    job.carts[..looked_at].iter().all(|&cell| !leads_on[cell])
}

/// Whether a walk that is not stopped yet can end at the call at the step.
fn ends_here(call: &Call, step: usize, is_whole: bool, fault: Fault) -> bool {
    let at_deadline = call.deadline == step;
    let in_time = match call.end {
        End::Lift => step <= call.deadline && (at_deadline || fault != Fault::StopsWalksToDeadlinesOnly),
        End::Bay => at_deadline,
    };
    let is_stopped = is_whole && (at_deadline || fault != Fault::TakesWholeCallForItsDeadline);
    in_time && !is_stopped
}

/// Whether nobody who is on the call's cell at the step goes on from there, by a fault.
fn takes_off(call: &Call, step: usize, is_whole: bool, fault: Fault) -> bool {
    match fault {
        Fault::ParksCrossingCart => call.is_bay() && step < call.deadline,
        Fault::TakesWholeCallForItsCell => is_whole && step <= call.deadline,
        _ => false,
    }
}

fn one_step_before(job: &Job, leads_on: &[bool]) -> Vec<bool> {
    let mut before = leads_on.to_vec();
    for &(a, b) in &job.tracks {
        before[a] = before[a] || leads_on[b];
        before[b] = before[b] || leads_on[a];
    }
    before
}
