//! The shortcuts about early lifts.

use crate::gen::bays::no_bays;
use crate::gen::lists::lists;
use crate::gen::plans::plans_by;
use crate::model::job::Job;
use crate::model::plan::keep_apart;
use crate::model::sheet::Choke;
use crate::model::walks::{all_walks, are_stopped, is_stopped, Walk};

/// Meeting calls at their deadlines only: who is on the lift's cell earlier waits there and blocks it. Whether a plan is
/// found.
pub fn waiting_for_the_deadline(job: &Job) -> bool {
    !plans_by(job, &walks_to_deadlines(job), keep_apart, 1).is_empty()
}

/// Choke points against the walks alone that end at the deadline. The shortest list that stops these.
pub fn stopping_walks_to_deadlines(job: &Job) -> Option<Vec<Choke>> {
    let walks = walks_to_deadlines(job);
    lists(job).into_iter().find(|list| are_stopped(&walks, list))
}

/// The walks that have all steps up to the deadlines of their calls.
fn walks_to_deadlines(job: &Job) -> Vec<Vec<Vec<Walk>>> {
    let mut walks = all_walks(job);
    for to_calls in &mut walks {
        for (call, walks) in job.calls.iter().zip(to_calls) {
            walks.retain(|walk| walk.len() == call.deadline + 1);
        }
    }
    walks
}

/// Parking before a bay's step, as a lift takes carts early. Who is parked so is off the floor up to the bay's step, and
/// nobody else stands on the cell after it. Whether a plan is found.
pub fn parking_early(job: &Job) -> bool {
    let mut walks = all_walks(&no_bays(job.clone()));
    let is_walk = |walk: &Walk| walk.iter().enumerate().all(|(step, &cell)| job.is_open(cell, step));
    walks.iter_mut().flatten().for_each(|walks| walks.retain(is_walk));
    !plans_by(job, &walks, keep_apart, 1).is_empty()
}

/// Taking a whole call for stopping walks that only cross its cell up to its deadline. The shortest list that stops all
/// others.
pub fn stopping_crossing_walks(job: &Job) -> Option<Vec<Choke>> {
    let crosses = |walk: &Walk, choke: &Choke| match *choke {
        Choke::Call(call) => walk.iter().take(job.calls[call].deadline + 1).any(|&cell| cell == job.calls[call].cell),
        Choke::Cell { .. } => false,
    };
    let walks = all_walks(job);
    let is_taken = |list: &Vec<Choke>| {
        let mut to_calls = walks.iter().flat_map(|to_calls| to_calls.iter().enumerate());
        to_calls.all(|(call, walks)| {
            walks.iter().all(|walk| is_stopped(walk, call, list) || list.iter().any(|choke| crosses(walk, choke)))
        })
    };
    lists(job).into_iter().find(is_taken)
}
