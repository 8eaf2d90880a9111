//! The shortcuts about bays.

use crate::gen::bays::walks_over_bays;
use crate::gen::lists::lists;
use crate::gen::plans::plans_by;
use crate::model::job::{Call, Job};
use crate::model::plan::keep_apart;
use crate::model::sheet::Choke;
use crate::model::walks::{all_walks, are_stopped, Walk};

/// Taking a bay for a lift: its cell is walked over after its step. Whether a plan is found.
pub fn taking_bays_for_lifts(job: &Job) -> bool {
    !plans_by(job, &walks_over_bays(job), keep_apart, 1).is_empty()
}

/// Closing a bay's cell at its step instead of one step later: nobody comes to the bay. Whether a plan is found.
pub fn closing_at_the_step(job: &Job) -> bool {
    plan_without(job, |bay, walk| walk.get(bay.deadline) == Some(&bay.cell))
}

/// Keeping a bay's cell free for its cart from the beginning: walks that cross it earlier are lost. Whether a plan is
/// found.
pub fn keeping_bays_free(job: &Job) -> bool {
    plan_without(job, |bay, walk| walk.iter().take(bay.deadline).any(|&cell| cell == bay.cell))
}

/// Whether there is a plan without the walks that a shortcut loses for a bay.
fn plan_without(job: &Job, is_lost: fn(&Call, &Walk) -> bool) -> bool {
    let mut walks = all_walks(job);
    for walks in walks.iter_mut().flatten() {
        walks.retain(|walk| !job.calls.iter().filter(|call| call.is_bay()).any(|bay| is_lost(bay, walk)));
    }
    !plans_by(job, &walks, keep_apart, 1).is_empty()
}

/// Choke points against walks over closed cells too, which nobody walks. The shortest list that stops these.
pub fn stopping_walks_over_bays(job: &Job) -> Option<Vec<Choke>> {
    let walks = walks_over_bays(job);
    lists(job).into_iter().find(|list| are_stopped(&walks, list))
}
