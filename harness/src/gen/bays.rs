//! Which calls of a job are bays: jobs with bays made of jobs without, and the other way round.

use super::Rng;
use crate::model::job::{End, Job};
use crate::model::walks::{all_walks, spare_walks, Walk};

/// The job with some of its calls made bays, at least one if there are any: one alone, any number, or all.
pub fn some_bays(job: Job, rng: &mut Rng) -> Job {
    let calls = job.calls.len();
    if calls == 0 {
        return job;
    }
    let bays = match rng.below(4) {
        0 => 1,
        1 => calls,
        _ => 1 + rng.below(calls),
    };
    with_bays(job, bays, rng)
}

/// The job with so many of its calls made bays, or all.
pub fn with_bays(mut job: Job, bays: usize, rng: &mut Rng) -> Job {
    for call in rng.sample(job.calls.len(), bays) {
        job.calls[call].end = End::Bay;
    }
    job
}

/// The job with all its calls made bays.
pub fn all_bays(job: Job) -> Job {
    all_ending(job, End::Bay)
}

/// The job with a lift in the place of each bay: nothing is closed any more.
pub fn no_bays(job: Job) -> Job {
    all_ending(job, End::Lift)
}

fn all_ending(mut job: Job, end: End) -> Job {
    for call in &mut job.calls {
        call.end = end;
    }
    job
}

/// Every walk of each cart to each call as if no bay closed its cell. Who parks still does so at the bay's very step.
pub fn walks_over_bays(job: &Job) -> Vec<Vec<Vec<Walk>>> {
    let mut walks = all_walks(&no_bays(job.clone()));
    for to_calls in &mut walks {
        for (call, walks) in job.calls.iter().zip(to_calls) {
            walks.retain(|walk| call.is_met_at(walk.len() - 1));
        }
    }
    walks
}

/// Every walk of each cart, if it is spare, as if no bay closed its cell.
pub fn spare_walks_over_bays(job: &Job) -> Vec<Vec<Walk>> {
    spare_walks(&no_bays(job.clone()))
}
