//! Families of jobs with more carts than calls: the spare carts stay on the floor up to the last step.

use harness::gen::bays::with_bays;
use harness::gen::floors::grid;
use harness::gen::large::{moving, scattered};
use harness::gen::Rng;
use harness::model::job::Job;

use crate::families::{Family, Size};
use crate::floors::{aisles, comb, rooms};
use crate::tight::crossing_of_some;

/// At the limits 64 carts, most of them with 8 calls.
pub const SPARE_FAMILIES: [Family; 6] = [
    Family { name: "many spares", make: |s, i, r| few_calls(grid(s.side, s.side), s, i, r) },
    Family { name: "many spares, rooms", make: |s, i, r| few_calls(rooms(s.side, r), s, i, r) },
    Family { name: "many spares, aisles", make: |s, i, r| few_calls(aisles(s.side), s, i, r) },
    Family { name: "many spares, comb", make: |s, i, r| few_calls(comb(s.side), s, i, r) },
    Family { name: "many spares, half bays", make: |s, i, r| few_bays(grid(s.side, s.side), s, i, r) },
    Family { name: "half spares", make: |s, i, r| some_calls(grid(s.side, s.side), s, s.carts / 2, 0, i, r) },
];

fn few_calls(floor: Job, size: Size, i: usize, rng: &mut Rng) -> Job {
    some_calls(floor, size, size.carts / 8, 0, i, rng)
}

/// Half of the calls are bays.
fn few_bays(floor: Job, size: Size, i: usize, rng: &mut Rng) -> Job {
    some_calls(floor, size, size.carts / 8, size.carts / 16, i, rng)
}

/// By turns as in the other families: a plan is known, if there are no bays; carts and calls anywhere; deadlines so tight
/// that only just no plan exists, or just one.
fn some_calls(floor: Job, size: Size, calls: usize, bays: usize, i: usize, rng: &mut Rng) -> Job {
    let some_of = |job: Job, rng: &mut Rng| {
        let mut job = latest_first(job, size.last);
        job.calls.truncate(calls);
        with_bays(job, bays, rng)
    };
    match i % 4 {
        0 => some_of(moving(floor, size.carts, 0, size.last, rng).0, rng),
        1 => some_of(scattered(floor, size.carts, size.last, rng), rng),
        2 => crossing_of_some(floor, size, calls, bays, rng).1,
        _ => crossing_of_some(floor, size, calls, bays, rng).0,
    }
}

/// The job with its latest call first, and put off to the last step: spare carts are kept for all of the time.
pub fn latest_first(mut job: Job, last: usize) -> Job {
    let latest = (0..job.calls.len()).max_by_key(|&call| job.calls[call].deadline).expect("a call");
    job.calls.swap(0, latest);
    job.calls[0].deadline = last;
    job
}
