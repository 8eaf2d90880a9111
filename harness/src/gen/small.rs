//! Small jobs: 1 to 5 cells, 0 to 4 carts, deadlines 0 to 4; a little more with spare carts.

use super::bays::some_bays;
use super::spares::small_with_spares;
use super::{orders, Rng};
use crate::model::job::{Call, End, Job};

/// About half of the jobs have bays, and a third spare carts.
pub fn small(rng: &mut Rng) -> Job {
    match rng.below(3) {
        0 => small_with_spares(rng),
        1 => small_with_bays(rng),
        _ => small_without_bays(rng),
    }
}

/// As many calls as carts. Full floors come more often than empty ones: there the carts are in each other's way.
pub fn small_without_bays(rng: &mut Rng) -> Job {
    let cells = 1 + rng.below(5).max(rng.below(5));
    let most = cells.min(4);
    let carts = rng.below(most + 1).max(rng.below(most + 1));
    Job {
        cells,
        tracks: some_tracks(cells, rng),
        carts: rng.sample(cells, carts),
        calls: some_calls(cells, carts, rng),
    }
}

/// A job with a bay at least, and as many calls as carts: any job with bays among its calls, or a corridor that one closes.
pub fn small_with_bays(rng: &mut Rng) -> Job {
    let job = match rng.once_in(2) {
        true => corridor(rng),
        false => some_bays(small_without_bays(rng), rng),
    };
    match job.has_bays() {
        true => job,
        false => small_with_bays(rng),
    }
}

/// A job with several calls at one step, in another order than their cells. Half of the jobs have bays.
pub fn small_at_one_step(rng: &mut Rng) -> Job {
    at_one_step(small, rng)
}

pub fn small_at_one_step_without_bays(rng: &mut Rng) -> Job {
    at_one_step(small_without_bays, rng)
}

pub fn small_at_one_step_with_bays(rng: &mut Rng) -> Job {
    at_one_step(small_with_bays, rng)
}

/// Jobs are made until the order of one's calls is another than that of their cells.
fn at_one_step(make: fn(&mut Rng) -> Job, rng: &mut Rng) -> Job {
    let job = with_common_step(make(rng), rng);
    match orders::differ(&job) {
        true => job,
        false => at_one_step(make, rng),
    }
}

/// The job with two or more of its calls, if it has so many, at the step of one of them.
fn with_common_step(mut job: Job, rng: &mut Rng) -> Job {
    let calls = job.calls.len();
    if calls < 2 {
        return job;
    }
    let count = 2 + rng.below(calls - 1);
    let together = rng.sample(calls, count);
    let step = job.calls[together[0]].deadline;
    for call in together {
        job.calls[call].deadline = step;
    }
    job
}

/// Cells one behind the other, an early bay between the ends, carts on one side, and the other calls mostly on the other
/// side and late: who has to pass the bay's cell can do so in the first steps only.
fn corridor(rng: &mut Rng) -> Job {
    let cells = 3 + rng.below(3);
    let name = rng.sample(cells, cells);
    let at = 1 + rng.below(cells - 2);
    let beyond = 1 + rng.below(at.min(cells - 1 - at));
    let mut calls = vec![Call::bay(name[at], rng.below(3))];
    for i in rng.sample(cells - 1 - at, beyond) {
        calls.push(Call { cell: name[at + 1 + i], deadline: 1 + rng.below(4).max(rng.below(4)), end: some_end(rng) });
    }
    rng.shuffle(&mut calls);
    let carts = rng.sample(at + 1, calls.len()).into_iter().map(|i| name[i]).collect();
    Job { cells, tracks: (1..cells).map(|i| (name[i - 1], name[i])).collect(), carts, calls }
}

/// A bay now and then.
fn some_end(rng: &mut Rng) -> End {
    match rng.once_in(4) {
        true => End::Bay,
        false => End::Lift,
    }
}

/// From hardly any track to a track between every two cells, each either way round.
fn some_tracks(cells: usize, rng: &mut Rng) -> Vec<(usize, usize)> {
    let most = *rng.pick(&[1, 2, 3, 6]);
    let mut tracks: Vec<(usize, usize)> = (0..cells).flat_map(|a| (0..a).map(move |b| (a, b))).collect();
    tracks.retain(|_| rng.below(6) < most);
    for track in &mut tracks {
        if rng.once_in(2) {
            *track = (track.1, track.0);
        }
    }
    rng.shuffle(&mut tracks);
    tracks
}

/// Half of the jobs have one deadline for all calls.
fn some_calls(cells: usize, count: usize, rng: &mut Rng) -> Vec<Call> {
    let common = rng.once_in(2).then(|| rng.below(5));
    let on = rng.sample(cells, count);
    let call = |cell| Call::lift(cell, common.unwrap_or_else(|| rng.below(5)));
    on.into_iter().map(call).collect()
}
