//! Jobs with more carts than calls: small ones of every kind, and what makes others of jobs with as many.

use super::floors::line;
use super::renumbered::Numbers;
use super::small::{small_with_bays, small_without_bays};
use super::Rng;
use crate::model::job::{Call, End, Job};

/// Up to 6 cells, up to 5 carts, deadlines up to 4. Jobs are made until one has a spare cart.
pub fn small_with_spares(rng: &mut Rng) -> Job {
    let job = match rng.below(16) {
        0 => without_calls(small_without_bays(rng)),
        1 => only_bays(small_with_bays(rng)),
        2 | 3 => with_cart_in_a_bay(small_with_bays(rng), rng),
        4 | 5 => in_the_way(rng),
        6 => full(rng),
        7 => fewer_calls(small_with_bays(rng), rng),
        8 => fewer_calls(small_without_bays(rng), rng),
        9 => one_cart_more(small_without_bays(rng), rng),
        10 => one_cart_more(small_with_bays(rng), rng),
        11..13 => one_cart_behind(small_without_bays(rng), rng),
        _ => one_cart_behind(small_with_bays(rng), rng),
    };
    match job.spares() {
        0 => small_with_spares(rng),
        _ => job,
    }
}

/// The job without some of its calls, one at least, and with all its carts.
pub fn fewer_calls(mut job: Job, rng: &mut Rng) -> Job {
    if !job.calls.is_empty() {
        let calls = job.calls.len();
        let left = rng.below(calls).max(rng.below(calls));
        rng.shuffle(&mut job.calls);
        job.calls.truncate(left);
    }
    job
}

/// The job with a cart more, mostly beside another one, if there is a cell for it.
pub fn one_cart_more(mut job: Job, rng: &mut Rng) -> Job {
    let mut free: Vec<usize> = (0..job.cells).filter(|cell| !job.carts.contains(cell)).collect();
    let near = job.within_a_step();
    let beside = |cell: &usize| near[*cell].iter().any(|other| job.carts.contains(other));
    if free.iter().any(beside) && !rng.once_in(4) {
        free.retain(beside);
    }
    if !free.is_empty() {
        job.carts.insert(rng.below(job.carts.len() + 1), *rng.pick(&free));
    }
    job
}

/// The job with a cell and a cart more, behind another cart or, now and then, where no track leads to: mostly too far off to
/// serve a call, so that no plan comes by it.
pub fn one_cart_behind(mut job: Job, rng: &mut Rng) -> Job {
    if !job.carts.is_empty() && !rng.once_in(4) {
        job.tracks.push((*rng.pick(&job.carts), job.cells));
    }
    job.carts.insert(rng.below(job.carts.len() + 1), job.cells);
    job.cells += 1;
    Numbers::of(&job, rng).job(&job, rng)
}

fn without_calls(job: Job) -> Job {
    Job { calls: Vec::new(), ..job }
}

fn only_bays(mut job: Job) -> Job {
    job.calls.retain(Call::is_bay);
    job
}

/// The job with fewer calls, and with one cart more, or another cart, on a bay's cell.
fn with_cart_in_a_bay(job: Job, rng: &mut Rng) -> Job {
    let mut job = fewer_calls(job, rng);
    let bays: Vec<usize> = job.calls.iter().filter(|call| call.is_bay()).map(|call| call.cell).collect();
    if !bays.is_empty() {
        let cell = *rng.pick(&bays);
        if !job.carts.contains(&cell) {
            job.carts.insert(rng.below(job.carts.len() + 1), cell);
        }
    }
    job
}

/// A line with carts side by side, the calls mostly on its far end, and now and then a side track to make way in: whoever is
/// between has to go on, to go aside, or to serve the call itself.
fn in_the_way(rng: &mut Rng) -> Job {
    let mut job = line(2 + rng.below(3));
    let carts = 2 + rng.below(job.cells - 1);
    job.carts = (0..carts.min(job.cells)).collect();
    if rng.once_in(2) {
        job.tracks.push((rng.below(job.cells), job.cells));
        job.cells += 1;
    }
    let calls = 1 + rng.below(job.carts.len() - 1);
    for cell in rng.sample(job.cells, calls) {
        let cell = if rng.once_in(2) { cell } else { job.cells - 1 };
        let end = if rng.once_in(3) { End::Bay } else { End::Lift };
        if job.calls.iter().all(|call| call.cell != cell) {
            job.calls.push(Call { cell, deadline: rng.below(5), end });
        }
    }
    Numbers::of(&job, rng).job(&job, rng)
}

/// A cart on every cell.
fn full(rng: &mut Rng) -> Job {
    let mut job = fewer_calls(small_without_bays(rng), rng);
    job.carts = rng.sample(job.cells, job.cells);
    for call in &mut job.calls {
        if rng.once_in(3) {
            call.end = End::Bay;
        }
    }
    job
}
