//! Every walk of a small job, written out.

use super::job::Job;
use super::sheet::Choke;

/// The cells of a walk, from step 0.
pub type Walk = Vec<usize>;

/// Whether the job is so small that all its walks can be written out: a cart has some thousand at most.
pub fn can_be_written_out(job: &Job) -> bool {
    job.cells.saturating_pow(job.last() as u32) <= 5_usize.pow(5)
}

/// Every walk of each cart that ends on each call's cell when the call can be met: first by cart, then by call, the
/// shortest first.
pub fn all_walks(job: &Job) -> Vec<Vec<Vec<Walk>>> {
    let near = job.within_a_step();
    job.carts.iter().map(|&cell| walks_to_calls(job, &near, cell)).collect()
}

fn walks_to_calls(job: &Job, near: &[Vec<usize>], start: usize) -> Vec<Vec<Walk>> {
    let mut to_calls = vec![Vec::new(); job.calls.len()];
    let mut walks = vec![vec![start]];
    for step in 0..=job.last() {
        if step > 0 {
            walks = walks.iter().flat_map(|walk| one_step_longer(job, near, walk)).collect();
        }
        for (i, call) in job.calls.iter().enumerate().filter(|(_, call)| call.is_met_at(step)) {
            to_calls[i].extend(walks.iter().filter(|walk| walk[step] == call.cell).cloned());
        }
    }
    to_calls
}

/// Every walk of each cart that has all steps of the job, wherever it ends: those of a spare cart.
pub fn spare_walks(job: &Job) -> Vec<Vec<Walk>> {
    let near = job.within_a_step();
    job.carts.iter().map(|&cell| walks_to_the_last_step(job, &near, cell)).collect()
}

fn walks_to_the_last_step(job: &Job, near: &[Vec<usize>], start: usize) -> Vec<Walk> {
    let mut walks = vec![vec![start]];
    for _ in 0..job.last() {
        walks = walks.iter().flat_map(|walk| one_step_longer(job, near, walk)).collect();
    }
    walks
}

fn one_step_longer<'a>(job: &'a Job, near: &'a [Vec<usize>], walk: &'a [usize]) -> impl Iterator<Item = Walk> + 'a {
    let (here, step) = (walk[walk.len() - 1], walk.len());
    let open = near[here].iter().filter(move |&&next| job.is_open(next, step));
    open.map(move |&next| [walk, &[next]].concat())
}

/// Whether every walk from any cart's cell to any call stands on one of the points.
pub fn stops_every_walk(job: &Job, chokes: &[Choke]) -> bool {
    are_stopped(&all_walks(job), chokes)
}

/// The same of some walks, first by cart, then by call.
pub fn are_stopped(walks: &[Vec<Vec<Walk>>], chokes: &[Choke]) -> bool {
    let to_calls = walks.iter().flat_map(|to_calls| to_calls.iter().enumerate());
    to_calls
        .flat_map(|(call, walks)| walks.iter().map(move |walk| (call, walk)))
        .all(|(call, walk)| is_stopped(walk, call, chokes))
}

/// Whether a walk that ends at the call stands on a choke point: it has the step of one and is on its cell then, or its
/// call is one. The calls whose cells it only crosses make no difference.
pub fn is_stopped(walk: &Walk, call: usize, chokes: &[Choke]) -> bool {
    chokes.iter().any(|choke| match *choke {
        Choke::Cell { step, cell } => walk.get(step) == Some(&cell),
        Choke::Call(number) => number == call,
    })
}
