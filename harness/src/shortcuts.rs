//! Shortcuts that lose a lane: nineteen planners that are wrong, each on some job, four of them about bays, two about the
//! order of the lines, four about early lifts and four about spare carts.
//!
//! They search small jobs exhaustively but for the shortcut, so that nothing else can be the reason.

mod bays;
mod early;
mod orders;
mod spares;

pub use bays::*;
pub use early::*;
pub use orders::*;
pub use spares::*;

use std::slice::from_ref;

use crate::gen::lists::lists;
use crate::gen::plans::{plans, plans_by};
use crate::model::job::Job;
use crate::model::plan::{are_apart, keep_apart, share, trade};
use crate::model::sheet::{Choke, Path, Plan};
use crate::model::walks::{all_walks, are_stopped, Walk};

/// The nearest pair of cart and call first. Whether a plan is found.
pub fn nearest_pair_first(job: &Job) -> bool {
    let mut pairs: Vec<(usize, usize)> = Vec::new();
    for _ in &job.calls {
        let left = |&(cart, call): &(usize, usize)| pairs.iter().all(|p| p.0 != cart && p.1 != call);
        let all = (0..job.carts.len()).flat_map(|cart| (0..job.calls.len()).map(move |call| (cart, call)));
        let nearest = all.filter(left).min_by_key(|&(cart, call)| distance(job, cart, call));
        pairs.extend(nearest);
    }
    let by_pairs = |plan: &Plan| plan.paths.iter().all(|p| pairs.contains(&(p.cart, p.call)));
    plans(job, usize::MAX).iter().any(by_pairs)
}

/// How many steps the cart's cell is from the call's; more than there are cells if no way leads there.
fn distance(job: &Job, cart: usize, call: usize) -> usize {
    let near = job.within_a_step();
    let mut reached = vec![job.carts[cart]];
    let mut steps = 0;
    while !reached.contains(&job.calls[call].cell) && steps <= job.cells {
        reached = reached.iter().flat_map(|&cell| near[cell].clone()).collect();
        reached.sort();
        reached.dedup();
        steps += 1;
    }
    steps
}

/// Never taking back a path already chosen: each call in turn takes the first walk that fits. Whether a plan is found.
pub fn never_taking_back(job: &Job) -> bool {
    let walks = all_walks(job);
    let mut chosen: Vec<Path> = Vec::new();
    for call in job.written_order() {
        let fits = |p: &Path| {
            let is_left = chosen.iter().all(|other| other.cart != p.cart);
            let walks: Vec<&[usize]> = chosen.iter().chain(from_ref(p)).map(|p| p.cells.as_slice()).collect();
            is_left && are_apart(&walks)
        };
        match paths_to(&walks, call).into_iter().find(fits) {
            Some(path) => chosen.push(path),
            None => return false,
        }
    }
    true
}

/// All paths to a call, the first cart's first.
fn paths_to(walks: &[Vec<Vec<Walk>>], call: usize) -> Vec<Path> {
    let of_cart = |(cart, to_calls): (usize, &Vec<Vec<Walk>>)| {
        let path = |cells: &Walk| Path { cart, call, cells: cells.clone() };
        to_calls[call].iter().map(path).collect::<Vec<Path>>()
    };
    walks.iter().enumerate().flat_map(of_cart).collect()
}

/// Freeing a lift cell at the step of the lift instead of one step later. Whether a plan is found.
pub fn freeing_at_the_lift(job: &Job) -> bool {
    let apart = |one: &[usize], other: &[usize]| {
        let (one_before, other_before) = (&one[..one.len() - 1], &other[..other.len() - 1]);
        !share(one_before, other_before) && !trade(one, other)
    };
    !plans_by(job, &all_walks(job), apart, 1).is_empty()
}

/// Lifting a cart that merely crosses a call's cell: walks over such a cell are lost. Whether a plan is found.
pub fn lifting_crossing_carts(job: &Job) -> bool {
    let is_called = |cell: &usize| job.calls.iter().any(|call| call.cell == *cell);
    let crosses = |walk: &Walk| walk[..walk.len() - 1].iter().any(is_called);
    let mut walks = all_walks(job);
    for walks in walks.iter_mut().flatten() {
        walks.retain(|walk| !crosses(walk));
    }
    !plans_by(job, &walks, keep_apart, 1).is_empty()
}

/// Chokes that stop only the walks the search happened to see: here for each cart and call the first walk, which has the
/// fewest steps. The shortest list that stops these.
pub fn stopping_seen_walks(job: &Job) -> Option<Vec<Choke>> {
    let mut seen = all_walks(job);
    seen.iter_mut().flatten().for_each(|walks| walks.truncate(1));
    lists(job).into_iter().find(|list| are_stopped(&seen, list))
}
