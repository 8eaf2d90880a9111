//! Whether paths and spare walks are a plan of a job, in the written order.

use super::job::Job;
use super::sheet::Plan;

/// The walks have no more cells and no fewer than they may have: the reader of sheets has seen to that.
pub fn is_plan(job: &Job, plan: &Plan) -> bool {
    is_in_order(job, plan) && each_cart_has_one(job, plan) && are_walks(job, plan) && are_apart(&plan.walks())
}

/// One path for each call, the paths as their lines go, and behind them the spare carts by number.
fn is_in_order(job: &Job, plan: &Plan) -> bool {
    let paths_are = plan.paths.iter().map(|p| p.call).eq(job.written_order());
    paths_are && plan.spares.windows(2).all(|pair| pair[0].cart < pair[1].cart)
}

/// Every cart has a path or is spare, and no cart has two lines.
fn each_cart_has_one(job: &Job, plan: &Plan) -> bool {
    let mut carts = plan.carts();
    carts.sort();
    carts.into_iter().eq(0..job.carts.len())
}

/// Each walk starts on its cart's cell, at each step stands or goes along one track, and is on open cells all the time. A
/// path ends on its call's cell; a spare cart's walk ends anywhere.
fn are_walks(job: &Job, plan: &Plan) -> bool {
    let near = job.within_a_step();
    let is_walk = |(cart, cells): (usize, &[usize])| {
        cells.first() == Some(&job.carts[cart])
            && cells.windows(2).all(|step| near[step[0]].contains(&step[1]))
            && cells.iter().enumerate().all(|(step, &cell)| job.is_open(cell, step))
    };
    let ends = plan.paths.iter().all(|p| p.cells.last() == Some(&job.calls[p.call].cell));
    ends && plan.carts().into_iter().zip(plan.walks()).all(is_walk)
}

/// No two carts are in a conflict, spare ones included.
pub fn are_apart(walks: &[&[usize]]) -> bool {
    walks.iter().enumerate().all(|(i, one)| walks[..i].iter().all(|other| keep_apart(one, other)))
}

/// The carts of these two walks never share a cell and never trade the ends of a track.
pub fn keep_apart(one: &[usize], other: &[usize]) -> bool {
    !share(one, other) && !trade(one, other)
}

/// Both on one cell at one step. A walk has the steps up to the one at which its cart is lifted or parks, that one
/// included, and all of them if its cart is spare; `zip` ends with the shorter walk, whose cart is off the floor from then
/// on, however late its deadline, or parked on a cell that is closed.
pub fn share(one: &[usize], other: &[usize]) -> bool {
    one.iter().zip(other).any(|(a, b)| a == b)
}

/// Each on the other's cell one step later.
pub fn trade(one: &[usize], other: &[usize]) -> bool {
    let mut steps = one.windows(2).zip(other.windows(2));
    steps.any(|(a, b)| a[0] != a[1] && a[0] == b[1] && a[1] == b[0])
}
