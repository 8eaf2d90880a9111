//! Jobs that only an early lift serves. Among small jobs by chance about one in a million is such, so they are made of one
//! that is known: renumbered, with further cells, carts and calls beside it.

use super::floors::{grid, line, loose};
use super::large::{late_star, moving, moving_to_bays, put_off};
use super::renumbered::Numbers;
use super::Rng;
use crate::examples::{tabs, EARLY, EARLY_PLAN};
use crate::model::job::{End, Job};
use crate::model::limits;
use crate::model::reader;
use crate::model::sheet::{self, Choke, Path, Sheet};

/// The smallest known: a cart is lifted at step 0, so that another may cross its cell at step 1, the call's deadline.
pub fn smallest() -> (Job, Vec<Path>) {
    let job = reader::read(&tabs(EARLY.job)).expect("a filed job");
    match sheet::read(&tabs(EARLY_PLAN), &job) {
        Ok(Sheet::Plan(plan)) => (job, plan.paths),
        other => panic!("{other:?}"),
    }
}

/// Whether the plan has a cart that is lifted before its deadline.
pub fn lifts_early(job: &Job, paths: &[Path]) -> bool {
    paths.iter().any(|path| path.cells.len() <= job.calls[path.call].deadline)
}

/// The smallest, up to 4 cells beside it with up to 3 carts, and its plan. No track leads from one part to the other, so
/// that only an early lift serves it.
pub fn early(rng: &mut Rng) -> (Job, Vec<Path>) {
    some_numbers(side_by_side(smallest(), some_beside(rng)), rng)
}

/// The same with tracks from one part to the other: there may be other plans.
pub fn early_and_joined(rng: &mut Rng) -> (Job, Vec<Path>) {
    let (mut job, paths) = side_by_side(smallest(), some_beside(rng));
    for beside in smallest().0.cells..job.cells {
        if rng.once_in(2) {
            job.tracks.push((rng.below(smallest().0.cells), beside));
        }
    }
    some_numbers((job, paths), rng)
}

/// The same with bays for the two calls of which one has to be met early: who parks does so at the bay's very step, and
/// nothing serves these.
pub fn too_late(rng: &mut Rng) -> Job {
    let mut alone = smallest();
    for call in alone.0.calls.iter_mut().filter(|call| call.deadline == 1) {
        call.end = End::Bay;
    }
    // Its paths are no plan any more, and are left behind.
    some_numbers(side_by_side(alone, some_beside(rng)), rng).0
}

/// A job of one of these kinds, with a plan or without, or one that needs whole calls.
pub fn about_early_lifts(rng: &mut Rng) -> Job {
    match rng.below(4) {
        0 => early(rng).0,
        1 => early_and_joined(rng).0,
        2 => too_late(rng),
        _ => whole_calls(5, rng).0,
    }
}

/// The smallest so many times, and carts that move on a grid of the given sides with what is left of them.
pub fn early_many_times(times: usize, rows: usize, columns: usize, rng: &mut Rng) -> (Job, Vec<Path>) {
    let floor = grid(rows, columns);
    let carts = (limits::CARTS - times * smallest().0.carts.len()).min(floor.cells / 2);
    let most = 2 + rng.below(20);
    let others = put_off(moving_to_bays(floor, carts, 0, most, rng), most, rng);
    let all = (0..times).fold(others, |all, _| side_by_side(all, smallest()));
    some_numbers(all, rng)
}

/// A job whose only true list is of whole calls, and that list.
pub fn whole_calls(most: usize, rng: &mut Rng) -> (Job, Vec<Choke>) {
    let carts = 2 + rng.below(most - 1);
    let (mut job, list) = late_star(carts, rng.below(carts), carts + 1 + rng.below(3));
    job.cells += rng.below(3);
    let numbers = Numbers::of(&job, rng);
    (numbers.job(&job, rng), numbers.list(&list))
}

/// A few cells with or without carts, some of which are lifted early, and a plan.
fn some_beside(rng: &mut Rng) -> (Job, Vec<Path>) {
    let cells = 1 + rng.below(4);
    let floor = if rng.once_in(3) { loose(cells) } else { line(cells) };
    let (carts, most) = (rng.below(cells.min(3) + 1), rng.below(3));
    match rng.once_in(2) {
        true => put_off(moving(floor, carts, 0, most, rng), 2, rng),
        false => put_off(moving_to_bays(floor, carts, 0, most, rng), 2, rng),
    }
}

/// Two jobs as one, the second's numbers behind the first's, and the plans of both.
fn side_by_side((one, paths): (Job, Vec<Path>), (other, more): (Job, Vec<Path>)) -> (Job, Vec<Path>) {
    let (cells, carts, calls) = (one.cells, one.carts.len(), one.calls.len());
    let mut job = one;
    job.cells += other.cells;
    job.tracks.extend(other.tracks.into_iter().map(|(a, b)| (cells + a, cells + b)));
    job.carts.extend(other.carts.into_iter().map(|cell| cells + cell));
    job.calls.extend(other.calls.into_iter().map(|mut call| {
        call.cell += cells;
        call
    }));
    let behind = |p: Path| Path {
        cart: carts + p.cart,
        call: calls + p.call,
        cells: p.cells.into_iter().map(|cell| cells + cell).collect(),
    };
    let paths = paths.into_iter().chain(more.into_iter().map(behind)).collect();
    (job, paths)
}

/// The job and its plan with numbers as chance has them, which puts the lines of the plan in order.
fn some_numbers((job, paths): (Job, Vec<Path>), rng: &mut Rng) -> (Job, Vec<Path>) {
    let numbers = Numbers::of(&job, rng);
    (numbers.job(&job, rng), numbers.paths(&job, &paths))
}
