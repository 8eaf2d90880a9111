//! Choke lists of a small job: all that are in the form, and all that are true.

use super::Rng;
use crate::model::choke::stops_every_walk;
use crate::model::job::Job;
use crate::model::sheet::Choke;

/// Every choke point in the order of the sheet: every cell at every step, then every whole lift call.
fn points(job: &Job) -> Vec<Choke> {
    [cell_points(job), whole_calls(job)].concat()
}

/// Every cell at every step.
fn cell_points(job: &Job) -> Vec<Choke> {
    let steps = 0..=job.last();
    steps.flat_map(|step| (0..job.cells).map(move |cell| Choke::Cell { step, cell })).collect()
}

/// Every whole call, by number. Bays are none.
pub fn whole_calls(job: &Job) -> Vec<Choke> {
    (0..job.calls.len()).filter(|&call| !job.calls[call].is_bay()).map(Choke::Call).collect()
}

/// Every list of fewer points than calls, in order, true or not.
pub fn lists(job: &Job) -> Vec<Vec<Choke>> {
    let points = points(job);
    let mut of_length = vec![vec![Vec::new()]];
    for length in 1..job.calls.len() {
        let longer = |list: &Vec<Choke>| one_point_longer(&points, list);
        of_length.push(of_length[length - 1].iter().flat_map(longer).collect());
    }
    of_length.truncate(job.calls.len());
    of_length.concat()
}

fn one_point_longer(points: &[Choke], list: &[Choke]) -> Vec<Vec<Choke>> {
    let later = points.iter().filter(|&point| list.last() < Some(point));
    later.map(|&point| [list, &[point]].concat()).collect()
}

/// Every true choke list, in order.
pub fn true_lists(job: &Job) -> Vec<Vec<Choke>> {
    let mut all = lists(job);
    all.retain(|list| stops_every_walk(job, list));
    all
}

/// Every point on a closed cell, in order: such points are in the form, and stop nothing.
pub fn closed_points(job: &Job) -> Vec<Choke> {
    let is_closed = |point: &Choke| matches!(*point, Choke::Cell { step, cell } if !job.is_open(cell, step));
    let mut all = cell_points(job);
    all.retain(is_closed);
    all
}

/// So many different points of the job, or all, in order.
pub fn some_points(job: &Job, count: usize, rng: &mut Rng) -> Vec<Choke> {
    longer(job, &[], count, rng)
}

/// The list with further points, up to so many, in order.
pub fn longer(job: &Job, list: &[Choke], count: usize, rng: &mut Rng) -> Vec<Choke> {
    let mut others = points(job);
    others.retain(|point| !list.contains(point));
    rng.shuffle(&mut others);
    others.truncate(count.saturating_sub(list.len()));
    let mut all = [list, &others].concat();
    all.sort();
    all
}

/// Each lift's call as a whole, and each bay's cell at its step: it stops every walk, yet has as many points as there are
/// calls.
pub fn ends(job: &Job) -> Vec<Choke> {
    let end = |call: usize| match job.calls[call].is_bay() {
        true => last_cell(job, call),
        false => Choke::Call(call),
    };
    let mut all: Vec<Choke> = (0..job.calls.len()).map(end).collect();
    all.sort();
    all
}

/// The call's cell at its deadline: of the walks to a lift it stops those alone that are there then.
pub fn last_cell(job: &Job, call: usize) -> Choke {
    Choke::Cell { step: job.calls[call].deadline, cell: job.calls[call].cell }
}
