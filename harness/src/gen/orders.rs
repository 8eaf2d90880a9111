//! The lines of a plan in other orders than the written one, with nothing else wrong; and where the job's own order is
//! another.

use crate::model::job::Job;
use crate::model::sheet::Path;

/// Another order for the lines of a plan.
pub type Order = fn(&Job, &[Path]) -> Vec<Path>;

pub const ORDERS: [Order; 4] = [as_in_the_job, by_cart, higher_cell_first, by_cell_alone];

/// By deadline, equal ones in the order of the job, as it was asked for at first.
pub fn as_in_the_job(job: &Job, paths: &[Path]) -> Vec<Path> {
    sorted_by(paths, |p| (job.calls[p.call].deadline, p.call))
}

/// By deadline, equal ones by cart.
pub fn by_cart(job: &Job, paths: &[Path]) -> Vec<Path> {
    sorted_by(paths, |p| (job.calls[p.call].deadline, p.cart))
}

/// By deadline, equal ones by cell, the highest first.
pub fn higher_cell_first(job: &Job, paths: &[Path]) -> Vec<Path> {
    sorted_by(paths, |p| (job.calls[p.call].deadline, job.cells - job.calls[p.call].cell))
}

/// By cell, whatever the deadlines.
pub fn by_cell_alone(job: &Job, paths: &[Path]) -> Vec<Path> {
    sorted_by(paths, |p| (job.calls[p.call].cell, 0))
}

fn sorted_by(paths: &[Path], key: impl Fn(&Path) -> (usize, usize)) -> Vec<Path> {
    let mut paths = paths.to_vec();
    paths.sort_by_key(key);
    paths
}

/// For each two lines of one step that stand one behind the other, the plan with these two exchanged.
pub fn exchanged_at_one_step(job: &Job, paths: &[Path]) -> Vec<Vec<Path>> {
    let deadline = |i: usize| job.calls[paths[i].call].deadline;
    let exchanged = |i: usize| {
        let mut paths = paths.to_vec();
        paths.swap(i - 1, i);
        paths
    };
    (1..paths.len()).filter(|&i| deadline(i - 1) == deadline(i)).map(exchanged).collect()
}

/// Every order of some lines, of which there are few; first as they are.
pub fn every_order<T: Clone>(lines: &[T]) -> Vec<Vec<T>> {
    let mut all = vec![Vec::new()];
    for line in lines.iter().rev() {
        all = (0..=all[0].len()).flat_map(|at| all.iter().map(move |others| with_line_at(at, line, others))).collect();
    }
    all
}

fn with_line_at<T: Clone>(at: usize, line: &T, others: &[T]) -> Vec<T> {
    let mut lines = others.to_vec();
    lines.insert(at, line.clone());
    lines
}

/// Whether calls of one step stand in the job in another order than their cells: then no plan can have its lines both as
/// they are written and as they were asked for at first.
pub fn differ(job: &Job) -> bool {
    let is_late = |i: usize| {
        let call = job.calls[i];
        job.calls[..i].iter().any(|before| before.deadline == call.deadline && before.cell > call.cell)
    };
    (0..job.calls.len()).any(is_late)
}
