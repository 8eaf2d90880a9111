//! The shortcuts about spare carts.

use crate::gen::plans::{paths_by, plans, plans_with};
use crate::model::job::Job;
use crate::model::plan::keep_apart;
use crate::model::sheet::{Path, Plan, Sheet, Spare};
use crate::model::walks::all_walks;

/// Leaving spare carts where they stand, whatever path leads over their cells. The sheet, if the calls can be served.
pub fn leaving_spares_standing(job: &Job) -> Option<Sheet> {
    let paths = first_paths(job)?;
    let is_spare = |cart: &usize| paths.iter().all(|p| p.cart != *cart);
    let standing = |cart: usize| Spare { cart, cells: vec![job.carts[cart]; job.last() + 1] };
    let spares = (0..job.carts.len()).filter(is_spare).map(standing).collect();
    Some(Sheet::Plan(Plan { paths, spares }))
}

/// Serving the calls first, and giving up where a spare cart finds no way out. Whether a plan is found.
pub fn blaming_spares(job: &Job) -> bool {
    first_paths(job).is_some_and(|paths| !plans_with(job, &paths, 1).is_empty())
}

/// Paths to all calls, with no thought of the spare carts.
fn first_paths(job: &Job) -> Option<Vec<Path>> {
    paths_by(job, &all_walks(job), keep_apart, 1).into_iter().next()
}

/// Ending the walks of spare carts when the last path ends. The sheet, if there is a plan.
pub fn ending_spares_with_the_last_path(job: &Job) -> Option<Sheet> {
    let mut plan = plans(job, 1).into_iter().next()?;
    let last = plan.paths.iter().map(|p| p.cells.len()).max().unwrap_or(1);
    plan.spares.iter_mut().for_each(|spare| spare.cells.truncate(last));
    Some(Sheet::Plan(plan))
}

/// Leaving spare carts out of the sheet. The sheet, if there is a plan.
pub fn leaving_spares_out(job: &Job) -> Option<Sheet> {
    plans(job, 1).into_iter().next().map(|plan| Sheet::of_paths(plan.paths))
}
