//! The shortcuts about the order of the lines. A plan is found wherever there is one, and its sheet is wrong.

use crate::gen::orders::{as_in_the_job, by_cell_alone, Order};
use crate::gen::plans::plans;
use crate::model::job::Job;
use crate::model::sheet::{Plan, Sheet};

/// Leaving calls of one step in the order of the job. The sheet, if there is a plan.
pub fn leaving_one_step_as_in_the_job(job: &Job) -> Option<Sheet> {
    first_plan_in(as_in_the_job, job)
}

/// Going by cell alone, with no thought of the deadlines. The sheet, if there is a plan.
pub fn going_by_cell_alone(job: &Job) -> Option<Sheet> {
    first_plan_in(by_cell_alone, job)
}

fn first_plan_in(order: Order, job: &Job) -> Option<Sheet> {
    let plan = plans(job, 1).into_iter().next();
    plan.map(|plan| Sheet::Plan(Plan { paths: order(job, &plan.paths), ..plan }))
}
