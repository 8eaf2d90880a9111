//! Plans of many small jobs with their lines in other orders: the check passes the written order and no other.

use harness::compare::library_on;
use harness::gen::cases::Case;
use harness::gen::orders::{as_in_the_job, differ, every_order, exchanged_at_one_step};
use harness::gen::plans::plans;
use harness::gen::small::{small, small_at_one_step_with_bays, small_at_one_step_without_bays};
use harness::gen::Rng;
use harness::model::answer::*;
use harness::model::job::Job;
use harness::model::limits::store_least;
use harness::model::sheet::{Path, Plan, Sheet};

/// A job of a family that has a plan, and one of its first plans.
fn job_with_plan(make: fn(&mut Rng) -> Job, rng: &mut Rng) -> (Job, Plan) {
    loop {
        let job = make(rng);
        let plans = plans(&job, 20);
        if !plans.is_empty() {
            return (job, rng.pick(&plans).clone());
        }
    }
}

/// The plan with its paths in another order.
fn assert_answer(job: &Job, plan: &Plan, paths: Vec<Path>, answer: u8, rng: &mut Rng) {
    let sheet = Sheet::Plan(Plan { paths, spares: plan.spares.clone() });
    let case = Case { job: job.text(), store_len: store_least(job), sheet: sheet.text() };
    assert_eq!(library_on(&case, rng), (answer, 0), "{sheet:?} for {job:?}");
}

/// The order of the job differs: as it was asked for at first the plan is turned back, and so it is with any two lines of
/// one step exchanged.
fn try_at_one_step(make: fn(&mut Rng) -> Job, seed: u64, jobs: usize) {
    let mut rng = Rng::new(seed);
    for _ in 0..jobs {
        let (job, plan) = job_with_plan(make, &mut rng);
        assert_answer(&job, &plan, plan.paths.clone(), PLAN, &mut rng);
        assert_answer(&job, &plan, as_in_the_job(&job, &plan.paths), WRONG_SHEET, &mut rng);
        let exchanged = exchanged_at_one_step(&job, &plan.paths);
        assert!(!exchanged.is_empty());
        for paths in exchanged {
            assert_answer(&job, &plan, paths, WRONG_SHEET, &mut rng);
        }
    }
}

#[test]
fn plans_of_10_000_jobs_at_one_step() {
    try_at_one_step(small_at_one_step_without_bays, 1, 10_000);
}

#[test]
fn plans_of_10_000_jobs_at_one_step_with_bays() {
    try_at_one_step(small_at_one_step_with_bays, 2, 10_000);
}

/// As it was asked for at first a plan is turned back exactly where the two orders differ.
#[test]
fn plans_of_10_000_jobs_in_the_former_order() {
    let mut rng = Rng::new(3);
    let mut turned_back = 0;
    for _ in 0..10_000 {
        let (job, plan) = job_with_plan(small, &mut rng);
        let answer = if differ(&job) { WRONG_SHEET } else { PLAN };
        assert_answer(&job, &plan, as_in_the_job(&job, &plan.paths), answer, &mut rng);
        turned_back += usize::from(answer == WRONG_SHEET);
    }
    assert!((2000..8000).contains(&turned_back), "{turned_back} times");
}

/// Lines of one step and of several: of all orders one passes.
#[test]
fn plans_of_2000_jobs_in_every_order() {
    let mut rng = Rng::new(4);
    let mut most = 0;
    for _ in 0..2000 {
        let (job, plan) = job_with_plan(small, &mut rng);
        for order in every_order(&plan.paths) {
            let answer = if order == plan.paths { PLAN } else { WRONG_SHEET };
            assert_answer(&job, &plan, order, answer, &mut rng);
        }
        most += usize::from(plan.paths.len() == 4);
    }
    assert!(most > 200, "{most} jobs had four calls");
}
