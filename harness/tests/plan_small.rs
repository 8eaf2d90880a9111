//! Many small jobs: PLAN exactly where an exhaustive search finds a plan.
//!
//! The comparison holds each sheet against the model, which for jobs of this size writes out all walks to decide a
//! choke list, and against the library's check.

use harness::compare::plan;
use harness::examples::BUFFER;
use harness::gen::damage::damaged;
use harness::gen::plans::has_plan;
use harness::gen::small::{small, small_with_bays, small_without_bays};
use harness::gen::Rng;
use harness::model::answer::*;
use harness::model::job::Job;
use harness::model::limits::{sheet_least, store_least};
use harness::model::walks::can_be_written_out;
use harness::tally::Tally;

fn try_out(make: fn(&mut Rng) -> Job, seed: u64, jobs: usize) {
    let mut rng = Rng::new(seed);
    let mut tally = Tally::default();
    for number in 0..jobs {
        let job = make(&mut rng);
        assert!(can_be_written_out(&job));
        let (answer, _) = plan(&job.text(), store_least(&job), sheet_least(&job), &mut rng);
        assert_eq!(answer == PLAN, has_plan(&job), "seed {seed}, job {number}: {job:?}");
        tally.count(answer);
    }
    tally.assert_only(&[PLAN, CANNOT]);
    tally.assert_each(&[PLAN, CANNOT], jobs / 5);
}

// Several tests, so that they run side by side.
#[test]
fn the_first_30_000_jobs() {
    try_out(small_without_bays, 1, 30_000);
}

#[test]
fn the_second_30_000_jobs() {
    try_out(small_without_bays, 2, 30_000);
}

#[test]
fn the_third_30_000_jobs() {
    try_out(small_without_bays, 3, 30_000);
}

#[test]
fn the_fourth_30_000_jobs() {
    try_out(small_without_bays, 4, 30_000);
}

#[test]
fn the_first_30_000_jobs_with_bays() {
    try_out(small_with_bays, 6, 30_000);
}

#[test]
fn the_second_30_000_jobs_with_bays() {
    try_out(small_with_bays, 7, 30_000);
}

#[test]
fn the_third_30_000_jobs_with_bays() {
    try_out(small_with_bays, 8, 30_000);
}

#[test]
fn damaged_jobs() {
    let mut rng = Rng::new(5);
    let mut tally = Tally::default();
    for _ in 0..20_000 {
        let text = damaged(&small(&mut rng).text(), &mut rng);
        tally.count(plan(&text, BUFFER, BUFFER, &mut rng).0);
    }
    tally.assert_each(&[PLAN, CANNOT, BAD_LINE, NO_NUMBER, OUT_OF_RANGE, DOUBLED, UNEVEN], 200);
}
