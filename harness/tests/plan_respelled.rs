//! Jobs with their numbers written in other ways: PLAN exactly where an exhaustive search finds a plan, and the same sheet,
//! to the byte, as in plain digits. The comparison looks at the store.

use harness::compare::plan;
use harness::gen::early::about_early_lifts;
use harness::gen::plans::has_plan;
use harness::gen::sizes::{at_the_limits, medium};
use harness::gen::small::{small_with_bays, small_without_bays};
use harness::gen::spelled::respelled;
use harness::gen::Rng;
use harness::model::answer::*;
use harness::model::job::Job;
use harness::model::limits::{sheet_least, store_least};
use harness::model::reader;
use harness::tally::Tally;

/// The answer to a job, the same in both ways.
fn answer(job: &Job, rng: &mut Rng) -> u8 {
    let (text, store, sheet) = (job.text(), store_least(job), sheet_least(job));
    let other = respelled(&text, rng);
    assert_eq!(reader::read(&other).as_ref(), Ok(job));
    let planned = plan(&other, store, sheet, rng);
    assert_eq!(planned, plan(&text, store, sheet, rng), "{}", other.escape_ascii());
    planned.0
}

fn try_small(make: fn(&mut Rng) -> Job, seed: u64) {
    let mut rng = Rng::new(seed);
    let mut tally = Tally::default();
    for _ in 0..12_000 {
        let job = make(&mut rng);
        let answer = answer(&job, &mut rng);
        assert_eq!(answer == PLAN, has_plan(&job), "{job:?}");
        tally.count(answer);
    }
    tally.assert_only(&[PLAN, CANNOT]);
    tally.assert_each(&[PLAN, CANNOT], 2000);
}

#[test]
fn small_jobs_without_bays() {
    try_small(small_without_bays, 1);
}

#[test]
fn small_jobs_with_bays() {
    try_small(small_with_bays, 2);
}

#[test]
fn larger_jobs() {
    let mut rng = Rng::new(3);
    let mut tally = Tally::default();
    for (make, jobs) in [(about_early_lifts as fn(&mut Rng) -> Job, 1000), (medium, 200), (at_the_limits, 6)] {
        (0..jobs).for_each(|_| tally.count(answer(&make(&mut rng), &mut rng)));
    }
    tally.assert_each(&[PLAN, CANNOT], 100);
}
