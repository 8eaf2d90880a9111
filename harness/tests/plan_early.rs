//! Jobs about early lifts, planned in the least buffers, up to every limit. Each sheet has to pass the library's check and
//! the model's; where a job has one sheet alone, its bytes are known.

use harness::compare::plan;
use harness::examples::{tabs, zeros, BUFFER, E, EARLY, F};
use harness::gen::early::{early, early_and_joined, early_many_times, too_late, whole_calls};
use harness::gen::floors::{grid, loose, with_most_tracks};
use harness::gen::large::{late_star, moving, moving_to_bays, put_off, standing};
use harness::gen::plans::plans;
use harness::gen::small::small;
use harness::gen::Rng;
use harness::model::answer::*;
use harness::model::job::Job;
use harness::model::limits::{self, sheet_least, store_least};
use harness::model::reader;
use harness::model::sheet::{self, Sheet};
use harness::tally::Tally;

fn planned(job: &Job) -> (u8, Vec<u8>) {
    plan(&job.text(), store_least(job), sheet_least(job), &mut Rng::new(1))
}

#[test]
fn the_job_that_only_an_early_lift_serves() {
    let job = reader::read(&tabs(EARLY.job)).expect("a job");
    let (answer, sheet) = planned(&job);
    assert_eq!(answer, PLAN);
    let Ok(Sheet::Plan(plan)) = sheet::read(&sheet, &job) else { panic!("no plan") };
    assert!(plans(&job, usize::MAX).contains(&plan));
}

#[test]
fn the_family_of_that_job() {
    let mut rng = Rng::new(2);
    for _ in 0..2000 {
        for (job, expected) in
            [(early(&mut rng).0, PLAN), (early_and_joined(&mut rng).0, PLAN), (too_late(&mut rng), CANNOT)]
        {
            assert_eq!(planned(&job).0, expected, "{job:?}");
        }
    }
}

#[test]
fn that_job_many_times() {
    let mut rng = Rng::new(3);
    for times in 1..=16 {
        assert_eq!(planned(&early_many_times(times, 12, 12, &mut rng).0).0, PLAN, "{times} times");
    }
}

#[test]
fn lists_of_whole_calls() {
    let mut rng = Rng::new(4);
    for _ in 0..500 {
        let (job, list) = whole_calls(10, &mut rng);
        assert_eq!(planned(&job), (CANNOT, Sheet::Cannot(list).text()), "{job:?}");
    }
    for lost in [0, 31, limits::CALLS - 1] {
        let (job, list) = late_star(limits::CARTS, lost, limits::DEADLINE);
        assert_eq!(planned(&job), (CANNOT, Sheet::Cannot(list).text()));
    }
}

#[test]
fn a_job_with_256_plans() {
    let (answer, sheet) = plan(&tabs(E.job), BUFFER, BUFFER, &mut Rng::new(5));
    assert_eq!(answer, PLAN);
    assert!((1..=256).any(|count| zeros(count) == sheet));
}

#[test]
fn two_carts_that_stand_on_their_lifts() {
    assert_eq!(plan(&tabs(F.job), BUFFER, BUFFER, &mut Rng::new(6)).0, PLAN);
}

/// Who is served in time is served with more time.
#[test]
fn later_deadlines_lose_no_plan() {
    let mut rng = Rng::new(7);
    let (mut tally, mut gained) = (Tally::default(), 0);
    for _ in 0..5000 {
        let job = small(&mut rng);
        let (later, _) = put_off((job.clone(), Vec::new()), 6, &mut rng);
        let (before, after) = (planned(&job).0, planned(&later).0);
        assert!(before == CANNOT || after == PLAN, "{job:?} and {later:?}");
        tally.count(after);
        gained += usize::from(before != after);
    }
    tally.assert_each(&[PLAN, CANNOT], 1000);
    assert!(gained > 50, "only {gained} jobs gain a plan");
}

#[test]
fn early_lifts_at_every_limit() {
    let mut rng = Rng::new(8);
    for make in [moving, moving_to_bays] {
        let floor = with_most_tracks(grid(16, 16), &mut rng);
        let (job, _) = put_off(make(floor, limits::CARTS, 100, 200, &mut rng), limits::DEADLINE, &mut rng);
        assert_eq!(planned(&job).0, PLAN);
    }
    let (job, _) = standing(loose(limits::CELLS), limits::CARTS, limits::DEADLINE);
    assert_eq!(planned(&job).0, PLAN);
}
