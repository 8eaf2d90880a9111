//! The planner in plain Rust, which the library is timed against and `floors` is tested with: PLAN exactly where an
//! exhaustive search finds a plan, spare carts included, and on larger jobs a sheet that passes the model's check.

use harness::baseline::{plan, plan_by, Mode};
use harness::gen::early::{early, early_and_joined, too_late, whole_calls};
use harness::gen::floors::line;
use harness::gen::plans::has_plan;
use harness::gen::sizes::{at_the_limits, medium};
use harness::gen::small::{small_at_one_step, small_with_bays, small_without_bays};
use harness::gen::spares::{fewer_calls, small_with_spares};
use harness::gen::spelled::at_full_length;
use harness::gen::Rng;
use harness::model::answer::*;
use harness::model::check::check;
use harness::model::job::{Call, Job};
use harness::model::limits::{sheet_least, store_least};
use harness::model::sheet::{read, Sheet};
use harness::tally::Tally;

/// As the library goes.
struct AsTheLibrary;

impl Mode for AsTheLibrary {
    const STAND_FIRST: bool = true;
    const KEEP_PLACE: bool = false;
}

/// The answer, the same in both ways, and with exponents in one of them, after the model has passed both sheets.
fn answer(job: &Job) -> u8 {
    let text = job.text();
    let (mut store, mut sheet) = (vec![1; store_least(job)], vec![1; sheet_least(job)]);
    let passed = |packed: u64, sheet: &[u8]| {
        let (answer, len) = unpack(packed);
        assert_eq!(check(&text, store_least(job), &sheet[..len]), (answer, 0), "{job:?}");
        answer
    };
    let quick = plan(&text, &mut store, &mut sheet);
    let quick = passed(quick, &sheet);
    let other = plan_by(&mut AsTheLibrary, &at_full_length(&text), &mut store, &mut sheet);
    assert_eq!(passed(other, &sheet), quick);
    quick
}

fn try_small(make: fn(&mut Rng) -> Job, seed: u64, least: usize) {
    let mut rng = Rng::new(seed);
    let mut tally = Tally::default();
    for _ in 0..30_000 {
        let job = make(&mut rng);
        let answer = answer(&job);
        assert_eq!(answer == PLAN, has_plan(&job), "{job:?}");
        tally.count(answer);
    }
    tally.assert_each(&[PLAN, CANNOT], least);
}

#[test]
fn small_jobs_without_bays() {
    try_small(small_without_bays, 1, 6000);
}

#[test]
fn small_jobs_with_bays() {
    try_small(small_with_bays, 2, 6000);
}

#[test]
fn small_jobs_with_several_calls_at_one_step() {
    try_small(small_at_one_step, 4, 6000);
}

#[test]
fn small_jobs_with_spare_carts() {
    try_small(small_with_spares, 6, 1000);
}

#[test]
fn jobs_that_only_an_early_lift_serves_and_lists_that_need_whole_calls() {
    let mut rng = Rng::new(5);
    for _ in 0..5000 {
        assert_eq!(answer(&early(&mut rng).0), PLAN);
        assert_eq!(answer(&early_and_joined(&mut rng).0), PLAN);
        assert_eq!(answer(&too_late(&mut rng)), CANNOT);
        assert_eq!(answer(&whole_calls(12, &mut rng).0), CANNOT);
    }
}

/// At which step the last call on the sheet is met, the same in both ways.
fn last_met(job: &Job) -> usize {
    let (mut store, mut sheet) = (vec![1; store_least(job)], vec![1; sheet_least(job)]);
    let met = |packed: u64, sheet: &[u8]| match read(&sheet[..unpack(packed).1], job) {
        Ok(Sheet::Plan(plan)) => plan.paths[plan.paths.len() - 1].cells.len() - 1,
        other => panic!("{other:?}"),
    };
    let quick = plan(&job.text(), &mut store, &mut sheet);
    let quick = met(quick, &sheet);
    let other = plan_by(&mut AsTheLibrary, &job.text(), &mut store, &mut sheet);
    assert_eq!(met(other, &sheet), quick);
    quick
}

#[test]
fn at_twice_as_many_steps_as_the_way_has_else_as_late_as_can_be() {
    let called = |call: Call| last_met(&Job { carts: vec![0], calls: vec![call], ..line(3) });
    assert_eq!(called(Call::lift(2, 9)), 4);
    assert_eq!(called(Call::lift(2, 4)), 4);
    assert_eq!(called(Call::lift(2, 3)), 3);
    assert_eq!(called(Call::lift(0, 9)), 0);
    assert_eq!(called(Call::bay(2, 9)), 9);
    // On a ring, where who parks on cell 1 leaves only the other way round, of five steps.
    let mut ring = Job { carts: vec![0, 1], calls: vec![Call::bay(1, 0), Call::lift(2, 9)], ..line(7) };
    ring.tracks.push((6, 0));
    assert_eq!(last_met(&ring), 9);
}

#[test]
fn larger_jobs() {
    let mut rng = Rng::new(3);
    let mut tally = Tally::default();
    (0..500).for_each(|_| tally.count(answer(&medium(&mut rng))));
    (0..30).for_each(|_| tally.count(answer(&at_the_limits(&mut rng))));
    tally.assert_each(&[PLAN, CANNOT], 100);
}

#[test]
fn larger_jobs_with_spare_carts() {
    let mut rng = Rng::new(7);
    let mut tally = Tally::default();
    let mut try_some = |make: fn(&mut Rng) -> Job, times: usize| {
        for _ in 0..times {
            let all = make(&mut rng);
            let fewer = fewer_calls(all.clone(), &mut rng);
            let answer_to_fewer = answer(&fewer);
            // Carts that lose their calls stay on the floor, but are never the cause.
            assert!(answer_to_fewer == PLAN || answer(&all) == CANNOT, "{fewer:?}");
            tally.count(answer_to_fewer);
        }
    };
    try_some(medium, 1000);
    try_some(at_the_limits, 60);
    tally.assert_each(&[PLAN, CANNOT], 100);
}
