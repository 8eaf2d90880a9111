//! The model on spare carts: told by hand, and what can be said of them in several ways. And that the jobs which are tried
//! have spare carts of every kind.

use std::collections::BTreeMap;

use harness::examples::spares::SPARES;
use harness::examples::tabs;
use harness::gen::bays::no_bays;
use harness::gen::early::about_early_lifts;
use harness::gen::floors::{grid, some_floor};
use harness::gen::large::{moving_with_spares, put_off_with_spares};
use harness::gen::lists::true_lists;
use harness::gen::plans::{calls_have_plan, has_plan, plans, plans_of, plans_with};
use harness::gen::renumbered::Numbers;
use harness::gen::spares::{fewer_calls, small_with_spares};
use harness::gen::Rng;
use harness::model::answer::*;
use harness::model::check::check;
use harness::model::job::Job;
use harness::model::limits::{sheet_least, store_least};
use harness::model::plan::is_plan;
use harness::model::sheet::{self, Plan, Sheet};
use harness::model::walks::{all_walks, can_be_written_out, spare_walks, Walk};
use harness::model::{reader, walks};

fn job(text: &str) -> Job {
    reader::read(&tabs(text)).expect("a job")
}

#[test]
fn more_carts_are_spare_and_fewer_are_8() {
    assert_eq!(job("FLOOR 1\nCART 0\n").spares(), 1);
    assert_eq!(job("FLOOR 3\nCART 2\nCART 0\nCART 1\nBAY 1 0\nCALL 0 0\n").spares(), 1);
    assert_eq!(job("FLOOR 1\nCART 0\nCALL 0 0\n").spares(), 0);
    assert_eq!(reader::read(&tabs("FLOOR 2\nCART 0\nCALL 0 0\nBAY 1 0\n")), Err(refusal(UNEVEN)));
}

/// Cell 1 is closed from step 2 on.
#[test]
fn spare_walks_have_every_step_and_end_anywhere() {
    let job = job("FLOOR 3\nTRACK 0 1\nTRACK 1 2\nCART 0\nCART 2\nCART 1\nBAY 1 1\nCALL 0 2\n");
    assert_eq!(spare_walks(&job)[0], [vec![0, 0, 0], vec![0, 1, 0], vec![0, 1, 2]]);
    assert_eq!(spare_walks(&job)[2], [vec![1, 1, 0], vec![1, 1, 2], vec![1, 0, 0], vec![1, 2, 2]]);
    assert_eq!(walks::spare_walks(&Job { calls: Vec::new(), ..job }), [[[0]], [[2]], [[1]]]);
}

#[test]
fn the_examples_have_one_sheet() {
    for example in SPARES {
        let job = job(example.job);
        let plans = plans(&job, usize::MAX).into_iter().map(Sheet::Plan);
        let lists = true_lists(&job).into_iter().map(Sheet::Cannot);
        let sheets: Vec<Vec<u8>> = plans.chain(lists).map(|sheet| sheet.text()).collect();
        assert_eq!(sheets, [tabs(example.sheet)], "{}", example.name);
    }
}

/// Cart 1 is in the way of cart 0, whose path is given.
#[test]
fn a_spare_cart_that_makes_way() {
    let job = job("FLOOR 4\nTRACK 0 1\nTRACK 1 2\nTRACK 1 3\nCART 0\nCART 1\nBAY 2 2\n");
    let sheet = tabs("PLAN 1\nPATH 0 0 0 1 2\nSPARE 1 1 3 3\n");
    let Ok(Sheet::Plan(plan)) = sheet::read(&sheet, &job) else { panic!("not in the form") };
    let aside: Vec<Walk> =
        plans_with(&job, &plan.paths, usize::MAX).into_iter().map(|plan| plan.spares[0].cells.clone()).collect();
    // Behind cart 0 it may come back.
    assert_eq!(aside, [[1, 3, 3], [1, 3, 1]]);
}

#[test]
fn what_is_written_is_read() {
    let mut rng = Rng::new(1);
    for _ in 0..2000 {
        let job = small_with_spares(&mut rng);
        assert_eq!(reader::read(&job.text()), Ok(job.clone()));
        for plan in plans(&job, 10) {
            assert!(is_plan(&job, &plan));
            let written = Sheet::Plan(plan);
            assert_eq!(sheet::read(&written.text(), &job), Ok(written.clone()));
            assert!(written.text().len() <= sheet_least(&job));
            assert_eq!(check(&job.text(), store_least(&job), &written.text()), (PLAN, 0));
        }
    }
}

/// The jobs of the tests below: half with bays, some of which need an early lift.
fn some_jobs(count: usize, rng: &mut Rng) -> Vec<Job> {
    let some = |rng: &mut Rng| match rng.once_in(8) {
        true => fewer_calls(about_early_lifts(rng), rng),
        false => small_with_spares(rng),
    };
    let jobs = (0..count).map(|_| some(rng)).filter(|job| job.spares() > 0 && can_be_written_out(job));
    jobs.collect()
}

/// Both sides by trying: every sharing out and walk for the calls alone, and every walk of all carts together.
#[test]
fn spare_carts_are_never_the_cause() {
    let mut rng = Rng::new(2);
    let mut with_plan = 0;
    let jobs = some_jobs(6000, &mut rng);
    for job in &jobs {
        let found = has_plan(job);
        assert_eq!(found, calls_have_plan(job), "{job:?}");
        with_plan += usize::from(found);
    }
    assert!(with_plan > 2000 && with_plan + 800 < jobs.len(), "{with_plan} of {} have a plan", jobs.len());
}

/// So a list that stops every walk to a call, and is shorter than the calls, shows all there is to show.
#[test]
fn a_job_has_either_a_plan_or_a_true_choke_list() {
    let mut rng = Rng::new(3);
    for _ in 0..5000 {
        let job = small_with_spares(&mut rng);
        assert_ne!(has_plan(&job), !true_lists(&job).is_empty(), "{job:?}");
    }
}

/// Who would have to make way can as well go on in the other's place, and the other stands where it started.
#[test]
fn spare_carts_can_always_stand_still() {
    let mut rng = Rng::new(4);
    for job in some_jobs(4000, &mut rng) {
        let is_open = |cell: usize| (0..=job.last()).all(|step| job.is_open(cell, step));
        let still = |&cell: &usize| if is_open(cell) { vec![vec![cell; job.last() + 1]] } else { Vec::new() };
        let still: Vec<Vec<Walk>> = job.carts.iter().map(still).collect();
        assert_eq!(calls_have_plan(&job), !plans_of(&job, &all_walks(&job), &still, 1).is_empty(), "{job:?}");
    }
}

/// Larger plans, as they are made and with later deadlines.
#[test]
fn larger_plans_are_plans() {
    let mut rng = Rng::new(7);
    let answer = |job: &Job, plan: Plan| check(&job.text(), store_least(job), &Sheet::Plan(plan).text());
    let mut moving = 0;
    for _ in 0..200 {
        let floor = some_floor(&mut rng);
        let carts = 1 + rng.below(floor.cells.min(20));
        let spares = rng.below(carts + 1);
        let (job, plan) = moving_with_spares(floor, (carts, spares), 0, 20, &mut rng);
        assert_eq!((job.spares(), plan.spares.len()), (spares, spares));
        assert_eq!(answer(&job, plan.clone()), (PLAN, 0), "{job:?}");
        moving += plan.spares.iter().filter(|spare| spare.cells.iter().any(|&cell| cell != spare.cells[0])).count();
        let (job, plan) = put_off_with_spares((job, plan), 30, &mut rng);
        assert_eq!(answer(&job, plan), (PLAN, 0), "{job:?}");
    }
    assert!(moving > 500, "{moving} spare carts move");
    let (job, plan) = moving_with_spares(grid(16, 16), (64, 32), 200, 255, &mut rng);
    assert_eq!(answer(&job, plan), (PLAN, 0));
    assert_eq!((job.spares(), job.last()), (32, 255));
}

#[test]
fn other_numbers_change_nothing_else() {
    let mut rng = Rng::new(5);
    for _ in 0..500 {
        let job = small_with_spares(&mut rng);
        let numbers = Numbers::of(&job, &mut rng);
        let other = numbers.job(&job, &mut rng);
        for plan in plans(&job, 5) {
            assert!(is_plan(&other, &numbers.plan(&job, &plan)), "{job:?} and {other:?}");
        }
    }
}

/// Of every spare cart that can be told from the job or from its first plan.
#[test]
fn small_jobs_have_spare_carts_of_every_kind() {
    let mut rng = Rng::new(6);
    let mut kinds: BTreeMap<&str, usize> = BTreeMap::new();
    for _ in 0..4000 {
        let job = small_with_spares(&mut rng);
        let plans = plans(&job, 1);
        let (bays, calls) = (job.calls.iter().filter(|call| call.is_bay()).count(), job.calls.len());
        let moves =
            |plan: &Plan| plan.spares.iter().any(|spare| spare.cells.iter().any(|&cell| cell != spare.cells[0]));
        let in_bay = |plan: &Plan| {
            let mut cells = plan.spares.iter().map(|spare| spare.cells[0]);
            cells.any(|cell| job.calls.iter().any(|call| call.is_bay() && call.cell == cell))
        };
        let is_lift = |cell: usize| job.calls.iter().any(|call| !call.is_bay() && call.cell == cell);
        for (kind, is_one) in [
            ("one spare cart", job.spares() == 1),
            ("two", job.spares() == 2),
            ("three or more", job.spares() > 2),
            ("no calls", calls == 0),
            ("only bays", bays > 0 && bays == calls),
            ("bays and lifts", bays > 0 && bays < calls),
            ("only lifts", bays == 0 && calls > 0),
            ("a cart on every cell", job.carts.len() == job.cells && job.cells > 1),
            ("later steps", job.last() > 1),
            ("no plan", plans.is_empty()),
            ("a spare cart that moves in the first plan", plans.iter().any(moves)),
            ("a spare cart that starts in a bay", plans.iter().any(in_bay)),
            (
                "a spare cart on a lift",
                plans.iter().any(|plan| plan.spares.iter().any(|s| is_lift(s.cells[job.last()]))),
            ),
            ("a bay that is the reason", plans.is_empty() && bays > 0 && has_plan(&no_bays(job.clone()))),
        ] {
            *kinds.entry(kind).or_default() += usize::from(is_one);
        }
    }
    let seldom: Vec<_> = kinds.iter().filter(|(_, &times)| times < 100).collect();
    assert!(seldom.is_empty(), "{seldom:?} of {kinds:?}");
}
