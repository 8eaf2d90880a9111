//! Jobs with several calls at one step, planned: PLAN exactly where an exhaustive search finds a plan, its PATH lines by
//! deadline, then cell.
//!
//! The comparison holds each sheet against the model; the order of its lines is looked at here once more.

use harness::compare::plan;
use harness::gen::bays::{all_bays, some_bays};
use harness::gen::floors::{line, loose, ring};
use harness::gen::large::{backwards, standing};
use harness::gen::orders::every_order;
use harness::gen::plans::has_plan;
use harness::gen::small::{small_at_one_step_with_bays, small_at_one_step_without_bays};
use harness::gen::Rng;
use harness::model::answer::*;
use harness::model::job::{Call, Job};
use harness::model::limits::{self, sheet_least, store_least};
use harness::model::sheet::{self, Path, Plan, Sheet};
use harness::tally::Tally;

fn planned(job: &Job, rng: &mut Rng) -> (u8, Vec<u8>) {
    plan(&job.text(), store_least(job), sheet_least(job), rng)
}

/// Deadline and cell of each call, as the calls are served by the lines of a PLAN: each once, and rising.
fn assert_rising(job: &Job, sheet: &[u8]) {
    let Ok(Sheet::Plan(Plan { paths, .. })) = sheet::read(sheet, job) else { panic!("no plan for {job:?}") };
    let end = |p: &Path| (job.calls[p.call].deadline, p.cells[p.cells.len() - 1]);
    let ends: Vec<(usize, usize)> = paths.iter().map(end).collect();
    let mut asked: Vec<(usize, usize)> = job.calls.iter().map(|call| (call.deadline, call.cell)).collect();
    asked.sort();
    assert_eq!(ends, asked, "{job:?}");
}

fn try_out(make: fn(&mut Rng) -> Job, seed: u64, jobs: usize) {
    let mut rng = Rng::new(seed);
    let mut tally = Tally::default();
    for number in 0..jobs {
        let job = make(&mut rng);
        let (answer, sheet) = planned(&job, &mut rng);
        assert_eq!(answer == PLAN, has_plan(&job), "seed {seed}, job {number}: {job:?}");
        if answer == PLAN {
            assert_rising(&job, &sheet);
        }
        tally.count(answer);
    }
    tally.assert_only(&[PLAN, CANNOT]);
    tally.assert_each(&[PLAN, CANNOT], jobs / 5);
}

#[test]
fn the_10_000_jobs_at_one_step() {
    try_out(small_at_one_step_without_bays, 1, 10_000);
}

#[test]
fn the_10_000_jobs_at_one_step_with_bays() {
    try_out(small_at_one_step_with_bays, 2, 10_000);
}

/// On a floor without tracks each job with bays has one plan alone: so every byte is known, in whatever order they stand.
#[test]
fn the_bays_of_one_step_in_every_order() {
    let mut rng = Rng::new(3);
    for calls in every_order(&[Call::bay(0, 2), Call::bay(1, 2), Call::bay(2, 2), Call::lift(3, 0)]) {
        let job = Job { carts: vec![0, 1, 2, 3], calls, ..loose(4) };
        let call_on = |cell| job.calls.iter().position(|call| call.cell == cell).expect("a call");
        let path = |cell, steps: &[usize]| {
            let cells: String = steps.iter().map(|cell| format!("\t{cell}")).collect();
            format!("PATH\t{cell}\t{}{cells}\n", call_on(cell))
        };
        let lines = [path(3, &[3]), path(0, &[0, 0, 0]), path(1, &[1, 1, 1]), path(2, &[2, 2, 2])];
        let sheet = format!("PLAN\t4\n{}", lines.concat());
        assert_eq!(planned(&job, &mut rng), (PLAN, sheet.into_bytes()), "{job:?}");
    }
}

/// By number and not by digits: one, two and three of them, the highest cell first in the job.
#[test]
fn cells_of_any_number_of_digits() {
    let cells: Vec<usize> = (0..limits::CARTS).map(|i| 4 * i).collect();
    let calls = cells.iter().rev().map(|&cell| Call::lift(cell, 0)).collect();
    let path = |(i, &cell): (usize, &usize)| Path { cart: i, call: limits::CARTS - 1 - i, cells: vec![cell] };
    let sheet = Sheet::of_paths(cells.iter().enumerate().map(path).collect()).text();
    let job = Job { carts: cells, calls, ..loose(limits::CELLS) };
    assert_eq!(planned(&job, &mut Rng::new(6)), (PLAN, sheet));
}

#[test]
fn sixty_four_calls_at_one_step() {
    let mut rng = Rng::new(4);
    for step in [0, 1, limits::DEADLINE] {
        let (job, paths) = backwards(standing(loose(limits::CELLS), limits::CARTS, step));
        let (answer, sheet) = planned(&job, &mut rng);
        assert_eq!(answer, PLAN);
        assert_rising(&job, &sheet);
        assert_eq!(planned(&all_bays(job), &mut rng), (PLAN, Sheet::of_paths(paths).text()));
    }
    let (job, _) = backwards(standing(ring(), limits::CARTS, limits::DEADLINE));
    let (answer, sheet) = planned(&job, &mut rng);
    assert_eq!(answer, PLAN);
    assert_rising(&job, &sheet);
}

/// All 64 move as one, so that no cart can wait, and their calls stand in any order.
#[test]
fn sixty_four_carts_that_march_to_one_step() {
    let mut rng = Rng::new(5);
    let way = limits::CELLS - limits::CARTS;
    let mut job = line(limits::CELLS);
    job.carts = (0..limits::CARTS).collect();
    job.calls = (way..limits::CELLS).map(|cell| Call::lift(cell, way)).collect();
    for _ in 0..4 {
        rng.shuffle(&mut job.calls);
        for job in [job.clone(), some_bays(job.clone(), &mut rng)] {
            let (answer, sheet) = planned(&job, &mut rng);
            assert_eq!(answer, PLAN);
            assert_rising(&job, &sheet);
        }
    }
}
