//! Jobs with spare carts, planned in the least buffers, up to every limit: PLAN exactly where an exhaustive search finds one
//! on small jobs. Each sheet has to pass the library's check and the model's.

use harness::compare::plan;
use harness::examples::spares::SPARES;
use harness::examples::{tabs, BUFFER};
use harness::gen::early::about_early_lifts;
use harness::gen::floors::*;
use harness::gen::large::*;
use harness::gen::plans::has_plan;
use harness::gen::spares::{fewer_calls, one_cart_more, small_with_spares};
use harness::gen::Rng;
use harness::model::answer::*;
use harness::model::job::{Call, Job};
use harness::model::limits::{self, sheet_least, store_least};
use harness::model::sheet::{Plan, Sheet, Spare};
use harness::model::walks::can_be_written_out;
use harness::tally::Tally;

fn planned(job: &Job) -> (u8, Vec<u8>) {
    plan(&job.text(), store_least(job), sheet_least(job), &mut Rng::new(1))
}

#[test]
fn the_examples() {
    for example in SPARES {
        let found = plan(&tabs(example.job), BUFFER, BUFFER, &mut Rng::new(2));
        assert_eq!(found, (example.answer, tabs(example.sheet)), "{}", example.name);
    }
}

fn try_out(make: fn(&mut Rng) -> Job, seed: u64, jobs: usize) {
    let mut rng = Rng::new(seed);
    let mut tally = Tally::default();
    for number in 0..jobs {
        let job = make(&mut rng);
        let (answer, _) = plan(&job.text(), store_least(&job), sheet_least(&job), &mut rng);
        assert_eq!(answer == PLAN, has_plan(&job), "seed {seed}, job {number}: {job:?}");
        tally.count(answer);
    }
    tally.assert_only(&[PLAN, CANNOT]);
    tally.assert_each(&[PLAN, CANNOT], jobs / 20);
}

#[test]
fn the_first_30_000_jobs() {
    try_out(small_with_spares, 3, 30_000);
}

#[test]
fn the_second_30_000_jobs() {
    try_out(small_with_spares, 4, 30_000);
}

/// Some of them are served by an early lift alone.
#[test]
fn jobs_about_early_lifts() {
    fn about_early_lifts_with_spares(rng: &mut Rng) -> Job {
        let job = one_cart_more(about_early_lifts(rng), rng);
        match job.spares() > 0 && can_be_written_out(&job) {
            true => job,
            false => about_early_lifts_with_spares(rng),
        }
    }
    try_out(about_early_lifts_with_spares, 5, 2000);
}

/// The job with its last carts spare: so many calls are left.
fn with_calls(mut job: Job, calls: usize) -> Job {
    job.calls.truncate(calls);
    job
}

const COUNTS: [usize; 6] = [0, 1, 8, 32, 63, 64];

/// Everybody stands where no track leads to, and nobody is lifted early, so that every byte is known.
#[test]
fn standing_carts_at_every_limit() {
    for calls in COUNTS {
        let (job, paths) = standing(loose(limits::CELLS), limits::CARTS, limits::DEADLINE);
        let mut job = with_calls(job, calls);
        job.calls.iter_mut().for_each(|call| *call = Call::bay(call.cell, call.deadline));
        let spare = |cart: usize| Spare { cart, cells: vec![job.carts[cart]; job.last() + 1] };
        let spares = (calls..limits::CARTS).map(spare).collect();
        let sheet = Sheet::Plan(Plan { paths: paths[..calls].to_vec(), spares }).text();
        assert_eq!(planned(&job), (PLAN, sheet.clone()), "{calls} calls");
        assert!(calls == 0 || sheet.len() > 65_535, "{} bytes", sheet.len());
    }
}

#[test]
fn moving_carts_at_every_limit() {
    let mut rng = Rng::new(6);
    for calls in COUNTS {
        let floor = with_most_tracks(grid(16, 16), &mut rng);
        let spares = limits::CARTS - calls;
        let (job, _) = moving_with_spares(floor, (limits::CARTS, spares), 200, limits::DEADLINE, &mut rng);
        assert_eq!((job.cells, job.tracks.len()), (limits::CELLS, limits::TRACKS));
        // Now and then a cart is left out that finds no cell for a call.
        assert!(job.spares() == spares && job.calls.len() + 2 >= calls, "{} calls", job.calls.len());
        assert_eq!(planned(&job).0, PLAN, "{calls} calls");
    }
}

/// Down a line whoever is in front has to go on. The last cart could come to the end in time if nobody were before it.
#[test]
fn a_line_full_of_carts() {
    for calls in 1..=8 {
        let mut job = line(limits::CARTS + 8);
        job.carts = (0..limits::CARTS).collect();
        job.calls = (0..calls).map(|i| Call::lift(limits::CARTS + 7 - i, limits::DEADLINE)).collect();
        assert_eq!(planned(&job).0, PLAN, "{calls} calls");
        // The cart in front has eight steps to go, and all the others follow as they can.
        job.calls.iter_mut().for_each(|call| call.deadline = 8);
        assert_eq!(planned(&job).0, PLAN, "{calls} calls");
        job.calls.iter_mut().for_each(|call| call.deadline = 7);
        assert_eq!(planned(&job).0, CANNOT, "{calls} calls");
    }
}

/// No cell is free: carts can turn in rings, or stand.
#[test]
fn a_cart_on_every_cell() {
    let mut rng = Rng::new(7);
    for calls in [0, 1, 8, 63] {
        for bays in [false, true] {
            let mut job = grid(8, 8);
            job.carts = rng.sample(64, 64);
            let call = |cell| if bays { Call::bay(cell, 20) } else { Call::lift(cell, 20) };
            job.calls = rng.sample(64, calls).into_iter().map(call).collect();
            assert_eq!(planned(&job).0, PLAN, "{calls} calls");
        }
    }
}

/// More carts round a star do not help: one a step is in its middle.
#[test]
fn a_star_with_too_few_steps() {
    let (mut job, list) = crowded_star(255, 32, 32);
    job.carts.extend(100..132);
    assert_eq!((job.carts.len(), list.len()), (limits::CARTS, 31));
    assert_eq!(planned(&job), (CANNOT, Sheet::Cannot(list).text()));
    job.calls.iter_mut().for_each(|call| call.deadline += 1);
    assert_eq!(planned(&job).0, PLAN);
}

/// A bay shuts a line behind as many carts as have passed it, and the others stay where they are.
#[test]
fn a_bay_that_shuts_a_line() {
    let (mut job, _) = shut_line(32, 31, limits::DEADLINE);
    assert_eq!(planned(&one_cart_more(job.clone(), &mut Rng::new(8))).0, PLAN);
    // Behind the others, a cart more is too late.
    job.tracks.push((0, job.cells));
    job.carts.push(job.cells);
    job.cells += 1;
    assert_eq!(planned(&job).0, CANNOT);
}

#[test]
fn floors_of_every_size() {
    let mut rng = Rng::new(9);
    let mut tally = Tally::default();
    for _ in 0..300 {
        let floor = some_floor(&mut rng);
        let carts = 1 + rng.below(floor.cells.min(limits::CARTS));
        let (most, spares) = (rng.below(24), rng.below(carts + 1));
        let (walked, _) = moving_with_spares(floor.clone(), (carts, spares), 0, most, &mut rng);
        assert_eq!(planned(&walked).0, PLAN);
        tally.count(planned(&fewer_calls(scattered(floor.clone(), carts, most, &mut rng), &mut rng)).0);
        tally.count(planned(&fewer_calls(scattered_with_bays(floor, carts, most, &mut rng), &mut rng)).0);
    }
    tally.assert_each(&[PLAN, CANNOT], 20);
}

/// The least lengths are those of the carts, whether they have calls or not.
#[test]
fn spare_carts_count_for_the_sheet_buffer() {
    let mut rng = Rng::new(10);
    // Two carts: 2 × (4 × 1 + 16) + 64; H = 255: 2 × (4 × 256 + 16) + 64.
    for (job, store, sheet) in [
        ("FLOOR 2\nCART 0\nCART 1\n", 4160, 104),
        ("FLOOR 2\nCART 0\nCART 1\nCALL 0 0\n", 4160, 104),
        ("FLOOR 2\nCART 0\nCART 1\nBAY 0 255\n", 20_480, 2144),
    ] {
        let mut number = |store, sheet| plan(&tabs(job), store, sheet, &mut rng).0;
        assert_eq!(number(store, sheet), PLAN);
        assert_eq!(number(store - 1, sheet), STORE_TOO_SHORT);
        assert_eq!(number(store, sheet - 1), SHEET_TOO_SHORT);
        assert_eq!(number(store + 100, sheet + 100), PLAN);
    }
}
