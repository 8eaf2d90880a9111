//! Jobs with bays, planned in the least buffers, up to every limit. Each sheet has to pass the library's check and the
//! model's.

use harness::compare::plan;
use harness::examples::{tabs, CLOSED_BY_NO_BAY};
use harness::gen::bays::{all_bays, no_bays, with_bays};
use harness::gen::floors::*;
use harness::gen::large::*;
use harness::gen::Rng;
use harness::model::answer::*;
use harness::model::job::{Call, Job};
use harness::model::limits::{self, sheet_least, store_least};
use harness::model::reader;
use harness::tally::Tally;

fn planned(job: &Job) -> u8 {
    plan(&job.text(), store_least(job), sheet_least(job), &mut Rng::new(1)).0
}

#[test]
fn the_example_with_a_lift_for_its_bay() {
    let job = reader::read(&tabs(CLOSED_BY_NO_BAY.job)).expect("a job");
    let (answer, sheet) = plan(&job.text(), store_least(&job), sheet_least(&job), &mut Rng::new(1));
    assert_eq!((answer, sheet), (PLAN, tabs(CLOSED_BY_NO_BAY.sheet)));
}

#[test]
fn a_bays_step_counts_for_the_buffers() {
    let job = tabs("FLOOR 1\nCART 0\nBAY 0 255\n");
    // 256 steps of 32 bytes, and 4,096; 256 × 4 + 16, and 64.
    let number = |store, sheet| plan(&job, store, sheet, &mut Rng::new(2)).0;
    assert_eq!(number(12_288, 1104), PLAN);
    assert_eq!(number(12_287, 1104), STORE_TOO_SHORT);
    assert_eq!(number(12_288, 1103), SHEET_TOO_SHORT);
}

#[test]
fn bays_and_lifts_in_any_mixture_at_every_limit() {
    let mut rng = Rng::new(3);
    for bays in [1, 32, 63, 64] {
        let (still, _) = standing(ring(), limits::CARTS, limits::DEADLINE);
        assert_eq!(planned(&with_bays(still, bays, &mut rng)), PLAN, "{bays} bays");
        let (at_once, _) = standing(loose(limits::CELLS), limits::CARTS, 0);
        assert_eq!(planned(&with_bays(at_once, bays, &mut rng)), PLAN, "{bays} bays");
    }
    let floor = with_most_tracks(grid(16, 16), &mut rng);
    let (job, _) = moving_to_bays(floor, limits::CARTS, 200, limits::DEADLINE, &mut rng);
    assert_eq!((job.cells, job.tracks.len()), (limits::CELLS, limits::TRACKS));
    assert_eq!((job.carts.len(), job.last()), (limits::CARTS, limits::DEADLINE));
    assert_eq!(planned(&job), PLAN);
}

#[test]
fn carts_that_march_into_bays() {
    // All 64 move as one: the way is as long as the step allows, so no cart can wait.
    let mut job = line(limits::CELLS);
    let way = limits::CELLS - limits::CARTS;
    job.carts = (0..limits::CARTS).collect();
    job.calls = (way..limits::CELLS).map(|cell| Call::bay(cell, way)).collect();
    assert_eq!(planned(&job), PLAN);
    for bay in &mut job.calls {
        bay.deadline -= 1;
    }
    assert_eq!(planned(&job), CANNOT);
}

#[test]
fn a_bay_that_shuts_a_line() {
    let (mut job, _) = shut_line(limits::CARTS, limits::CARTS - 1, limits::DEADLINE);
    assert_eq!(planned(&job), CANNOT);
    assert_eq!(planned(&no_bays(job.clone())), PLAN);
    for bay in job.calls.iter_mut().filter(|call| call.is_bay()) {
        bay.deadline += 1;
    }
    assert_eq!(planned(&job), PLAN);
}

#[test]
fn a_bay_in_the_middle_of_a_star() {
    // One cart a step can be in the middle: 63 pass it up to step 63, and the last parks there at step 64.
    let mut job = star(255);
    job.carts = (1..=limits::CARTS).collect();
    let others = limits::CARTS + 1..2 * limits::CARTS;
    job.calls = others.map(|cell| Call::lift(cell, limits::DEADLINE)).collect();
    job.calls.push(Call::bay(0, 64));
    assert_eq!(planned(&job), PLAN);
    job.calls[63] = Call::bay(0, 63);
    assert_eq!(planned(&job), CANNOT);
    job.calls[63] = Call::lift(0, 63);
    assert_eq!(planned(&job), PLAN);
}

#[test]
fn bays_round_a_star() {
    let (job, _) = crowded_star(255, limits::CARTS, limits::CARTS);
    let mut job = all_bays(job);
    assert_eq!(planned(&job), CANNOT);
    for bay in &mut job.calls {
        bay.deadline += 1;
    }
    assert_eq!(planned(&job), PLAN);
}

#[test]
fn floors_of_every_size() {
    let mut rng = Rng::new(4);
    let mut tally = Tally::default();
    for _ in 0..400 {
        let floor = some_floor(&mut rng);
        let carts = rng.below(floor.cells.min(limits::CARTS) + 1);
        let most = rng.below(24);
        let (walked, _) = moving_to_bays(floor.clone(), carts, 0, most, &mut rng);
        assert_eq!(planned(&walked), PLAN);
        tally.count(planned(&scattered_with_bays(floor, carts, most, &mut rng)));
    }
    tally.assert_each(&[PLAN, CANNOT], 20);
}

#[test]
fn the_largest_grids_by_chance() {
    let mut rng = Rng::new(5);
    let mut tally = Tally::default();
    for _ in 0..6 {
        let floor = with_most_tracks(grid(16, 16), &mut rng);
        tally.count(planned(&scattered_with_bays(floor, limits::CARTS, limits::DEADLINE, &mut rng)));
    }
    tally.assert_only(&[PLAN, CANNOT]);
}
