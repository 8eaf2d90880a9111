//! Jobs at every limit, planned in the least buffers. Each sheet has to pass the library's check and the model's.

use harness::compare::plan;
use harness::gen::floors::*;
use harness::gen::large::*;
use harness::gen::Rng;
use harness::model::answer::*;
use harness::model::job::{Call, Job};
use harness::model::limits::{self, sheet_least, store_least};
use harness::tally::Tally;

fn planned(job: &Job) -> (u8, Vec<u8>) {
    plan(&job.text(), store_least(job), sheet_least(job), &mut Rng::new(1))
}

#[test]
fn carts_on_the_largest_grid() {
    let mut rng = Rng::new(2);
    let floor = with_most_tracks(grid(16, 16), &mut rng);
    let (job, _) = moving(floor, limits::CARTS, 200, limits::DEADLINE, &mut rng);
    assert_eq!((job.cells, job.tracks.len()), (limits::CELLS, limits::TRACKS));
    assert_eq!((job.carts.len(), job.last()), (limits::CARTS, limits::DEADLINE));
    assert_eq!(planned(&job).0, PLAN);
}

#[test]
fn a_sheet_over_65_535_bytes() {
    let (mut job, _) = standing(ring(), limits::CARTS, limits::DEADLINE);
    assert_eq!(job.text().len(), 8586);
    // In bays, since a lift would take the carts early.
    for call in &mut job.calls {
        *call = Call::bay(call.cell, call.deadline);
    }
    let (answer, sheet) = planned(&job);
    assert_eq!(answer, PLAN);
    assert!(sheet.len() > 65_535, "{} bytes", sheet.len());
}

#[test]
fn carts_that_march_down_a_line() {
    // All 64 move as one: the way is as long as the deadline allows, so no cart can wait.
    let mut job = line(limits::CELLS);
    let way = limits::CELLS - limits::CARTS;
    job.carts = (0..limits::CARTS).collect();
    job.calls = (way..limits::CELLS).map(|cell| Call::lift(cell, way)).collect();
    assert_eq!(planned(&job).0, PLAN);
    for call in &mut job.calls {
        call.deadline -= 1;
    }
    assert_eq!(planned(&job).0, CANNOT);
}

#[test]
fn a_cell_with_255_neighbours() {
    // One cart a step can be in the middle: 64 steps are enough, 63 are not.
    let (mut job, _) = crowded_star(255, limits::CARTS, limits::CARTS);
    assert_eq!(planned(&job).0, CANNOT);
    for call in &mut job.calls {
        call.deadline += 1;
    }
    assert_eq!(planned(&job).0, PLAN);
    for call in &mut job.calls {
        call.deadline = limits::DEADLINE;
    }
    job = with_most_tracks(job, &mut Rng::new(3));
    assert_eq!(planned(&job).0, PLAN);
}

#[test]
fn a_call_that_no_track_leads_to() {
    let mut rng = Rng::new(4);
    let (job, _) = moving(grid(15, 17), limits::CARTS - 1, 100, limits::DEADLINE, &mut rng);
    let (job, list) = with_lost_call(job);
    assert_eq!((job.cells, list.len()), (limits::CELLS, limits::CARTS - 1));
    assert_eq!(planned(&job).0, CANNOT);
}

#[test]
fn carts_with_no_step_to_go() {
    let (mut job, _) = standing(loose(limits::CELLS), limits::CARTS, 0);
    assert_eq!(planned(&job).0, PLAN);
    job.calls.reverse();
    assert_eq!(planned(&job).0, PLAN);
    job.calls[0].cell = 0;
    assert_eq!(planned(&job).0, CANNOT);
}

#[test]
fn floors_of_every_size() {
    let mut rng = Rng::new(5);
    let mut tally = Tally::default();
    for _ in 0..400 {
        let floor = some_floor(&mut rng);
        let carts = rng.below(floor.cells.min(limits::CARTS) + 1);
        let most = rng.below(24);
        let (walked, _) = moving(floor.clone(), carts, 0, most, &mut rng);
        assert_eq!(planned(&walked).0, PLAN);
        tally.count(planned(&scattered(floor, carts, most, &mut rng)).0);
    }
    tally.assert_each(&[PLAN, CANNOT], 20);
}

#[test]
fn the_largest_grids_by_chance() {
    let mut rng = Rng::new(6);
    let mut tally = Tally::default();
    for _ in 0..6 {
        let floor = with_most_tracks(grid(16, 16), &mut rng);
        tally.count(planned(&scattered(floor, limits::CARTS, limits::DEADLINE, &mut rng)).0);
    }
    tally.assert_only(&[PLAN, CANNOT]);
}
