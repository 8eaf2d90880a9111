//! Large jobs, up to every limit: plans and choke lists that are right by the way they are made, and changed ones.

use harness::compare::{library, library_on};
use harness::gen::bays::no_bays;
use harness::gen::cases::Case;
use harness::gen::damage::damaged;
use harness::gen::floors::*;
use harness::gen::large::*;
use harness::gen::orders::{as_in_the_job, differ};
use harness::gen::wrong::{bay_in_the_way, tampered_list, tampered_paths, tampered_plan};
use harness::gen::Rng;
use harness::model::answer::*;
use harness::model::job::Job;
use harness::model::limits::{self, store_least};
use harness::model::sheet::{Choke, Path, Sheet};
use harness::tally::Tally;

fn answer(job: &Job, sheet: &Sheet) -> (u8, usize) {
    library(&job.text(), store_least(job), &sheet.text())
}

/// Checks a sheet of the job, and some damaged ones.
fn try_out(job: &Job, sheet: &Sheet, tally: &mut Tally, rng: &mut Rng) {
    let whole = sheet.text();
    let sheets = [damaged(&whole, rng), damaged(&whole, rng), whole];
    for sheet in sheets {
        let case = Case { job: job.text(), store_len: store_least(job), sheet };
        tally.count(library_on(&case, rng).0);
    }
}

/// Checks a plan, changed plans, the plan in the order of the job, the plan with lifts before later deadlines, and the choke
/// list that a lost call makes true, changed as well.
fn try_plan(job: &Job, paths: &[Path], tally: &mut Tally, rng: &mut Rng) {
    try_out(job, &Sheet::of_paths(paths.to_vec()), tally, rng);
    let (later, early) = put_off((job.clone(), paths.to_vec()), limits::DEADLINE.min(job.last() + 20), rng);
    assert_eq!(answer(&later, &Sheet::of_paths(early.clone())), (PLAN, 0));
    try_out(&later, &Sheet::of_paths(tampered_paths(&later, &early, rng)), tally, rng);
    try_out(job, &Sheet::of_paths(tampered_paths(job, paths, rng)), tally, rng);
    let in_order_of_job = if differ(job) { WRONG_SHEET } else { PLAN };
    assert_eq!(answer(job, &Sheet::of_paths(as_in_the_job(job, paths))), (in_order_of_job, 0));
    if let Some(job) = bay_in_the_way(job, paths, rng) {
        assert_eq!(answer(&job, &Sheet::of_paths(paths.to_vec())), (WRONG_SHEET, 0));
    }
    if job.cells < limits::CELLS && job.carts.len() < job.cells.min(limits::CARTS) {
        let (job, list) = with_lost_call(job.clone());
        try_list(&job, &list, tally, rng);
    }
}

/// Checks a choke list, which is true, and a changed one.
fn try_list(job: &Job, list: &[Choke], tally: &mut Tally, rng: &mut Rng) {
    try_out(job, &Sheet::Cannot(list.to_vec()), tally, rng);
    try_out(job, &Sheet::Cannot(tampered_list(job, list, rng)), tally, rng);
}

#[test]
fn grids_and_stars_with_moving_carts() {
    let mut rng = Rng::new(1);
    let mut tally = Tally::default();
    for round in 0..40 {
        let floor = match round % 4 {
            0 => star(1 + rng.below(limits::CELLS - 1)),
            _ => grid(2 + rng.below(15), 2 + rng.below(15)),
        };
        let carts = 1 + rng.below(limits::CARTS.min(floor.cells));
        let most = rng.below(if round < 4 { limits::DEADLINE + 1 } else { 40 });
        for made in [moving, moving_to_bays] {
            let (job, paths) = made(floor.clone(), carts, 0, most, &mut rng);
            try_plan(&job, &paths, &mut tally, &mut rng);
        }
    }
    tally.assert_each(&[PLAN, CANNOT, BAD_SHEET, WRONG_SHEET], 10);
}

#[test]
fn moving_carts_at_every_limit() {
    for made in [moving, moving_to_bays] {
        let mut rng = Rng::new(2);
        let floor = with_most_tracks(grid(16, 16), &mut rng);
        let (job, paths) = made(floor, limits::CARTS, 200, limits::DEADLINE, &mut rng);
        let full = (job.cells, job.tracks.len(), job.carts.len());
        assert_eq!(full, (limits::CELLS, limits::TRACKS, limits::CARTS));
        assert_eq!(answer(&job, &Sheet::of_paths(paths.clone())), (PLAN, 0));
        try_plan(&job, &paths, &mut Tally::default(), &mut rng);
    }
}

/// Plans with spare carts, changed ones, and the choke list that a lost call makes true.
#[test]
fn moving_carts_with_spare_ones() {
    let mut rng = Rng::new(7);
    let mut tally = Tally::default();
    for round in 0..40 {
        let floor = grid(2 + rng.below(15), 2 + rng.below(15));
        let carts = 1 + rng.below(limits::CARTS.min(floor.cells));
        let (most, spares) = (rng.below(if round < 4 { limits::DEADLINE + 1 } else { 40 }), rng.below(carts + 1));
        let (job, plan) = moving_with_spares(floor, (carts, spares), 0, most, &mut rng);
        assert_eq!(answer(&job, &Sheet::Plan(plan.clone())), (PLAN, 0));
        try_out(&job, &Sheet::Plan(plan.clone()), &mut tally, &mut rng);
        for _ in 0..5 {
            try_out(&job, &Sheet::Plan(tampered_plan(&job, &plan, &mut rng)), &mut tally, &mut rng);
        }
        if job.cells < limits::CELLS && job.carts.len() < job.cells.min(limits::CARTS) {
            let (job, list) = with_lost_call(job);
            try_list(&job, &list, &mut tally, &mut rng);
        }
    }
    tally.assert_each(&[PLAN, CANNOT, BAD_SHEET, WRONG_SHEET], 10);
}

/// The largest sheet there is: 64 carts on cells of three digits up to step 255.
#[test]
fn standing_carts_at_every_limit() {
    let (job, paths) = standing(ring(), limits::CARTS, limits::DEADLINE);
    assert_eq!(job.text().len(), 8586);
    let sheet = Sheet::of_paths(paths);
    assert!(sheet.text().len() > 65_535, "{} bytes", sheet.text().len());
    assert_eq!(answer(&job, &sheet), (PLAN, 0));
}

/// On a floor without tracks no cell of a path can be another.
#[test]
fn single_changes_of_a_large_plan_are_refused() {
    let (job, paths) = standing(loose(limits::CELLS), limits::CARTS, limits::DEADLINE);
    assert_eq!(answer(&job, &Sheet::of_paths(paths.clone())), (PLAN, 0));
    let mut rng = Rng::new(3);
    for i in 0..300 {
        // First and last steps and lines, then any.
        let at = if i < 4 { i % 2 * (limits::CARTS - 1) } else { rng.below(limits::CARTS) };
        let step = if i < 4 { i / 2 * limits::DEADLINE } else { rng.below(limits::DEADLINE + 1) };
        let mut changed = paths.clone();
        changed[at].cells[step] = (changed[at].cells[step] + 1 + rng.below(limits::CELLS - 1)) % limits::CELLS;
        assert_eq!(answer(&job, &Sheet::of_paths(changed)), (WRONG_SHEET, 0), "path {at}, step {step}");
    }
}

/// The list is true, and untrue without any of its points.
fn assert_none_to_spare(job: &Job, list: &[Choke]) {
    assert_eq!(answer(job, &Sheet::Cannot(list.to_vec())), (CANNOT, 0));
    for missed in 0..list.len() {
        let mut shorter = list.to_vec();
        shorter.remove(missed);
        assert_eq!(answer(job, &Sheet::Cannot(shorter)), (WRONG_SHEET, 0), "without point {missed}");
    }
    try_list(job, list, &mut Tally::default(), &mut Rng::new(4));
}

#[test]
fn a_star_with_255_neighbours_and_too_few_steps() {
    let (job, list) = crowded_star(255, limits::CARTS, limits::CARTS);
    assert_none_to_spare(&job, &list);
}

#[test]
fn a_star_with_more_steps_than_carts() {
    let (job, list) = late_star(limits::CARTS, 7, limits::CARTS + 1);
    assert_none_to_spare(&job, &list);
}

/// True only since the bay closes the line.
#[test]
fn a_line_that_a_bay_shuts() {
    let (job, list) = shut_line(limits::CARTS, limits::CARTS - 1, limits::DEADLINE);
    assert_none_to_spare(&job, &list);
    assert_eq!(answer(&no_bays(job), &Sheet::Cannot(list)), (WRONG_SHEET, 0));
}

/// Damage anywhere in the longest text that is accepted; a text that is still accepted finds the store too short.
#[test]
fn damaged_texts_of_the_longest_job() {
    let mut rng = Rng::new(6);
    let mut tally = Tally::default();
    for _ in 0..1000 {
        let case = Case { job: damaged(&longest_text(), &mut rng), store_len: 4096, sheet: Vec::new() };
        tally.count(library_on(&case, &mut rng).0);
    }
    tally.assert_each(&[BAD_LINE, NO_NUMBER, OUT_OF_RANGE, DOUBLED, UNEVEN, STORE_TOO_SHORT], 5);
}

#[test]
fn a_lost_call_at_every_limit() {
    let mut rng = Rng::new(5);
    let (job, paths) = moving(grid(15, 17), limits::CARTS - 1, 100, limits::DEADLINE, &mut rng);
    let (job, list) = with_lost_call(job);
    assert_eq!((paths.len(), job.cells), (limits::CARTS - 1, limits::CELLS));
    assert_eq!(answer(&job, &Sheet::Cannot(list.clone())), (CANNOT, 0));
    try_list(&job, &list, &mut Tally::default(), &mut rng);
}
