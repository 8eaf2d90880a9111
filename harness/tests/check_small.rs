//! Many small jobs, with sheets of every kind: the answer and every byte as the model says.

use harness::compare::library_on;
use harness::gen::cases::{self, Case, Kind, Known, KINDS};
use harness::gen::early;
use harness::gen::small::{small, small_at_one_step, small_with_bays};
use harness::gen::spares::small_with_spares;
use harness::gen::Rng;
use harness::model::answer::*;
use harness::model::job::Job;
use harness::model::sheet::Sheet;
use harness::tally::Tally;

/// Tries a kind of cases on so many jobs, half of which have bays.
fn try_out(kind: Kind, seed: u64, jobs: usize) -> Tally {
    try_on(small, kind, seed, jobs)
}

fn try_on(make: fn(&mut Rng) -> Job, kind: Kind, seed: u64, jobs: usize) -> Tally {
    let mut rng = Rng::new(seed);
    let mut tally = Tally::default();
    for _ in 0..jobs {
        let known = Known::of(make(&mut rng));
        for case in kind(&known, &mut rng) {
            tally.count(library_on(&case, &mut rng).0);
        }
    }
    tally
}

#[test]
fn right_sheets() {
    let tally = try_out(cases::right_sheets, 1, 3000);
    tally.assert_only(&[PLAN, CANNOT]);
    tally.assert_each(&[PLAN, CANNOT], 2000);
    assert!(tally.total() >= 12_000);
}

#[test]
fn wrong_plans() {
    let tally = try_out(cases::wrong_plans, 2, 3000);
    tally.assert_only(&[PLAN, WRONG_SHEET]);
    tally.assert_each(&[PLAN, WRONG_SHEET], 2000);
    assert!(tally.total() >= 20_000);
}

#[test]
fn other_orders() {
    let tally = try_on(small_at_one_step, cases::other_orders, 11, 3000);
    tally.assert_only(&[PLAN, WRONG_SHEET]);
    tally.assert_each(&[PLAN, WRONG_SHEET], 500);
    assert!(tally.total() >= 5_000);
}

/// The sheets that the search of all plans and lists finds, those that lead over closed cells, and many beside them.
#[test]
fn sheets_of_30_000_jobs_with_bays() {
    let right = try_on(small_with_bays, cases::right_sheets, 8, 10_000);
    right.assert_only(&[PLAN, CANNOT]);
    right.assert_each(&[PLAN, CANNOT], 20_000);
    let plans = try_on(small_with_bays, cases::wrong_plans, 9, 10_000);
    plans.assert_each(&[PLAN, WRONG_SHEET], 20_000);
    let lists = try_on(small_with_bays, cases::choke_lists, 10, 10_000);
    lists.assert_each(&[CANNOT, WRONG_SHEET], 20_000);
}

#[test]
fn spare_lines() {
    let tally = try_on(small_with_spares, cases::spare_carts, 15, 2000);
    tally.assert_only(&[PLAN, BAD_SHEET, WRONG_SHEET]);
    tally.assert_each(&[PLAN, BAD_SHEET, WRONG_SHEET], 5000);
}

/// The sheets that the search of all plans and lists finds, and many beside them.
#[test]
fn sheets_of_10_000_jobs_with_spare_carts() {
    let right = try_on(small_with_spares, cases::right_sheets, 16, 4000);
    right.assert_only(&[PLAN, CANNOT]);
    right.assert_each(&[PLAN, CANNOT], 2000);
    let plans = try_on(small_with_spares, cases::wrong_plans, 17, 3000);
    plans.assert_each(&[PLAN, WRONG_SHEET], 5000);
    let lists = try_on(small_with_spares, cases::choke_lists, 18, 3000);
    lists.assert_each(&[CANNOT, WRONG_SHEET], 1000);
}

#[test]
fn choke_lists() {
    let tally = try_out(cases::choke_lists, 3, 3000);
    tally.assert_only(&[CANNOT, BAD_SHEET, WRONG_SHEET]);
    tally.assert_each(&[CANNOT, BAD_SHEET, WRONG_SHEET], 2000);
    assert!(tally.total() >= 20_000);
}

#[test]
fn doubled_points() {
    let tally = try_out(cases::doubled_points, 7, 3000);
    tally.assert_only(&[WRONG_SHEET]);
    assert!(tally.total() >= 5_000);
}

#[test]
fn other_lengths() {
    let tally = try_out(cases::other_lengths, 12, 3000);
    tally.assert_only(&[PLAN, BAD_SHEET, WRONG_SHEET]);
    tally.assert_each(&[PLAN, BAD_SHEET, WRONG_SHEET], 2000);
    assert!(tally.total() >= 20_000);
}

#[test]
fn whole_calls() {
    let tally = try_out(cases::whole_calls, 13, 3000);
    tally.assert_only(&[CANNOT, BAD_SHEET, WRONG_SHEET]);
    tally.assert_each(&[CANNOT, BAD_SHEET, WRONG_SHEET], 2000);
    assert!(tally.total() >= 20_000);
}

/// Plans that need early lifts and lists that need whole calls, in every kind that needs no walks written out.
#[test]
fn sheets_of_jobs_about_early_lifts() {
    let mut rng = Rng::new(14);
    let mut tally = Tally::default();
    for _ in 0..1000 {
        let (job, paths) = early::early(&mut rng);
        let (stuck, list) = early::whole_calls(5, &mut rng);
        for known in [Known::by_sheet(job, Sheet::of_paths(paths)), Known::by_sheet(stuck, Sheet::Cannot(list))] {
            for case in KINDS.iter().flat_map(|kind| kind(&known, &mut rng)).collect::<Vec<Case>>() {
                tally.count(library_on(&case, &mut rng).0);
            }
        }
    }
    tally.assert_each(&[PLAN, CANNOT, BAD_SHEET, WRONG_SHEET], 10_000);
}

#[test]
fn damaged_sheets() {
    let tally = try_out(cases::damaged_sheets, 4, 3000);
    tally.assert_only(&[PLAN, CANNOT, BAD_SHEET, WRONG_SHEET]);
    tally.assert_each(&[PLAN, CANNOT, BAD_SHEET, WRONG_SHEET], 100);
    assert!(tally.total() >= 20_000);
}

#[test]
fn damaged_jobs() {
    let tally = try_out(cases::damaged_jobs, 5, 3000);
    tally.assert_each(&[PLAN, CANNOT, BAD_LINE, NO_NUMBER, OUT_OF_RANGE, DOUBLED, UNEVEN], 500);
    tally.assert_each(&[BAD_SHEET, WRONG_SHEET], 200);
    assert!(tally.total() >= 20_000);
}

#[test]
fn stores() {
    let tally = try_out(cases::stores, 6, 3000);
    tally.assert_only(&[PLAN, CANNOT, STORE_TOO_SHORT]);
    tally.assert_each(&[PLAN, CANNOT, STORE_TOO_SHORT], 1000);
    assert!(tally.total() >= 12_000);
}
