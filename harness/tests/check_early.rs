//! Paths that end before the deadline of their call, with the answers told by hand. Tabs are shown as spaces.

use harness::compare::{assert_sheets, library};
use harness::examples::{
    e_in_bay, tabs, zeros, A, BUFFER, D, E, EARLY, EARLY_BY_DEADLINES, EARLY_PLAN, F, F_TRADED, F_WAITING,
};
use harness::gen::early::{early_many_times, smallest};
use harness::gen::floors::{grid, loose, with_most_tracks};
use harness::gen::large::{moving_to_bays, put_off, standing};
use harness::gen::Rng;
use harness::model::answer::*;
use harness::model::job::Job;
use harness::model::limits::{self, store_least};
use harness::model::sheet::{Path, Sheet};

#[test]
fn a_path_to_a_lift_has_one_cell_at_least() {
    for count in 0..=260 {
        let expected = if (1..=256).contains(&count) { (PLAN, 0) } else { (BAD_SHEET, 2) };
        assert_eq!(library(&tabs(E.job), BUFFER, &zeros(count)), expected, "{count} zeros");
    }
    assert_sheets(
        D.job,
        &[
            ("PLAN 1\nPATH 0 0\n", BAD_SHEET, 2),
            ("PLAN 1\nPATH 0 0 0\n", PLAN, 0),
            ("PLAN 1\nPATH 0 0 0 0\n", BAD_SHEET, 2),
        ],
    );
}

#[test]
fn a_path_to_a_bay_has_all_its_cells() {
    for count in 0..=260 {
        let expected = if count == 256 { (PLAN, 0) } else { (BAD_SHEET, 2) };
        assert_eq!(library(&e_in_bay().0, BUFFER, &zeros(count)), expected, "{count} zeros");
    }
}

/// The call that a line names allows the cells, wherever the line stands.
#[test]
fn the_named_call_allows_the_cells() {
    assert_sheets(
        "FLOOR 2\nCART 0\nCART 1\nCALL 0 2\nCALL 1 0\n",
        &[
            ("PLAN 2\nPATH 1 1 1\nPATH 0 0 0\n", PLAN, 0),
            ("PLAN 2\nPATH 1 1 1\nPATH 0 0 0 0\n", PLAN, 0),
            ("PLAN 2\nPATH 0 0 0\nPATH 1 1 1\n", WRONG_SHEET, 0),
            ("PLAN 2\nPATH 1 1 1 1\nPATH 0 0 0\n", BAD_SHEET, 2),
            ("PLAN 2\nPATH 0 0 0\nPATH 1 1 1 1\n", BAD_SHEET, 3),
            ("PLAN 2\nPATH 1 1 1\nPATH 0 0 0 0 0 0\n", BAD_SHEET, 3),
        ],
    );
}

#[test]
fn a_path_ends_on_its_calls_cell() {
    assert_sheets(
        A.job,
        &[
            // In the form, and on another cell than call 0's.
            ("PLAN 2\nPATH 0 1 0 1\nPATH 1 0 1\n", WRONG_SHEET, 0),
            ("PLAN 2\nPATH 0 1 0\nPATH 1 0 1 2\n", WRONG_SHEET, 0),
            ("PLAN 2\nPATH 1 1 1\nPATH 0 0 0\n", WRONG_SHEET, 0),
            ("PLAN 2\nPATH 0 1 0 1\nPATH 1 0 1 2\n", PLAN, 0),
        ],
    );
    // It crosses the cell at steps 0 and 2, and may be lifted at each of them.
    assert_sheets(
        "FLOOR 2\nTRACK 0 1\nCART 0\nCALL 0 3\n",
        &[
            ("PLAN 1\nPATH 0 0 0\n", PLAN, 0),
            ("PLAN 1\nPATH 0 0 0 1\n", WRONG_SHEET, 0),
            ("PLAN 1\nPATH 0 0 0 1 0\n", PLAN, 0),
            ("PLAN 1\nPATH 0 0 0 1 0 1\n", WRONG_SHEET, 0),
            ("PLAN 1\nPATH 0 0 0 1 0 0\n", PLAN, 0),
            ("PLAN 1\nPATH 0 0 0 1 0 0 0\n", BAD_SHEET, 2),
        ],
    );
}

/// Cart 0 is lifted from cell 1, over which cart 1 goes to cell 2.
#[test]
fn a_lift_cell_is_free_one_step_after_an_early_lift() {
    let job = "FLOOR 4\nTRACK 0 1\nTRACK 1 2\nTRACK 1 3\nCART 0\nCART 3\nCALL 1 5\nCALL 2 5\n";
    assert_sheets(
        job,
        &[
            ("PLAN 2\nPATH 0 0 0 1\nPATH 1 1 3 3 1 2\n", PLAN, 0),
            ("PLAN 2\nPATH 0 0 0 1\nPATH 1 1 3 3 1 2 1 2\n", PLAN, 0),
            // Both on cell 1 at one step.
            ("PLAN 2\nPATH 0 0 0 1\nPATH 1 1 3 1 2\n", WRONG_SHEET, 0),
            ("PLAN 2\nPATH 0 0 0 1 1\nPATH 1 1 3 3 1 2\n", WRONG_SHEET, 0),
            ("PLAN 2\nPATH 0 0 0 1 1 1 1 1\nPATH 1 1 3 3 1 2\n", WRONG_SHEET, 0),
            // The other first.
            ("PLAN 2\nPATH 0 0 0 0 1\nPATH 1 1 3 1 2\n", PLAN, 0),
            ("PLAN 2\nPATH 0 0 0 0 1\nPATH 1 1 3 1 1 2\n", WRONG_SHEET, 0),
        ],
    );
    // As they are lifted one after the other from cells one behind the other.
    assert_sheets(
        "FLOOR 3\nTRACK 0 1\nTRACK 1 2\nCART 0\nCART 1\nCALL 1 9\nCALL 2 9\n",
        &[
            ("PLAN 2\nPATH 1 0 1\nPATH 0 1 0 1 2\n", PLAN, 0),
            ("PLAN 2\nPATH 1 0 1 1\nPATH 0 1 0 1 2\n", WRONG_SHEET, 0),
            ("PLAN 2\nPATH 0 0 0 1\nPATH 1 1 1 2\n", PLAN, 0),
        ],
    );
}

#[test]
fn an_early_lift_can_be_a_trade_as_well() {
    assert_sheets(
        "FLOOR 3\nTRACK 0 1\nTRACK 1 2\nCART 0\nCART 1\nCALL 1 5\nCALL 2 5\n",
        &[
            ("PLAN 2\nPATH 0 0 0 1\nPATH 1 1 1 0 1 2\n", WRONG_SHEET, 0),
            ("PLAN 2\nPATH 0 0 0 1\nPATH 1 1 1 2\n", PLAN, 0),
        ],
    );
    assert_sheets(
        F.job,
        &[
            (F_TRADED, WRONG_SHEET, 0),
            (F_WAITING, PLAN, 0),
            ("PLAN 2\nPATH 0 0 0\nPATH 1 1 1\n", PLAN, 0),
            ("PLAN 2\nPATH 0 0 0\nPATH 1 1 1 1\n", PLAN, 0),
            ("PLAN 2\nPATH 1 0 1 0\nPATH 0 1 0\n", WRONG_SHEET, 0),
        ],
    );
}

/// By deadline, then cell, whatever the steps of the lifts.
#[test]
fn the_order_of_paths_is_that_of_the_deadlines() {
    assert_sheets(
        "FLOOR 3\nCART 0\nCART 1\nCART 2\nCALL 0 2\nCALL 1 1\nCALL 2 2\n",
        &[
            ("PLAN 3\nPATH 1 1 1 1\nPATH 0 0 0 0 0\nPATH 2 2 2\n", PLAN, 0),
            ("PLAN 3\nPATH 1 1 1 1\nPATH 2 2 2\nPATH 0 0 0 0 0\n", WRONG_SHEET, 0),
            ("PLAN 3\nPATH 2 2 2\nPATH 1 1 1 1\nPATH 0 0 0 0 0\n", WRONG_SHEET, 0),
            ("PLAN 3\nPATH 0 0 0\nPATH 1 1 1\nPATH 2 2 2\n", WRONG_SHEET, 0),
            ("PLAN 3\nPATH 1 1 1\nPATH 0 0 0\nPATH 2 2 2\n", PLAN, 0),
        ],
    );
}

/// Cell 1 is closed after step 1, so cart 1 crosses it before; the lift on cell 2 takes it at step 2 or later.
#[test]
fn early_lifts_beyond_a_bay() {
    assert_sheets(
        "FLOOR 4\nTRACK 0 1\nTRACK 1 2\nTRACK 1 3\nCART 0\nCART 1\nBAY 1 1\nCALL 2 4\n",
        &[
            ("PLAN 2\nPATH 0 0 0 1\nPATH 1 1 1 2\n", PLAN, 0),
            ("PLAN 2\nPATH 0 0 0 1\nPATH 1 1 1 2 2 2 2\n", PLAN, 0),
            ("PLAN 2\nPATH 0 0 0 1\nPATH 1 1 1 3 1 2\n", WRONG_SHEET, 0),
            ("PLAN 2\nPATH 1 0 1 1\nPATH 0 1 0 0 1 2\n", WRONG_SHEET, 0),
            ("PLAN 2\nPATH 0 0 0 1 1\nPATH 1 1 1 2\n", BAD_SHEET, 2),
            ("PLAN 2\nPATH 0 0 0\nPATH 1 1 1 2\n", BAD_SHEET, 2),
        ],
    );
}

#[test]
fn the_job_that_only_an_early_lift_serves() {
    assert_sheets(
        EARLY.job,
        &[
            (EARLY_PLAN, PLAN, 0),
            // Cart 2 is lifted from cell 4 at step 0, so that cart 1 may cross it.
            ("PLAN 4\nPATH 0 1 5 0\nPATH 2 3 4\nPATH 1 0 1 4 2\nPATH 3 2 0 2 3\n", PLAN, 0),
            // They wait for the deadline.
            ("PLAN 4\nPATH 3 1 0 0\nPATH 1 3 1 4\nPATH 0 0 5 0 2\nPATH 2 2 4 2 3\n", WRONG_SHEET, 0),
            ("PLAN 4\nPATH 0 1 5 0\nPATH 2 3 4 4\nPATH 1 0 1 4 2\nPATH 3 2 0 2 3\n", WRONG_SHEET, 0),
            (EARLY_BY_DEADLINES, WRONG_SHEET, 0),
        ],
    );
}

fn answer(job: &Job, paths: Vec<Path>) -> (u8, usize) {
    library(&job.text(), store_least(job), &Sheet::of_paths(paths).text())
}

/// The shortest plan that there is for so many carts, and the longest.
#[test]
fn sixty_four_carts_lifted_at_any_step() {
    let (job, paths) = standing(loose(limits::CELLS), limits::CARTS, limits::DEADLINE);
    for length in [1, 2, 128, 255, 256] {
        let mut paths = paths.clone();
        paths.iter_mut().for_each(|path| path.cells.truncate(length));
        assert_eq!(answer(&job, paths), (PLAN, 0), "{length} cells each");
    }
    let mut without = paths.clone();
    without[63].cells.clear();
    assert_eq!(answer(&job, without), (BAD_SHEET, 65));
    let mut longer = paths;
    longer[63].cells.push(255);
    assert_eq!(answer(&job, longer), (BAD_SHEET, 65));
}

#[test]
fn early_lifts_at_every_limit() {
    let mut rng = Rng::new(1);
    for times in [1, 8, 16] {
        let (job, paths) = early_many_times(times, 12, 12, &mut rng);
        assert_eq!(answer(&job, paths), (PLAN, 0));
    }
    let floor = with_most_tracks(grid(16, 16), &mut rng);
    let (job, paths) = put_off(moving_to_bays(floor, limits::CARTS, 100, 200, &mut rng), limits::DEADLINE, &mut rng);
    assert_eq!(answer(&job, paths), (PLAN, 0));
    let (job, paths) = smallest();
    assert_eq!(answer(&job, paths), (PLAN, 0));
}
