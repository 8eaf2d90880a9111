//! Sheets of jobs with spare carts, with the answers told by hand. Tabs are shown as spaces.

use harness::compare::{assert_sheets, library};
use harness::examples::spares::{APART, D_WITHOUT_CALL, FULL, GATE, NO_CALLS, NO_WAY, SPARES};
use harness::examples::{tabs, BUFFER};
use harness::model::answer::*;

#[test]
fn the_examples_pass() {
    for example in SPARES {
        let found = library(&tabs(example.job), BUFFER, &tabs(example.sheet));
        assert_eq!(found, (example.answer, 0), "{}", example.name);
    }
}

#[test]
fn job_d_without_its_call() {
    assert_sheets(
        D_WITHOUT_CALL.job,
        &[
            ("PLAN 0\nSPARE 0 0\n", PLAN, 0),
            ("PLAN 0\n", BAD_SHEET, 2),
            ("PLAN 0\nSPARE 0\n", BAD_SHEET, 2),
            ("PLAN 0\nSPARE 0 0 0\n", BAD_SHEET, 2),
            ("PLAN 0\nSPARE 0 0", BAD_SHEET, 2),
            ("PLAN 0\nSPARE 1 0\n", BAD_SHEET, 2),
            ("PLAN 0\nSPARE 0 1\n", BAD_SHEET, 2),
            ("PLAN 0\nPATH 0 0\n", BAD_SHEET, 2),
            ("PLAN 0\nPATH 0 0 0\n", BAD_SHEET, 2),
            ("PLAN 0\nSPARE 0 0\nSPARE 0 0\n", BAD_SHEET, 3),
            ("PLAN 0\nSPARE 0 0\n\n", BAD_SHEET, 3),
            ("PLAN 1\nSPARE 0 0\n", BAD_SHEET, 1),
            ("PLAN 1\nPATH 0 0 0\n", BAD_SHEET, 1),
            ("CANNOT 0\n", BAD_SHEET, 1),
        ],
    );
    let (job, sheet) = (tabs(D_WITHOUT_CALL.job), tabs(D_WITHOUT_CALL.sheet));
    assert_eq!(library(&job, 4128, &sheet), (PLAN, 0));
    assert_eq!(library(&job, 4127, &sheet), (STORE_TOO_SHORT, 0));
}

/// The way to the bay on cell 2 leads over cell 1, where cart 1 stands; it can go aside to cell 3.
const CROSSING: &str = "FLOOR 4\nTRACK 0 1\nTRACK 1 2\nTRACK 1 3\nCART 0\nCART 1\nBAY 2 2\n";

#[test]
fn the_form_of_a_spare_line() {
    assert_sheets(
        CROSSING,
        &[
            ("PLAN 1\nPATH 0 0 0 1 2\nSPARE 1 1 3 3\n", PLAN, 0),
            // H cells and H + 2, one cell, none.
            ("PLAN 1\nPATH 0 0 0 1 2\nSPARE 1 1 3\n", BAD_SHEET, 3),
            ("PLAN 1\nPATH 0 0 0 1 2\nSPARE 1 1 3 3 3\n", BAD_SHEET, 3),
            ("PLAN 1\nPATH 0 0 0 1 2\nSPARE 1 1\n", BAD_SHEET, 3),
            ("PLAN 1\nPATH 0 0 0 1 2\nSPARE 1\n", BAD_SHEET, 3),
            ("PLAN 1\nPATH 0 0 0 1 2\nSPARE\n", BAD_SHEET, 3),
            // Unknown carts and cells, and what is no number.
            ("PLAN 1\nPATH 0 0 0 1 2\nSPARE 2 1 3 3\n", BAD_SHEET, 3),
            ("PLAN 1\nPATH 0 0 0 1 2\nSPARE 1 1 3 4\n", BAD_SHEET, 3),
            ("PLAN 1\nPATH 0 0 0 1 2\nSPARE 1 4 3 3\n", BAD_SHEET, 3),
            ("PLAN 1\nPATH 0 0 0 1 2\nSPARE 01 1 3 3\n", BAD_SHEET, 3),
            ("PLAN 1\nPATH 0 0 0 1 2\nSPARE 1e0 1 3 3\n", BAD_SHEET, 3),
            ("PLAN 1\nPATH 0 0 0 1 2\nSPARE 1 1 3 3e0\n", BAD_SHEET, 3),
            ("PLAN 1\nPATH 0 0 0 1 2\nSPARE 1 1  3\n", BAD_SHEET, 3),
            ("PLAN 1\nPATH 0 0 0 1 2\nSPARE 1 1 3 3 \n", BAD_SHEET, 3),
            ("PLAN 1\nPATH 0 0 0 1 2\nSPARE 1 1 3 3\r\n", BAD_SHEET, 3),
            ("PLAN 1\nPATH 0 0 0 1 2\nSPARE 1 1 3 3", BAD_SHEET, 3),
            // Another word.
            ("PLAN 1\nPATH 0 0 0 1 2\nPATH 1 1 3 3\n", BAD_SHEET, 3),
            ("PLAN 1\nPATH 0 0 0 1 2\nPATH 1 0 1 1 2\n", BAD_SHEET, 3),
            ("PLAN 1\nPATH 0 0 0 1 2\nSPARES 1 1 3 3\n", BAD_SHEET, 3),
            ("PLAN 1\nPATH 0 0 0 1 2\nSPAR 1 1 3 3\n", BAD_SHEET, 3),
            ("PLAN 1\nPATH 0 0 0 1 2\nspare 1 1 3 3\n", BAD_SHEET, 3),
            ("PLAN 1\nPATH 0 0 0 1 2\nCHOKE 1 1\n", BAD_SHEET, 3),
            ("PLAN 1\nSPARE 0 0 1 2\nSPARE 1 1 3 3\n", BAD_SHEET, 2),
            ("PLAN 1\nSPARE 1 1 3 3\nPATH 0 0 0 1 2\n", BAD_SHEET, 2),
            // Missing, and too many.
            ("PLAN 1\nPATH 0 0 0 1 2\n", BAD_SHEET, 3),
            ("PLAN 1\nSPARE 1 1 3 3\n", BAD_SHEET, 2),
            ("PLAN 1\nPATH 0 0 0 1 2\n\n", BAD_SHEET, 3),
            ("PLAN 1\nPATH 0 0 0 1 2\nSPARE 1 1 3 3\nSPARE 1 1 3 3\n", BAD_SHEET, 4),
            ("PLAN 1\nPATH 0 0 0 1 2\nSPARE 1 1 3 3\nPATH 0 0 0 1 2\n", BAD_SHEET, 4),
            ("PLAN 1\nPATH 0 0 0 1 2\nSPARE 1 1 3 3\n\n", BAD_SHEET, 4),
            ("PLAN 1\nPATH 0 0 0 1 2\nSPARE 1 1 3 3\nx", BAD_SHEET, 4),
            // PLAN counts calls.
            ("PLAN 2\nPATH 0 0 0 1 2\nSPARE 1 1 3 3\n", BAD_SHEET, 1),
            ("PLAN 2\nPATH 0 0 0 1 2\nPATH 1 0 1 1 2\n", BAD_SHEET, 1),
            ("PLAN 0\nSPARE 0 0 1 2\nSPARE 1 1 3 3\n", BAD_SHEET, 1),
            // What is wrong in the form comes behind what is out of it.
            ("PLAN 1\nPATH 0 0 0 0 2\nSPARE 1 1 3\n", BAD_SHEET, 3),
            ("PLAN 1\nPATH 0 0 0 1 2\nSPARE 0 0 0 0\nx\n", BAD_SHEET, 4),
        ],
    );
}

#[test]
fn spare_carts_make_way_or_take_over() {
    assert_sheets(
        CROSSING,
        &[
            ("PLAN 1\nPATH 0 0 0 1 2\nSPARE 1 1 3 3\n", PLAN, 0),
            // Back again behind cart 0, and cart 1 goes itself, with cart 0 standing or behind it.
            ("PLAN 1\nPATH 0 0 0 1 2\nSPARE 1 1 3 1\n", PLAN, 0),
            ("PLAN 1\nPATH 1 0 1 1 2\nSPARE 0 0 0 0\n", PLAN, 0),
            ("PLAN 1\nPATH 1 0 1 1 2\nSPARE 0 0 0 1\n", PLAN, 0),
            ("PLAN 1\nPATH 1 0 1 3 1\nSPARE 0 0 1 0\n", WRONG_SHEET, 0),
            // It shares a cell: where it stands, on the way, at the last step.
            ("PLAN 1\nPATH 0 0 0 1 2\nSPARE 1 1 1 1\n", WRONG_SHEET, 0),
            ("PLAN 1\nPATH 0 0 0 1 2\nSPARE 1 1 1 3\n", WRONG_SHEET, 0),
            ("PLAN 1\nPATH 0 0 0 1 2\nSPARE 1 1 2 2\n", WRONG_SHEET, 0),
            // It trades, at the first step and at the last.
            ("PLAN 1\nPATH 0 0 0 1 2\nSPARE 1 1 0 0\n", WRONG_SHEET, 0),
            ("PLAN 1\nPATH 0 0 0 1 2\nSPARE 1 1 2 1\n", WRONG_SHEET, 0),
            // It jumps, and starts elsewhere.
            ("PLAN 1\nPATH 0 0 0 1 2\nSPARE 1 1 3 0\n", WRONG_SHEET, 0),
            ("PLAN 1\nPATH 0 0 0 1 2\nSPARE 1 3 3 3\n", WRONG_SHEET, 0),
            // The cart that has the path.
            ("PLAN 1\nPATH 0 0 0 1 2\nSPARE 0 0 1 2\n", WRONG_SHEET, 0),
            ("PLAN 1\nPATH 0 0 0 1 2\nSPARE 0 0 0 0\n", WRONG_SHEET, 0),
            ("CANNOT 0\n", WRONG_SHEET, 0),
            ("CANNOT 1\nCHOKE 2 2\n", BAD_SHEET, 1),
        ],
    );
}

#[test]
fn spare_carts_go_by_number() {
    assert_sheets(
        APART.job,
        &[
            ("PLAN 1\nPATH 1 0 0 1\nSPARE 0 3 3\nSPARE 2 2 2\n", PLAN, 0),
            ("PLAN 1\nPATH 1 0 0 1\nSPARE 2 2 2\nSPARE 0 3 3\n", WRONG_SHEET, 0),
            ("PLAN 1\nPATH 1 0 0 1\nSPARE 0 3 3\nSPARE 0 3 3\n", WRONG_SHEET, 0),
            ("PLAN 1\nPATH 1 0 0 1\nSPARE 2 2 2\nSPARE 2 2 2\n", WRONG_SHEET, 0),
            ("PLAN 1\nPATH 1 0 0 1\nSPARE 0 3 3\nSPARE 1 0 0\n", WRONG_SHEET, 0),
            ("PLAN 1\nPATH 1 0 0 1\nSPARE 0 2 2\nSPARE 2 3 3\n", WRONG_SHEET, 0),
            ("PLAN 1\nPATH 1 0 0 1\nSPARE 0 3 3\n", BAD_SHEET, 4),
            ("PLAN 1\nPATH 1 0 0 1\n", BAD_SHEET, 3),
            ("PLAN 1\nPATH 1 0 0 1\nSPARE 2 2 2\nSPARE 0 3\n", BAD_SHEET, 4),
            ("PLAN 1\nPATH 1 0 0 1\nSPARE 2 2\nSPARE 0 3\n", BAD_SHEET, 3),
            ("PLAN 1\nPATH 1 0 0 1\nSPARE 0 3 3\nSPARE 2 2 2\nSPARE 2 2 2\n", BAD_SHEET, 5),
        ],
    );
    assert_sheets(
        NO_CALLS.job,
        &[
            ("PLAN 0\nSPARE 0 2\nSPARE 1 0\n", PLAN, 0),
            ("PLAN 0\nSPARE 1 0\nSPARE 0 2\n", WRONG_SHEET, 0),
            ("PLAN 0\nSPARE 0 2\nSPARE 1 1\n", WRONG_SHEET, 0),
            ("PLAN 0\nSPARE 0 2\n", BAD_SHEET, 3),
            ("PLAN 0\nSPARE 0 2 2\nSPARE 1 0\n", BAD_SHEET, 2),
            ("PLAN 2\nSPARE 0 2\nSPARE 1 0\n", BAD_SHEET, 1),
            ("CANNOT 0\n", BAD_SHEET, 1),
        ],
    );
}

#[test]
fn spare_carts_among_themselves() {
    assert_sheets(
        "FLOOR 4\nTRACK 0 1\nTRACK 1 2\nCART 0\nCART 1\nCART 2\nCART 3\nCALL 3 1\n",
        &[
            ("PLAN 1\nPATH 3 0 3\nSPARE 0 0 0\nSPARE 1 1 1\nSPARE 2 2 2\n", PLAN, 0),
            ("PLAN 1\nPATH 3 0 3\nSPARE 0 0 1\nSPARE 1 1 0\nSPARE 2 2 2\n", WRONG_SHEET, 0),
            ("PLAN 1\nPATH 3 0 3\nSPARE 0 0 1\nSPARE 1 1 1\nSPARE 2 2 2\n", WRONG_SHEET, 0),
            ("PLAN 1\nPATH 3 0 3\nSPARE 0 0 0\nSPARE 1 1 2\nSPARE 2 2 1\n", WRONG_SHEET, 0),
            ("PLAN 1\nPATH 3 0 3\nSPARE 0 0 1\nSPARE 1 1 2\nSPARE 2 2 2\n", WRONG_SHEET, 0),
        ],
    );
    // A ring of three turns, whoever of them is spare.
    assert_sheets(
        "FLOOR 3\nTRACK 0 1\nTRACK 1 2\nTRACK 2 0\nCART 0\nCART 1\nCART 2\nBAY 0 1\n",
        &[
            ("PLAN 1\nPATH 2 0 2 0\nSPARE 0 0 1\nSPARE 1 1 2\n", PLAN, 0),
            ("PLAN 1\nPATH 1 0 1 0\nSPARE 0 0 2\nSPARE 2 2 1\n", PLAN, 0),
            ("PLAN 1\nPATH 0 0 0 0\nSPARE 1 1 1\nSPARE 2 2 2\n", PLAN, 0),
            ("PLAN 1\nPATH 0 0 0 0\nSPARE 1 1 2\nSPARE 2 2 1\n", WRONG_SHEET, 0),
            ("PLAN 1\nPATH 1 0 1 0\nSPARE 0 0 1\nSPARE 2 2 2\n", WRONG_SHEET, 0),
        ],
    );
}

/// Cart 2 stands on the bay's cell, and can park there itself.
const IN_A_BAY: &str = "FLOOR 3\nTRACK 0 1\nTRACK 1 2\nCART 0\nCART 2\nCART 1\nBAY 1 1\nCALL 0 2\n";

#[test]
fn spare_carts_leave_a_bay() {
    assert_sheets(
        IN_A_BAY,
        &[
            // On the cell of a lift, from which cart 0 was lifted at step 0: it may end there.
            ("PLAN 2\nPATH 1 0 2 1\nPATH 0 1 0\nSPARE 2 1 0 0\n", PLAN, 0),
            ("PLAN 2\nPATH 1 0 2 1\nPATH 0 1 0\nSPARE 2 1 0 1\n", WRONG_SHEET, 0),
            ("PLAN 2\nPATH 1 0 2 1\nPATH 0 1 0\nSPARE 2 1 1 1\n", WRONG_SHEET, 0),
            ("PLAN 2\nPATH 1 0 2 1\nPATH 0 1 0\nSPARE 2 1 2 2\n", WRONG_SHEET, 0),
            ("PLAN 2\nPATH 1 0 2 1\nPATH 0 1 0 0\nSPARE 2 1 0 0\n", WRONG_SHEET, 0),
            ("PLAN 2\nPATH 2 0 1 1\nPATH 0 1 0 0 0\nSPARE 1 2 2 2\n", PLAN, 0),
            ("PLAN 2\nPATH 2 0 1 1\nPATH 0 1 0 0 0\nSPARE 1 2 2 1\n", WRONG_SHEET, 0),
            ("PLAN 2\nPATH 2 0 1 1\nPATH 0 1 0\nSPARE 1 2 2 2\n", PLAN, 0),
            // At the bay's very step its cell is open, and not free.
            ("PLAN 2\nPATH 2 0 1 1\nPATH 0 1 0\nSPARE 1 2 1 2\n", WRONG_SHEET, 0),
        ],
    );
    assert_sheets(
        FULL.job,
        &[
            (FULL.sheet, PLAN, 0),
            ("PLAN 1\nPATH 1 0 1 0\nSPARE 0 0 1\n", WRONG_SHEET, 0),
            ("PLAN 1\nPATH 1 0 1 0\nSPARE 0 0 0\n", WRONG_SHEET, 0),
        ],
    );
}

/// Whatever the paths have, spare carts go on to the largest deadline.
#[test]
fn spare_carts_stay_to_the_last_step() {
    assert_sheets(
        "FLOOR 2\nTRACK 0 1\nCART 0\nCART 1\nCALL 0 3\n",
        &[
            ("PLAN 1\nPATH 0 0 0\nSPARE 1 1 1 1 1\n", PLAN, 0),
            ("PLAN 1\nPATH 0 0 0\nSPARE 1 1 0 1 0\n", PLAN, 0),
            ("PLAN 1\nPATH 0 0 0 0\nSPARE 1 1 1 0 0\n", PLAN, 0),
            ("PLAN 1\nPATH 0 0 0 0\nSPARE 1 1 0 0 0\n", WRONG_SHEET, 0),
            ("PLAN 1\nPATH 1 0 1 0\nSPARE 0 0 1 1 1\n", WRONG_SHEET, 0),
            ("PLAN 1\nPATH 0 0 0\nSPARE 1 1\n", BAD_SHEET, 3),
            ("PLAN 1\nPATH 0 0 0\nSPARE 1 1 1 1\n", BAD_SHEET, 3),
        ],
    );
    // The largest deadline is neither the first nor the last, and a bay's.
    assert_sheets(
        "FLOOR 4\nCART 0\nCART 1\nCART 2\nCART 3\nCALL 0 0\nBAY 1 2\nCALL 2 1\n",
        &[
            ("PLAN 3\nPATH 0 0 0\nPATH 2 2 2\nPATH 1 1 1 1 1\nSPARE 3 3 3 3\n", PLAN, 0),
            ("PLAN 3\nPATH 0 0 0\nPATH 2 2 2\nPATH 1 1 1 1 1\nSPARE 3 3 3\n", BAD_SHEET, 5),
            ("PLAN 3\nPATH 0 0 0\nPATH 2 2 2\nPATH 1 1 1 1 1\nSPARE 3 3\n", BAD_SHEET, 5),
        ],
    );
}

#[test]
fn choke_lists_of_jobs_with_spare_carts() {
    assert_sheets(
        GATE.job,
        &[
            ("CANNOT 1\nCHOKE 3 1\n", CANNOT, 0),
            ("CANNOT 0\n", WRONG_SHEET, 0),
            ("CANNOT 1\nCHOKE 3 2\n", WRONG_SHEET, 0),
            ("CANNOT 1\nCHOKE 0 0\n", WRONG_SHEET, 0),
            // Fewer than carts, and not fewer than calls.
            ("CANNOT 2\nCHOKE 4 2\nCHOKE 5 2\n", BAD_SHEET, 1),
            ("CANNOT 1\nCHOKE 3 1\nSPARE 0 0 0 0\n", BAD_SHEET, 3),
        ],
    );
    assert_sheets(NO_WAY.job, &[("CANNOT 0\n", CANNOT, 0), ("CANNOT 1\nCHOKE 2 1\n", BAD_SHEET, 1)]);
    // Every cart counts, also those that come after as many as there are calls.
    assert_sheets(
        "FLOOR 3\nTRACK 1 2\nCART 0\nCART 2\nCALL 1 1\n",
        &[("CANNOT 0\n", WRONG_SHEET, 0), ("PLAN 1\nPATH 1 0 2 1\nSPARE 0 0 0\n", PLAN, 0)],
    );
    // Three carts, two calls, one of them out of reach.
    assert_sheets(
        "FLOOR 5\nTRACK 0 1\nTRACK 1 2\nCART 0\nCART 2\nCART 3\nCALL 1 2\nCALL 4 2\n",
        &[
            ("CANNOT 1\nCHOKE CALL 0\n", CANNOT, 0),
            ("CANNOT 1\nCHOKE 1 1\n", WRONG_SHEET, 0),
            ("CANNOT 1\nCHOKE 1 2\n", WRONG_SHEET, 0),
            ("CANNOT 1\nCHOKE CALL 1\n", WRONG_SHEET, 0),
            ("CANNOT 2\nCHOKE CALL 0\nCHOKE CALL 1\n", BAD_SHEET, 1),
        ],
    );
}
