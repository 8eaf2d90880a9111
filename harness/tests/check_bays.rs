//! Sheets of jobs with bays, with the answers told by hand. Tabs are shown as spaces.

use harness::compare::assert_sheets;
use harness::examples::{tabs, BAY, CLOSED, CLOSED_BY_NO_BAY};
use harness::model::answer::*;

/// Answer and line.
type Answer = (u8, usize);

/// Sheets with their answers for a job with bays, and for that job with lifts in their place.
fn assert_pairs(job: &str, rows: &[(&str, Answer, Answer)]) {
    let lifted = job.replace("BAY", "CALL");
    for &(sheet, with_bays, with_lifts) in rows {
        assert_sheets(job, &[(sheet, with_bays.0, with_bays.1)]);
        assert_sheets(&lifted, &[(sheet, with_lifts.0, with_lifts.1)]);
    }
}

#[test]
fn a_path_to_a_bay_has_its_step_and_one_cells() {
    assert_sheets(
        BAY.job,
        &[
            ("PLAN 2\nPATH 1 0 4 3 1\nPATH 0 1 0 1 2\n", PLAN, 0),
            ("PLAN 2\nPATH 1 0 4 3\nPATH 0 1 0 1 2\n", BAD_SHEET, 2),
            ("PLAN 2\nPATH 1 0 4 3 1 1\nPATH 0 1 0 1 2\n", BAD_SHEET, 2),
            ("PLAN 1\nPATH 0 1 0 1 2\n", BAD_SHEET, 1),
            ("PLAN 1\nPATH 1 0 4 3 1\n", BAD_SHEET, 1),
            ("PLAN 2\nPATH 1 2 4 3 1\nPATH 0 1 0 1 2\n", BAD_SHEET, 2),
        ],
    );
    assert_sheets(
        "FLOOR 2\nCART 0\nCART 1\nBAY 0 2\nCALL 1 0\n",
        &[
            ("PLAN 2\nPATH 1 1 1\nPATH 0 0 0 0 0\n", PLAN, 0),
            ("PLAN 2\nPATH 0 0 0 0 0\nPATH 1 1 1\n", WRONG_SHEET, 0),
            ("PLAN 2\nPATH 1 1 1\nPATH 0 0 0\n", BAD_SHEET, 3),
        ],
    );
}

#[test]
fn a_path_to_a_bay_stands_by_its_step() {
    // Equal ones by cell, a bay behind a call or before it.
    assert_sheets(
        "FLOOR 3\nCART 2\nCART 1\nCART 0\nBAY 2 1\nCALL 1 0\nCALL 0 1\n",
        &[
            ("PLAN 3\nPATH 1 1 1\nPATH 2 2 0 0\nPATH 0 0 2 2\n", PLAN, 0),
            ("PLAN 3\nPATH 1 1 1\nPATH 0 0 2 2\nPATH 2 2 0 0\n", WRONG_SHEET, 0),
            ("PLAN 3\nPATH 2 2 0 0\nPATH 1 1 1\nPATH 0 0 2 2\n", WRONG_SHEET, 0),
        ],
    );
    assert_sheets(
        "FLOOR 3\nCART 2\nCART 1\nCART 0\nCALL 2 1\nBAY 1 0\nBAY 0 1\n",
        &[
            ("PLAN 3\nPATH 1 1 1\nPATH 2 2 0 0\nPATH 0 0 2 2\n", PLAN, 0),
            ("PLAN 3\nPATH 1 1 1\nPATH 0 0 2 2\nPATH 2 2 0 0\n", WRONG_SHEET, 0),
        ],
    );
}

#[test]
fn a_bay_is_met_at_exactly_its_step() {
    assert_sheets(
        BAY.job,
        &[
            ("PLAN 2\nPATH 1 0 4 3 3\nPATH 0 1 0 1 2\n", WRONG_SHEET, 0),
            ("PLAN 2\nPATH 1 0 4 1 1\nPATH 0 1 0 1 2\n", WRONG_SHEET, 0),
            // Both on the bay's cell at its step.
            ("PLAN 2\nPATH 1 0 4 3 1\nPATH 0 1 0 0 1\n", WRONG_SHEET, 0),
            ("CANNOT 1\nCHOKE 1 1\n", WRONG_SHEET, 0),
            ("CANNOT 1\nCHOKE 1 2\n", WRONG_SHEET, 0),
        ],
    );
}

#[test]
fn a_parked_cart_is_in_the_way() {
    assert_pairs(
        CLOSED.job,
        &[
            ("PLAN 2\nPATH 1 0 1\nPATH 0 1 0 1 2\n", (WRONG_SHEET, 0), (PLAN, 0)),
            ("CANNOT 1\nCHOKE 1 0\n", (CANNOT, 0), (WRONG_SHEET, 0)),
            // In the form, on a closed cell: such a point stops nothing.
            ("CANNOT 1\nCHOKE 1 1\n", (WRONG_SHEET, 0), (WRONG_SHEET, 0)),
            ("CANNOT 1\nCHOKE 1 2\n", (WRONG_SHEET, 0), (WRONG_SHEET, 0)),
            ("CANNOT 1\nCHOKE 2 2\n", (WRONG_SHEET, 0), (WRONG_SHEET, 0)),
            ("CANNOT 0\n", (WRONG_SHEET, 0), (WRONG_SHEET, 0)),
            ("CANNOT 2\nCHOKE 1 0\nCHOKE 2 2\n", (BAD_SHEET, 1), (BAD_SHEET, 1)),
            ("CANNOT 1\nCHOKE 1 3\n", (BAD_SHEET, 2), (BAD_SHEET, 2)),
        ],
    );
    assert_eq!(tabs(&CLOSED.job.replace("BAY", "CALL")), tabs(CLOSED_BY_NO_BAY.job));
}

/// Whoever goes to cell 2 has to be on cell 1 at step 1 or later; the bay there is met at step 1.
const GATE: &str = "FLOOR 4\nTRACK 0 1\nTRACK 1 2\nTRACK 1 3\nCART 0\nCART 3\nBAY 1 1\nCALL 2 4\n";

#[test]
fn nobody_follows_a_cart_into_its_bay() {
    assert_pairs(
        GATE,
        &[
            // One step later, two steps later, and to stand there.
            ("PLAN 2\nPATH 1 0 3 1\nPATH 0 1 0 0 1 2 2\n", (WRONG_SHEET, 0), (PLAN, 0)),
            ("PLAN 2\nPATH 1 0 3 1\nPATH 0 1 0 0 0 1 2\n", (WRONG_SHEET, 0), (PLAN, 0)),
            ("PLAN 2\nPATH 1 0 3 1\nPATH 0 1 0 0 1 1 2\n", (WRONG_SHEET, 0), (PLAN, 0)),
            ("PLAN 2\nPATH 0 0 0 1\nPATH 1 1 3 3 1 2 2\n", (WRONG_SHEET, 0), (PLAN, 0)),
            // True only since the bay closes the cell.
            ("CANNOT 1\nCHOKE 1 1\n", (CANNOT, 0), (WRONG_SHEET, 0)),
            ("CANNOT 1\nCHOKE 1 2\n", (WRONG_SHEET, 0), (WRONG_SHEET, 0)),
        ],
    );
}

#[test]
fn points_on_closed_cells_are_in_the_form() {
    // Cell 4 cannot be come to, so that there is room for a point more.
    assert_pairs(
        "FLOOR 5\nTRACK 0 1\nTRACK 1 2\nCART 0\nCART 1\nCART 3\nBAY 1 0\nCALL 2 2\nCALL 4 2\n",
        &[
            ("CANNOT 1\nCHOKE 1 0\n", (CANNOT, 0), (WRONG_SHEET, 0)),
            ("CANNOT 2\nCHOKE 1 0\nCHOKE 1 1\n", (CANNOT, 0), (CANNOT, 0)),
            ("CANNOT 2\nCHOKE 1 0\nCHOKE 1 2\n", (CANNOT, 0), (WRONG_SHEET, 0)),
            ("CANNOT 2\nCHOKE 1 1\nCHOKE 1 2\n", (WRONG_SHEET, 0), (WRONG_SHEET, 0)),
            ("CANNOT 2\nCHOKE 1 1\nCHOKE 1 0\n", (WRONG_SHEET, 0), (WRONG_SHEET, 0)),
            ("CANNOT 2\nCHOKE 1 0\nCHOKE 1 0\n", (WRONG_SHEET, 0), (WRONG_SHEET, 0)),
            ("CANNOT 2\nCHOKE 1 0\nCHOKE 1 3\n", (BAD_SHEET, 3), (BAD_SHEET, 3)),
        ],
    );
}

#[test]
fn a_bays_step_can_be_the_last() {
    assert_sheets(
        "FLOOR 3\nCART 0\nCART 1\nBAY 0 3\nCALL 2 1\n",
        &[
            ("CANNOT 1\nCHOKE 0 3\n", CANNOT, 0),
            ("CANNOT 1\nCHOKE 0 0\n", CANNOT, 0),
            ("CANNOT 1\nCHOKE 0 4\n", BAD_SHEET, 2),
        ],
    );
}

#[test]
fn carts_that_trade_on_the_way_into_a_bay() {
    assert_sheets(
        "FLOOR 2\nTRACK 0 1\nCART 0\nCART 1\nBAY 1 1\nCALL 0 2\n",
        &[
            ("PLAN 2\nPATH 1 0 1 1\nPATH 0 1 0 0 0\n", PLAN, 0),
            ("PLAN 2\nPATH 0 0 0 1\nPATH 1 1 1 0 0\n", WRONG_SHEET, 0),
            ("PLAN 2\nPATH 1 0 1 1\nPATH 0 1 0 1 0\n", WRONG_SHEET, 0),
        ],
    );
}

#[test]
fn carts_that_follow_each_other_into_bays() {
    assert_sheets(
        "FLOOR 3\nTRACK 0 1\nTRACK 1 2\nTRACK 2 0\nCART 0\nCART 1\nCART 2\nBAY 0 1\nBAY 1 1\nBAY 2 1\n",
        &[
            ("PLAN 3\nPATH 2 0 2 0\nPATH 0 1 0 1\nPATH 1 2 1 2\n", PLAN, 0),
            ("PLAN 3\nPATH 0 0 0 0\nPATH 1 1 1 1\nPATH 2 2 2 2\n", PLAN, 0),
            ("PLAN 3\nPATH 1 0 1 0\nPATH 0 1 0 1\nPATH 2 2 2 2\n", WRONG_SHEET, 0),
        ],
    );
    // The far bay is met first, then the near one.
    assert_pairs(
        "FLOOR 3\nTRACK 0 1\nTRACK 1 2\nCART 0\nCART 1\nBAY 2 1\nBAY 1 2\n",
        &[("PLAN 2\nPATH 1 0 1 2\nPATH 0 1 0 0 1\n", (PLAN, 0), (PLAN, 0))],
    );
    // The other way round nobody comes to the far one.
    assert_pairs(
        "FLOOR 3\nTRACK 0 1\nTRACK 1 2\nCART 0\nCART 1\nBAY 1 1\nBAY 2 4\n",
        &[
            ("PLAN 2\nPATH 1 0 1 1\nPATH 0 1 0 0 1 2 2\n", (WRONG_SHEET, 0), (PLAN, 0)),
            ("PLAN 2\nPATH 0 0 0 1\nPATH 1 1 1 2 2 2 2\n", (PLAN, 0), (PLAN, 0)),
        ],
    );
}
