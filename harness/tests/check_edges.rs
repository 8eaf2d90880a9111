//! The edges of sheets and stores, with the answers told by hand. Tabs are shown as spaces.

use harness::compare::{assert_sheets, library};
use harness::examples::{tabs, A, A_BY_CALL, BUFFER};
use harness::gen::Rng;
use harness::model::answer::*;
use harness::model::limits;

#[test]
fn a_job_without_calls() {
    for job in ["FLOOR 1\n", "FLOOR 3\nTRACK 0 1\nTRACK 1 2\n"] {
        assert_sheets(
            job,
            &[
                ("PLAN 0\n", PLAN, 0),
                ("CANNOT 0\n", BAD_SHEET, 1),
                ("CANNOT 1\nCHOKE 0 0\n", BAD_SHEET, 1),
                ("PLAN 1\n", BAD_SHEET, 1),
                ("PLAN 00\n", BAD_SHEET, 1),
                ("PLAN 0", BAD_SHEET, 1),
                ("", BAD_SHEET, 1),
                ("PLAN 0\n\n", BAD_SHEET, 2),
                ("PLAN 0\nx", BAD_SHEET, 2),
            ],
        );
    }
}

#[test]
fn the_form_of_a_plan() {
    assert_sheets(
        A.job,
        &[
            ("", BAD_SHEET, 1),
            ("\n", BAD_SHEET, 1),
            ("PLAN\n", BAD_SHEET, 1),
            ("PLAN 2", BAD_SHEET, 1),
            ("PLAN 2 \nPATH 0 1 0 1\nPATH 1 0 1 2\n", BAD_SHEET, 1),
            ("PLAN 02\nPATH 0 1 0 1\nPATH 1 0 1 2\n", BAD_SHEET, 1),
            ("plan 2\nPATH 0 1 0 1\nPATH 1 0 1 2\n", BAD_SHEET, 1),
            ("PATH 2\nPATH 0 1 0 1\nPATH 1 0 1 2\n", BAD_SHEET, 1),
            ("PLAN 1\nPATH 0 1 0 1\n", BAD_SHEET, 1),
            ("PLAN 3\n", BAD_SHEET, 1),
            ("PLAN 3\nPATH 0 1 0 1\nPATH 1 0 1 2\n", BAD_SHEET, 1),
            ("PLAN 2\n", BAD_SHEET, 2),
            ("PLAN 2\n\nPATH 0 1 0 1\nPATH 1 0 1 2\n", BAD_SHEET, 2),
            ("PLAN 2\nPATH\nPATH 1 0 1 2\n", BAD_SHEET, 2),
            ("PLAN 2\nPATH 0\nPATH 1 0 1 2\n", BAD_SHEET, 2),
            ("PLAN 2\nPATH 0 1\nPATH 1 0 1 2\n", BAD_SHEET, 2),
            ("PLAN 2\nPATH 0 1 0 1 1\nPATH 1 0 1 2\n", BAD_SHEET, 2),
            ("PLAN 2\nPATH 0 1 0 1 \nPATH 1 0 1 2\n", BAD_SHEET, 2),
            ("PLAN 2\nPATH 0 1  1\nPATH 1 0 1 2\n", BAD_SHEET, 2),
            ("PLAN 2\nPATH 2 1 0 1\nPATH 1 0 1 2\n", BAD_SHEET, 2),
            ("PLAN 2\nPATH 0 2 0 1\nPATH 1 0 1 2\n", BAD_SHEET, 2),
            ("PLAN 2\nPATH 0 1 0 3\nPATH 1 0 1 2\n", BAD_SHEET, 2),
            ("PLAN 2\nPATH 00 1 0 1\nPATH 1 0 1 2\n", BAD_SHEET, 2),
            ("PLAN 2\nPATH 0 1 0 1\r\nPATH 1 0 1 2\n", BAD_SHEET, 2),
            ("PLAN 2\nCHOKE 0 1 0 1\nPATH 1 0 1 2\n", BAD_SHEET, 2),
            ("PLAN 2\nCHOKE 1 0\nPATH 1 0 1 2\n", BAD_SHEET, 2),
            ("PLAN 2\nPATH 9 9 9 9\nPATH 9 9 9 9\n", BAD_SHEET, 2),
            ("PLAN 2\nPATH 0 1 0 1", BAD_SHEET, 2),
            ("PLAN 2\nPATH 0 1 0 1\n", BAD_SHEET, 3),
            ("PLAN 2\nPATH 0 1 0 1\nPATH 1 0 1 2", BAD_SHEET, 3),
            ("PLAN 2\nPATH 0 1 0 1\nPATH 1 0\n", BAD_SHEET, 3),
            ("PLAN 2\nPATH 0 1 0 1\nPATH 1 0 1 2 2\n", BAD_SHEET, 3),
            ("PLAN 2\nPATH 0 1 0 1\nPATH 1 0 1 2\n\n", BAD_SHEET, 4),
            ("PLAN 2\nPATH 0 1 0 1\nPATH 1 0 1 2\n\0", BAD_SHEET, 4),
            ("PLAN 2\nPATH 0 1 0 1\nPATH 1 0 1 2\nPATH 1 0 1 2\n", BAD_SHEET, 4),
            ("PLAN 2\nPATH 0 1 0 1\nPATH 1 0 1 2\nx\ny\n", BAD_SHEET, 4),
            // Line 2 is wrong, yet in the form; line 3 is out of it.
            ("PLAN 2\nPATH 0 1 2 2\nPATH 1 0\n", BAD_SHEET, 3),
        ],
    );
}

#[test]
fn plans_that_are_none() {
    assert_sheets(
        A.job,
        &[
            ("PLAN 2\nPATH 0 1 0 1\nPATH 1 0 1 2\n", PLAN, 0),
            // Out of order, a call twice, a cart twice.
            ("PLAN 2\nPATH 1 0 1 2\nPATH 0 1 0 1\n", WRONG_SHEET, 0),
            ("PLAN 2\nPATH 1 0 1 2\nPATH 1 0 1 2\n", WRONG_SHEET, 0),
            ("PLAN 2\nPATH 1 1 1 1\nPATH 1 0 1 2\n", WRONG_SHEET, 0),
            // It starts elsewhere, ends elsewhere, jumps.
            ("PLAN 2\nPATH 0 1 0 1\nPATH 1 0 2 2\n", WRONG_SHEET, 0),
            ("PLAN 2\nPATH 1 1 0 1\nPATH 0 0 1 2\n", WRONG_SHEET, 0),
            ("PLAN 2\nPATH 0 1 0 0\nPATH 1 0 1 2\n", WRONG_SHEET, 0),
            ("PLAN 2\nPATH 0 1 0\nPATH 1 0 1 2\n", WRONG_SHEET, 0),
            ("PLAN 2\nPATH 0 1 0 1\nPATH 1 0 1\n", WRONG_SHEET, 0),
            ("PLAN 2\nPATH 1 1 1 1\nPATH 0 0 0 2\n", WRONG_SHEET, 0),
        ],
    );
}

#[test]
fn carts_that_follow_and_carts_that_turn_in_a_ring_are_in_no_conflict() {
    assert_sheets(
        "FLOOR 3\nTRACK 0 1\nTRACK 1 2\nTRACK 2 0\nCART 0\nCART 1\nCART 2\nCALL 0 1\nCALL 1 1\nCALL 2 1\n",
        &[
            ("PLAN 3\nPATH 2 0 2 0\nPATH 0 1 0 1\nPATH 1 2 1 2\n", PLAN, 0),
            ("PLAN 3\nPATH 1 0 1 0\nPATH 2 1 2 1\nPATH 0 2 0 2\n", PLAN, 0),
            ("PLAN 3\nPATH 0 0 0 0\nPATH 1 1 1 1\nPATH 2 2 2 2\n", PLAN, 0),
            ("PLAN 3\nPATH 1 0 1 0\nPATH 0 1 0 1\nPATH 2 2 2 2\n", WRONG_SHEET, 0),
        ],
    );
}

#[test]
fn a_lift_cell_is_free_one_step_after_its_deadline() {
    // Cart 0 is lifted from cell 1 at step 1; cart 1 goes over it.
    let job =
        |deadline| format!("FLOOR 4\nTRACK 0 1\nTRACK 1 2\nTRACK 1 3\nCART 0\nCART 3\nCALL 1 1\nCALL 2 {deadline}\n");
    assert_sheets(&job(2), &[("PLAN 2\nPATH 0 0 0 1\nPATH 1 1 3 1 2\n", WRONG_SHEET, 0)]);
    assert_sheets(&job(2), &[("CANNOT 1\nCHOKE 1 1\n", CANNOT, 0)]);
    assert_sheets(&job(3), &[("PLAN 2\nPATH 0 0 0 1\nPATH 1 1 3 3 1 2\n", PLAN, 0)]);
    assert_sheets(&job(3), &[("PLAN 2\nPATH 0 0 0 1\nPATH 1 1 3 1 1 2\n", WRONG_SHEET, 0)]);
    // The last step of a walk can be a trade as well.
    assert_sheets(
        "FLOOR 3\nTRACK 0 1\nTRACK 1 2\nCART 0\nCART 1\nCALL 1 1\nCALL 2 3\n",
        &[
            ("PLAN 2\nPATH 0 0 0 1\nPATH 1 1 1 0 1 2\n", WRONG_SHEET, 0),
            ("PLAN 2\nPATH 0 0 0 1\nPATH 1 1 1 2 2 2\n", PLAN, 0),
        ],
    );
}

#[test]
fn the_call_that_a_line_names_counts_its_cells() {
    assert_sheets(
        "FLOOR 2\nCART 0\nCART 1\nCALL 0 2\nCALL 1 0\n",
        &[
            ("PLAN 2\nPATH 1 1 1\nPATH 0 0 0 0 0\n", PLAN, 0),
            ("PLAN 2\nPATH 0 0 0 0 0\nPATH 1 1 1\n", WRONG_SHEET, 0),
            ("PLAN 2\nPATH 0 0 0\nPATH 1 1 1 1 1\n", BAD_SHEET, 3),
            ("PLAN 2\nPATH 1 1 1\nPATH 1 1 1\n", WRONG_SHEET, 0),
        ],
    );
}

/// Three carts have to be on cell 0 at step 1, for their calls are due at step 2. A fourth parks at step 1 where it stands.
/// The largest deadline is not the last one.
const GATE: &str = "FLOOR 8\nTRACK 0 1\nTRACK 0 2\nTRACK 0 3\nTRACK 0 4\nTRACK 0 5\nTRACK 0 6\n\
    CART 1\nCART 2\nCART 3\nCART 7\nCALL 4 2\nCALL 5 2\nCALL 6 2\nBAY 7 1\n";

#[test]
fn the_form_of_a_choke_list() {
    assert_sheets(
        GATE,
        &[
            ("CANNOT\n", BAD_SHEET, 1),
            ("CANNOT 2", BAD_SHEET, 1),
            ("CANNOT 4\nCHOKE 7 0\nCHOKE 0 1\nCHOKE 1 1\nCHOKE 2 1\n", BAD_SHEET, 1),
            ("CANNOT 4\n", BAD_SHEET, 1),
            ("CANNOT 5\n", BAD_SHEET, 1),
            ("CANNOT 02\nCHOKE 0 1\nCHOKE 7 1\n", BAD_SHEET, 1),
            ("CANNOT 2\n", BAD_SHEET, 2),
            ("CANNOT 2\nCHOKE 0\nCHOKE 7 1\n", BAD_SHEET, 2),
            ("CANNOT 2\nCHOKE 0 1 0\nCHOKE 7 1\n", BAD_SHEET, 2),
            ("CANNOT 2\nCHOKE 8 1\nCHOKE 7 1\n", BAD_SHEET, 2),
            ("CANNOT 2\nCHOKE 0 3\nCHOKE 7 1\n", BAD_SHEET, 2),
            ("CANNOT 2\nPATH 0 1\nCHOKE 7 1\n", BAD_SHEET, 2),
            ("CANNOT 2\nCHOKE 0 1\nCHOKE 7 1", BAD_SHEET, 3),
            ("CANNOT 2\nCHOKE 0 1\n", BAD_SHEET, 3),
            ("CANNOT 1\nCHOKE 0 1\nCHOKE 7 1\n", BAD_SHEET, 3),
            ("CANNOT 2\nCHOKE 0 1\nCHOKE 7 1\n\n", BAD_SHEET, 4),
        ],
    );
}

#[test]
fn choke_lists_true_and_not() {
    assert_sheets(
        GATE,
        &[
            ("CANNOT 2\nCHOKE 0 1\nCHOKE 7 1\n", CANNOT, 0),
            ("CANNOT 2\nCHOKE 7 0\nCHOKE 0 1\n", CANNOT, 0),
            // Longer than needed, with points that stop nothing.
            ("CANNOT 3\nCHOKE 7 0\nCHOKE 0 1\nCHOKE 7 1\n", CANNOT, 0),
            ("CANNOT 3\nCHOKE 0 1\nCHOKE 7 1\nCHOKE 7 2\n", CANNOT, 0),
            ("CANNOT 3\nCHOKE 0 0\nCHOKE 0 1\nCHOKE 7 1\n", CANNOT, 0),
            // A walk gets through.
            ("CANNOT 0\n", WRONG_SHEET, 0),
            ("CANNOT 1\nCHOKE 0 1\n", WRONG_SHEET, 0),
            ("CANNOT 1\nCHOKE 7 1\n", WRONG_SHEET, 0),
            ("CANNOT 2\nCHOKE 0 1\nCHOKE 7 2\n", WRONG_SHEET, 0),
            ("CANNOT 2\nCHOKE 0 0\nCHOKE 7 1\n", WRONG_SHEET, 0),
            // Out of order, or twice.
            ("CANNOT 2\nCHOKE 7 1\nCHOKE 0 1\n", WRONG_SHEET, 0),
            ("CANNOT 2\nCHOKE 0 1\nCHOKE 7 0\n", WRONG_SHEET, 0),
            ("CANNOT 3\nCHOKE 0 1\nCHOKE 0 1\nCHOKE 7 1\n", WRONG_SHEET, 0),
            ("CANNOT 3\nCHOKE 0 1\nCHOKE 7 1\nCHOKE 7 1\n", WRONG_SHEET, 0),
        ],
    );
}

/// A lift takes the fourth at step 0 already.
#[test]
fn choke_lists_where_a_cart_stands_on_its_lift() {
    assert_sheets(
        &GATE.replace("BAY", "CALL"),
        &[
            ("CANNOT 2\nCHOKE 7 0\nCHOKE 0 1\n", CANNOT, 0),
            ("CANNOT 2\nCHOKE 0 1\nCHOKE CALL 3\n", CANNOT, 0),
            ("CANNOT 3\nCHOKE 0 1\nCHOKE 7 1\nCHOKE CALL 3\n", CANNOT, 0),
            ("CANNOT 2\nCHOKE 0 1\nCHOKE 7 1\n", WRONG_SHEET, 0),
            ("CANNOT 3\nCHOKE 0 1\nCHOKE 7 1\nCHOKE 7 2\n", WRONG_SHEET, 0),
            ("CANNOT 3\nCHOKE CALL 0\nCHOKE CALL 1\nCHOKE CALL 2\n", WRONG_SHEET, 0),
        ],
    );
}

#[test]
fn a_walk_goes_on_over_the_cell_of_a_call_not_yet_due() {
    // Cart 0 crosses cell 1 at step 1 on its way to cell 2; the call there is due at step 3.
    assert_sheets(
        "FLOOR 4\nTRACK 3 0\nTRACK 0 1\nTRACK 1 2\nCART 0\nCART 3\nCALL 2 2\nCALL 1 3\n",
        &[("PLAN 2\nPATH 0 0 0 1 2\nPATH 1 1 3 0 0 1\n", PLAN, 0), ("CANNOT 1\nCHOKE 1 3\n", WRONG_SHEET, 0)],
    );
}

#[test]
fn the_whole_store_is_wiped_or_left_alone() {
    // The comparison looks at every byte of the store; least is 4,096 + 2 steps of 32 bytes for 7 cells and track ends.
    let job = tabs(A.job);
    let (plan, wrong) = (tabs(A.sheet), tabs(A_BY_CALL));
    for more in [0, 1, 7, 4096, 1_000_000] {
        assert_eq!(library(&job, 4544 + more, &plan), (PLAN, 0));
        assert_eq!(library(&job, 4544 + more, &wrong), (WRONG_SHEET, 0));
        assert_eq!(library(&job, 4544 + more, b"PLAN"), (BAD_SHEET, 1));
    }
    for short in [4543, 4096, 1, 0] {
        assert_eq!(library(&job, short, &plan), (STORE_TOO_SHORT, 0));
        assert_eq!(library(&job, short, b""), (STORE_TOO_SHORT, 0));
    }
}

#[test]
fn refusals_of_the_job_come_before_those_of_the_store() {
    assert_eq!(library(&tabs("FLOOR 1\nCALL 0 0\n"), 0, b""), (UNEVEN, 0));
    assert_eq!(library(&tabs("FLOOR 1\nCART 1\n"), 0, b""), (OUT_OF_RANGE, 2));
    assert_eq!(library(b"", 0, b""), (BAD_LINE, 1));
    assert_eq!(library(&[0; limits::TEXT + 1], 0, b""), (TEXT_TOO_LONG, 0));
}

#[test]
fn ten_million_bytes_of_noise() {
    let noise = Rng::new(10).noise(10_000_000);
    let (job, plan) = (tabs(A.job), tabs(A.sheet));
    let answer = |sheet: &[u8]| library(&job, BUFFER, sheet);
    assert_eq!(answer(&noise), (BAD_SHEET, 1));
    assert_eq!(answer(&[plan.as_slice(), &noise].concat()), (BAD_SHEET, 4));
    assert_eq!(answer(&vec![b'0'; 10_000_000]), (BAD_SHEET, 1));
    assert_eq!(answer(&vec![b'\t'; 10_000_000]), (BAD_SHEET, 1));
    assert_eq!(answer(&[b"PLAN\t", vec![b'0'; 10_000_000].as_slice()].concat()), (BAD_SHEET, 1));
    assert_eq!(answer(&[b"PLAN\t2\nPATH", b"\t0".repeat(5_000_000).as_slice()].concat()), (BAD_SHEET, 2));
}
