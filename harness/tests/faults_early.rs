//! The faults about early lifts and whole calls that are put into the second check, each on one sheet told by hand: the
//! right answer, and the wrong one that the fault gives. Tabs are shown as spaces.

use harness::compare::assert_found;
use harness::examples::{BAY, D, E, EARLY, EARLY_BY_DEADLINES, WHOLE};
use harness::faulty::Fault;
use harness::model::answer::*;

/// Both ways lead over cell 1, where one of the carts is to be lifted.
const CROSSED: &str = "FLOOR 4\nTRACK 0 1\nTRACK 1 2\nTRACK 1 3\nCART 0\nCART 3\nCALL 1 5\nCALL 2 5\n";

/// Whoever goes to cell 2 crosses cell 1, where there is a lift too.
const ON_THE_WAY: &str = "FLOOR 4\nTRACK 3 0\nTRACK 0 1\nTRACK 1 2\nCART 0\nCART 3\nCALL 2 2\nCALL 1 3\n";

/// Nobody comes to any call, so that every list in the form and in order is true.
const OUT_OF_REACH: &str = "FLOOR 6\nCART 0\nCART 1\nCART 2\nCALL 3 0\nCALL 4 0\nCALL 5 0\n";

#[test]
fn an_early_cart_that_still_blocks_its_cell() {
    let sheet = "PLAN 2\nPATH 0 0 0 1\nPATH 1 1 3 3 1 2\n";
    assert_found(Fault::BlocksUpToDeadline, CROSSED, sheet, (PLAN, 0), (WRONG_SHEET, 0));
}

#[test]
fn an_early_cart_that_frees_its_cell_at_once() {
    let sheet = "PLAN 2\nPATH 0 0 0 1\nPATH 1 1 3 1 2\n";
    assert_found(Fault::FreesCellAtLift, CROSSED, sheet, (WRONG_SHEET, 0), (PLAN, 0));
}

#[test]
fn a_path_to_a_bay_that_ends_early() {
    let (job, sheet) = ("FLOOR 1\nCART 0\nBAY 0 2\n", "PLAN 1\nPATH 0 0 0 0\n");
    assert_found(Fault::PassesEarlyBay, job, sheet, (BAD_SHEET, 2), (PLAN, 0));
}

#[test]
fn a_path_without_a_cell() {
    assert_found(Fault::PassesPathWithoutCell, D.job, "PLAN 1\nPATH 0 0\n", (BAD_SHEET, 2), (PLAN, 0));
}

#[test]
fn a_path_with_a_cell_too_many() {
    assert_found(Fault::PassesPathOneTooLong, D.job, "PLAN 1\nPATH 0 0 0 0\n", (BAD_SHEET, 2), (PLAN, 0));
}

#[test]
fn lifts_that_wait_for_the_deadline() {
    assert_found(Fault::RefusesEarlyLift, E.job, "PLAN 1\nPATH 0 0 0\n", (PLAN, 0), (BAD_SHEET, 2));
}

#[test]
fn paths_in_the_order_of_their_lifts() {
    let (job, sheet) = ("FLOOR 2\nCART 0\nCART 1\nCALL 0 2\nCALL 1 1\n", "PLAN 2\nPATH 1 1 1 1\nPATH 0 0 0\n");
    assert_found(Fault::PutsPathsByLift, job, sheet, (PLAN, 0), (WRONG_SHEET, 0));
}

#[test]
fn a_crossing_cart_that_is_lifted() {
    let sheet = "PLAN 2\nPATH 0 0 0 1 2\nPATH 1 1 3 0 1\n";
    assert_found(Fault::LiftsCrossingCart, ON_THE_WAY, sheet, (PLAN, 0), (WRONG_SHEET, 0));
}

#[test]
fn a_crossing_cart_that_is_parked() {
    assert_found(Fault::ParksCrossingCart, BAY.job, "CANNOT 1\nCHOKE 1 2\n", (WRONG_SHEET, 0), (CANNOT, 0));
}

#[test]
fn a_whole_call_that_stops_who_crosses_its_cell() {
    let sheet = "CANNOT 1\nCHOKE CALL 1\n";
    assert_found(Fault::TakesWholeCallForItsCell, ON_THE_WAY, sheet, (WRONG_SHEET, 0), (CANNOT, 0));
}

#[test]
fn a_whole_call_that_stops_the_latest_walks_only() {
    assert_found(Fault::TakesWholeCallForItsDeadline, WHOLE.job, WHOLE.sheet, (CANNOT, 0), (WRONG_SHEET, 0));
}

#[test]
fn a_list_that_stops_the_latest_walks_only() {
    for (job, sheet) in [(EARLY.job, EARLY_BY_DEADLINES), (WHOLE.job, "CANNOT 1\nCHOKE 0 2\n")] {
        assert_found(Fault::StopsWalksToDeadlinesOnly, job, sheet, (WRONG_SHEET, 0), (CANNOT, 0));
    }
}

#[test]
fn a_whole_bay() {
    let job = WHOLE.job.replace("CALL 0", "BAY 0");
    assert_found(Fault::TakesWholeBay, &job, WHOLE.sheet, (BAD_SHEET, 2), (CANNOT, 0));
}

#[test]
fn a_whole_call_that_is_unknown() {
    let sheet = "CANNOT 1\nCHOKE CALL 3\n";
    assert_found(Fault::TakesUnknownWholeCall, OUT_OF_REACH, sheet, (BAD_SHEET, 2), (CANNOT, 0));
}

#[test]
fn a_whole_call_before_a_cell() {
    let sheet = "CANNOT 2\nCHOKE CALL 0\nCHOKE 0 0\n";
    assert_found(Fault::PassesWholeCallsFirst, OUT_OF_REACH, sheet, (WRONG_SHEET, 0), (CANNOT, 0));
}

#[test]
fn whole_calls_that_fall() {
    let sheet = "CANNOT 2\nCHOKE CALL 1\nCHOKE CALL 0\n";
    assert_found(Fault::PassesWholeCallsFalling, OUT_OF_REACH, sheet, (WRONG_SHEET, 0), (CANNOT, 0));
}

#[test]
fn whole_calls_that_are_not_counted() {
    assert_found(Fault::CountsNoWholeCalls, WHOLE.job, "CANNOT 0\nCHOKE CALL 0\n", (BAD_SHEET, 2), (CANNOT, 0));
    assert_found(Fault::CountsNoWholeCalls, WHOLE.job, WHOLE.sheet, (CANNOT, 0), (BAD_SHEET, 2));
}

#[test]
fn as_many_whole_calls_as_calls() {
    assert_found(Fault::BoundsCellsAlone, D.job, "CANNOT 1\nCHOKE CALL 0\n", (BAD_SHEET, 1), (CANNOT, 0));
}
