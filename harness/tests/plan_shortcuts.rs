//! The shortcuts that lose a lane: for each a job on which it is wrong, and the planner is right.

use harness::compare::{library, plan};
use harness::examples::spares::D_WITHOUT_CALL;
use harness::examples::{tabs, A, A_BY_CALL, BAY, BUFFER, CLOSED, EARLY, EARLY_BY_DEADLINES};
use harness::gen::plans::has_plan;
use harness::gen::Rng;
use harness::model::answer::*;
use harness::model::job::Job;
use harness::model::reader;
use harness::model::sheet::Sheet;
use harness::shortcuts::*;

fn job(text: &str) -> Job {
    reader::read(&tabs(text)).expect("a job")
}

/// The planner's answer, which the exhaustive search confirms.
fn right_answer(job: &Job) -> u8 {
    let (answer, _) = plan(&job.text(), BUFFER, BUFFER, &mut Rng::new(1));
    assert_eq!(answer == PLAN, has_plan(job));
    answer
}

#[test]
fn the_nearest_pair_first() {
    // Cart 1 is given to cell 1, where it stands, and cart 0 cannot come to cell 2.
    let job = job(A.job);
    assert!(!nearest_pair_first(&job));
    assert_eq!(right_answer(&job), PLAN);
}

#[test]
fn never_taking_back_a_path() {
    // Cart 0 stands on the first call's cell and is taken for it, though only cart 0 can come to the second.
    let job = job("FLOOR 3\nTRACK 0 1\nTRACK 1 2\nCART 1\nCART 0\nCALL 1 1\nCALL 2 1\n");
    assert!(!never_taking_back(&job));
    assert_eq!(right_answer(&job), PLAN);
}

#[test]
fn freeing_a_lift_cell_at_the_lift() {
    // Both carts have to be on cell 1 at step 1, one to be lifted, one to go on to cell 2.
    let job = job("FLOOR 4\nTRACK 0 1\nTRACK 1 2\nTRACK 1 3\nCART 0\nCART 3\nCALL 1 1\nCALL 2 2\n");
    assert!(freeing_at_the_lift(&job));
    assert_eq!(right_answer(&job), CANNOT);
}

#[test]
fn lifting_a_cart_that_crosses_a_calls_cell() {
    // The only way to cell 2 leads over cell 1, whose call is due later.
    let job = job("FLOOR 4\nTRACK 3 0\nTRACK 0 1\nTRACK 1 2\nCART 0\nCART 3\nCALL 2 2\nCALL 1 3\n");
    assert!(!lifting_crossing_carts(&job));
    assert_eq!(right_answer(&job), PLAN);
}

#[test]
fn chokes_for_the_walks_seen() {
    // Three carts go through cell 0 in two steps. The soonest walks are all there at step 1, yet a cart can wait.
    let job = job("FLOOR 7\nTRACK 0 1\nTRACK 0 2\nTRACK 0 3\nTRACK 0 4\nTRACK 0 5\nTRACK 0 6\n\
        CART 1\nCART 2\nCART 3\nCALL 4 3\nCALL 5 3\nCALL 6 3\n");
    let list = stopping_seen_walks(&job).expect("a list");
    let sheet = Sheet::Cannot(list).text();
    assert_eq!(sheet, tabs("CANNOT 1\nCHOKE 0 1\n"));
    assert_eq!(library(&job.text(), BUFFER, &sheet), (WRONG_SHEET, 0));
    assert_eq!(right_answer(&job), CANNOT);
}

#[test]
fn taking_a_bay_for_a_lift() {
    // The only way to cell 2 leads over cell 1, where a cart is parked from step 0 on.
    let job = job(CLOSED.job);
    assert!(taking_bays_for_lifts(&job));
    assert_eq!(right_answer(&job), CANNOT);
}

#[test]
fn closing_a_bays_cell_at_its_step() {
    // The bay's own cart would find it closed.
    let job = job(BAY.job);
    assert!(!closing_at_the_step(&job));
    assert_eq!(right_answer(&job), PLAN);
}

#[test]
fn keeping_a_bays_cell_free_before_its_step() {
    // The only way to cell 2 leads over cell 1, whose bay is met later.
    let job = job(BAY.job);
    assert!(!keeping_bays_free(&job));
    assert_eq!(right_answer(&job), PLAN);
}

#[test]
fn chokes_for_walks_over_closed_cells() {
    // No list of one point stops the walks over the parked cart as well.
    let job = job(CLOSED.job);
    assert_eq!(stopping_walks_over_bays(&job), None);
    assert_eq!(right_answer(&job), CANNOT);
}

#[test]
fn leaving_calls_of_one_step_as_in_the_job() {
    // Call 0 is on the higher cell.
    let job = job(A.job);
    let sheet = leaving_one_step_as_in_the_job(&job).expect("a plan").text();
    assert_eq!(sheet, tabs(A_BY_CALL));
    assert_eq!(library(&job.text(), BUFFER, &sheet), (WRONG_SHEET, 0));
    assert_eq!(right_answer(&job), PLAN);
}

#[test]
fn going_by_cell_with_no_thought_of_the_deadlines() {
    // The call on the lower cell is due later.
    let job = job("FLOOR 2\nCART 0\nCART 1\nCALL 0 1\nCALL 1 0\n");
    let sheet = going_by_cell_alone(&job).expect("a plan").text();
    assert_eq!(sheet, tabs("PLAN 2\nPATH 0 0 0\nPATH 1 1 1\n"));
    assert_eq!(library(&job.text(), BUFFER, &sheet), (WRONG_SHEET, 0));
    assert_eq!(right_answer(&job), PLAN);
}

#[test]
fn waiting_for_the_deadline_of_a_lift() {
    // A cart has to be lifted at step 0 from a cell that another crosses at step 1, the deadline there.
    let job = job(EARLY.job);
    assert!(!waiting_for_the_deadline(&job));
    assert_eq!(right_answer(&job), PLAN);
}

#[test]
fn chokes_for_the_walks_to_deadlines() {
    let job = job(EARLY.job);
    let sheet = Sheet::Cannot(stopping_walks_to_deadlines(&job).expect("a list")).text();
    assert_eq!(sheet, tabs(EARLY_BY_DEADLINES));
    assert_eq!(library(&job.text(), BUFFER, &sheet), (WRONG_SHEET, 0));
    assert_eq!(right_answer(&job), PLAN);
}

#[test]
fn parking_before_the_step_of_a_bay() {
    // The same with bays for the two calls that may have to be met early.
    let job = job(&EARLY.job.replace("CALL 0 1", "BAY 0 1").replace("CALL 4 1", "BAY 4 1"));
    assert!(parking_early(&job));
    assert_eq!(right_answer(&job), CANNOT);
}

#[test]
fn whole_calls_against_carts_that_cross_their_cells() {
    // The only way to cell 2 leads over cell 1, where there is a lift too.
    let job = job("FLOOR 4\nTRACK 3 0\nTRACK 0 1\nTRACK 1 2\nCART 0\nCART 3\nCALL 2 2\nCALL 1 3\n");
    let sheet = Sheet::Cannot(stopping_crossing_walks(&job).expect("a list")).text();
    assert_eq!(sheet, tabs("CANNOT 1\nCHOKE CALL 1\n"));
    assert_eq!(library(&job.text(), BUFFER, &sheet), (WRONG_SHEET, 0));
    assert_eq!(right_answer(&job), PLAN);
}

#[test]
fn leaving_a_spare_cart_where_a_path_leads() {
    // The first cart that comes to cell 2 in time goes over cell 1, where the other stands.
    let job = job("FLOOR 4\nTRACK 0 1\nTRACK 1 2\nTRACK 1 3\nCART 0\nCART 1\nBAY 2 2\n");
    let sheet = leaving_spares_standing(&job).expect("paths").text();
    assert_eq!(sheet, tabs("PLAN 1\nPATH 0 0 0 1 2\nSPARE 1 1 1 1\n"));
    assert_eq!(library(&job.text(), BUFFER, &sheet), (WRONG_SHEET, 0));
    assert_eq!(right_answer(&job), PLAN);
}

#[test]
fn giving_up_where_a_spare_cart_is_in_the_way() {
    // If cart 0 goes to cell 2, cart 1 finds no way out. It can go itself.
    let job = job("FLOOR 3\nTRACK 0 1\nTRACK 1 2\nCART 0\nCART 1\nBAY 2 2\n");
    assert!(!blaming_spares(&job));
    assert_eq!(right_answer(&job), PLAN);
}

#[test]
fn ending_spare_carts_with_the_last_path() {
    // The call is met at step 0, three steps before its deadline.
    let job = job("FLOOR 2\nCART 0\nCART 1\nCALL 0 3\n");
    let sheet = ending_spares_with_the_last_path(&job).expect("a plan").text();
    assert_eq!(sheet, tabs("PLAN 1\nPATH 0 0 0\nSPARE 1 1\n"));
    assert_eq!(library(&job.text(), BUFFER, &sheet), (BAD_SHEET, 3));
    assert_eq!(right_answer(&job), PLAN);
}

#[test]
fn leaving_spare_carts_out() {
    let job = job(D_WITHOUT_CALL.job);
    let sheet = leaving_spares_out(&job).expect("a plan").text();
    assert_eq!(sheet, tabs("PLAN 0\n"));
    assert_eq!(library(&job.text(), BUFFER, &sheet), (BAD_SHEET, 2));
    assert_eq!(right_answer(&job), PLAN);
}
