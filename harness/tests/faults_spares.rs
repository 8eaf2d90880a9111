//! The faults about spare carts that are put into the second check: each on one sheet told by hand, the right answer and
//! the wrong one that the fault gives, and each on small jobs by chance. Tabs are shown as spaces.

use harness::compare::{self, assert_found};
use harness::faulty::{Fault, Faulty, FAULTS};
use harness::gen::cases::{Case, Known, KINDS};
use harness::gen::spares::small_with_spares;
use harness::gen::Rng;
use harness::model::answer::*;

/// Three cells in a row, carts on all of them, and the middle one is to be lifted at once.
const ROW: &str = "FLOOR 3\nTRACK 0 1\nTRACK 1 2\nCART 0\nCART 1\nCART 2\nCALL 1 1\n";

/// A cart for a call, and another that no track leads to or from.
const APART: &str = "FLOOR 3\nTRACK 0 1\nCART 0\nCART 2\nCALL 1 1\n";

#[test]
fn spare_carts_that_are_refused() {
    assert_found(Fault::RefusesSpareCarts, "FLOOR 1\nCART 0\n", "PLAN 0\nSPARE 0 0\n", (PLAN, 0), (UNEVEN, 0));
}

#[test]
fn spare_lines_that_are_not_counted() {
    let one_too_many = "PLAN 1\nPATH 0 0 0 1\nSPARE 1 2 2\nSPARE 1 2 2\n";
    assert_found(Fault::CountsNoSpareLines, APART, "PLAN 1\nPATH 0 0 0 1\n", (BAD_SHEET, 3), (PLAN, 0));
    assert_found(Fault::CountsNoSpareLines, APART, one_too_many, (BAD_SHEET, 4), (WRONG_SHEET, 0));
}

#[test]
fn spare_carts_that_plan_counts() {
    let sheet = "PATH 0 0 0 1\nSPARE 1 2 2\n";
    assert_found(Fault::CountsSparesInPlan, APART, &format!("PLAN 2\n{sheet}"), (BAD_SHEET, 1), (PLAN, 0));
    assert_found(Fault::CountsSparesInPlan, APART, &format!("PLAN 1\n{sheet}"), (PLAN, 0), (BAD_SHEET, 1));
}

#[test]
fn a_path_where_a_spare_cart_is_due() {
    assert_found(Fault::PassesPathForSpare, APART, "PLAN 1\nPATH 0 0 0 1\nPATH 1 2 2\n", (BAD_SHEET, 3), (PLAN, 0));
}

#[test]
fn a_spare_cart_before_the_paths() {
    let sheet = "PLAN 1\nSPARE 1 2 2\nPATH 0 0 0 1\n";
    assert_found(Fault::PassesSparesBeforePaths, APART, sheet, (BAD_SHEET, 2), (PLAN, 0));
}

#[test]
fn a_spare_cart_that_ends_early() {
    let sheet = "PLAN 1\nPATH 0 0 0 1\nSPARE 1 2\n";
    assert_found(Fault::PassesSpareThatEndsEarly, APART, sheet, (BAD_SHEET, 3), (PLAN, 0));
}

#[test]
fn a_spare_cart_with_a_cell_too_many() {
    let sheet = "PLAN 1\nPATH 0 0 0 1\nSPARE 1 2 2 2\n";
    assert_found(Fault::PassesSpareOneTooLong, APART, sheet, (BAD_SHEET, 3), (PLAN, 0));
}

/// The call is met at step 0, and its deadline is 1.
#[test]
fn a_spare_cart_that_ends_with_the_last_path() {
    let (short, long) =
        ("PLAN 1\nPATH 1 0 1\nSPARE 0 0\nSPARE 2 2\n", "PLAN 1\nPATH 1 0 1\nSPARE 0 0 1\nSPARE 2 2 2\n");
    assert_found(Fault::EndsSparesWithLastPath, ROW, short, (BAD_SHEET, 3), (PLAN, 0));
    assert_found(Fault::EndsSparesWithLastPath, ROW, long, (PLAN, 0), (BAD_SHEET, 3));
}

#[test]
fn spare_carts_in_any_order() {
    let sheet = "PLAN 1\nPATH 1 0 1\nSPARE 2 2 2\nSPARE 0 0 0\n";
    assert_found(Fault::PassesSparesInAnyOrder, ROW, sheet, (WRONG_SHEET, 0), (PLAN, 0));
}

#[test]
fn a_cart_with_a_path_and_spare() {
    let sheet = "PLAN 1\nPATH 0 0 0 1\nSPARE 0 0 0\n";
    assert_found(Fault::PassesPathAndSpareOfOneCart, APART, sheet, (WRONG_SHEET, 0), (PLAN, 0));
}

#[test]
fn a_spare_cart_that_jumps() {
    let sheet = "PLAN 1\nPATH 0 0 0 1\nSPARE 1 2 0\n";
    assert_found(Fault::PassesJumpsOfSpares, APART, sheet, (WRONG_SHEET, 0), (PLAN, 0));
}

#[test]
fn a_spare_cart_from_elsewhere() {
    let (job, sheet) = ("FLOOR 3\nCART 0\nCART 1\nCALL 0 1\n", "PLAN 1\nPATH 0 0 0\nSPARE 1 2 2\n");
    assert_found(Fault::PassesSpareFromElsewhere, job, sheet, (WRONG_SHEET, 0), (PLAN, 0));
}

/// Cart 2 makes way for cart 1, which parks, and comes back.
#[test]
fn a_spare_cart_in_a_bay() {
    let job = "FLOOR 3\nTRACK 0 1\nTRACK 1 2\nCART 0\nCART 2\nCART 1\nBAY 1 1\nCALL 0 2\n";
    let sheet = "PLAN 2\nPATH 1 0 2 1\nPATH 0 1 0\nSPARE 2 1 0 1\n";
    assert_found(Fault::LetsSparesIntoBays, job, sheet, (WRONG_SHEET, 0), (PLAN, 0));
}

#[test]
fn a_spare_cart_that_ends_on_a_lift() {
    let sheet = "PLAN 1\nPATH 1 0 1\nSPARE 0 0 1\nSPARE 2 2 2\n";
    assert_found(Fault::RefusesSpareOnLift, ROW, sheet, (PLAN, 0), (WRONG_SHEET, 0));
}

#[test]
fn a_spare_cart_that_shares_a_cell() {
    let sheet = "PLAN 1\nPATH 1 0 1 1\nSPARE 0 0 1\nSPARE 2 2 2\n";
    assert_found(Fault::IgnoresSharesOfSpares, ROW, sheet, (WRONG_SHEET, 0), (PLAN, 0));
    assert_found(Fault::FreesSpareAtLastStep, ROW, sheet, (WRONG_SHEET, 0), (PLAN, 0));
}

#[test]
fn a_spare_cart_that_trades() {
    let sheet = "PLAN 1\nPATH 0 0 0 1\nSPARE 1 1 0\nSPARE 2 2 2\n";
    assert_found(Fault::IgnoresTradesOfSpares, ROW, sheet, (WRONG_SHEET, 0), (PLAN, 0));
}

#[test]
fn two_spare_carts_in_each_others_way() {
    let shared = "PLAN 1\nPATH 1 0 1\nSPARE 0 0 1\nSPARE 2 2 1\n";
    assert_found(Fault::IgnoresSparesAmongThemselves, ROW, shared, (WRONG_SHEET, 0), (PLAN, 0));
    let job = ROW.replace("CALL 1 1", "CALL 2 1");
    let traded = "PLAN 1\nPATH 2 0 2\nSPARE 0 0 1\nSPARE 1 1 0\n";
    assert_found(Fault::IgnoresSparesAmongThemselves, &job, traded, (WRONG_SHEET, 0), (PLAN, 0));
}

/// Cell 1 is out of reach for the first cart, and not for the second.
#[test]
fn a_list_that_lets_a_later_cart_through() {
    let job = "FLOOR 3\nTRACK 1 2\nCART 0\nCART 2\nCALL 1 1\n";
    assert_found(Fault::StopsWalksOfFirstCarts, job, "CANNOT 0\n", (WRONG_SHEET, 0), (CANNOT, 0));
}

#[test]
fn a_list_that_has_to_stop_spare_carts() {
    let job = "FLOOR 3\nCART 0\nCART 1\nCALL 2 1\n";
    assert_found(Fault::StopsWalksOfSparesToo, job, "CANNOT 0\n", (CANNOT, 0), (WRONG_SHEET, 0));
}

#[test]
fn a_list_as_long_as_the_calls() {
    let job = "FLOOR 2\nTRACK 0 1\nCART 0\nCART 1\nCALL 0 0\n";
    assert_found(Fault::BoundsPointsByCarts, job, "CANNOT 1\nCHOKE 0 0\n", (BAD_SHEET, 1), (CANNOT, 0));
}

/// What the cases show of a fault on small jobs with spare carts.
fn differences(fault: Fault, jobs: usize, enough: usize) -> Vec<String> {
    let mut rng = Rng::new(3);
    let mut found = Vec::new();
    for _ in 0..jobs {
        let known = Known::of(small_with_spares(&mut rng));
        let cases: Vec<Case> = KINDS.iter().flat_map(|kind| kind(&known, &mut rng)).collect();
        found.extend(cases.iter().filter_map(|case| compare::check(&Faulty(fault), case, &mut rng).err()));
        if found.len() >= enough {
            break;
        }
    }
    found
}

#[test]
fn no_fault_is_found_where_there_is_none() {
    assert_eq!(differences(Fault::None, 1000, 1), Vec::<String>::new());
}

#[test]
fn each_fault_about_spare_carts_is_found() {
    let first = FAULTS.iter().position(|&fault| fault == Fault::RefusesSpareCarts).expect("the first of them");
    for &fault in &FAULTS[first..] {
        let found = differences(fault, 300, 20).len();
        assert!(found >= 20, "{fault:?} was found {found} times");
    }
}
