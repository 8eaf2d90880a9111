//! The filed examples, as far as the check answers them.

use harness::compare::library;
use harness::examples::{
    tabs, zeros, A, A_BY_CALL, BUFFER, D, E, EARLY, EARLY_PLAN, EXAMPLES, F, F_TRADED, F_WAITING, REFUSED,
};
use harness::model::answer::*;

#[test]
fn the_filed_sheets_pass() {
    for example in EXAMPLES {
        let found = library(&tabs(example.job), BUFFER, &tabs(example.sheet));
        assert_eq!(found, (example.answer, 0), "job {}", example.name);
    }
}

#[test]
fn job_a_with_its_paths_in_the_order_of_its_calls_is_refused() {
    assert_eq!(library(&tabs(A.job), BUFFER, &tabs(A_BY_CALL)), (WRONG_SHEET, 0));
}

#[test]
fn job_d_needs_a_store_of_4128_bytes() {
    let (job, sheet) = (tabs(D.job), tabs(D.sheet));
    assert_eq!(library(&job, 4128, &sheet), (PLAN, 0));
    assert_eq!(library(&job, 4127, &sheet), (STORE_TOO_SHORT, 0));
}

#[test]
fn job_e_with_1_to_256_zeros() {
    let answer = |count| library(&tabs(E.job), BUFFER, &zeros(count));
    assert_eq!([256, 255, 2, 1].map(answer), [(PLAN, 0); 4]);
    assert_eq!([0, 257].map(answer), [(BAD_SHEET, 2); 2]);
}

#[test]
fn job_f_with_a_trade_is_refused() {
    assert_eq!(library(&tabs(F.job), BUFFER, &tabs(F_WAITING)), (PLAN, 0));
    assert_eq!(library(&tabs(F.job), BUFFER, &tabs(F_TRADED)), (WRONG_SHEET, 0));
}

#[test]
fn job_a_with_a_path_that_ends_before_its_call() {
    assert_eq!(library(&tabs(A.job), BUFFER, &tabs("PLAN 2\nPATH 0 1 0 1\nPATH 1 0 1\n")), (WRONG_SHEET, 0));
}

#[test]
fn a_plan_of_the_job_that_only_an_early_lift_serves() {
    assert_eq!(library(&tabs(EARLY.job), BUFFER, &tabs(EARLY_PLAN)), (PLAN, 0));
}

#[test]
fn refused_jobs() {
    for &(job, number, line) in REFUSED {
        assert_eq!(library(&tabs(job), BUFFER, b"PLAN\t0\n"), (number, line), "{job:?}");
    }
}

#[test]
fn a_floor_of_256_cells_passes() {
    assert_eq!(library(&tabs("FLOOR 256\n"), BUFFER, b"PLAN\t0\n"), (PLAN, 0));
}
