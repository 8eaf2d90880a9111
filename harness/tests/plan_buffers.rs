//! The planner's buffers: just the least lengths, one byte short, longer. The comparison looks at every byte of them.

use harness::compare::plan;
use harness::examples::tabs;
use harness::gen::floors::grid;
use harness::gen::large::{full_text, scattered, scattered_with_bays};
use harness::gen::small::small;
use harness::gen::Rng;
use harness::model::answer::*;
use harness::model::job::Job;
use harness::model::limits::{sheet_least, store_least, CARTS, DEADLINE, TEXT};

/// Plans with the least buffers, with each one byte short, with both, and with longer ones.
fn try_out(job: &Job, rng: &mut Rng) {
    let (text, store, sheet) = (job.text(), store_least(job), sheet_least(job));
    let mut number = |store, sheet| plan(&text, store, sheet, rng).0;
    let answer = number(store, sheet);
    assert!(!is_refusal(answer));
    assert_eq!(number(store - 1, sheet), STORE_TOO_SHORT);
    assert_eq!(number(store, sheet - 1), SHEET_TOO_SHORT);
    assert_eq!(number(store - 1, sheet - 1), STORE_TOO_SHORT);
    assert_eq!(number(0, sheet), STORE_TOO_SHORT);
    assert_eq!(number(store, 0), SHEET_TOO_SHORT);
    assert_eq!(number(store + 1, sheet + 1), answer);
    assert_eq!(number(store + 5000, sheet), answer);
    assert_eq!(number(store, sheet + 5000), answer);
}

#[test]
fn least_and_shorter_and_longer_for_small_jobs() {
    let mut rng = Rng::new(1);
    for _ in 0..2000 {
        try_out(&small(&mut rng), &mut rng);
    }
}

#[test]
fn least_and_shorter_and_longer_for_large_jobs() {
    let mut rng = Rng::new(2);
    try_out(&scattered(grid(16, 16), CARTS, DEADLINE, &mut rng), &mut rng);
    for _ in 0..10 {
        let floor = grid(2 + rng.below(9), 2 + rng.below(9));
        let carts = rng.below(floor.cells.min(CARTS) + 1);
        let deadline = rng.below(DEADLINE + 1);
        try_out(&scattered(floor.clone(), carts, deadline, &mut rng), &mut rng);
        try_out(&scattered_with_bays(floor, carts, deadline, &mut rng), &mut rng);
    }
}

#[test]
fn refusals_of_the_job_come_before_those_of_the_buffers() {
    let mut rng = Rng::new(3);
    assert_eq!(plan(&tabs("FLOOR 1\nCALL 0 0\n"), 0, 0, &mut rng).0, UNEVEN);
    assert_eq!(plan(b"", 0, 0, &mut rng).0, BAD_LINE);
    assert_eq!(plan(&[0; TEXT + 1], 0, 0, &mut rng).0, TEXT_TOO_LONG);
    for line in ["CALL 0 0\n", "BAY 0 0\n"] {
        let one_more = [full_text(), tabs(line)].concat();
        assert_eq!(plan(&one_more, 0, 0, &mut rng).0, TOO_MANY);
    }
}
