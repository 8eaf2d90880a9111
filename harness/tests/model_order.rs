//! The model on the order of PATH lines: by deadline, then cell, told by hand. And that the jobs which are tried have calls
//! at one step in every way.

use std::collections::BTreeMap;

use harness::gen::orders::{differ, every_order};
use harness::gen::plans::has_plan;
use harness::gen::small::{
    small, small_at_one_step, small_at_one_step_with_bays, small_at_one_step_without_bays, small_without_bays,
};
use harness::gen::Rng;
use harness::model::answer::*;
use harness::model::check::check;
use harness::model::job::{Call, Job};
use harness::model::limits::{store_least, CELLS};
use harness::shortcuts::{going_by_cell_alone, leaving_one_step_as_in_the_job};

/// The written order of calls on the largest floor.
fn order(calls: &[Call]) -> Vec<usize> {
    Job { cells: CELLS, calls: calls.to_vec(), ..Job::default() }.written_order()
}

#[test]
fn by_deadline_then_cell() {
    let (lift, bay) = (Call::lift, Call::bay);
    assert_eq!(order(&[]), [0; 0]);
    assert_eq!(order(&[lift(2, 1), lift(1, 1)]), [1, 0]);
    assert_eq!(order(&[lift(1, 1), lift(2, 1)]), [0, 1]);
    assert_eq!(order(&[lift(2, 1), lift(1, 2)]), [0, 1]);
    assert_eq!(order(&[lift(1, 2), lift(2, 1)]), [1, 0]);
    assert_eq!(order(&[lift(2, 0), lift(0, 0), lift(1, 0)]), [1, 2, 0]);
    // What ends there makes no difference.
    assert_eq!(order(&[bay(2, 3), lift(1, 3), bay(0, 3)]), [2, 1, 0]);
    assert_eq!(order(&[lift(2, 3), bay(1, 3), lift(0, 3), bay(9, 2)]), [3, 2, 1, 0]);
    // By number and not by digits.
    let cells = [255, 254, 200, 101, 100, 99, 20, 11, 10, 9, 2, 1, 0];
    assert_eq!(order(&cells.map(|cell| lift(cell, 255))), (0..cells.len()).rev().collect::<Vec<usize>>());
}

#[test]
fn every_order_of_three() {
    let orders = ["abc", "acb", "bac", "cab", "bca", "cba"];
    let found = every_order(&['a', 'b', 'c']).into_iter().map(String::from_iter);
    assert_eq!(found.collect::<Vec<String>>(), orders);
}

/// What is said of a job by looking at each two of its calls, and by sorting them.
#[test]
fn where_the_order_of_the_job_is_another() {
    let mut rng = Rng::new(1);
    for _ in 0..10_000 {
        let job = small(&mut rng);
        let mut as_in_the_job: Vec<usize> = (0..job.calls.len()).collect();
        as_in_the_job.sort_by_key(|&call| job.calls[call].deadline);
        assert_eq!(differ(&job), as_in_the_job != job.written_order(), "{job:?}");
    }
}

#[test]
fn small_jobs_have_calls_at_one_step_in_every_way() {
    let mut rng = Rng::new(2);
    let mut kinds: BTreeMap<&str, usize> = BTreeMap::new();
    for _ in 0..4000 {
        let job = small_at_one_step(&mut rng);
        assert!(differ(&job));
        let at = |step: usize| job.calls.iter().filter(move |call| call.deadline == step);
        let step = (0..=job.last()).max_by_key(|&step| at(step).count()).unwrap_or(0);
        let (together, bays) = (at(step).count(), at(step).filter(|call| call.is_bay()).count());
        for (kind, is_one) in [
            ("two", together == 2),
            ("three", together == 3),
            ("four", together == 4),
            ("others before", job.calls.iter().any(|call| call.deadline < step)),
            ("others after", step < job.last()),
            ("at step 0", step == 0),
            ("lifts", bays == 0),
            ("bays and lifts", bays > 0 && bays < together),
            ("bays", bays == together),
            ("a plan", has_plan(&job)),
            ("no plan", !has_plan(&job)),
        ] {
            *kinds.entry(kind).or_default() += usize::from(is_one);
        }
    }
    let seldom: Vec<_> = kinds.iter().filter(|(_, &times)| times < 200).collect();
    assert!(seldom.is_empty(), "{seldom:?} of {kinds:?}");
}

#[test]
fn with_and_without_bays() {
    let mut rng = Rng::new(3);
    for _ in 0..1000 {
        let (with, without) = (small_at_one_step_with_bays(&mut rng), small_at_one_step_without_bays(&mut rng));
        assert!(with.has_bays() && differ(&with) && !without.has_bays() && differ(&without));
    }
}

/// Planners that find every plan and write it in a wrong order are found on each job where that order is another.
#[test]
fn wrong_orders_are_found() {
    let mut rng = Rng::new(4);
    let answer = |job: &Job, sheet: Vec<u8>| check(&job.text(), store_least(job), &sheet).0;
    let (mut as_in_the_job, mut by_cell) = ([0, 0], [0, 0]);
    for _ in 0..4000 {
        let job = small_without_bays(&mut rng);
        let Some(sheet) = leaving_one_step_as_in_the_job(&job) else { continue };
        let expected = if differ(&job) { WRONG_SHEET } else { PLAN };
        assert_eq!(answer(&job, sheet.text()), expected, "{job:?}");
        as_in_the_job[usize::from(expected == PLAN)] += 1;

        let Some(sheet) = going_by_cell_alone(&job) else { continue };
        let goes_wrong = |a: &Call| job.calls.iter().any(|b| a.cell < b.cell && a.deadline > b.deadline);
        let expected = if job.calls.iter().any(goes_wrong) { WRONG_SHEET } else { PLAN };
        assert_eq!(answer(&job, sheet.text()), expected, "{job:?}");
        by_cell[usize::from(expected == PLAN)] += 1;
    }
    assert!(as_in_the_job.iter().chain(&by_cell).all(|&times| times > 300), "{as_in_the_job:?} {by_cell:?}");
}
