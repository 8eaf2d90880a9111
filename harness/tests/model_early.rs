//! The model on early lifts and whole calls, told by hand; and that the jobs made for them are what they are made for.

use harness::examples::{tabs, EARLY, EARLY_BY_DEADLINES, EARLY_PLAN, WHOLE};
use harness::gen::early::*;
use harness::gen::floors::{grid, some_floor};
use harness::gen::large::{late_star, moving_to_bays, put_off};
use harness::gen::lists::{ends, true_lists};
use harness::gen::plans::{has_plan, plans};
use harness::gen::renumbered::Numbers;
use harness::gen::small::small;
use harness::gen::Rng;
use harness::model::answer::*;
use harness::model::check::check;
use harness::model::choke::{is_in_order, stops_every_walk};
use harness::model::job::{Call, Job};
use harness::model::limits::{store_least, CARTS, DEADLINE};
use harness::model::plan::is_plan;
use harness::model::reader;
use harness::model::sheet::{Choke, Sheet};
use harness::model::walks::{all_walks, can_be_written_out, is_stopped};
use harness::shortcuts::{stopping_walks_to_deadlines, waiting_for_the_deadline};

fn job(text: &str) -> Job {
    reader::read(&tabs(text)).expect("a job")
}

/// What the model's check says of a sheet.
fn answer(job: &Job, sheet: &[u8]) -> u8 {
    check(&job.text(), store_least(job), sheet).0
}

#[test]
fn a_lift_is_met_up_to_its_deadline_and_a_bay_at_its_step() {
    let steps = |call: Call| (0..5).filter(|&step| call.is_met_at(step)).collect::<Vec<usize>>();
    assert_eq!(steps(Call::lift(0, 2)), [0, 1, 2]);
    assert_eq!(steps(Call::lift(0, 0)), [0]);
    assert_eq!(steps(Call::bay(0, 2)), [2]);
}

/// Cells 0 and 1 are joined. Whoever crosses a call's cell can go on.
#[test]
fn walks_end_at_any_step_in_time() {
    let job = job("FLOOR 3\nTRACK 0 1\nCART 0\nCART 1\nCART 2\nCALL 0 2\nBAY 1 2\nCALL 2 1\n");
    let walks = all_walks(&job);
    assert_eq!(walks[0][0], [vec![0], vec![0, 0], vec![0, 0, 0], vec![0, 1, 0]]);
    assert_eq!(walks[0][1], [vec![0, 0, 1], vec![0, 1, 1]]);
    assert_eq!(walks[1][0], [vec![1, 0], vec![1, 1, 0], vec![1, 0, 0]]);
    assert_eq!(walks[2][2], [vec![2], vec![2, 2]]);
    assert!(walks[0][2].is_empty() && walks[2][0].is_empty());
}

#[test]
fn a_walk_stands_on_the_call_that_it_ends_at() {
    let walk = vec![0, 1, 2];
    assert!(is_stopped(&walk, 3, &[Choke::Call(3)]));
    assert!(!is_stopped(&walk, 3, &[Choke::Call(2)]));
    assert!(is_stopped(&walk, 3, &[Choke::Cell { step: 1, cell: 1 }]));
    assert!(!is_stopped(&walk, 3, &[Choke::Cell { step: 2, cell: 1 }, Choke::Cell { step: 3, cell: 2 }]));
}

#[test]
fn cells_come_first_and_then_calls_by_number() {
    let cell = |cell, step| Choke::Cell { step, cell };
    assert!(is_in_order(&[cell(9, 0), cell(1, 1), cell(2, 1), Choke::Call(0), Choke::Call(10)]));
    assert!(!is_in_order(&[Choke::Call(0), cell(0, 0)]));
    assert!(!is_in_order(&[cell(0, 0), Choke::Call(1), Choke::Call(0)]));
    assert!(!is_in_order(&[Choke::Call(1), Choke::Call(1)]));
}

#[test]
fn the_job_that_only_an_early_lift_serves() {
    let (job, paths) = smallest();
    assert!(is_plan(&job, &paths.clone().into()) && lifts_early(&job, &paths));
    assert_eq!(answer(&job, &tabs(EARLY_PLAN)), PLAN);
    assert!(!waiting_for_the_deadline(&job));
    let list = stopping_walks_to_deadlines(&job).expect("a list");
    assert_eq!(list.len(), 3);
    assert_eq!(Sheet::Cannot(list).text(), tabs(EARLY_BY_DEADLINES));
    assert_eq!(answer(&job, &tabs(EARLY_BY_DEADLINES)), WRONG_SHEET);
    assert_eq!(true_lists(&job), Vec::<Vec<Choke>>::new());
    assert!(plans(&job, usize::MAX).iter().all(|plan| lifts_early(&job, &plan.paths)));
    assert_eq!(reader::read(&tabs(EARLY.job)), Ok(job));
}

/// What is made of it: that it is served by an early lift alone, that it is served, that it is not.
#[test]
fn the_family_of_that_job() {
    let mut rng = Rng::new(1);
    let (mut waits, mut larger) = (0, 0);
    for _ in 0..500 {
        let (job, paths) = early(&mut rng);
        assert!(is_plan(&job, &paths.clone().into()) && !waiting_for_the_deadline(&job), "{job:?}");
        larger += usize::from(job.calls.len() > 4);
        let (job, paths) = early_and_joined(&mut rng);
        assert!(is_plan(&job, &paths.clone().into()), "{job:?}");
        waits += usize::from(waiting_for_the_deadline(&job));
        let job = too_late(&mut rng);
        assert!(can_be_written_out(&job) && !has_plan(&job), "{job:?}");
    }
    assert!(larger > 200 && (10..490).contains(&waits), "{larger} with more calls, {waits} served without early lifts");
}

#[test]
fn that_job_many_times() {
    let mut rng = Rng::new(2);
    for times in [1, 2, 5, 15, 16] {
        let (job, paths) = early_many_times(times, 8, 12, &mut rng);
        assert!(is_plan(&job, &paths.clone().into()) && lifts_early(&job, &paths), "{job:?}");
        assert!(job.carts.len() >= 4 * times && job.carts.len() <= CARTS);
    }
}

/// A cell at a step stops both carts as long as there is one step to come, and no longer.
#[test]
fn a_list_that_needs_a_whole_call() {
    for deadline in 1..=5 {
        let job = job(&WHOLE.job.replace("CALL 0 2", &format!("CALL 0 {deadline}")));
        let sheets: Vec<Vec<u8>> = true_lists(&job).into_iter().map(|list| Sheet::Cannot(list).text()).collect();
        let at_step_1 = tabs("CANNOT 1\nCHOKE 0 1\n");
        match deadline {
            1 => assert_eq!(sheets, [at_step_1, tabs(WHOLE.sheet)]),
            _ => assert_eq!(sheets, [tabs(WHOLE.sheet)]),
        }
    }
}

#[test]
fn whole_calls_are_the_only_list() {
    let mut rng = Rng::new(3);
    for _ in 0..30 {
        let (job, list) = whole_calls(3, &mut rng);
        assert_eq!(true_lists(&job), [list], "{job:?}");
    }
    for lost in [0, 31, CARTS - 1] {
        let (job, list) = late_star(CARTS, lost, CARTS + 1);
        assert_eq!(list.len(), CARTS - 1);
        assert!(stops_every_walk(&job, &list));
        for missed in 0..list.len() {
            let mut shorter = list.clone();
            shorter.remove(missed);
            assert!(!stops_every_walk(&job, &shorter), "without point {missed}");
        }
    }
}

#[test]
fn the_ends_of_all_calls_stop_every_walk() {
    let mut rng = Rng::new(4);
    for _ in 0..2000 {
        let job = small(&mut rng);
        assert!(stops_every_walk(&job, &ends(&job)), "{job:?}");
    }
}

/// Later deadlines leave a plan a plan, and its carts are lifted early.
#[test]
fn deadlines_that_are_put_off() {
    let mut rng = Rng::new(5);
    let mut early = 0;
    for _ in 0..200 {
        let floor = some_floor(&mut rng);
        let carts = rng.below(floor.cells.min(20) + 1);
        let (job, paths) = put_off(moving_to_bays(floor, carts, 0, 20, &mut rng), 30, &mut rng);
        assert!(is_plan(&job, &paths.clone().into()), "{job:?}");
        early += usize::from(lifts_early(&job, &paths));
    }
    assert!(early > 100, "{early} with early lifts");
    let (job, paths) = put_off(moving_to_bays(grid(16, 16), 64, 100, 200, &mut rng), DEADLINE, &mut rng);
    assert!(is_plan(&job, &paths.clone().into()) && lifts_early(&job, &paths) && job.has_bays());
}

#[test]
fn other_numbers_change_nothing_else() {
    let mut rng = Rng::new(6);
    for _ in 0..300 {
        let job = small(&mut rng);
        let numbers = Numbers::of(&job, &mut rng);
        let other = numbers.job(&job, &mut rng);
        assert_eq!(reader::read(&other.text()), Ok(other.clone()));
        for plan in plans(&job, 5) {
            assert!(is_plan(&other, &numbers.plan(&job, &plan)), "{job:?} and {other:?}");
        }
        for list in true_lists(&job).into_iter().take(5) {
            let list = numbers.list(&list);
            assert!(is_in_order(&list) && stops_every_walk(&other, &list), "{job:?} and {other:?}");
        }
    }
}
