//! The calls at the limits: each in a thread with a stack of 256 KiB, and how much of a stack each writes to.

use std::thread;

use harness::ffi::{check, map, plan, Library};
use harness::gen::early::early_many_times;
use harness::gen::floors::*;
use harness::gen::large::*;
use harness::gen::maps::{corridor, scattered, Drawing};
use harness::gen::spelled::at_full_length;
use harness::gen::Rng;
use harness::model::answer::*;
use harness::model::job::Job;
use harness::model::limits::{self, sheet_least, store_least};
use harness::model::sheet::Sheet;
use harness::painted::depth_of;

const LITTLE: usize = 256 * 1024;

/// Runs a call in a thread with little stack. Buffers are on the heap, so the stack is nearly the call's alone.
fn with_little_stack<T: Send + 'static>(call: impl FnOnce() -> T + Send + 'static) -> T {
    let thread = thread::Builder::new().stack_size(LITTLE).spawn(call);
    thread.expect("a thread").join().expect("an answer")
}

fn check_with_little_stack(job: Vec<u8>, store_len: usize, sheet: Vec<u8>) -> (u8, usize) {
    let call = move || check(&Library, &job, store_len, &sheet, &mut Rng::new(1));
    unpack(with_little_stack(call).expect("no byte changed").packed)
}

/// Jobs at the limits with a sheet that is right by the way they are made, and its answer.
fn right_sheets() -> Vec<(Job, Sheet, u8)> {
    let (still, still_paths) = standing(ring(), limits::CARTS, limits::DEADLINE);
    let floor = with_most_tracks(grid(16, 16), &mut Rng::new(2));
    let (moved, paths) = moving(floor, limits::CARTS, 200, limits::DEADLINE, &mut Rng::new(3));
    let floor = with_most_tracks(grid(16, 16), &mut Rng::new(5));
    let (parked, parked_paths) = moving_to_bays(floor, limits::CARTS, 200, limits::DEADLINE, &mut Rng::new(6));
    let (shut, bay) = shut_line(limits::CARTS, limits::CARTS - 1, limits::DEADLINE);
    let (crowded, middle) = crowded_star(255, limits::CARTS, limits::CARTS);
    let (others, _) = moving(grid(15, 17), limits::CARTS - 1, 100, limits::DEADLINE, &mut Rng::new(4));
    let (lost, ends) = with_lost_call(others);
    let (early, early_paths) = early_many_times(16, 12, 12, &mut Rng::new(8));
    let (late, calls) = late_star(limits::CARTS, 0, limits::DEADLINE);
    let floor = with_most_tracks(grid(16, 16), &mut Rng::new(9));
    let spare = |spares| {
        let carts = (limits::CARTS, spares);
        moving_with_spares(floor.clone(), carts, 200, limits::DEADLINE, &mut Rng::new(10))
    };
    let ((few, few_spare), (many, many_spare)) = (spare(8), spare(limits::CARTS - 1));
    let (mut gate, steps) = crowded_star(255, 32, 32);
    gate.carts.extend(100..132);
    vec![
        (still, Sheet::of_paths(still_paths), PLAN),
        (moved, Sheet::of_paths(paths), PLAN),
        (parked, Sheet::of_paths(parked_paths), PLAN),
        (shut, Sheet::Cannot(bay), CANNOT),
        (crowded, Sheet::Cannot(middle), CANNOT),
        (lost, Sheet::Cannot(ends), CANNOT),
        (early, Sheet::of_paths(early_paths), PLAN),
        (late, Sheet::Cannot(calls), CANNOT),
        (few, Sheet::Plan(few_spare), PLAN),
        (many, Sheet::Plan(many_spare), PLAN),
        (gate, Sheet::Cannot(steps), CANNOT),
    ]
}

#[test]
fn plans_and_choke_lists_at_every_limit() {
    for (job, sheet, answer) in right_sheets() {
        assert_eq!(check_with_little_stack(job.text(), store_least(&job), sheet.text()), (answer, 0));
    }
}

#[test]
fn jobs_planned_at_every_limit() {
    for (job, _, answer) in right_sheets() {
        let call = move || plan(&job.text(), store_least(&job), sheet_least(&job), &mut Rng::new(1));
        let planned = with_little_stack(call).expect("no byte changed");
        assert_eq!(unpack(planned.packed).0, answer);
    }
}

#[test]
fn refusals_at_the_limits() {
    let store = store_least(&standing(ring(), limits::CARTS, limits::DEADLINE).0);
    let noise = Rng::new(5).noise(10_000_000);
    assert_eq!(check_with_little_stack(longest_text(), store, noise), (BAD_SHEET, 1));
    assert_eq!(check_with_little_stack(longest_text(), store - 1, Vec::new()), (STORE_TOO_SHORT, 0));
    assert_eq!(check_with_little_stack(vec![b'\n'; limits::TEXT], store, Vec::new()), (BAD_LINE, 1));
    let one_more = [longest_text(), b"CALL\t0e0\t0\n".to_vec()].concat();
    assert_eq!(check_with_little_stack(one_more, store, Vec::new()), (TOO_MANY, 642));
}

/// Prints the most that any of the calls needs, and holds it under the limit.
fn assert_high_water_mark(name: &str, depths: &[usize]) {
    let mark = depths.iter().max().expect("a call");
    println!("stack of {name}: {mark} bytes at the most, of {LITTLE}");
    assert!(*mark < LITTLE, "{name} goes down {depths:?}");
}

/// How deep the check goes with the longest spelling of a job, and its answer.
fn depth_of_check(job: &Job, sheet: &[u8]) -> (usize, u8) {
    let (text, mut store) = (at_full_length(&job.text()), vec![1; store_least(job)]);
    let mut packed = 0;
    let depth = depth_of(|| packed = cartfloor::check(&text, &mut store, sheet));
    (depth, unpack(packed).0)
}

#[test]
fn high_water_mark_of_the_check() {
    let mut depths = Vec::new();
    for (job, sheet, answer) in right_sheets() {
        let text = sheet.text();
        for (sheet, expected) in [(text.as_slice(), answer), (&text[..text.len() - 1], BAD_SHEET)] {
            let (depth, found) = depth_of_check(&job, sheet);
            assert_eq!(found, expected);
            depths.push(depth);
        }
    }
    assert_high_water_mark("cartfloor_check", &depths);
}

/// How deep the planner goes, and its answer.
fn depth_of_plan(job: &[u8], store_len: usize, sheet_len: usize) -> (usize, u8) {
    let (mut store, mut sheet) = (vec![1; store_len], vec![1; sheet_len]);
    let mut packed = 0;
    let depth = depth_of(|| packed = cartfloor::plan(job, &mut store, &mut sheet));
    (depth, unpack(packed).0)
}

#[test]
fn high_water_mark_of_the_planner() {
    let mut depths = Vec::new();
    for (job, _, answer) in right_sheets() {
        for (sheet_len, expected) in [(sheet_least(&job), answer), (0, SHEET_TOO_SHORT)] {
            let text = at_full_length(&job.text());
            let (depth, found) = depth_of_plan(&text, store_least(&job), sheet_len);
            assert_eq!(found, expected);
            depths.push(depth);
        }
    }
    assert_high_water_mark("cartfloor_plan", &depths);
}

/// Maps at the limits with their answers: as many cells and tracks as can be, and what is refused last.
fn maps() -> Vec<(Vec<u8>, u8)> {
    let open = Drawing::of(b'.', limits::SIDE, limits::SIDE).text();
    let bad_end = open[..open.len() - 1].to_vec();
    vec![
        (Drawing::of(b'.', 16, 16).text(), FLOOR),
        (scattered(limits::SIDE, limits::SIDE, limits::CELLS, &mut Rng::new(7)).text(), FLOOR),
        (corridor(limits::SIDE, limits::SIDE, limits::CELLS).text(), FLOOR),
        (Drawing::of(b'@', limits::SIDE, limits::SIDE).text(), NO_FLOOR),
        (open, NO_FLOOR),
        (bad_end, BAD_MAP),
    ]
}

#[test]
fn maps_at_every_limit() {
    for (text, answer) in maps() {
        let call = move || map(&Library, &text, cartfloor::FLOOR_MOST, &mut Rng::new(1));
        let mapped = with_little_stack(call).expect("no byte changed");
        assert_eq!(unpack(mapped.packed).0, answer);
    }
}

/// How deep the call for a map goes, and its answer.
fn depth_of_map(map: &[u8], text_len: usize) -> (usize, u8) {
    let mut text = vec![1; text_len];
    let mut packed = 0;
    let depth = depth_of(|| packed = cartfloor::map(map, &mut text));
    (depth, unpack(packed).0)
}

#[test]
fn high_water_mark_of_the_map() {
    let mut depths = Vec::new();
    for (map, answer) in maps() {
        let short = if answer == FLOOR { SHEET_TOO_SHORT } else { answer };
        for (text_len, expected) in [(cartfloor::FLOOR_MOST, answer), (0, short)] {
            let (depth, found) = depth_of_map(&map, text_len);
            assert_eq!(found, expected);
            depths.push(depth);
        }
    }
    assert_high_water_mark("cartfloor_map", &depths);
}
