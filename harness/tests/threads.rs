//! Two threads plan and check different jobs, and turn maps into floors, at the same time: each gets what it gets alone.

use std::sync::Barrier;
use std::thread;

use harness::ffi::{check, map, plan, Library};
use harness::gen::damage::changed;
use harness::gen::map_cases::{damaged_maps, large_maps, MapCase};
use harness::gen::sizes::{at_the_limits, medium};
use harness::gen::spelled::respelled;
use harness::gen::Rng;
use harness::model::answer::unpack;
use harness::model::job::Job;
use harness::model::limits::{sheet_least, store_least};

/// What the calls give for a job, stores included: the planner, the check of its sheet, and the check of a damaged one.
#[derive(PartialEq)]
struct Given {
    packed: [u64; 3],
    stores: [Vec<u8>; 3],
    sheet: Vec<u8>,
}

/// The same seed lends the same bytes.
fn given(job: &Job, seed: u64) -> Given {
    let mut rng = Rng::new(seed);
    let (text, store_len) = (respelled(&job.text(), &mut rng), store_least(job));
    let planned = plan(&text, store_len, sheet_least(job), &mut rng).expect("guards as lent");
    let sheet = &planned.sheet[..unpack(planned.packed).1];
    let right = check(&Library, &text, store_len, sheet, &mut rng).expect("guards as lent");
    let damaged = changed(sheet, &mut rng);
    let wrong = check(&Library, &text, store_len, &damaged, &mut rng).expect("guards as lent");
    Given {
        packed: [planned.packed, right.packed, wrong.packed],
        stores: [planned.store, right.store, wrong.store],
        sheet: planned.sheet,
    }
}

/// What the call gives for a map: its answer, and the text buffer.
fn given_for_map(case: &MapCase, seed: u64) -> (u64, Vec<u8>) {
    let mapped = map(&Library, &case.map, case.text_len, &mut Rng::new(seed)).expect("guards as lent");
    (mapped.packed, mapped.text)
}

/// Both threads go through what is theirs so many times, from the same moment on.
fn assert_same_at_once<T: Sync, G: PartialEq + Sync>(theirs: [Vec<T>; 2], given: fn(&T, u64) -> G, times: usize) {
    let alone = theirs.each_ref().map(|all| all.iter().map(|one| given(one, 1)).collect::<Vec<G>>());
    let begin = Barrier::new(2);
    let all_again = |all: &[T], alone: &[G]| {
        begin.wait();
        for _ in 0..times {
            for (i, one) in all.iter().enumerate() {
                assert!(given(one, 1) == alone[i], "another result than alone for the {i}th");
            }
        }
    };
    thread::scope(|scope| {
        for (all, alone) in theirs.iter().zip(&alone) {
            scope.spawn(|| all_again(all, alone));
        }
    });
}

fn two_of<T>(count: usize, make: fn(&mut Rng) -> T) -> [Vec<T>; 2] {
    [1, 2].map(|seed| {
        let mut rng = Rng::new(seed);
        (0..count).map(|_| make(&mut rng)).collect()
    })
}

#[test]
fn medium_jobs_at_once() {
    assert_same_at_once(two_of(50, medium), given, 20);
}

#[test]
fn jobs_at_the_limits_at_once() {
    assert_same_at_once(two_of(3, at_the_limits), given, 4);
}

#[test]
fn maps_at_once() {
    assert_same_at_once(two_of(100, large_maps), given_for_map, 50);
    assert_same_at_once(two_of(100, damaged_maps), given_for_map, 50);
}
