//! The model on bays: which cells are closed, told by hand, and that the jobs which are tried have bays that matter.

use std::collections::BTreeMap;

use harness::examples::{tabs, CLOSED_BY_NO_BAY};
use harness::gen::bays::no_bays;
use harness::gen::floors::{grid, some_floor};
use harness::gen::large::{moving, moving_to_bays, shut_line};
use harness::gen::lists::{closed_points, lists, true_lists};
use harness::gen::plans::{has_plan, plans};
use harness::gen::small::{small, small_with_bays, small_without_bays};
use harness::gen::wrong::bay_in_the_way;
use harness::gen::Rng;
use harness::model::choke::stops_every_walk;
use harness::model::job::{Call, Job};
use harness::model::plan::is_plan;
use harness::model::reader;
use harness::model::sheet::{Choke, Path, Sheet};
use harness::model::walks::all_walks;

fn job(text: &str) -> Job {
    reader::read(&tabs(text)).expect("a job")
}

#[test]
fn calls_and_bays_are_numbered_as_they_stand() {
    let job = job("FLOOR 4\nCART 0\nCART 1\nCART 2\nCART 3\nBAY 3 2\nCALL 0 9\nCALL 2 1\nBAY 1 2\n");
    assert_eq!(job.calls, [Call::bay(3, 2), Call::lift(0, 9), Call::lift(2, 1), Call::bay(1, 2)]);
    assert_eq!(job.written_order(), [2, 3, 0, 1]);
    assert_eq!(job.last(), 9);
}

#[test]
fn a_bay_is_the_last_step_too() {
    assert_eq!(job("FLOOR 2\nCART 0\nCART 1\nBAY 0 7\nCALL 1 3\n").last(), 7);
    assert_eq!(job("FLOOR 1\nCART 0\nBAY 0 255\n").last(), 255);
}

#[test]
fn a_bays_cell_is_closed_after_its_step() {
    let job = job("FLOOR 2\nCART 0\nCART 1\nBAY 1 2\nCALL 0 1\n");
    let open = |cell| (0..5).filter(|&step| job.is_open(cell, step)).collect::<Vec<usize>>();
    assert_eq!(open(0), [0, 1, 2, 3, 4]);
    assert_eq!(open(1), [0, 1, 2]);
}

/// Cell 1 is closed from step 2 on. Its own walks are there at step 1, and so is who goes on from there.
#[test]
fn the_walks_past_a_bay() {
    let job = job("FLOOR 3\nTRACK 0 1\nTRACK 1 2\nCART 0\nCART 1\nBAY 1 1\nCALL 2 3\n");
    let walks = all_walks(&job);
    assert_eq!(walks[0][0], [vec![0, 1]]);
    assert_eq!(walks[0][1], [vec![0, 1, 2], vec![0, 1, 2, 2]]);
    assert_eq!(walks[1][0], [vec![1, 1]]);
    assert_eq!(walks[1][1], [vec![1, 2], vec![1, 1, 2], vec![1, 2, 2], vec![1, 1, 2, 2], vec![1, 2, 2, 2]]);
}

#[test]
fn the_bay_alone_is_the_reason() {
    let job = job(CLOSED_BY_NO_BAY.job);
    let sheets: Vec<Vec<u8>> = plans(&job, usize::MAX).into_iter().map(|plan| Sheet::Plan(plan).text()).collect();
    assert_eq!(sheets, [tabs(CLOSED_BY_NO_BAY.sheet)]);
    assert_eq!(true_lists(&job), Vec::<Vec<Choke>>::new());
}

#[test]
fn points_on_closed_cells_stop_nothing() {
    let mut rng = Rng::new(1);
    let mut tried = 0;
    for _ in 0..1000 {
        let job = small_with_bays(&mut rng);
        let (closed, lists) = (closed_points(&job), lists(&job));
        for _ in 0..lists.len().min(20) {
            let list = rng.pick(&lists);
            let open: Vec<Choke> = list.iter().filter(|point| !closed.contains(point)).copied().collect();
            assert_eq!(stops_every_walk(&job, list), stops_every_walk(&job, &open), "{list:?} for {job:?}");
            tried += usize::from(open.len() < list.len());
        }
    }
    assert!(tried > 1000, "only {tried} lists had such a point");
}

/// What the small jobs are, each kind often enough to be tried.
#[test]
fn small_jobs_have_bays_of_every_kind() {
    let mut rng = Rng::new(2);
    let mut kinds: BTreeMap<&str, usize> = BTreeMap::new();
    for _ in 0..4000 {
        let job = small(&mut rng);
        let bays: Vec<&Call> = job.calls.iter().filter(|call| call.is_bay()).collect();
        let is_first = |call: &Call| job.calls.iter().all(|other| call.deadline <= other.deadline);
        let matters = || !has_plan(&job) && has_plan(&no_bays(job.clone()));
        let is_crossed =
            || plans(&job, 1).iter().flat_map(|plan| &plan.paths).any(|p| bays.iter().any(|bay| crosses(&job, p, bay)));
        for (kind, is_one) in [
            ("without bays", bays.is_empty()),
            ("bays and lifts", !bays.is_empty() && bays.len() < job.calls.len()),
            ("all bays", bays.len() > 1 && bays.len() == job.calls.len()),
            ("a bay at step 0", bays.iter().any(|bay| bay.deadline == 0)),
            ("a bay on a cart's own cell", bays.iter().any(|bay| job.carts.contains(&bay.cell))),
            ("a bay before others", bays.iter().any(|bay| is_first(bay) && bay.deadline < job.last())),
            ("a bay that is the reason", !bays.is_empty() && matters()),
            ("a bay that is crossed before", !bays.is_empty() && is_crossed()),
        ] {
            *kinds.entry(kind).or_default() += usize::from(is_one);
        }
    }
    let seldom: Vec<_> = kinds.iter().filter(|(_, &times)| times < 200).collect();
    assert!(seldom.is_empty(), "{seldom:?} of {kinds:?}");
    assert!((1600..2400).contains(&kinds["without bays"]), "{kinds:?}");
}

/// Whether the path of another call is on the bay's cell before the bay's step.
fn crosses(job: &Job, path: &Path, bay: &Call) -> bool {
    job.calls[path.call] != *bay && path.cells.iter().take(bay.deadline).any(|&cell| cell == bay.cell)
}

#[test]
fn small_jobs_with_and_without() {
    let mut rng = Rng::new(3);
    assert!((0..1000).all(|_| small_with_bays(&mut rng).has_bays() && !small_without_bays(&mut rng).has_bays()));
}

#[test]
fn larger_plans_are_plans_and_a_bay_in_the_way_makes_them_none() {
    let mut rng = Rng::new(4);
    let mut broken = 0;
    for _ in 0..200 {
        let floor = some_floor(&mut rng);
        let carts = rng.below(floor.cells.min(20) + 1);
        let (job, paths) = moving_to_bays(floor.clone(), carts, 0, 30, &mut rng);
        assert!(is_plan(&job, &paths.clone().into()), "{job:?}");
        let (job, paths) = moving(floor, carts, 0, 30, &mut rng);
        if let Some(job) = bay_in_the_way(&job, &paths, &mut rng) {
            assert!(
                !is_plan(&job, &paths.clone().into()) && is_plan(&no_bays(job.clone()), &paths.clone().into()),
                "{job:?}"
            );
            broken += 1;
        }
    }
    assert!(broken > 50, "only {broken} plans met a bay");
    let (job, _) = moving_to_bays(grid(16, 16), 64, 200, 255, &mut rng);
    assert!((20..45).contains(&job.calls.iter().filter(|call| call.is_bay()).count()));
}

#[test]
fn a_shut_line_has_no_point_to_spare() {
    let (job, list) = shut_line(4, 3, 8);
    assert!(stops_every_walk(&job, &list) && !stops_every_walk(&no_bays(job.clone()), &list));
    for missed in 0..list.len() {
        let mut shorter = list.clone();
        shorter.remove(missed);
        assert!(!stops_every_walk(&job, &shorter), "without point {missed}");
    }
}
