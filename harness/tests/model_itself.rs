//! The model itself: what it says in two ways agrees, and the filed sheets are the only ones.

use std::fs;

use harness::examples::{tabs, BUFFER, EXAMPLES, PLANNED};
use harness::gen::early::about_early_lifts;
use harness::gen::lists::{lists, some_points, true_lists};
use harness::gen::plans::{has_plan, plans};
use harness::gen::small::small;
use harness::gen::Rng;
use harness::model::answer::PLAN;
use harness::model::check::check;
use harness::model::job::Job;
use harness::model::plan::is_plan;
use harness::model::sheet::Sheet;
use harness::model::{choke, reader, sheet, walks};

const FILES: &str = concat!(env!("CARGO_MANIFEST_DIR"), "/../examples");

#[test]
fn what_is_written_is_read() {
    let mut rng = Rng::new(1);
    for _ in 0..2000 {
        let job = small(&mut rng);
        assert_eq!(reader::read(&job.text()), Ok(job.clone()));
        for plan in plans(&job, 10) {
            assert!(is_plan(&job, &plan));
            let written = Sheet::Plan(plan);
            assert_eq!(sheet::read(&written.text(), &job), Ok(written));
        }
    }
}

#[test]
fn layers_and_walks_agree_on_choke_lists() {
    let mut rng = Rng::new(2);
    let mut stopped = 0;
    for _ in 0..2000 {
        let job = small(&mut rng);
        let lists = lists(&job);
        for _ in 0..lists.len().min(10) {
            let list = rng.pick(&lists);
            let by_layers = choke::stops_every_walk(&job, list);
            assert_eq!(by_layers, walks::stops_every_walk(&job, list), "{list:?} for {job:?}");
            stopped += usize::from(by_layers);
        }
    }
    assert!(stopped > 500, "only {stopped} lists were true");
}

/// On the jobs about early lifts too, of whose lists, more than can be counted, some are tried.
#[test]
fn layers_and_walks_agree_about_early_lifts() {
    let mut rng = Rng::new(4);
    let mut stopped = 0;
    let jobs: Vec<Job> = (0..1000).map(|_| about_early_lifts(&mut rng)).filter(walks::can_be_written_out).collect();
    assert!(jobs.len() > 700);
    for job in jobs {
        for _ in 0..10 {
            let count = rng.below(3 * job.calls.len());
            let list = some_points(&job, count, &mut rng);
            let by_layers = choke::stops_every_walk(&job, &list);
            assert_eq!(by_layers, walks::stops_every_walk(&job, &list), "{list:?} for {job:?}");
            stopped += usize::from(by_layers);
        }
    }
    assert!(stopped > 50, "only {stopped} lists were true");
}

/// A plan needs a cart of its own for each call, so fewer points than calls cannot stop all its walks; and where there
/// is no plan, there is a list (Menger's theorem, with a node for each call behind its cell at every step in time).
#[test]
fn a_job_has_either_a_plan_or_a_true_choke_list() {
    let mut rng = Rng::new(3);
    for _ in 0..5000 {
        let job = small(&mut rng);
        assert_ne!(has_plan(&job), !true_lists(&job).is_empty(), "{job:?}");
    }
}

#[test]
fn the_example_files_are_the_filed_examples() {
    for example in EXAMPLES {
        let name = example.name.to_lowercase();
        let [job, sheet] = ["job", "sheet"].map(|end| fs::read(format!("{FILES}/{name}.{end}")).expect("an example"));
        assert_eq!((job, sheet), (tabs(example.job), tabs(example.sheet)), "{name}");
    }
    // Of their plans one may stand there.
    for example in PLANNED {
        let file = format!("{FILES}/{}", example.name.to_lowercase());
        assert_eq!(fs::read(format!("{file}.job")).expect("an example"), tabs(example.job), "{file}");
        if let Ok(sheet) = fs::read(format!("{file}.sheet")) {
            assert_eq!(check(&tabs(example.job), BUFFER, &sheet), (PLAN, 0), "{file}");
        }
    }
}

/// All but E's, whose plans have 1 to 256 cells.
#[test]
fn the_others_have_several_plans() {
    for example in PLANNED.iter().filter(|example| example.name != "E") {
        let job = reader::read(&tabs(example.job)).expect("a filed job");
        assert!(plans(&job, usize::MAX).len() > 1, "job {}", example.name);
    }
}

#[test]
fn the_filed_sheets_are_the_only_ones() {
    for example in EXAMPLES {
        let job = reader::read(&tabs(example.job)).expect("a filed job");
        let plans = plans(&job, usize::MAX).into_iter().map(Sheet::Plan);
        let lists = true_lists(&job).into_iter().map(Sheet::Cannot);
        let sheets: Vec<Vec<u8>> = plans.chain(lists).map(|sheet| sheet.text()).collect();
        assert_eq!(sheets, [tabs(example.sheet)], "job {}", example.name);
    }
}
