//! The filed examples, as the planner answers them: numbers and bytes.

use harness::compare::plan;
use harness::examples::{e_in_bay, tabs, BUFFER, D, EXAMPLES, PLANNED, REFUSED};
use harness::ffi;
use harness::gen::Rng;
use harness::model::answer::{unpack, PLAN, STORE_TOO_SHORT};

fn planned(job: &[u8]) -> (u8, Vec<u8>) {
    plan(job, BUFFER, BUFFER, &mut Rng::new(1))
}

#[test]
fn the_filed_sheets_are_written() {
    for example in EXAMPLES {
        let expected = (example.answer, tabs(example.sheet));
        assert_eq!(planned(&tabs(example.job)), expected, "job {}", example.name);
    }
}

#[test]
fn job_d_needs_a_store_of_4128_bytes() {
    let mut rng = Rng::new(2);
    assert_eq!(plan(&tabs(D.job), 4128, BUFFER, &mut rng), (PLAN, tabs(D.sheet)));
    assert_eq!(plan(&tabs(D.job), 4127, BUFFER, &mut rng), (STORE_TOO_SHORT, Vec::new()));
}

#[test]
fn job_e_with_a_bay_has_256_zeros() {
    let (job, sheet) = e_in_bay();
    assert_eq!(planned(&job), (PLAN, sheet));
}

/// Which plan is left open; the comparison holds it against the model.
#[test]
fn the_others_are_planned() {
    for example in PLANNED {
        assert_eq!(planned(&tabs(example.job)).0, PLAN, "job {}", example.name);
    }
}

#[test]
fn refused_jobs() {
    for &(job, number, line) in REFUSED {
        let found = ffi::plan(&tabs(job), BUFFER, BUFFER, &mut Rng::new(3)).expect("no byte changed");
        assert_eq!(unpack(found.packed), (number, line), "{job:?}");
        assert_eq!(planned(&tabs(job)), (number, Vec::new()), "{job:?}");
    }
}

#[test]
fn a_floor_of_256_cells_passes() {
    assert_eq!(planned(&tabs("FLOOR 256\n")), (PLAN, tabs("PLAN 0\n")));
}
