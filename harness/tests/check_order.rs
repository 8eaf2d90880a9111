//! Which order of PATH lines the check passes: by deadline, then cell, with the answers told by hand. Tabs are shown as
//! spaces.

use harness::compare::library;
use harness::examples::{tabs, A, A_BY_CALL, BUFFER, F, F_TRADED};
use harness::gen::bays::all_bays;
use harness::gen::floors::{loose, ring};
use harness::gen::large::{backwards, standing};
use harness::gen::orders::{as_in_the_job, every_order};
use harness::model::answer::*;
use harness::model::job::Job;
use harness::model::limits::{self, store_least};
use harness::model::sheet::{Path, Sheet};

fn answer(job: &str, sheet: &str) -> (u8, usize) {
    library(&tabs(job), BUFFER, &tabs(sheet))
}

/// Of all orders of these lines just the one in which they stand passes.
fn assert_only_so(job: &str, lines: &[&str]) {
    let mut passed = 0;
    for order in every_order(lines) {
        let sheet = format!("PLAN {}\n{}\n", lines.len(), order.join("\n"));
        let expected = if order == lines { PLAN } else { WRONG_SHEET };
        assert_eq!(answer(job, &sheet), (expected, 0), "{sheet:?} for {job:?}");
        passed += usize::from(expected == PLAN);
    }
    assert_eq!(passed, 1);
}

#[test]
fn the_lower_cell_of_one_step_first() {
    assert_only_so(A.job, &["PATH 0 1 0 1", "PATH 1 0 1 2"]);
    assert_eq!(answer(A.job, A_BY_CALL), (WRONG_SHEET, 0));
    assert_only_so(
        "FLOOR 3\nCART 0\nCART 1\nCART 2\nCALL 2 1\nCALL 0 1\nCALL 1 1\n",
        &["PATH 0 1 0 0", "PATH 1 2 1 1", "PATH 2 0 2 2"],
    );
    assert_only_so(
        "FLOOR 4\nCART 0\nCART 1\nCART 2\nCART 3\nCALL 3 1\nCALL 2 1\nCALL 1 1\nCALL 0 1\n",
        &["PATH 0 3 0 0", "PATH 1 2 1 1", "PATH 2 1 2 2", "PATH 3 0 3 3"],
    );
}

#[test]
fn several_calls_at_step_0() {
    assert_only_so(
        "FLOOR 3\nCART 1\nCART 2\nCART 0\nCALL 2 0\nCALL 0 0\nCALL 1 0\n",
        &["PATH 2 1 0", "PATH 0 2 1", "PATH 1 0 2"],
    );
}

#[test]
fn bays_and_calls_of_one_step_alike() {
    for [a, b, c] in [
        ["BAY", "CALL", "CALL"],
        ["CALL", "BAY", "CALL"],
        ["CALL", "CALL", "BAY"],
        ["CALL", "BAY", "BAY"],
        ["BAY", "CALL", "BAY"],
        ["BAY", "BAY", "CALL"],
        ["BAY", "BAY", "BAY"],
    ] {
        let job = format!("FLOOR 3\nCART 0\nCART 1\nCART 2\n{a} 2 1\n{b} 0 1\n{c} 1 1\n");
        assert_only_so(&job, &["PATH 0 1 0 0", "PATH 1 2 1 1", "PATH 2 0 2 2"]);
    }
}

/// Where the cells rise in the job, sheets are as they were.
#[test]
fn cells_that_rise_in_the_job() {
    assert_only_so(F.job, &["PATH 0 0 0 0", "PATH 1 1 1 1"]);
    assert_only_so(
        "FLOOR 3\nCART 2\nCART 1\nCART 0\nCALL 0 1\nBAY 1 1\nCALL 2 1\n",
        &["PATH 2 0 0 0", "PATH 1 1 1 1", "PATH 0 2 2 2"],
    );
}

#[test]
fn the_deadline_before_the_cell() {
    // The lowest cell is due last; the highest is due first; one between two of another step.
    assert_only_so(
        "FLOOR 3\nCART 0\nCART 1\nCART 2\nCALL 0 1\nCALL 2 0\nCALL 1 0\n",
        &["PATH 1 2 1", "PATH 2 1 2", "PATH 0 0 0 0"],
    );
    assert_only_so(
        "FLOOR 3\nCART 0\nCART 1\nCART 2\nCALL 1 1\nCALL 0 1\nCALL 2 0\n",
        &["PATH 2 2 2", "PATH 0 1 0 0", "PATH 1 0 1 1"],
    );
    assert_only_so(
        "FLOOR 3\nCART 0\nCART 1\nCART 2\nBAY 2 1\nCALL 1 0\nCALL 0 1\n",
        &["PATH 1 1 1", "PATH 0 2 0 0", "PATH 2 0 2 2"],
    );
    assert_only_so(
        "FLOOR 4\nCART 0\nCART 1\nCART 2\nCART 3\nCALL 3 0\nCALL 1 2\nCALL 2 0\nCALL 0 2\n",
        &["PATH 2 2 2", "PATH 3 0 3", "PATH 0 3 0 0 0", "PATH 1 1 1 1 1"],
    );
}

/// The lower cell is due a step later.
#[test]
fn deadlines_go_by_number_up_to_the_highest() {
    for late in [1, 10, 100, 128, limits::DEADLINE] {
        let path =
            |cell: usize, call: usize, steps: usize| format!("PATH {cell} {call}{}", format!(" {cell}").repeat(steps));
        let job = format!("FLOOR 2\nCART 0\nCART 1\nCALL 0 {late}\nCALL 1 {}\n", late - 1);
        assert_only_so(&job, &[&path(1, 1, late), &path(0, 0, late + 1)]);
    }
}

/// The call's cell: neither the cell on which the cart starts nor the number of cart or call goes that way.
#[test]
fn the_cell_where_a_path_ends() {
    assert_only_so(
        "FLOOR 4\nTRACK 0 3\nTRACK 1 2\nCART 0\nCART 2\nCALL 3 1\nCALL 1 1\n",
        &["PATH 1 1 2 1", "PATH 0 0 0 3"],
    );
    assert_only_so(
        "FLOOR 4\nTRACK 0 3\nTRACK 1 2\nCART 2\nCART 0\nCALL 1 1\nCALL 3 1\n",
        &["PATH 0 0 2 1", "PATH 1 1 0 3"],
    );
}

#[test]
fn cells_go_by_number_up_to_the_highest() {
    for (low, high) in [(9, 10), (2, 10), (99, 100), (20, 100), (127, 128), (0, 255), (254, 255)] {
        let job = format!("FLOOR 256\nCART {high}\nCART {low}\nCALL {high} 0\nCALL {low} 0\n");
        assert_only_so(&job, &[&format!("PATH 1 1 {low}"), &format!("PATH 0 0 {high}")]);
    }
}

#[test]
fn a_line_twice() {
    let job = "FLOOR 3\nCART 0\nCART 1\nCART 2\nCALL 2 0\nCALL 1 0\nCALL 0 0\n";
    for lines in [
        "PATH 0 2 0\nPATH 0 2 0\nPATH 1 1 1",
        "PATH 0 2 0\nPATH 1 1 1\nPATH 1 1 1",
        "PATH 0 2 0\nPATH 0 2 0\nPATH 0 2 0",
        // The call alone, with another cart.
        "PATH 0 2 0\nPATH 1 1 1\nPATH 2 1 1",
    ] {
        assert_eq!(answer(job, &format!("PLAN 3\n{lines}\n")), (WRONG_SHEET, 0), "{lines:?}");
    }
    assert_eq!(answer(A.job, "PLAN 2\nPATH 0 1 0 1\nPATH 1 1 1 1\n"), (WRONG_SHEET, 0));
}

#[test]
fn the_right_order_is_not_enough() {
    assert_eq!(answer(F.job, F_TRADED), (WRONG_SHEET, 0));
    assert_eq!(answer(A.job, "PLAN 2\nPATH 1 1 1 1\nPATH 0 0 0 2\n"), (WRONG_SHEET, 0));
}

/// What is not in the form is 11, with its line, though the order is wrong as well.
#[test]
fn the_form_comes_before_the_order() {
    for (sheet, line) in [
        ("PLAN 1\nPATH 1 0 1 2\nPATH 0 1 0 1\n", 1),
        ("PLAN 2\nPATH 1 0\nPATH 0 1 0 1\n", 2),
        ("PLAN 2\nPATH 1 0 1 2 2\nPATH 0 1 0 1\n", 2),
        ("PLAN 2\nPATH 1 0 1 3\nPATH 0 1 0 1\n", 2),
        ("PLAN 2\nPATH 1 0 1 2\nPATH 0 1\n", 3),
        ("PLAN 2\nPATH 1 0 1 2\nPATH 0 1 0 1", 3),
        ("PLAN 2\nPATH 1 0 1 2\nPATH 0 2 0 1\n", 3),
        ("PLAN 2\nPATH 1 0 1 2\nPATH 0 1 0 1\nPATH 0 1 0 1\n", 4),
    ] {
        assert_eq!(answer(A.job, sheet), (BAD_SHEET, line), "{sheet:?}");
    }
}

fn answer_at_limits(job: &Job, paths: Vec<Path>) -> (u8, usize) {
    library(&job.text(), store_least(job), &Sheet::of_paths(paths).text())
}

/// The highest cell stands first in the job, and its path last on the sheet.
#[test]
fn sixty_four_calls_at_one_step() {
    for (floor, step) in [(loose(limits::CELLS), 0), (loose(limits::CELLS), 1), (ring(), limits::DEADLINE)] {
        let (job, paths) = backwards(standing(floor, limits::CARTS, step));
        for job in [job.clone(), all_bays(job)] {
            assert_eq!((job.calls[0].cell, job.calls[63].cell, paths[0].call), (255, 192, 63));
            assert_eq!(answer_at_limits(&job, paths.clone()), (PLAN, 0));
            assert_eq!(answer_at_limits(&job, as_in_the_job(&job, &paths)), (WRONG_SHEET, 0));
            for at in [1, 2, 32, 63] {
                let mut exchanged = paths.clone();
                exchanged.swap(at - 1, at);
                assert_eq!(answer_at_limits(&job, exchanged), (WRONG_SHEET, 0), "lines {at} and the one before");
            }
        }
    }
}
