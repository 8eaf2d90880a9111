//! The program `floorplan` on jobs with exponents: every byte that it writes. Tabs are shown as spaces.

use harness::examples::exponents::REFUSED;
use harness::examples::{tabs, EXAMPLES};
use harness::gen::exponents::spun_out;
use harness::gen::large::longest_text;
use harness::gen::spelled::{at_full_length, respelled};
use harness::gen::Rng;
use harness::program::{assert_rows, floorplan, refused, row, Row};

#[test]
fn jobs_told_by_hand() {
    let planned = [
        ("FLOOR 25e1\n", "PLAN 0\n"),
        ("FLOOR 256E+0\n", "PLAN 0\n"),
        ("FLOOR 2\nCART 1e0\nCALL 1 0\n", "PLAN 1\nPATH 0 0 1\n"),
        ("FLOOR 25e1\nCART 2e2\nBAY 20E+1 0e9\n", "PLAN 1\nPATH 0 0 200\n"),
        ("FLOOR 1E0\nCART 0e5\nBAY 0E5 1e1\n", "PLAN 1\nPATH 0 0 0 0 0 0 0 0 0 0 0 0 0\n"),
        ("FLOOR 11e1\nCART 1e1\nCALL 1e2 5e0\n", "CANNOT 0\n"),
    ];
    let refusals = [
        ("FLOOR 1\nCART 1e0\nCALL 0 0\n", 5, 2),
        ("FLOOR 1\nCART 1e-1\nCALL 0 0\n", 4, 2),
        ("FLOOR 1\nCART 1.0\nCALL 0 0\n", 4, 2),
        ("FLOOR 1\nCART 1e10\nCALL 0 0\n", 4, 2),
        ("FLOOR 1\nCART 999e9\nCALL 0 0\n", 5, 2),
        ("FLOOR 1\nCART 0\nCALL 0 1e3\n", 5, 3),
        ("FLOOR 3e2\n", 5, 1),
    ];
    let mut rows: Vec<Row> = planned.iter().map(|(job, sheet)| row(job, tabs(job), sheet)).collect();
    let all = refusals.iter().chain(REFUSED);
    rows.extend(all.map(|&(job, number, line)| refused(&format!("{job:?}"), tabs(job), number, line)));
    assert_rows(floorplan(), rows);
}

/// In every number, in some, and in pieces.
#[test]
fn the_filed_examples_with_exponents() {
    let mut rng = Rng::new(1);
    let mut rows = Vec::new();
    for x in EXAMPLES {
        rows.push(row(x.name, at_full_length(&tabs(x.job)), x.sheet));
        rows.extend((0..5).map(|_| row(x.name, respelled(&tabs(x.job), &mut rng), x.sheet)));
        rows.push(row(x.name, respelled(&tabs(x.job), &mut rng), x.sheet).in_pieces(5));
    }
    assert_rows(floorplan(), rows);
}

#[test]
fn the_longest_texts() {
    let rows = vec![
        refused("the longest job", longest_text(), 9, 0),
        refused("the longest job in pieces", longest_text(), 9, 0).in_pieces(1000),
        refused("16,384 bytes", spun_out(16_384), 6, 642),
        refused("16,385 bytes", spun_out(16_385), 2, 0),
    ];
    assert_rows(floorplan(), rows);
}
