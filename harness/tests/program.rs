//! The program `floorplan` as it is built and run: every byte that it writes, as the README has it. Tabs are shown as
//! spaces.

use std::fs;
use std::path::PathBuf;
use std::process::Command;

use harness::child::{finish, piped, Ended};
use harness::examples::spares::SPARES;
use harness::examples::{e_in_bay, tabs, BUFFER, D, EXAMPLES, PLANNED, REFUSED};
use harness::model::answer::PLAN;
use harness::model::check::check;
use harness::model::limits::{sheet_least, store_least, TEXT};
use harness::model::reader;
use harness::program::{self, floorplan, refused, row, Row};

const EXAMPLE_FILES: &str = concat!(env!("CARGO_MANIFEST_DIR"), "/../examples");

fn assert_rows(rows: Vec<Row>) {
    program::assert_rows(floorplan(), rows);
}

#[test]
fn the_filed_examples() {
    let mut rows: Vec<Row> = EXAMPLES.iter().map(|x| row(x.name, tabs(x.job), x.sheet)).collect();
    rows.push(row("256 cells", tabs("FLOOR 256\n"), "PLAN 0\n"));
    rows.extend(REFUSED.iter().map(|&(job, number, line)| refused(&format!("{job:?}"), tabs(job), number, line)));
    let (job, sheet) = e_in_bay();
    rows.push(Row { name: "E with a bay".to_string(), pieces: vec![job], expected: sheet });
    assert_rows(rows);
}

/// Which plan is left open, so that what the program writes is held against the model.
#[test]
fn the_examples_with_several_plans() {
    for example in PLANNED {
        assert_planned(example.name, tabs(example.job));
    }
}

fn assert_planned(name: &str, job: Vec<u8>) {
    let child = piped(Command::new(floorplan())).spawn().expect("a program that starts");
    let Ended { status, out, err } = finish(child, vec![job.clone()]).expect("a program that ends");
    assert_eq!((status.code(), err), (Some(0), Vec::new()), "{name}");
    assert_eq!(check(&job, BUFFER, &out), (PLAN, 0), "{name}");
}

/// Every job of the folder. Those that are no filed examples need a longer store than the program has.
#[test]
fn the_example_files() {
    let files = fs::read_dir(EXAMPLE_FILES).expect("a folder of examples").map(|file| file.expect("a file").path());
    let jobs: Vec<_> = files.filter(|file| file.extension().is_some_and(|end| end == "job")).collect();
    assert!(jobs.len() >= 16, "{} jobs in {EXAMPLE_FILES}", jobs.len());
    let example = |file: PathBuf| {
        let (name, job) = (file.display().to_string(), fs::read(&file).expect("a job"));
        if let Ok(expected) = fs::read(file.with_extension("sheet")) {
            return Some(Row { name, pieces: vec![job], expected });
        }
        if PLANNED.iter().any(|example| tabs(example.job) == job) {
            assert_planned(&name, job);
            return None;
        }
        let least = store_least(&reader::read(&job).expect("a right job"));
        assert!(least > BUFFER, "{name} has no sheet and needs a store of {least} bytes");
        Some(refused(&name, job, 9, 0))
    };
    assert_rows(jobs.into_iter().filter_map(example).collect());
}

/// The cells round cell 0 and a track to each: 256 lines, and one more.
fn star_and(line: &str) -> Vec<u8> {
    let tracks: String = (1..256).map(|cell| format!("TRACK 0 {cell}\n")).collect();
    tabs(&format!("FLOOR 256\n{tracks}{line}"))
}

/// Carts and calls on the first cells of a floor without tracks.
fn loose(cells: usize, carts: usize, calls: usize, deadline: usize) -> String {
    let carts: String = (0..carts).map(|cell| format!("CART {cell}\n")).collect();
    let calls: String = (0..calls).map(|cell| format!("CALL {cell} {deadline}\n")).collect();
    format!("FLOOR {cells}\n{carts}{calls}")
}

/// Every number from 3 to 8, with lines of one, two and three digits, above 255 too. 2 and 9 are below. 10 cannot come: a
/// job that passes with this store has at most 1,920 for (H + 1) × cells and no more carts than cells, so that its 64
/// carts need at most 4 × 1,920 + 64 × 16 + 64 = 8,768 bytes for the sheet.
#[test]
fn every_refusal_of_a_job() {
    let track = |i: usize| format!("TRACK {} {}\n", i % 256, (i % 256 + 1 + i / 256) % 256);
    let tracks = |count: usize| tabs(&format!("FLOOR 256\n{}", (0..count).map(track).collect::<String>()));
    assert_rows(vec![
        refused("a lower-case word", tabs("floor 1\n"), 3, 1),
        refused("no FLOOR", tabs("CART 0\nCALL 0 0\n"), 3, 1),
        refused("a second FLOOR", star_and("FLOOR 256\n"), 3, 257),
        refused("one cell for a track", star_and("TRACK 1\n"), 3, 257),
        refused("no LF at the end", tabs(D.job.trim_end()), 3, 3),
        refused("a CART behind the calls", tabs(&(loose(20, 10, 10, 5) + "CART 10\n")), 3, 22),
        refused("no digit", star_and("TRACK 999 x\n"), 4, 257),
        refused("a CR", tabs("FLOOR 1\r\n"), 4, 1),
        refused("an unknown cell", star_and("TRACK 1 256\n"), 5, 257),
        refused("a late deadline", tabs(&(loose(20, 10, 9, 255) + "CALL 9 256\n")), 5, 21),
        refused("513 tracks", tracks(513), 6, 514),
        refused("65 carts", tabs(&loose(256, 65, 0, 0)), 6, 66),
        refused("65 calls", tabs(&loose(256, 64, 65, 0)), 6, 130),
        refused("a track twice", star_and("TRACK 255 0\n"), 7, 257),
        refused("a second cart", tabs(&(loose(20, 10, 0, 0) + "CART 9\n")), 7, 12),
        refused("a second call", tabs(&(loose(20, 10, 9, 7) + "CALL 8 6\n")), 7, 21),
        refused("more calls than carts", tabs(&loose(20, 10, 11, 0)), 8, 0),
        refused("calls without a cart", tabs(&loose(20, 0, 1, 0)), 8, 0),
    ]);
}

/// On a floor without tracks everybody stands, so that there is one plan alone where the calls come to an end at step 0, or
/// in bays.
#[test]
fn more_carts_than_calls() {
    let sheet = |carts: usize, calls: usize, deadline: usize| {
        let spare = |i| format!("SPARE {i}{}\n", format!(" {i}").repeat(deadline + 1));
        standing(calls, deadline) + &(calls..carts).map(spare).collect::<String>()
    };
    let mut rows: Vec<Row> = SPARES.iter().map(|x| row(x.name, tabs(x.job), x.sheet)).collect();
    for (carts, calls) in [(1, 0), (10, 9), (64, 0), (64, 1), (64, 8), (64, 63)] {
        let name = format!("{carts} carts, {calls} calls");
        rows.push(row(&name, tabs(&loose(64, carts, calls, 0)), &sheet(carts, calls, 0)));
        let last = if calls == 0 { 0 } else { 29 };
        rows.push(row(&name, tabs(&in_bays(loose(64, carts, calls, 29))), &sheet(carts, calls, last)));
    }
    assert_rows(rows);
}

/// The job with bays for its calls.
fn in_bays(job: String) -> String {
    job.replace("CALL", "BAY")
}

/// The carts stand where their bays are. Where no track leads from their cells, this is the only plan.
fn standing(carts: usize, deadline: usize) -> String {
    let path = |i| format!("PATH {i} {i}{}\n", format!(" {i}").repeat(deadline + 1));
    format!("PLAN {carts}\n{}", (0..carts).map(path).collect::<String>())
}

/// The store has 65,536 bytes where (H + 1) × (cells + 2 × tracks) is 1,920; 1,921 is 17 × 113 and the next one that a
/// job can have.
#[test]
fn the_longest_store_that_a_job_may_need() {
    let apart = |cells: usize, deadline| format!("FLOOR {cells}\nTRACK 1 2\nCART 0\nCALL 0 {deadline}\n");
    let passing = [
        ("192 cells, 10 steps", in_bays(loose(192, 1, 1, 9)), standing(1, 9)),
        ("13 cells, a track, 128 steps", in_bays(apart(13, 127)), standing(1, 127)),
        ("64 carts, 30 steps", in_bays(loose(64, 64, 64, 29)), standing(64, 29)),
    ];
    let failing = [
        ("113 cells, 17 steps", loose(113, 1, 1, 16)),
        ("111 cells, a track, 17 steps", apart(111, 16)),
        ("15 cells, a track, 113 steps", apart(15, 112)),
    ];
    let read = |job: &str| reader::read(&tabs(job)).expect("a right job");
    assert!(passing.iter().all(|(_, job, _)| store_least(&read(job)) == BUFFER));
    assert!(failing.iter().all(|(_, job)| store_least(&read(job)) == BUFFER + 32));
    // No job that passes needs a longer sheet buffer than the last of these.
    assert_eq!(sheet_least(&read(&passing[2].1)), 8768);
    let passing = passing.iter().map(|(name, job, sheet)| row(name, tabs(job), sheet));
    let failing = failing.iter().map(|(name, job)| refused(name, tabs(job), 9, 0));
    assert_rows(passing.chain(failing).collect());
}

/// Job D with one more line, which is a bad one, up to so many bytes.
fn spun_out(length: usize) -> Vec<u8> {
    let mut text = tabs(D.job);
    text.resize(length - 1, b'x');
    text.push(b'\n');
    text
}

#[test]
fn the_longest_input() {
    assert_rows(vec![
        refused("nothing", Vec::new(), 3, 1),
        refused("one LF", b"\n".to_vec(), 3, 1),
        refused("16,384 bytes", spun_out(TEXT), 3, 4),
        refused("16,385 bytes", spun_out(TEXT + 1), 2, 0),
        refused("1,000,000 bytes", spun_out(1_000_000), 2, 0),
    ]);
}

#[test]
fn an_input_that_comes_in_pieces() {
    let mut rows: Vec<Row> = EXAMPLES.iter().map(|x| row(x.name, tabs(x.job), x.sheet).in_pieces(3)).collect();
    rows.push(refused("16,384 bytes", spun_out(TEXT), 3, 4).in_pieces(1000));
    rows.push(refused("16,385 bytes", spun_out(TEXT + 1), 2, 0).in_pieces(TEXT));
    assert_rows(rows);
}
