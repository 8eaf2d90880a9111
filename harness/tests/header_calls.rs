//! The library called by the names of the C header: its limits, lengths and answers, each at its edge, and the parameters
//! of planner and check in the order of their prototypes. `header_map.rs` has the map call. Tabs are shown as spaces.

use harness::examples::spares::{D_WITHOUT_CALL, FULL};
use harness::examples::{A, B, BAY, CLOSED, D, F, F_TRADED, G, WHOLE};
use harness::header::{answers, assert_rows, parameters, row, Row};

const FOLDER: &str = env!("CARGO_TARGET_TMPDIR");

#[test]
fn the_parameters_are_named_in_the_order_that_the_library_takes() {
    for call in ["cartfloor_plan", "cartfloor_check"] {
        assert_eq!(parameters(call), ["job", "job_len", "store", "store_len", "sheet", "sheet_len"], "{call}");
    }
}

/// A limit is what passes, one more is refused. The jobs have a FLOOR line, then tracks, carts and calls.
#[test]
fn the_limits() {
    let rows = [
        ("planned_job(CARTFLOOR_CELLS_MAX, 0, 0, 0, 0)", "PLAN, checked PLAN 0"),
        ("planned_job(CARTFLOOR_CELLS_MAX + 1, 0, 0, 0, 0)", "OUT_OF_RANGE 1"),
        ("planned_job(256, CARTFLOOR_TRACKS_MAX, 0, 0, 0)", "PLAN, checked PLAN 0"),
        ("planned_job(256, CARTFLOOR_TRACKS_MAX + 1, 0, 0, 0)", "TOO_MANY 514"),
        ("planned_job(256, 0, CARTFLOOR_CARTS_MAX, 64, 0)", "PLAN, checked PLAN 0"),
        ("planned_job(256, 0, CARTFLOOR_CARTS_MAX + 1, 64, 0)", "TOO_MANY 66"),
        ("planned_job(256, 0, CARTFLOOR_CARTS_MAX, 0, 0)", "PLAN, checked PLAN 0"),
        ("planned_job(256, 0, 64, CARTFLOOR_CALLS_MAX, 0)", "PLAN, checked PLAN 0"),
        ("planned_job(256, 0, 64, CARTFLOOR_CALLS_MAX + 1, 0)", "TOO_MANY 130"),
        ("planned_job(1, 0, 1, 1, CARTFLOOR_DEADLINE_MAX)", "PLAN, checked PLAN 0"),
        ("planned_job(1, 0, 1, 1, CARTFLOOR_DEADLINE_MAX + 1)", "OUT_OF_RANGE 3"),
        ("planned_length(CARTFLOOR_TEXT_MAX)", "BAD_LINE 4"),
        ("planned_length(CARTFLOOR_TEXT_MAX + 1)", "TEXT_TOO_LONG 0"),
        // All at once, in buffers that are enough for every job.
        ("planned_job(256, 512, 64, 64, 255)", "PLAN, checked PLAN 0"),
        ("planned_job(256, 512, 64, 1, 255)", "PLAN, checked PLAN 0"),
        ("planned_job(256, 512, 64, 63, 255)", "PLAN, checked PLAN 0"),
    ];
    assert_rows(FOLDER, "limits", &rows.map(|(statement, expected)| row(statement, expected)));
}

/// The least lengths pass, and a byte less of either does not. H, cells, tracks, carts; the last is the largest job.
#[test]
fn the_least_lengths() {
    let jobs =
        ["0, 1, 0, 0", "0, 1, 0, 1", "5, 2, 1, 1", "1, 3, 2, 2", "7, 30, 11, 5", "127, 13, 1, 9", "255, 256, 512, 64"];
    let rows_of = |job| {
        [
            row(format!("planned_in_least({job}, 0, 0)"), "PLAN, checked PLAN 0"),
            row(format!("planned_in_least({job}, 1, 0)"), "STORE_TOO_SHORT 0"),
            row(format!("planned_in_least({job}, 0, 1)"), "SHEET_TOO_SHORT 0"),
            row(format!("checked_in_least({job}, 0)"), "PLAN 0"),
            row(format!("checked_in_least({job}, 1)"), "STORE_TOO_SHORT 0"),
        ]
    };
    let rows: Vec<Row> = jobs.into_iter().flat_map(rows_of).collect();
    assert_rows(FOLDER, "least", &rows);
}

/// Bays are limited with the calls: 64 of both pass, one more is refused, whichever comes last.
#[test]
fn calls_and_bays_together() {
    let carts: String = (0..64).map(|cell| format!("CART {cell}\n")).collect();
    let paths: String = (0..64).map(|i| format!("PATH {i} {i} {i}\n")).collect();
    let row_of = |words: [&str; 2], count: usize, expected: &str| {
        let both: String = (0..count).map(|cell| format!("{} {cell} 0\n", words[cell / 33])).collect();
        let job = format!("FLOOR 65\n{carts}{both}");
        checked(&job, "CARTFLOOR_STORE_LEAST(0, 65, 0)", &format!("PLAN 64\n{paths}"), expected)
    };
    let rows = [["CALL", "BAY"], ["BAY", "CALL"]]
        .map(|words| [row_of(words, 64, "PLAN 0"), row_of(words, 65, "TOO_MANY 130")]);
    assert_rows(FOLDER, "bays", rows.as_flattened());
}

/// The text as C writes it, with its tabs.
fn quoted(text: &str) -> String {
    format!("{:?}", text.replace(' ', "\t"))
}

/// Plans in the given lengths; the bytes of the sheet are looked at, and how much of the store is wiped.
fn planned(job: &str, store: &str, room: &str, sheet: &str, expected: &str) -> Row {
    row(format!("planned({}, {store}, {room}, {})", quoted(job), quoted(sheet)), expected)
}

fn checked(job: &str, store: &str, sheet: &str, expected: &str) -> Row {
    row(format!("checked({}, {store}, {})", quoted(job), quoted(sheet)), expected)
}

const STORE_OF_A: &str = "CARTFLOOR_STORE_LEAST(1, 3, 2)";
const ROOM_OF_A: &str = "CARTFLOOR_SHEET_LEAST(1, 2)";

/// Job A has 60 bytes, its least store 4,544, its least sheet buffer 112 and its sheet 33: four lengths that differ, so
/// that no two arguments can be exchanged and the same come back.
#[test]
fn the_order_of_the_parameters() {
    let rows = [
        planned(A.job, STORE_OF_A, ROOM_OF_A, A.sheet, "the sheet, 4544 wiped, PLAN 33"),
        checked(A.job, STORE_OF_A, A.sheet, "PLAN 0"),
    ];
    assert_rows(FOLDER, "order", &rows);
}

/// Each answer, from each call that gives it.
#[test]
fn every_answer_by_its_name() {
    let most = "CARTFLOOR_STORE_MOST";
    let plan = |job: &str, sheet: &str, wiped: usize, answer: &str| {
        let expected = format!("the sheet, {wiped} wiped, {answer}");
        planned(job, "4544", "CARTFLOOR_SHEET_MOST", sheet, &expected)
    };
    let turned_back = |job, answer| [plan(job, "", 0, answer), checked(job, most, "", answer)];
    let mut rows = vec![
        plan(A.job, A.sheet, 4544, "PLAN 33"),
        checked(A.job, most, A.sheet, "PLAN 0"),
        plan(B.job, B.sheet, 4544, "CANNOT 19"),
        checked(B.job, most, B.sheet, "CANNOT 0"),
        plan(G.job, G.sheet, 4544, "CANNOT 9"),
        checked(G.job, most, G.sheet, "CANNOT 0"),
        planned(D.job, "4127", "CARTFLOOR_SHEET_MOST", "", "the sheet, 0 wiped, STORE_TOO_SHORT 0"),
        checked(D.job, "4127", D.sheet, "STORE_TOO_SHORT 0"),
        planned(D.job, "4128", "83", "", "the sheet, 0 wiped, SHEET_TOO_SHORT 0"),
        planned(D.job, "4128", "84", D.sheet, "the sheet, 4128 wiped, PLAN 18"),
        planned("FLOOR 1e0\nCART 0e9\nCALL 0 0E+0\n", "4128", "84", D.sheet, "the sheet, 4128 wiped, PLAN 18"),
        checked("FLOOR 1e0\nCART 0e9\nCALL 0 0E+0\n", most, D.sheet, "PLAN 0"),
        checked(D.job, most, "PLAN 1e0\nPATH 0 0 0\n", "BAD_SHEET 1"),
        checked(D.job, most, "", "BAD_SHEET 1"),
        checked(D.job, most, "PLAN 1\nPATH 0 0 0\n\n", "BAD_SHEET 3"),
        checked(F.job, most, F_TRADED, "WRONG_SHEET 0"),
        planned(BAY.job, "5344", "120", BAY.sheet, "the sheet, 5344 wiped, PLAN 37"),
        checked(BAY.job, "5344", BAY.sheet, "PLAN 0"),
        planned(CLOSED.job, "4768", "120", CLOSED.sheet, "the sheet, 4768 wiped, CANNOT 19"),
        checked(CLOSED.job, "4768", CLOSED.sheet, "CANNOT 0"),
        planned(WHOLE.job, "4864", "120", WHOLE.sheet, "the sheet, 4864 wiped, CANNOT 22"),
        checked(WHOLE.job, "4864", WHOLE.sheet, "CANNOT 0"),
        planned(D_WITHOUT_CALL.job, "4128", "84", D_WITHOUT_CALL.sheet, "the sheet, 4128 wiped, PLAN 17"),
        checked(D_WITHOUT_CALL.job, "4128", D_WITHOUT_CALL.sheet, "PLAN 0"),
        checked(D_WITHOUT_CALL.job, "4128", "PLAN 0\n", "BAD_SHEET 2"),
        planned(FULL.job, "4352", "112", FULL.sheet, "the sheet, 4352 wiped, PLAN 32"),
        planned(FULL.job, "4351", "112", "", "the sheet, 0 wiped, STORE_TOO_SHORT 0"),
        planned(FULL.job, "4352", "111", "", "the sheet, 0 wiped, SHEET_TOO_SHORT 0"),
        checked(FULL.job, "4352", FULL.sheet, "PLAN 0"),
        checked(FULL.job, "4351", FULL.sheet, "STORE_TOO_SHORT 0"),
        checked(FULL.job, "4352", "PLAN 1\nPATH 0 0 0 0\nSPARE 1 1\n", "BAD_SHEET 3"),
        checked(FULL.job, "4352", "PLAN 1\nPATH 0 0 0 0\nSPARE 1 1 0\n", "WRONG_SHEET 0"),
    ];
    let long = "x".repeat(16_385);
    let refused: &[(&str, &str)] = &[
        (&long, "TEXT_TOO_LONG 0"),
        ("", "BAD_LINE 1"),
        ("FLOOR 1\nCART 0\nCALL 0 0", "BAD_LINE 3"),
        ("FLOOR 1\nCART 00\nCALL 0 0\n", "NO_NUMBER 2"),
        ("FLOOR 1\nCART 1e-1\nCALL 0 0\n", "NO_NUMBER 2"),
        ("FLOOR 1\nCART 1e0\nCALL 0 0\n", "OUT_OF_RANGE 2"),
        ("FLOOR 1\nCART 0\nCALL 0 256\n", "OUT_OF_RANGE 3"),
        ("FLOOR 2\nTRACK 0 1\nTRACK 1 0\n", "DOUBLED 3"),
        ("FLOOR 1\nBAY 0 0\nCALL 0 1\n", "DOUBLED 3"),
        ("FLOOR 2\nCART 0\nCALL 0 0\nBAY 1 0\n", "UNEVEN 0"),
        ("FLOOR 1\nCALL 0 0\n", "UNEVEN 0"),
        ("FLOOR 1\nBAY 0 0\n", "UNEVEN 0"),
    ];
    rows.extend(refused.iter().flat_map(|(job, name)| turned_back(job, name)));
    let carts: String = (0..65).map(|cell| format!("CART {cell}\n")).collect();
    rows.extend(turned_back(&format!("FLOOR 256\n{carts}"), "TOO_MANY 66"));
    for answer in answers().into_iter().filter(|name| !["BAD_MAP", "NO_FLOOR"].contains(&name.as_str())) {
        assert!(rows.iter().any(|row| row.expects(&answer)), "no row has the answer {answer}");
    }
    assert_rows(FOLDER, "answers", &rows);
}
