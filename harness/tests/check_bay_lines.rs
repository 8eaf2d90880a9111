//! BAY lines of job texts: where they may stand, what they may hold, and that they count with the CALL lines. The answers
//! are told by hand. Tabs are shown as spaces.

use harness::compare::{answer_to, assert_turned_back, library};
use harness::examples::{tabs, BUFFER};
use harness::gen::large::full_text;
use harness::model::answer::*;

#[test]
fn a_bad_line_is_3() {
    assert_turned_back(
        BAD_LINE,
        &[
            ("BAY 0 0\n", 1),
            ("FLOOR 1\nBAY\n", 2),
            ("FLOOR 1\nBAY 0\n", 2),
            ("FLOOR 1\nBAY 0 0 0\n", 2),
            ("FLOOR 1\nBAY x\n", 2),
            ("FLOOR 1\nBAY 0 0 \n", 2),
            ("FLOOR 1\nBAY 0 0", 2),
            ("FLOOR 1\nBA 0 0\n", 2),
            ("FLOOR 1\nBAYS 0 0\n", 2),
            ("FLOOR 1\nBay 0 0\n", 2),
            ("FLOOR 1\n BAY 0 0\n", 2),
            ("FLOOR 1\nCART 0\nBAY 0 0\nBAY", 4),
            ("FLOOR 1\nCART 0\nBAY 0 0\nB", 4),
            // The first of them closes the CART lines, whatever comes between.
            ("FLOOR 2\nCART 0\nBAY 0 0\nCART 1\n", 4),
            ("FLOOR 2\nCART 0\nBAY 0 0\nCALL 1 0\nCART 1\n", 5),
            ("FLOOR 2\nCART 0\nCALL 0 0\nBAY 1 0\nCART 1\n", 5),
            ("FLOOR 2\nBAY 0 0\nTRACK 0 1\n", 3),
            ("FLOOR 2\nBAY 0 0\nFLOOR 2\n", 3),
        ],
    );
}

#[test]
fn a_field_that_is_no_number_is_4() {
    assert_turned_back(
        NO_NUMBER,
        &[
            ("FLOOR 2\nBAY  0\n", 2),
            ("FLOOR 2\nBAY 0 \n", 2),
            ("FLOOR 2\nBAY 00 0\n", 2),
            ("FLOOR 2\nBAY 0 01\n", 2),
            ("FLOOR 2\nBAY 9 1e-1\n", 2),
            ("FLOOR 2\nBAY x 256\n", 2),
            ("FLOOR 2\nBAY 0 1000\n", 2),
            ("FLOOR 2\nBAY 0 0\r\n", 2),
        ],
    );
}

#[test]
fn a_number_out_of_range_is_5() {
    assert_turned_back(
        OUT_OF_RANGE,
        &[
            ("FLOOR 2\nBAY 2 0\n", 2),
            ("FLOOR 2\nBAY 0 256\n", 2),
            ("FLOOR 2\nBAY 0 999\n", 2),
            // Before what stands twice.
            ("FLOOR 2\nBAY 0 0\nBAY 0 256\n", 3),
            ("FLOOR 2\nCALL 0 0\nBAY 0 256\n", 3),
            ("FLOOR 2\nBAY 0 0\nCALL 0 256\n", 3),
        ],
    );
}

#[test]
fn a_second_call_or_bay_on_a_cell_is_7() {
    assert_turned_back(
        DOUBLED,
        &[
            ("FLOOR 1\nBAY 0 0\nBAY 0 0\n", 3),
            ("FLOOR 1\nCALL 0 0\nBAY 0 1\n", 3),
            ("FLOOR 1\nBAY 0 0\nCALL 0 1\n", 3),
            ("FLOOR 3\nCART 0\nBAY 1 3\nCALL 2 0\nBAY 1 2\n", 5),
            ("FLOOR 3\nCART 0\nCALL 1 3\nBAY 2 0\nBAY 1 2\n", 5),
            ("FLOOR 3\nCART 0\nBAY 1 3\nCALL 2 0\nCALL 1 2\n", 5),
        ],
    );
}

#[test]
fn carts_are_compared_with_calls_and_bays_together() {
    assert_turned_back(
        UNEVEN,
        &[
            ("FLOOR 1\nBAY 0 0\n", 0),
            ("FLOOR 2\nCART 0\nBAY 0 0\nBAY 1 0\n", 0),
            ("FLOOR 2\nCART 0\nCALL 0 0\nBAY 1 0\n", 0),
            ("FLOOR 3\nCART 0\nCART 1\nBAY 0 0\nCALL 1 0\nBAY 2 0\n", 0),
        ],
    );
    for (job, sheet) in [
        ("FLOOR 1\nCART 0\nBAY 0 0\n", "PLAN 1\nPATH 0 0 0\n"),
        ("FLOOR 2\nCART 0\nCART 1\nBAY 1 0\nCALL 0 0\n", "PLAN 2\nPATH 0 1 0\nPATH 1 0 1\n"),
        ("FLOOR 2\nCART 0\nCART 1\nCALL 1 0\nBAY 0 0\n", "PLAN 2\nPATH 0 1 0\nPATH 1 0 1\n"),
        ("FLOOR 2\nCART 0\nCART 1\nBAY 1 0\n", "PLAN 1\nPATH 1 0 1\nSPARE 0 0\n"),
        ("FLOOR 3\nCART 0\nCART 1\nCART 2\nBAY 0 0\nCALL 1 0\n", "PLAN 2\nPATH 0 0 0\nPATH 1 1 1\nSPARE 2 2\n"),
    ] {
        assert_eq!(library(&tabs(job), BUFFER, &tabs(sheet)), (PLAN, 0), "{job:?}");
    }
}

/// A job at every limit with bays for so many of its calls, the first or the last ones, and lines behind it.
fn full_with(bays: usize, first: bool, more: &str) -> Vec<u8> {
    // Lines 578 to 641 are the calls.
    let mut text = String::new();
    for (i, line) in String::from_utf8(full_text()).expect("a text").lines().enumerate() {
        let number = i + 1;
        let is_bay = if first { number < 578 + bays } else { number + bays > 641 };
        let line = if is_bay { line.replace("CALL", "BAY") } else { line.to_string() };
        text += &(line + "\n");
    }
    [text.into_bytes(), tabs(more)].concat()
}

#[test]
fn calls_and_bays_are_64_together() {
    for (bays, first) in [(0, true), (1, true), (1, false), (32, true), (32, false), (63, true), (64, true)] {
        let number = |more| answer_to(&full_with(bays, first, more));
        assert_eq!(number(""), (STORE_TOO_SHORT, 0), "{bays} bays");
        for more in ["CALL 0 0\n", "BAY 0 0\n", "BAY 255 255\n", "CALL 255 0\n"] {
            assert_eq!(number(more), (TOO_MANY, 642), "{bays} bays and {more:?}");
        }
        assert_eq!(number("BAY 0 256\n"), (OUT_OF_RANGE, 642));
        assert_eq!(number("BAY 0 00\n"), (NO_NUMBER, 642));
        assert_eq!(number("BAY 0\n"), (BAD_LINE, 642));
        assert_eq!(number("CART 0\n"), (BAD_LINE, 642));
    }
}

#[test]
fn the_first_bad_line_counts() {
    assert_turned_back(DOUBLED, &[("FLOOR 1\nBAY 0 0\nCALL 0 0\nx\n", 3)]);
    assert_turned_back(OUT_OF_RANGE, &[("FLOOR 1\nBAY 1 0\nBAY 0\n", 2)]);
    assert_turned_back(BAD_LINE, &[("FLOOR 1\nBAY 0 0\nBAY 0 0", 3)]);
}
