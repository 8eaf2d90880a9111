//! Job texts that the check turns back, 2 to 8, with their lines told by hand. Tabs are shown as spaces.

use harness::compare::{answer_to, assert_turned_back};
use harness::examples::tabs;
use harness::gen::large::full_text;
use harness::gen::Rng;
use harness::model::answer::*;
use harness::model::limits;

#[test]
fn a_text_over_the_limit_is_2_whatever_it_is() {
    assert_eq!(answer_to(&[b'x'; limits::TEXT + 1]), (TEXT_TOO_LONG, 0));
    assert_eq!(answer_to(&[b'x'; limits::TEXT]), (BAD_LINE, 1));
    assert_eq!(answer_to(&Rng::new(1).noise(1_000_000)), (TEXT_TOO_LONG, 0));
    let spun_out = [tabs("FLOOR 1\n"), vec![b'\n'; limits::TEXT - 7]].concat();
    assert_eq!(answer_to(&spun_out), (TEXT_TOO_LONG, 0));
    assert_eq!(answer_to(&spun_out[1..]), (BAD_LINE, 1));
}

#[test]
fn a_bad_line_is_3() {
    assert_turned_back(
        BAD_LINE,
        &[
            ("", 1),
            ("\n", 1),
            ("\t\n", 1),
            ("FLOOR", 1),
            ("FLOOR\n", 1),
            ("FLOOR 1", 1),
            ("FLOOR 1 \n", 1),
            ("FLOOR 1 1\n", 1),
            ("FLOOR x x\n", 1),
            ("floor 1\n", 1),
            ("FLOO 1\n", 1),
            ("FLOORS 1\n", 1),
            (" FLOOR 1\n", 1),
            ("TRACK 0 1\n", 1),
            ("CART 0\nCALL 0 0\n", 1),
            ("FLOOR 1\n\n", 2),
            ("FLOOR 1\n\0", 2),
            ("FLOOR 1\nFLOOR 1\n", 2),
            ("FLOOR 1\nFLOOR x\n", 2),
            ("FLOOR 1\nPLAN 0\n", 2),
            ("FLOOR 2\nTRACK 0\n", 2),
            ("FLOOR 2\nTRACK 0 1 \n", 2),
            ("FLOOR 2\nCART 0\nTRACK 0 1\n", 3),
            ("FLOOR 2\nCART 0\nCALL 0 0\nCART 1\n", 4),
            ("FLOOR 2\nCALL 0 0\nTRACK 0 1\n", 3),
            ("FLOOR 1\nCART 0\nFLOOR 1\n", 3),
            ("FLOOR 1\nCART 0\nCALL 0\n", 3),
            ("FLOOR 1\nCART 0\nCALL 0 0", 3),
            ("FLOOR 1\nCART 0\nCALL 0 0\nCALL", 4),
        ],
    );
}

#[test]
fn a_field_that_is_no_number_is_4() {
    assert_turned_back(
        NO_NUMBER,
        &[
            ("FLOOR \n", 1),
            ("FLOOR x\n", 1),
            ("FLOOR 00\n", 1),
            ("FLOOR 01\n", 1),
            ("FLOOR 0256\n", 1),
            ("FLOOR 1000\n", 1),
            ("FLOOR -1\n", 1),
            ("FLOOR +1\n", 1),
            ("FLOOR 1.\n", 1),
            ("FLOOR 1\r\n", 1),
            ("FLOOR 1\0\n", 1),
            ("FLOOR 99999999999999999999999999999999999999\n", 1),
            ("FLOOR 2\nTRACK  1\n", 2),
            ("FLOOR 2\nTRACK 0 \n", 2),
            ("FLOOR 2\nTRACK 999 x\n", 2),
            ("FLOOR 2\nTRACK x 999\n", 2),
            ("FLOOR 2\nCART 00\n", 2),
            ("FLOOR 2\nCALL 9 1e-1\n", 2),
        ],
    );
    assert_eq!(answer_to(b"FLOOR\t 1\n"), (NO_NUMBER, 1));
    assert_eq!(answer_to(b"FLOOR\t1 \n"), (NO_NUMBER, 1));
    assert_eq!(answer_to(b"FLOOR\t\xff\n"), (NO_NUMBER, 1));
    assert_eq!(answer_to(b"FLOOR\t/\n"), (NO_NUMBER, 1));
    assert_eq!(answer_to(b"FLOOR\t:\n"), (NO_NUMBER, 1));
    assert_eq!(answer_to(b"FLOOR 1\n"), (BAD_LINE, 1));
}

#[test]
fn a_number_out_of_range_is_5() {
    assert_turned_back(
        OUT_OF_RANGE,
        &[
            ("FLOOR 0\n", 1),
            ("FLOOR 257\n", 1),
            ("FLOOR 999\n", 1),
            ("FLOOR 2\nTRACK 0 2\n", 2),
            ("FLOOR 2\nTRACK 2 0\n", 2),
            ("FLOOR 2\nTRACK 9 9\n", 2),
            ("FLOOR 2\nCART 2\n", 2),
            ("FLOOR 2\nCALL 2 0\n", 2),
            ("FLOOR 2\nCALL 0 256\n", 2),
            ("FLOOR 2\nCALL 0 999\n", 2),
            ("FLOOR 2\nCALL 0 0\nCALL 0 256\n", 3),
            ("FLOOR 256\nCART 255\nCART 256\n", 3),
        ],
    );
}

/// A job at every limit, with one line put in at a place, counted from 1.
fn full_with(at: usize, line: &str) -> Vec<u8> {
    let full = full_text();
    let mut lines: Vec<&[u8]> = full.split_inclusive(|&b| b == b'\n').collect();
    let line = tabs(line);
    lines.insert(at - 1, &line);
    lines.concat()
}

#[test]
fn one_line_too_many_is_6() {
    // Lines 2 to 513 are the tracks, 514 to 577 the carts, 578 to 641 the calls.
    for (at, line, number) in [
        (514, "TRACK 0 1\n", TOO_MANY),
        (514, "TRACK 0 0\n", TOO_MANY),
        (514, "TRACK 0 256\n", OUT_OF_RANGE),
        (514, "TRACK 0 x\n", NO_NUMBER),
        (514, "TRACK 0\n", BAD_LINE),
        (578, "CART 0\n", TOO_MANY),
        (578, "CART 255\n", TOO_MANY),
        (578, "CART 256\n", OUT_OF_RANGE),
        (642, "CALL 0 0\n", TOO_MANY),
        (642, "CALL 255 255\n", TOO_MANY),
        (642, "CALL 0 256\n", OUT_OF_RANGE),
        (642, "CALL 0 00\n", NO_NUMBER),
        (642, "CART 0\n", BAD_LINE),
        (642, "CALL 0 0", BAD_LINE),
    ] {
        assert_eq!(answer_to(&full_with(at, line)), (number, at), "{line:?} at line {at}");
    }
}

#[test]
fn what_stands_twice_is_7() {
    assert_turned_back(
        DOUBLED,
        &[
            ("FLOOR 1\nTRACK 0 0\n", 2),
            ("FLOOR 3\nTRACK 0 1\nTRACK 1 2\nTRACK 0 1\n", 4),
            ("FLOOR 3\nTRACK 0 1\nTRACK 1 2\nTRACK 1 0\n", 4),
            ("FLOOR 2\nCART 1\nCART 0\nCART 1\n", 4),
            ("FLOOR 2\nCART 1\nCART 0\nCALL 0 1\nCALL 0 2\n", 5),
            ("FLOOR 1\nCALL 0 0\nCALL 0 0\n", 3),
        ],
    );
}

#[test]
fn fewer_carts_than_calls_are_8() {
    assert_turned_back(
        UNEVEN,
        &[
            ("FLOOR 1\nCALL 0 0\n", 0),
            ("FLOOR 2\nCART 0\nCALL 0 0\nCALL 1 0\n", 0),
            ("FLOOR 3\nCART 0\nCART 1\nCALL 0 0\nCALL 1 0\nCALL 2 0\n", 0),
        ],
    );
    // More are none: the next refusal is that of the store.
    assert_turned_back(STORE_TOO_SHORT, &[("FLOOR 1\nCART 0\n", 0), ("FLOOR 2\nCART 0\nCART 1\nCALL 0 0\n", 0)]);
}

#[test]
fn the_first_bad_line_counts() {
    assert_turned_back(DOUBLED, &[("FLOOR 1\nCART 0\nCART 0\nx\n", 3)]);
    assert_turned_back(OUT_OF_RANGE, &[("FLOOR 1\nCART 1\nCART x\n", 2), ("FLOOR 0\nx", 1)]);
    assert_turned_back(BAD_LINE, &[("FLOOR 1\nCART 0\nCALL 0 0\nCALL 0 0", 4)]);
}
