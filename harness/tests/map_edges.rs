//! The edges of maps, with the answers told by hand: each refusal with its line, and what comes before what.

use harness::compare::answer_to_map;
use harness::examples::tabs;
use harness::gen::floors::grid;
use harness::gen::maps::{scattered, Drawing};
use harness::gen::Rng;
use harness::model::answer::*;
use harness::model::limits::{CELLS, SIDE};

const ENOUGH: usize = cartfloor::FLOOR_MOST;

/// 3 by 4, with every letter.
const SMALL: &str = "type octile\nheight 3\nwidth 4\nmap\n.G@T\nO..@\nG.TO\n";
const SMALL_TEXT: &str = "FLOOR 6\nTRACK 0 1\nTRACK 1 2\nTRACK 2 3\nTRACK 2 5\nTRACK 4 5\n";

/// Map texts that are turned back with 13: text, line.
fn assert_bad(rows: &[(&str, usize)]) {
    for &(map, line) in rows {
        assert_eq!(answer_to_map(map.as_bytes(), ENOUGH), (BAD_MAP, line), "{map:?}");
        // 10 comes last.
        assert_eq!(answer_to_map(map.as_bytes(), 0), (BAD_MAP, line), "{map:?} with no buffer");
    }
}

#[test]
fn a_small_map() {
    assert_eq!(answer_to_map(SMALL.as_bytes(), ENOUGH), (FLOOR, tabs(SMALL_TEXT).len()));
    let mut text = vec![0; ENOUGH];
    let packed = cartfloor::map(SMALL.as_bytes(), &mut text);
    assert_eq!(unpack(packed), (FLOOR, SMALL_TEXT.len()));
    assert_eq!(text[..SMALL_TEXT.len()], tabs(SMALL_TEXT));
}

#[test]
fn the_first_line() {
    assert_bad(&[
        ("", 1),
        ("\n", 1),
        ("type octile", 1),
        ("type octile\r\nheight 1\nwidth 1\nmap\n.\n", 1),
        ("type octile \nheight 1\nwidth 1\nmap\n.\n", 1),
        ("type  octile\nheight 1\nwidth 1\nmap\n.\n", 1),
        ("type\toctile\nheight 1\nwidth 1\nmap\n.\n", 1),
        (" type octile\nheight 1\nwidth 1\nmap\n.\n", 1),
        ("type tile\nheight 1\nwidth 1\nmap\n.\n", 1),
        ("type octiles\nheight 1\nwidth 1\nmap\n.\n", 1),
        ("Type octile\nheight 1\nwidth 1\nmap\n.\n", 1),
        ("\ntype octile\nheight 1\nwidth 1\nmap\n.\n", 1),
        ("\u{feff}type octile\nheight 1\nwidth 1\nmap\n.\n", 1),
        ("height 1\nwidth 1\nmap\n.\n", 1),
    ]);
}

#[test]
fn the_line_of_the_height() {
    assert_bad(&[
        ("type octile\n", 2),
        ("type octile\n\n", 2),
        ("type octile\nheight 1", 2),
        ("type octile\ntype octile\nheight 1\nwidth 1\nmap\n.\n", 2),
        ("type octile\nwidth 1\nheight 1\nmap\n.\n", 2),
        ("type octile\nmap\n.\n", 2),
        ("type octile\nheight\nwidth 1\nmap\n.\n", 2),
        ("type octile\nheight \nwidth 1\nmap\n.\n", 2),
        ("type octile\nheight  1\nwidth 1\nmap\n.\n", 2),
        ("type octile\nheight\t1\nwidth 1\nmap\n.\n", 2),
        ("type octile\nheight1\nwidth 1\nmap\n.\n", 2),
        ("type octile\nheight 1 \nwidth 1\nmap\n.\n", 2),
        ("type octile\nheight 1\r\nwidth 1\nmap\n.\n", 2),
        ("type octile\nheight 1 1\nwidth 1\nmap\n.\n", 2),
        ("type octile\n height 1\nwidth 1\nmap\n.\n", 2),
        ("type octile\nHEIGHT 1\nwidth 1\nmap\n.\n", 2),
    ]);
}

#[test]
fn the_line_of_the_width() {
    assert_bad(&[
        ("type octile\nheight 1\n", 3),
        ("type octile\nheight 1\n\n", 3),
        ("type octile\nheight 1\nwidth 1", 3),
        ("type octile\nheight 1\nheight 1\nmap\n.\n", 3),
        ("type octile\nheight 1\nmap\n.\n", 3),
        ("type octile\nheight 1\nwidth\nmap\n.\n", 3),
        ("type octile\nheight 1\nwidth  1\nmap\n.\n", 3),
        ("type octile\nheight 1\nwidth\t1\nmap\n.\n", 3),
        ("type octile\nheight 1\nwidth 1 \nmap\n.\n", 3),
        ("type octile\nheight 1\nwidth 1\r\nmap\n.\n", 3),
        ("type octile\nheight 1\nWidth 1\nmap\n.\n", 3),
    ]);
}

#[test]
fn the_line_before_the_rows() {
    assert_bad(&[
        ("type octile\nheight 1\nwidth 1\n", 4),
        ("type octile\nheight 1\nwidth 1\n\nmap\n.\n", 4),
        ("type octile\nheight 1\nwidth 1\nmap", 4),
        ("type octile\nheight 1\nwidth 1\nmap\r\n.\n", 4),
        ("type octile\nheight 1\nwidth 1\nmap \n.\n", 4),
        ("type octile\nheight 1\nwidth 1\nmaps\n.\n", 4),
        ("type octile\nheight 1\nwidth 1\nMAP\n.\n", 4),
        ("type octile\nheight 1\nwidth 1\n.\n", 4),
    ]);
}

#[test]
fn the_rows() {
    assert_bad(&[
        ("type octile\nheight 1\nwidth 1\nmap\n", 5),
        ("type octile\nheight 1\nwidth 1\nmap\n.", 5),
        ("type octile\nheight 1\nwidth 1\nmap\n\n", 5),
        ("type octile\nheight 1\nwidth 1\nmap\n\n.\n", 5),
        ("type octile\nheight 1\nwidth 1\nmap\n..\n", 5),
        ("type octile\nheight 1\nwidth 2\nmap\n.\n", 5),
        ("type octile\nheight 1\nwidth 2\nmap\n.\n.\n", 5),
        ("type octile\nheight 1\nwidth 1\nmap\n.\r\n", 5),
        ("type octile\nheight 1\nwidth 2\nmap\n.\r\n", 5),
        ("type octile\nheight 1\nwidth 1\nmap\n. \n", 5),
        ("type octile\nheight 1\nwidth 2\nmap\n. \n", 5),
        ("type octile\nheight 1\nwidth 1\nmap\nS\n", 5),
        ("type octile\nheight 1\nwidth 1\nmap\nW\n", 5),
        ("type octile\nheight 1\nwidth 1\nmap\ng\n", 5),
        ("type octile\nheight 1\nwidth 1\nmap\n#\n", 5),
        ("type octile\nheight 2\nwidth 2\nmap\n..\n.\n", 6),
        ("type octile\nheight 2\nwidth 2\nmap\n..\n...\n", 6),
        ("type octile\nheight 2\nwidth 2\nmap\n..\n..", 6),
        ("type octile\nheight 2\nwidth 2\nmap\n..\n", 6),
        ("type octile\nheight 2\nwidth 2\nmap\n..\n.S\n", 6),
        // The first of two.
        ("type octile\nheight 2\nwidth 2\nmap\n.S\nS.", 5),
    ]);
}

#[test]
fn beyond_the_last_row() {
    assert_bad(&[
        ("type octile\nheight 1\nwidth 1\nmap\n.\n\n", 6),
        ("type octile\nheight 1\nwidth 1\nmap\n.\n.\n", 6),
        ("type octile\nheight 1\nwidth 1\nmap\n.\n.", 6),
        ("type octile\nheight 1\nwidth 1\nmap\n.\n\n\n\n", 6),
        ("type octile\nheight 1\nwidth 1\nmap\n.\n\r", 6),
        ("type octile\nheight 1\nwidth 1\nmap\n.\n\0", 6),
        ("type octile\nheight 2\nwidth 1\nmap\n.\n.\n.\n", 7),
        ("type octile\nheight 1\nwidth 1\nmap\n.\ntype octile\nheight 1\nwidth 1\nmap\n.\n", 6),
    ]);
}

/// A map of one letter, its numbers written in any way.
fn with_sides(height: &str, width: &str, rows: usize, columns: usize) -> Vec<u8> {
    let row = format!("{}\n", "T".repeat(columns));
    let letters = row.repeat(rows).replacen('T', ".", 1);
    format!("type octile\nheight {height}\nwidth {width}\nmap\n{letters}").into_bytes()
}

#[test]
fn sides_are_1_to_64() {
    for height in 1..=SIDE {
        for width in 1..=SIDE {
            let map = with_sides(&height.to_string(), &width.to_string(), height, width);
            assert_eq!(answer_to_map(&map, ENOUGH), (FLOOR, 8), "{height} by {width}");
        }
    }
    for wrong in [
        "0",
        "65",
        "66",
        "99",
        "100",
        "128",
        "255",
        "256",
        "257",
        "320",
        "512",
        "640",
        "999",
        "1000",
        "4294967297",
        "18446744073709551617",
        "",
        "00",
        "01",
        "001",
        "064",
        "0064",
        "+1",
        "-1",
        "1.",
        "1e0",
        "1E0",
        "1e+0",
        "6E+1",
        "64e0",
        "1e",
        "0e1",
        "0x1",
        "1a",
        "a",
        "/",
        ":",
    ] {
        // As many rows and columns as it says, or as its last byte or word would say.
        for side in [1, 64, 65] {
            assert_eq!(answer_to_map(&with_sides(wrong, "1", side, 1), ENOUGH), (BAD_MAP, 2), "height {wrong:?}");
            assert_eq!(answer_to_map(&with_sides("1", wrong, 1, side), ENOUGH), (BAD_MAP, 3), "width {wrong:?}");
        }
    }
    assert_eq!(answer_to_map(&with_sides("0", "1", 0, 1), ENOUGH), (BAD_MAP, 2));
    assert_eq!(answer_to_map(b"type octile\nheight 1\nwidth 0\nmap\n\n", ENOUGH), (BAD_MAP, 3));
}

#[test]
fn no_cell_or_over_256_is_14() {
    let mut rng = Rng::new(1);
    for (height, width) in [(1, 1), (1, 64), (64, 1), (16, 16), (64, 64)] {
        for letter in *b"@OT" {
            assert_eq!(answer_to_map(&Drawing::of(letter, height, width).text(), ENOUGH), (NO_FLOOR, 0));
            assert_eq!(answer_to_map(&Drawing::of(letter, height, width).text(), 0), (NO_FLOOR, 0));
        }
    }
    for cells in [1, 2, CELLS - 1, CELLS] {
        let map = scattered(64, 64, cells, &mut rng).text();
        assert_eq!(answer_to_map(&map, ENOUGH).0, FLOOR, "{cells} cells");
    }
    for cells in [CELLS + 1, CELLS + 2, 2 * CELLS - 1, 2 * CELLS, 1024, 4095, 4096] {
        let map = scattered(64, 64, cells, &mut rng).text();
        assert_eq!(answer_to_map(&map, ENOUGH), (NO_FLOOR, 0), "{cells} cells");
        assert_eq!(answer_to_map(&map, 0), (NO_FLOOR, 0), "{cells} cells with no buffer");
    }
    assert_eq!(answer_to_map(&Drawing::of(b'.', 4, 64).text(), ENOUGH).0, FLOOR);
    assert_eq!(answer_to_map(&Drawing::of(b'G', 16, 17).text(), ENOUGH), (NO_FLOOR, 0));
}

/// 14 comes after all of 13, whatever stands where.
#[test]
fn a_bad_line_comes_before_14() {
    for letter in [b'.', b'@'] {
        let whole = Drawing::of(letter, 64, 64);
        for row in [0, 1, 30, 63] {
            let mut map = whole.clone();
            map.0[row][63] = b'S';
            assert_eq!(answer_to_map(&map.text(), ENOUGH), (BAD_MAP, 5 + row));
        }
        let text = whole.text();
        assert_eq!(answer_to_map(&text, ENOUGH), (NO_FLOOR, 0));
        assert_eq!(answer_to_map(&text[..text.len() - 1], ENOUGH), (BAD_MAP, 68));
        assert_eq!(answer_to_map(&[text.as_slice(), b"\n"].concat(), ENOUGH), (BAD_MAP, 69));
    }
}

/// 480 tracks. The length is counted on a grid that was made without a map.
#[test]
fn a_long_text() {
    let (_, len) = answer_to_map(&Drawing::of(b'.', 16, 16).text(), ENOUGH);
    let grid = grid(16, 16);
    assert_eq!(grid.tracks.len(), 480);
    let digits = |n: usize| n.to_string().len();
    let tracks: usize = grid.tracks.iter().map(|&(a, b)| "TRACK\t\t\n".len() + digits(a) + digits(b)).sum();
    assert_eq!(len, "FLOOR\t256\n".len() + tracks);
}
