//! The map call by the names of the C header: its limits, lengths and answers, each at its edge, its parameters in the order
//! of the prototype, and the map that the header shows.

use harness::header::{assert_rows, parameters, row, shown, Row};

const FOLDER: &str = env!("CARGO_TARGET_TMPDIR");

#[test]
fn the_parameters_are_named_in_the_order_that_the_library_takes() {
    assert_eq!(parameters("cartfloor_map"), ["map", "map_len", "text", "text_len"]);
}

/// The map with so much room for its text, and the text with its tabs shown as spaces.
fn laid(map: &str, room: &str, text: &str, expected: &str) -> Row {
    row(format!("laid({map:?}, {room}, {:?})", text.replace(' ', "\t")), expected)
}

/// Two cells in a row: 38 bytes, and a text of 18.
const PAIR: &str = "type octile\nheight 1\nwidth 2\nmap\n.G\n";
const FLOOR_OF_PAIR: &str = "FLOOR 2\nTRACK 0 1\n";

/// The text's own length is enough, and a byte less is not. The header's map has 43 bytes and its text 48: no two arguments
/// can be exchanged and the same come back.
#[test]
fn the_map_it_shows() {
    let [.., map, floor] = &shown()[..] else { panic!("no map in the header") };
    let rows = [
        laid(map, "CARTFLOOR_FLOOR_MOST", floor, "the text, written 48"),
        laid(map, "48", floor, "the text, written 48"),
        laid(map, "47", "", "the text, SHEET_TOO_SHORT 0"),
        laid(map, "0", "", "the text, SHEET_TOO_SHORT 0"),
        laid(PAIR, "18", FLOOR_OF_PAIR, "the text, written 18"),
        laid(PAIR, "17", "", "the text, SHEET_TOO_SHORT 0"),
    ];
    assert_rows(FOLDER, "map", &rows);
}

/// A limit is what passes, one more is refused: the rows and the letters of each, the cells, the bytes behind the last row.
///
/// The texts: a lane of 64 cells has 63 tracks, 9 of them between cells of one digit, 1 to cell 10, 53 between cells of two. Four
/// rows of 64 cells have 444 tracks, each with 8 bytes and its digits: 888 ends have one at least, all but 29 two, all but 333
/// three. 16 rows of 16 have 480 with 960 ends, of which all but 29 have two digits at least, all but 371 three.
#[test]
fn the_limits() {
    let (lane, four_rows, square) =
        (9 + 9 * 10 + 11 + 53 * 12, 10 + 444 * 8 + 888 + 859 + 555, 10 + 480 * 8 + 960 + 931 + 589);
    let most = "CARTFLOOR_FLOOR_MOST";
    let rows = [
        row(format!("laid_map(CARTFLOOR_SIDE_MAX, 1, 64, 0, {most})"), format!("of 162 bytes: written {lane}")),
        row(format!("laid_map(CARTFLOOR_SIDE_MAX + 1, 1, 64, 0, {most})"), "of 164 bytes: BAD_MAP 2"),
        row(format!("laid_map(1, CARTFLOOR_SIDE_MAX, 64, 0, {most})"), format!("of 99 bytes: written {lane}")),
        row(format!("laid_map(1, CARTFLOOR_SIDE_MAX + 1, 64, 0, {most})"), "of 100 bytes: BAD_MAP 3"),
        row(format!("laid_map(64, 64, CARTFLOOR_CELLS_MAX, 0, {most})"), format!("of 4195 bytes: written {four_rows}")),
        row(format!("laid_map(64, 64, CARTFLOOR_CELLS_MAX + 1, 0, {most})"), "of 4195 bytes: NO_FLOOR 0"),
        row(format!("laid_map(16, 16, CARTFLOOR_CELLS_MAX, 0, {most})"), format!("of 307 bytes: written {square}")),
        row(format!("laid_map(16, 16, 256, 0, {square})"), format!("of 307 bytes: written {square}")),
        row(format!("laid_map(16, 16, 256, 0, {square} - 1)"), "of 307 bytes: SHEET_TOO_SHORT 0"),
        row(format!("laid_map(64, 64, 256, 1, {most})"), "of 4196 bytes: BAD_MAP 69"),
        row(format!("laid_map(64, 64, 256, 10000000, {most})"), "of 10004195 bytes: BAD_MAP 69"),
    ];
    assert_rows(FOLDER, "map_limits", &rows);
}

/// Each refusal by its name, and of two that hold the one that comes first.
#[test]
fn every_refusal_by_its_name() {
    let refused = |map: &str, room: &str, answer: &str| laid(map, room, "", &format!("the text, {answer}"));
    let no_cell = "type octile\nheight 2\nwidth 2\nmap\n@@\nOT\n";
    let rows = [
        refused("", "0", "BAD_MAP 1"),
        refused("type octile\nheight 1\nwidth 2\nmap\n.x\n", "18", "BAD_MAP 5"),
        refused("type octile\nheight 1\nwidth 2\nmap\n.G", "18", "BAD_MAP 5"),
        refused("type octile\nheight 2\nwidth 2\nmap\n.G\n", "18", "BAD_MAP 6"),
        refused(&format!("{PAIR}\n"), "18", "BAD_MAP 6"),
        refused(&format!("{no_cell}@"), "0", "BAD_MAP 7"),
        refused(no_cell, "CARTFLOOR_FLOOR_MOST", "NO_FLOOR 0"),
        refused(no_cell, "0", "NO_FLOOR 0"),
        refused(PAIR, "0", "SHEET_TOO_SHORT 0"),
    ];
    assert_rows(FOLDER, "map_answers", &rows);
}
