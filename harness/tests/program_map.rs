//! The program `floormap` as it is built and run: every byte that it writes, as the README has it. Tabs are shown as spaces
//! in what it writes; a map has none.

use std::fs;
use std::path::PathBuf;

use harness::program::{self, floormap, refused, row, Row};

const EXAMPLE_FILES: &str = concat!(env!("CARGO_MANIFEST_DIR"), "/../examples");

/// The longest map: 64 rows of 64 letters.
const LONGEST: usize = 4195;

fn assert_rows(rows: Vec<Row>) {
    program::assert_rows(floormap(), rows);
}

/// A map with these rows, each as long as the first.
fn map(rows: &[&str]) -> Vec<u8> {
    let lines: String = rows.iter().map(|row| format!("{row}\n")).collect();
    format!("type octile\nheight {}\nwidth {}\nmap\n{lines}", rows.len(), rows[0].len()).into_bytes()
}

/// A drawing without a gap: the cell on the right has the next number, the one below the number of a row later.
fn whole(height: usize, width: usize) -> String {
    let cells = height * width;
    let right = |cell: usize| (!(cell + 1).is_multiple_of(width)).then(|| format!("TRACK {cell} {}\n", cell + 1));
    let below = |cell: usize| (cell + width < cells).then(|| format!("TRACK {cell} {}\n", cell + width));
    let tracks: String = (0..cells).flat_map(|cell| [right(cell), below(cell)]).flatten().collect();
    format!("FLOOR {cells}\n{tracks}")
}

/// Every map of the folder has its floor beside it.
#[test]
fn the_example_files() {
    let files = fs::read_dir(EXAMPLE_FILES).expect("a folder of examples").map(|file| file.expect("a file").path());
    let maps: Vec<_> = files.filter(|file| file.extension().is_some_and(|end| end == "map")).collect();
    assert!(!maps.is_empty(), "no maps in {EXAMPLE_FILES}");
    let example = |file: PathBuf| {
        let read = |file: PathBuf| fs::read(&file).unwrap_or_else(|fault| panic!("{}: {fault}", file.display()));
        let (name, expected) = (file.display().to_string(), read(file.with_extension("floor")));
        Row { name, pieces: vec![read(file)], expected }
    };
    assert_rows(maps.into_iter().map(example).collect());
}

#[test]
fn small_maps() {
    assert_rows(vec![
        row("a cell", map(&["."]), "FLOOR 1\n"),
        row("a goal among trees", map(&["T@O", "TGO", "@@T"]), "FLOOR 1\n"),
        row("cells of both letters", map(&[".G", "G."]), "FLOOR 4\nTRACK 0 1\nTRACK 0 2\nTRACK 1 3\nTRACK 2 3\n"),
        row("next to each other by corners only", map(&[".@", "@."]), "FLOOR 2\n"),
        row("the end of a row and the start of the next", map(&["@@.", ".@@"]), "FLOOR 2\n"),
        row("a ring", map(&["...", ".@.", "..."]), RING),
        row("a row", map(&["..."]), "FLOOR 3\nTRACK 0 1\nTRACK 1 2\n"),
        row("a column", map(&[".", ".", "."]), "FLOOR 3\nTRACK 0 1\nTRACK 1 2\n"),
        row("rows of eleven", map(&[&".".repeat(11), &".".repeat(11)]), &whole(2, 11)),
    ]);
}

/// The cells 0 1 2, 3 and 4, 5 6 7.
const RING: &str = "FLOOR 8\nTRACK 0 1\nTRACK 0 3\nTRACK 1 2\nTRACK 2 4\nTRACK 3 5\nTRACK 4 7\nTRACK 5 6\nTRACK 6 7\n";

#[test]
fn the_largest_maps() {
    let [cells, none] = [".", "@"].map(|letter| letter.repeat(64));
    let [first, last] = [0..4, 60..64].map(|full| {
        let rows: Vec<&str> = (0..64).map(|i| if full.contains(&i) { cells.as_str() } else { &none }).collect();
        map(&rows)
    });
    assert_eq!([first.len(), last.len()], [LONGEST; 2]);
    let square = ".".repeat(16);
    assert_rows(vec![
        row("64 rows, 256 cells in the first", first.clone(), &whole(4, 64)),
        row("64 rows, 256 cells in the last", last, &whole(4, 64)),
        row("16 rows of 16 cells", map(&[square.as_str(); 16]), &whole(16, 16)),
        row("64 rows of 4 cells", map(&["...."; 64]), &whole(64, 4)),
        row("a row of 64 cells", map(&[&cells]), &whole(1, 64)),
        row("a column of 64 cells", map(&["."; 64]), &whole(64, 1)),
        // Behind the last row there is one byte, or many.
        refused("a byte more", [&first[..], b"x"].concat(), 13, 69),
        refused("an LF more", [&first[..], b"\n"].concat(), 13, 69),
        refused("a million bytes more", [first, vec![b'.'; 1_000_000]].concat(), 13, 69),
    ]);
}

#[test]
fn no_floor() {
    let [cells, none] = [".", "@"].map(|letter| letter.repeat(64));
    let goal = format!("{}G", &none[1..]);
    let one_too_many = [&cells, &cells, &cells, &cells, &goal].map(String::as_str);
    assert_rows(vec![
        refused("no cell", map(&["@"]), 14, 0),
        refused("no cell in 64 rows", map(&[none.as_str(); 64]), 14, 0),
        refused("257 cells", map(&one_too_many), 14, 0),
        refused("4,096 cells", map(&[cells.as_str(); 64]), 14, 0),
        // The form is looked at first, to the end.
        refused("no cell, and a bad last row", map(&["@@", "@"]), 13, 6),
        refused("4,096 cells, and a byte behind them", [map(&[cells.as_str(); 64]), b"@".to_vec()].concat(), 13, 69),
    ]);
}

/// The first bad line: each line in wrong forms, behind right ones.
#[test]
fn bad_lines() {
    let lines: [(&str, &[&str]); 7] = [
        ("", &["", "\n", "type octile", "type octile\r\n", "type octile \n", "type  octile\n", "type tile\n", "map\n"]),
        ("type octile\n", &["", "height 2", "height\n", "height \n", "height  2\n", "height\t2\n", "width 3\n"]),
        (
            "type octile\n",
            &["height 0\n", "height 65\n", "height 02\n", "height 002\n", "height 0064\n", "height 2 \n"],
        ),
        ("type octile\nheight 2\n", &["", "width 3", "width 0\n", "width 65\n", "width +3\n", "width 3\r\n", "map\n"]),
        ("type octile\nheight 2\nwidth 3\n", &["", "map", "maps\n", "map \n", "map\r\n", "\n", "...\n"]),
        (
            HEAD,
            &[
                "",
                "...",
                "..\n",
                "....\n",
                "..g\n",
                "..S\n",
                "W..\n",
                "...\r\n",
                ". .\n",
                "\n",
                "...\0\n",
                "..\u{e9}\n",
            ],
        ),
        (TWO_ROWS, &["\n", "...\n", "x", "\0", "type octile\n"]),
    ];
    let rows = |(right, wrong): (&str, &'static [&'static str])| {
        let (right, line) = (right.to_string(), right.lines().count() + 1);
        wrong.iter().map(move |wrong| {
            let input = format!("{right}{wrong}");
            refused(&format!("{input:?}"), input.into_bytes(), 13, line)
        })
    };
    assert_rows(lines.into_iter().flat_map(rows).collect());
}

const HEAD: &str = "type octile\nheight 2\nwidth 3\nmap\n";
const TWO_ROWS: &str = "type octile\nheight 2\nwidth 3\nmap\n...\n@@@\n";

#[test]
fn long_lines() {
    let long = |head: &str, letter: &str| format!("{head}{}\n", letter.repeat(1_000_000)).into_bytes();
    assert_rows(vec![
        refused("a word", long("type octile", "e"), 13, 1),
        refused("a number", long("type octile\nheight ", "1"), 13, 2),
        refused("a row", long(HEAD, "."), 13, 5),
        refused("empty lines", long(HEAD, "\n"), 13, 5),
        refused("right rows without end", long(HEAD, "...\n"), 13, 7),
        // So many bytes as the longest map has, and one more.
        refused("no LF in 4,195 bytes", vec![b't'; LONGEST], 13, 1),
        refused("no LF in 4,196 bytes", vec![b't'; LONGEST + 1], 13, 1),
    ]);
}

#[test]
fn an_input_that_comes_in_pieces() {
    let cells = ".".repeat(64);
    assert_rows(vec![
        row("a ring", map(&["...", ".@.", "..."]), RING).in_pieces(3),
        row("256 cells", map(&[cells.as_str(); 4]), &whole(4, 64)).in_pieces(100),
        refused("no cell", map(&["@"]), 14, 0).in_pieces(1),
        refused("4,096 cells", map(&[cells.as_str(); 64]), 14, 0).in_pieces(LONGEST - 1),
        refused("a byte more", [map(&[cells.as_str(); 64]), b"x".to_vec()].concat(), 13, 69).in_pieces(LONGEST),
        refused("half a row", b"type octile\nheight 1\nwidth 9\nmap\n....".to_vec(), 13, 5).in_pieces(7),
    ]);
}
