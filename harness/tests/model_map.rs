//! The model on maps: told by hand, and by what a floor is in other words. And that the maps which are tried are of every
//! kind.

use std::collections::{BTreeMap, BTreeSet};
use std::fs;

use harness::examples::tabs;
use harness::gen::map_cases::damaged_maps;
use harness::gen::maps::{corridor, some_map, Drawing};
use harness::gen::Rng;
use harness::model::answer::*;
use harness::model::limits::{CELLS, SIDE};
use harness::model::map::{buffer_after, floor, read, text_of};
use harness::model::reader;

fn drawing(rows: &[&str]) -> Drawing {
    Drawing(rows.iter().map(|row| row.as_bytes().to_vec()).collect())
}

fn assert_text(rows: &[&str], text: &str) {
    assert_eq!(text_of(&drawing(rows).text(), text.len()), Ok(tabs(text)), "{rows:?}");
}

#[test]
fn texts_by_hand() {
    assert_text(&["."], "FLOOR 1\n");
    assert_text(&["G@", "OT"], "FLOOR 1\n");
    assert_text(&[".."], "FLOOR 2\nTRACK 0 1\n");
    assert_text(&[".", "G"], "FLOOR 2\nTRACK 0 1\n");
    // No track round a corner, none across a wall, none from the end of a row to the beginning of the next.
    assert_text(&[".@", "T."], "FLOOR 2\n");
    assert_text(&[".O."], "FLOOR 2\n");
    assert_text(&["@.", ".@"], "FLOOR 2\n");
    // Right before below.
    assert_text(&["..", ".."], "FLOOR 4\nTRACK 0 1\nTRACK 0 2\nTRACK 1 3\nTRACK 2 3\n");
    assert_text(&["...", ".@G"], "FLOOR 5\nTRACK 0 1\nTRACK 0 3\nTRACK 1 2\nTRACK 2 4\n");
}

#[test]
fn the_text_of_a_drawing() {
    assert_eq!(drawing(&["..", "@T", "OG"]).text(), b"type octile\nheight 3\nwidth 2\nmap\n..\n@T\nOG\n");
    assert_eq!(drawing(&["..", "@T", "OG"]).cells(), [(0, 0), (0, 1), (2, 1)]);
    assert_eq!(Drawing::of(b'.', SIDE, SIDE).text().len(), cartfloor::MAP_MOST);
}

#[test]
fn a_corridor_by_hand() {
    let rows = corridor(5, 3, 11).0;
    assert_eq!(rows, ["...", "@@.", "...", ".@@", "..."].map(|row| row.as_bytes().to_vec()));
    assert_eq!(corridor(5, 3, 6).0[2], b"@..");
}

/// What is written is lent elsewhere: a refusal writes nothing, a text its own bytes.
#[test]
fn the_buffer_after_a_call() {
    assert_eq!(buffer_after(&Ok(b"ab".to_vec()), b"12345"), b"ab345");
    assert_eq!(buffer_after(&Ok(b"ab".to_vec()), b"12"), b"ab");
    assert_eq!(buffer_after(&Err(refusal(NO_FLOOR)), b"12345"), b"12345");
}

/// What is written down beside the maps of `examples/` by hand.
#[test]
fn the_example_files() {
    for name in ["packing", "aisles"] {
        let file = format!("{}/../examples/{name}", env!("CARGO_MANIFEST_DIR"));
        let [map, floor] = ["map", "floor"].map(|end| fs::read(format!("{file}.{end}")).expect("an example"));
        assert_eq!(text_of(&map, floor.len()), Ok(floor), "{name}");
    }
}

/// Two cells are joined exactly if they are next to each other in a row or a column: said of every two cells.
fn assert_neighbours_joined(map: &Drawing) {
    let (cells, floor) = (map.cells(), floor(&read(&map.text()).expect("a map")));
    assert_eq!(floor.cells, cells.len());
    let tracks: BTreeSet<(usize, usize)> = floor.tracks.iter().copied().collect();
    assert_eq!(tracks.len(), floor.tracks.len(), "a track twice");
    for (a, from) in cells.iter().enumerate() {
        for (b, to) in cells.iter().enumerate() {
            let is_next = from.0.abs_diff(to.0) + from.1.abs_diff(to.1) == 1;
            assert_eq!(tracks.contains(&(a, b)), is_next && a < b, "{from:?} and {to:?}");
        }
    }
    // By the lower number; then by the other one, for the cell on the right comes before the one below.
    assert!(floor.tracks.is_sorted());
}

#[test]
fn neighbours_are_joined() {
    let mut rng = Rng::new(1);
    (0..500).map(|_| some_map(&mut rng)).filter(|map| map.cells().len() <= CELLS).for_each(|map| {
        assert_neighbours_joined(&map);
    });
}

/// The text of a floor is a job, one without carts and calls.
#[test]
fn a_text_is_a_job() {
    let mut rng = Rng::new(2);
    for _ in 0..2000 {
        let map = some_map(&mut rng).text();
        let Ok(text) = text_of(&map, cartfloor::FLOOR_MOST) else { continue };
        assert_eq!(reader::read(&text), Ok(floor(&read(&map).expect("a map"))));
    }
}

/// The maps that are tried, each kind often enough.
#[test]
fn maps_of_every_kind() {
    let mut rng = Rng::new(3);
    let mut kinds: BTreeMap<&str, usize> = BTreeMap::new();
    for _ in 0..4000 {
        let map = some_map(&mut rng);
        let (cells, sides) = (map.cells().len(), (map.height(), map.width()));
        let letters: BTreeSet<u8> = map.0.iter().flatten().copied().collect();
        for (kind, is_one) in [
            ("no cell", cells == 0),
            ("one cell", cells == 1),
            ("up to 256 cells", cells > 0 && cells <= CELLS),
            ("100 to 256 cells", (100..=CELLS).contains(&cells)),
            ("256 cells", cells == CELLS),
            ("257 cells", cells == CELLS + 1),
            ("more", cells > CELLS + 1),
            ("one row", sides.0 == 1),
            ("one column", sides.1 == 1),
            ("64 rows", sides.0 == SIDE),
            ("64 columns", sides.1 == SIDE),
            ("as large as can be", sides == (SIDE, SIDE)),
            ("16 by 16, open", sides == (16, 16) && cells == CELLS),
            ("higher than wide", sides.0 > sides.1),
            ("wider than high", sides.0 < sides.1),
            ("all letters", letters.len() == 5),
        ] {
            *kinds.entry(kind).or_default() += usize::from(is_one);
        }
    }
    let seldom: Vec<_> = kinds.iter().filter(|(_, &times)| times < 50).collect();
    assert!(seldom.is_empty(), "{seldom:?} of {kinds:?}");
}

#[test]
fn damage_of_every_kind() {
    let mut rng = Rng::new(4);
    let mut kinds: BTreeMap<String, usize> = BTreeMap::new();
    for _ in 0..20_000 {
        let case = damaged_maps(&mut rng);
        let kind = match text_of(&case.map, case.text_len) {
            Ok(_) => "0".to_string(),
            Err(Refusal { number: BAD_MAP, line }) if line < 8 => format!("13 at line {line}"),
            Err(Refusal { number, .. }) => number.to_string(),
        };
        *kinds.entry(kind).or_default() += 1;
    }
    let expected =
        ["0", "10", "13", "14"].map(String::from).into_iter().chain((1..8).map(|n| format!("13 at line {n}")));
    assert_eq!(kinds.keys().cloned().collect::<BTreeSet<String>>(), expected.collect());
    assert!(kinds.values().all(|&times| times > 100), "{kinds:?}");
}
