//! Maps in great number, whole and damaged, in buffers of any length: the answer and every byte, against the model.

use harness::compare::library_on_map;
use harness::gen::map_cases::{damaged_maps, large_maps, small_maps, MapCase, MapKind};
use harness::gen::Rng;
use harness::model::answer::*;
use harness::tally::Tally;

fn answers(kind: MapKind, times: usize, seed: u64) -> Tally {
    let mut rng = Rng::new(seed);
    let mut tally = Tally::default();
    for _ in 0..times {
        let case = kind(&mut rng);
        tally.count(library_on_map(&case, &mut rng).0);
    }
    tally
}

#[test]
fn small() {
    let tally = answers(small_maps, 30_000, 1);
    tally.assert_each(&[FLOOR, SHEET_TOO_SHORT, NO_FLOOR], 500);
    tally.assert_only(&[FLOOR, SHEET_TOO_SHORT, NO_FLOOR]);
}

#[test]
fn up_to_64_by_64() {
    let tally = answers(large_maps, 30_000, 2);
    tally.assert_each(&[FLOOR, SHEET_TOO_SHORT, NO_FLOOR], 1000);
    tally.assert_only(&[FLOOR, SHEET_TOO_SHORT, NO_FLOOR]);
}

#[test]
fn damaged() {
    let tally = answers(damaged_maps, 120_000, 3);
    tally.assert_each(&[FLOOR, SHEET_TOO_SHORT, BAD_MAP, NO_FLOOR], 500);
    tally.assert_each(&[BAD_MAP], 60_000);
    tally.assert_only(&[FLOOR, SHEET_TOO_SHORT, BAD_MAP, NO_FLOOR]);
}

/// No map at all: noise, also noise of the bytes that maps are made of.
#[test]
fn noise() {
    let mut rng = Rng::new(4);
    for _ in 0..5000 {
        let len = rng.below(200);
        let noise = match rng.once_in(2) {
            true => rng.noise(len),
            false => (0..len).map(|_| *rng.pick(b".G@OT\n 1type octile\nheight 1\nwidth 1\nmap\n")).collect(),
        };
        let case = MapCase { map: noise, text_len: 100 };
        assert_eq!(library_on_map(&case, &mut rng).0, BAD_MAP);
    }
}
