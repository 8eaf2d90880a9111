//! Maps turned into floors: the library's call, the same in plain Rust, and a former library's call where it has one. By
//! turns in one process, the best of several counts.

use harness::baseline;
use harness::gen::maps::{corridor, scattered, Drawing};
use harness::gen::Rng;
use harness::model::answer::unpack;
use harness::model::limits::{CELLS, SIDE};
use harness::model::map::text_of;

use crate::before::Before;
use crate::clock::timed;

/// A family of maps, which are gone through in turn, and the text buffer for them, given their longest text.
struct Family {
    name: &'static str,
    text_len: fn(usize) -> usize,
    make: fn(&mut Rng) -> Drawing,
}

/// Microseconds a map.
pub struct Figures {
    pub name: &'static str,
    pub answer: u8,
    /// Of a map, on the average.
    pub bytes: f64,
    pub map: f64,
    pub baseline: f64,
    /// No number where the library before has no such call.
    pub before: f64,
}

const MAPS: usize = 8;
/// What is shorter is timed several times at once.
const SHORTEST: f64 = 200.0;
/// What a caller lends who does not know the map.
const ENOUGH: fn(usize) -> usize = |_| cartfloor::FLOOR_MOST;

const FAMILIES: [Family; 9] = [
    Family { name: "16 by 16, open", text_len: ENOUGH, make: |_| Drawing::of(b'.', 16, 16) },
    Family { name: "6 by 12, aisles", text_len: ENOUGH, make: |_| aisles(6, 12) },
    Family { name: "64 by 64, 256 cells scattered", text_len: ENOUGH, make: |r| scattered(SIDE, SIDE, CELLS, r) },
    Family { name: "64 by 64, a corridor", text_len: ENOUGH, make: |_| corridor(SIDE, SIDE, CELLS) },
    Family { name: "64 by 64, a hall of 16 by 16", text_len: ENOUGH, make: hall },
    Family { name: "64 by 64, a letter in the last row", text_len: ENOUGH, make: bad_letter },
    Family { name: "64 by 64, 257 cells", text_len: ENOUGH, make: |r| scattered(SIDE, SIDE, CELLS + 1, r) },
    Family { name: "64 by 64, no cell", text_len: ENOUGH, make: |_| Drawing::of(b'@', SIDE, SIDE) },
    Family { name: "16 by 16, a byte short", text_len: |longest| longest - 1, make: |_| Drawing::of(b'.', 16, 16) },
];

pub fn measure(before: Option<Before>, rounds: usize) -> Vec<Figures> {
    FAMILIES.iter().map(|family| of_family(family, before, rounds)).collect()
}

fn of_family(family: &Family, before: Option<Before>, rounds: usize) -> Figures {
    let maps: Vec<Vec<u8>> = (1..=MAPS as u64).map(|seed| (family.make)(&mut Rng::new(seed)).text()).collect();
    let longest = maps.iter().map(|map| text_of(map, usize::MAX).map_or(0, |text| text.len())).max().unwrap_or(0);
    let mut text = vec![1; (family.text_len)(longest)];
    let expected: Vec<u64> = maps.iter().map(|map| cartfloor::map(map, &mut text)).collect();
    let former = before.filter(|b| b.map(&maps[0], &mut text).is_some());
    let mut all = |times: usize, call: &dyn Fn(&[u8], &mut [u8]) -> u64| {
        let in_turn = || maps.iter().zip(&expected).for_each(|(map, &packed)| assert_eq!(call(map, &mut text), packed));
        timed(times, in_turn) / MAPS as f64
    };
    let mut best = [f64::NAN; 3];
    let mut times = 1;
    for _ in 0..rounds + 1 {
        let round = [
            all(times, &cartfloor::map),
            all(times, &baseline::map::map),
            former.map_or(f64::NAN, |b| all(times, &|map, text| b.map(map, text).unwrap_or(0))),
        ];
        for (best, time) in best.iter_mut().zip(round) {
            *best = best.min(time);
        }
        times = (SHORTEST / (MAPS as f64 * best[0])).ceil() as usize;
    }
    let bytes = maps.iter().map(Vec::len).sum::<usize>() as f64 / MAPS as f64;
    let [map, baseline, before] = best;
    Figures { name: family.name, answer: unpack(expected[0]).0, bytes, map, baseline, before }
}

/// Shelves of two, with an aisle round each.
fn aisles(height: usize, width: usize) -> Drawing {
    let mut map = Drawing::of(b'.', height, width);
    for row in &mut map.0[1..height - 1] {
        (0..width).filter(|column| column % 3 > 0).for_each(|column| row[column] = b'T');
    }
    map
}

/// Somewhere in the midst.
fn hall(rng: &mut Rng) -> Drawing {
    let (top, left) = (rng.below(SIDE - 15), rng.below(SIDE - 15));
    let mut map = Drawing::of(b'@', SIDE, SIDE);
    for row in &mut map.0[top..top + 16] {
        row[left..left + 16].fill(b'.');
    }
    map
}

fn bad_letter(rng: &mut Rng) -> Drawing {
    let mut map = scattered(SIDE, SIDE, CELLS, rng);
    map.0[SIDE - 1][SIDE - 1] = b'S';
    map
}
