//! What is tried of maps: small ones, large ones, damaged ones, each with a text buffer of some length.

use super::map_damage::changed_map;
use super::maps::{some_map, Drawing, LETTERS};
use super::Rng;
use crate::model::map::text_of;

/// One call for a map.
pub struct MapCase {
    pub map: Vec<u8>,
    pub text_len: usize,
}

/// Makes a case.
pub type MapKind = fn(&mut Rng) -> MapCase;

pub const MAP_KINDS: [(&str, MapKind); 3] = [("small", small_maps), ("large", large_maps), ("damaged", damaged_maps)];

/// Up to 4 by 4, with all letters alike.
fn small_map(rng: &mut Rng) -> Drawing {
    let (height, width) = (1 + rng.below(4), 1 + rng.below(4));
    Drawing((0..height).map(|_| (0..width).map(|_| *rng.pick(LETTERS)).collect()).collect())
}

pub fn small_maps(rng: &mut Rng) -> MapCase {
    case(small_map(rng).text(), rng)
}

/// Of any size up to 64 by 64.
pub fn large_maps(rng: &mut Rng) -> MapCase {
    case(some_map(rng).text(), rng)
}

/// Half of them large. Some are maps still, but none is the whole one.
pub fn damaged_maps(rng: &mut Rng) -> MapCase {
    let whole = if rng.once_in(2) { some_map(rng) } else { small_map(rng) };
    case(changed_map(&whole.text(), rng), rng)
}

fn case(map: Vec<u8>, rng: &mut Rng) -> MapCase {
    let text = text_of(&map, usize::MAX).map_or(0, |text| text.len());
    MapCase { map, text_len: some_len(text, rng) }
}

/// A buffer for a text of so many bytes: of just that length, a byte short, longer, or of any length.
fn some_len(text: usize, rng: &mut Rng) -> usize {
    match rng.below(8) {
        0 => text.saturating_sub(1),
        1 => text + 1 + rng.below(100),
        2 => cartfloor::FLOOR_MOST,
        3 => rng.below(text + 1),
        4 if rng.once_in(4) => 0,
        _ => text,
    }
}
