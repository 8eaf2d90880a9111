//! Every small map: the answer and every byte, against the model.

use harness::compare::library_on_map;
use harness::gen::map_cases::MapCase;
use harness::gen::maps::{Drawing, LETTERS};
use harness::gen::Rng;
use harness::model::answer::*;
use harness::tally::Tally;

/// Every map of this size with these letters.
fn all_maps(height: usize, width: usize, letters: &[u8]) -> impl Iterator<Item = Drawing> + '_ {
    let count = letters.len().pow((height * width) as u32);
    (0..count).map(move |mut number| {
        let mut map = Drawing::of(0, height, width);
        for letter in map.0.iter_mut().flatten() {
            *letter = letters[number % letters.len()];
            number /= letters.len();
        }
        map
    })
}

/// Every map of this size, in a buffer that is long enough.
fn try_all(height: usize, width: usize, letters: &[u8], tally: &mut Tally, rng: &mut Rng) {
    for map in all_maps(height, width, letters) {
        let case = MapCase { map: map.text(), text_len: 400 };
        let (answer, value) = library_on_map(&case, rng);
        // Without the model: there is a floor exactly where there is a cell.
        assert_eq!(answer == FLOOR, !map.cells().is_empty());
        assert_eq!(answer == FLOOR, value > 0);
        tally.count(answer);
    }
}

#[test]
fn all_letters_in_up_to_six_places() {
    let (mut tally, mut rng) = (Tally::default(), Rng::new(1));
    for height in 1..=6 {
        for width in 1..=6 / height {
            try_all(height, width, LETTERS, &mut tally, &mut rng);
        }
    }
    // 5 to the number of places, the sum over the 14 sizes; 3 to that number have no cell.
    assert_eq!(tally.total(), 5 + 2 * 25 + 2 * 125 + 3 * 625 + 2 * 3125 + 4 * 15_625);
    tally.assert_each(&[NO_FLOOR], 3 + 2 * 9 + 2 * 27 + 3 * 81 + 2 * 243 + 4 * 729);
    tally.assert_only(&[FLOOR, NO_FLOOR]);
}

#[test]
fn cells_and_walls_up_to_4_by_4() {
    let (mut tally, mut rng) = (Tally::default(), Rng::new(2));
    for height in 1..=4 {
        for width in 1..=4 {
            try_all(height, width, b".@", &mut tally, &mut rng);
        }
    }
    let sizes = (1..=4).flat_map(|height| (1..=4).map(move |width| height * width));
    assert_eq!(tally.total(), sizes.map(|places| 1 << places).sum());
    tally.assert_each(&[NO_FLOOR], 16);
}
