//! Maps to try: drawings of every size up to 64 by 64, with every count of cells.

use super::Rng;
use crate::model::limits::{CELLS, SIDE};

pub const CELL_LETTERS: &[u8] = b".G";
pub const OTHER_LETTERS: &[u8] = b"@OT";
pub const LETTERS: &[u8] = b".G@OT";

/// The rows of a map, all as long as the first.
#[derive(Clone)]
pub struct Drawing(pub Vec<Vec<u8>>);

impl Drawing {
    /// All of one letter.
    pub fn of(letter: u8, height: usize, width: usize) -> Drawing {
        Drawing(vec![vec![letter; width]; height])
    }

    pub fn height(&self) -> usize {
        self.0.len()
    }

    pub fn width(&self) -> usize {
        self.0[0].len()
    }

    /// The map text.
    pub fn text(&self) -> Vec<u8> {
        let head = format!("type octile\nheight {}\nwidth {}\nmap\n", self.height(), self.width());
        let rows = self.0.iter().flat_map(|row| [row.as_slice(), b"\n"].concat());
        head.into_bytes().into_iter().chain(rows).collect()
    }

    /// The places of the cells, row by row.
    pub fn cells(&self) -> Vec<(usize, usize)> {
        let columns = |row: usize| (0..self.width()).map(move |column| (row, column));
        let is_cell = |&(row, column): &(usize, usize)| CELL_LETTERS.contains(&self.0[row][column]);
        (0..self.height()).flat_map(columns).filter(is_cell).collect()
    }

    /// The drawing with other letters that mean the same: of one kind, or mixed.
    fn in_any_letters(mut self, rng: &mut Rng) -> Drawing {
        let (cell, other) = (some_of(CELL_LETTERS, rng), some_of(OTHER_LETTERS, rng));
        for letter in self.0.iter_mut().flatten() {
            *letter = *rng.pick(if CELL_LETTERS.contains(letter) { cell } else { other });
        }
        self
    }
}

/// One of the letters, or all of them.
fn some_of<'a>(letters: &'a [u8], rng: &mut Rng) -> &'a [u8] {
    let at = rng.below(letters.len());
    if rng.once_in(2) {
        &letters[at..at + 1]
    } else {
        letters
    }
}

/// A map of any size and kind.
pub fn some_map(rng: &mut Rng) -> Drawing {
    let drawing = match rng.below(8) {
        0 => scattered_at_the_limit(rng),
        1 => block(rng),
        2 => winding(rng),
        3 => Drawing::of(b'.', 16, 16),
        _ => {
            let (height, width) = some_sides(rng);
            scattered(height, width, some_count(height * width, rng), rng)
        }
    };
    drawing.in_any_letters(rng)
}

/// Small ones mostly; lines, and both sides at their limit.
fn some_sides(rng: &mut Rng) -> (usize, usize) {
    let mut side = || match rng.below(8) {
        0 => 1,
        1 => SIDE,
        2 | 3 => 1 + rng.below(SIDE),
        _ => 1 + rng.below(8),
    };
    (side(), side())
}

/// None, one, few, many, all, or about as many as there may be.
fn some_count(places: usize, rng: &mut Rng) -> usize {
    let count = match rng.below(16) {
        0 => 0,
        1 => 1,
        2 => places,
        3 => CELLS + rng.below(3) - 1,
        4 => rng.below(places + 1),
        _ => rng.below(places.min(CELLS) + 1),
    };
    count.min(places)
}

/// So many cells anywhere.
pub fn scattered(height: usize, width: usize, cells: usize, rng: &mut Rng) -> Drawing {
    let mut drawing = Drawing::of(b'@', height, width);
    for place in rng.sample(height * width, cells) {
        drawing.0[place / width][place % width] = b'.';
    }
    drawing
}

/// 255 to 258 cells where there is room for so many, 16 by 17 and larger, scattered or close together.
pub fn scattered_at_the_limit(rng: &mut Rng) -> Drawing {
    let (height, width) = *rng.pick(&[(16, 17), (17, 16), (5, 64), (64, 5), (32, 32), (64, 64)]);
    scattered(height, width, CELLS - 1 + rng.below(4), rng)
}

/// A hall of cells, with some pillars, in the midst of others: so most cells have neighbours.
pub fn block(rng: &mut Rng) -> Drawing {
    let (height, width) = (1 + rng.below(16), 1 + rng.below(16));
    let (top, left) = (rng.below(SIDE - height + 1), rng.below(SIDE - width + 1));
    let (below, right) = (rng.below(SIDE - top - height + 1), rng.below(SIDE - left - width + 1));
    let mut drawing = Drawing::of(b'@', top + height + below, left + width + right);
    for row in &mut drawing.0[top..top + height] {
        row[left..left + width].iter_mut().filter(|_| !rng.once_in(8)).for_each(|letter| *letter = b'.');
    }
    drawing
}

/// A corridor that goes to and fro, of 256 cells at the most.
pub fn winding(rng: &mut Rng) -> Drawing {
    corridor(1 + rng.below(SIDE), 1 + rng.below(SIDE), 1 + rng.below(CELLS))
}

/// A corridor of at most so many cells: along the first row, two down at its end, back along the third, and so on.
pub fn corridor(height: usize, width: usize, cells: usize) -> Drawing {
    let mut drawing = Drawing::of(b'@', height, width);
    let mut way = Vec::new();
    for row in 0..height {
        let is_back = row % 4 == 2;
        let columns: Vec<usize> = match row % 4 {
            1 => vec![width - 1],
            3 => vec![0],
            _ if is_back => (0..width).rev().collect(),
            _ => (0..width).collect(),
        };
        way.extend(columns.into_iter().map(|column| (row, column)));
    }
    for (row, column) in way.into_iter().take(cells) {
        drawing.0[row][column] = b'.';
    }
    drawing
}
