//! Maps turned into floors in plain Rust: what the library's call is timed against.
//!
//! Cells are numbered in a table of the places, and their places are kept in their order. The length of the floor's text is
//! known before a byte of it is written.

use super::sheet::Writer;
use crate::model::answer::{pack, BAD_MAP, FLOOR, NO_FLOOR, SHEET_TOO_SHORT};
use crate::model::limits::{CELLS, SIDE};

/// No cell.
const NONE: u16 = u16::MAX;

struct Cells {
    count: usize,
    /// Row and column of each, up to the most that a floor has.
    places: [(u8, u8); CELLS],
    /// The number at each place. One row and one column more, without cells, are the edges.
    numbers: [[u16; SIDE + 1]; SIDE + 1],
}

/// The whole call. Answers as the library does.
pub fn map(map: &[u8], text: &mut [u8]) -> u64 {
    let cells = match read(map) {
        Ok(cells) => cells,
        Err(line) => return pack(BAD_MAP, line),
    };
    if cells.count == 0 || cells.count > CELLS {
        return pack(NO_FLOOR, 0);
    }
    let mut len = "FLOOR\n".len() + field_len(cells.count);
    cells.each_track(|a, b| len += "TRACK\n".len() + field_len(a) + field_len(b));
    if len > text.len() {
        return pack(SHEET_TOO_SHORT, 0);
    }
    let mut w = Writer { sheet: text, at: 0 };
    w.word(b"FLOOR");
    w.number(cells.count);
    w.byte(b'\n');
    cells.each_track(|a, b| {
        w.word(b"TRACK");
        w.number(a);
        w.number(b);
        w.byte(b'\n');
    });
    pack(FLOOR, w.at)
}

/// The cells, or the first bad line.
fn read(map: &[u8]) -> Result<Cells, usize> {
    let rest = map.strip_prefix(b"type octile\n").ok_or(1usize)?;
    let (height, rest) = rest.strip_prefix(b"height ").and_then(side).ok_or(2usize)?;
    let (width, rest) = rest.strip_prefix(b"width ").and_then(side).ok_or(3usize)?;
    let mut rest = rest.strip_prefix(b"map\n").ok_or(4usize)?;
    let mut cells = Cells { count: 0, places: [(0, 0); CELLS], numbers: [[NONE; SIDE + 1]; SIDE + 1] };
    for row in 0..height {
        let (letters, behind) = rest.split_at_checked(width).ok_or(5 + row)?;
        cells.read_row(row, letters).ok_or(5 + row)?;
        rest = behind.strip_prefix(b"\n").ok_or(5 + row)?;
    }
    match rest {
        [] => Ok(cells),
        _ => Err(5 + height),
    }
}

/// The number that a line ends with, and what follows its LF.
fn side(rest: &[u8]) -> Option<(usize, &[u8])> {
    let (side, rest) = match rest {
        [a @ b'1'..=b'9', b'\n', rest @ ..] => (usize::from(a - b'0'), rest),
        [a @ b'1'..=b'9', b @ b'0'..=b'9', b'\n', rest @ ..] => {
            (10 * usize::from(a - b'0') + usize::from(b - b'0'), rest)
        }
        _ => return None,
    };
    (side <= SIDE).then_some((side, rest))
}

/// The bytes of a tab and a number.
fn field_len(n: usize) -> usize {
    2 + usize::from(n >= 10) + usize::from(n >= 100)
}

impl Cells {
    fn read_row(&mut self, row: usize, letters: &[u8]) -> Option<()> {
        for (column, letter) in letters.iter().enumerate() {
            match letter {
                b'.' | b'G' => {
                    if let Some(place) = self.places.get_mut(self.count) {
                        *place = (row as u8, column as u8);
                    }
                    self.numbers[row][column] = self.count as u16;
                    self.count += 1;
                }
                b'@' | b'O' | b'T' => (),
                _ => return None,
            }
        }
        Some(())
    }

    /// For each cell in turn, the one on its right, then the one below.
    fn each_track(&self, mut track: impl FnMut(usize, usize)) {
        for (cell, &(row, column)) in self.places[..self.count].iter().enumerate() {
            let (row, column) = (usize::from(row), usize::from(column));
            for other in [self.numbers[row][column + 1], self.numbers[row + 1][column]] {
                if other != NONE {
                    track(cell, other.into());
                }
            }
        }
    }
}
