//! Maps: how one is read, the floor that it shows, and what the call must answer.
//!
//! The text is split into lines first. Then each line has to be what belongs in its place.

use super::answer::*;
use super::job::Job;
use super::limits;
use super::lines::{number, LF};

/// The rows from the top, each letter from the left: whether there is a cell.
pub type Map = Vec<Vec<bool>>;

/// The floor's text, or the refusal of the first test that fails.
pub fn text_of(map: &[u8], text_len: usize) -> Result<Vec<u8>, Refusal> {
    let floor = floor(&read(map)?);
    if floor.cells == 0 || floor.cells > limits::CELLS {
        return Err(refusal(NO_FLOOR));
    }
    let text = floor.text();
    if text.len() > text_len {
        return Err(refusal(SHEET_TOO_SHORT));
    }
    Ok(text)
}

/// The map, or the refusal of its first bad line.
pub fn read(text: &[u8]) -> Result<Map, Refusal> {
    let lines: Vec<&[u8]> = text.split_inclusive(|&b| b == LF).collect();
    // Lines are counted from 1. None is one that is missing, or that no LF ends.
    let line = |number: usize| lines.get(number - 1)?.strip_suffix(&[LF]);
    let bad = |line: usize| Refusal { number: BAD_MAP, line };

    if line(1) != Some(b"type octile") {
        return Err(bad(1));
    }
    let height = line(2).and_then(|line| side(line, b"height ")).ok_or(bad(2))?;
    let width = line(3).and_then(|line| side(line, b"width ")).ok_or(bad(3))?;
    if line(4) != Some(b"map") {
        return Err(bad(4));
    }
    let (first, beyond) = (5, 5 + height);
    let rows = (first..beyond).map(|number| line(number).and_then(|line| row(line, width)).ok_or(bad(number)));
    let map = rows.collect::<Result<Map, Refusal>>()?;
    match lines.len() < beyond {
        true => Ok(map),
        false => Err(bad(beyond)),
    }
}

/// The number behind a word and one space, if a map can be so high or wide.
fn side(line: &[u8], word: &[u8]) -> Option<usize> {
    number(line.strip_prefix(word)?).filter(|side| (1..=limits::SIDE).contains(side))
}

fn row(line: &[u8], width: usize) -> Option<Vec<bool>> {
    let cells: Option<Vec<bool>> = line.iter().map(|&letter| is_cell(letter)).collect();
    cells.filter(|cells| cells.len() == width)
}

/// Nothing for a letter that maps do not have.
fn is_cell(letter: u8) -> Option<bool> {
    match letter {
        b'.' | b'G' => Some(true),
        b'@' | b'O' | b'T' => Some(false),
        _ => None,
    }
}

/// Cells are numbered row by row. Each is joined to its neighbour on the right, then to the one below.
pub fn floor(map: &Map) -> Job {
    let numbers = numbers(map);
    let at = |row: usize, column: usize| -> Option<usize> { *numbers.get(row)?.get(column)? };
    let mut floor = Job::default();
    for (row, column) in places(map) {
        let Some(cell) = at(row, column) else { continue };
        floor.cells += 1;
        floor.tracks.extend(at(row, column + 1).map(|right| (cell, right)));
        floor.tracks.extend(at(row + 1, column).map(|below| (cell, below)));
    }
    floor
}

/// The row and column of each letter, from the top left.
fn places(map: &Map) -> impl Iterator<Item = (usize, usize)> + '_ {
    let in_row = |(row, letters): (usize, &Vec<bool>)| (0..letters.len()).map(move |column| (row, column));
    map.iter().enumerate().flat_map(in_row)
}

/// The number of each cell, in the places of the map.
fn numbers(map: &Map) -> Vec<Vec<Option<usize>>> {
    let mut count = 0;
    let mut next = || {
        count += 1;
        count - 1
    };
    map.iter().map(|row| row.iter().map(|&is_cell| is_cell.then(&mut next)).collect()).collect()
}

/// The text buffer after the call: what was written and behind it what was lent; all as lent after a refusal.
pub fn buffer_after(answer: &Result<Vec<u8>, Refusal>, lent: &[u8]) -> Vec<u8> {
    match answer {
        Ok(text) => [text.as_slice(), &lent[text.len()..]].concat(),
        Err(_) => lent.to_vec(),
    }
}
