//! The floor of a map, by places in one long row of letters.

use super::form::Grid;
use super::MapFault;

/// How many cells there are, and the text.
pub fn text(grid: &Grid, fault: MapFault) -> (usize, Vec<u8>) {
    let numbers = numbers(grid, fault);
    let mut tracks: Vec<(usize, usize)> = Vec::new();
    for place in 0..numbers.len() {
        tracks.extend(joined(grid, &numbers, place, fault));
    }
    if fault == MapFault::PutsAllBelowBehind {
        tracks.sort_by_key(|&(place, other)| other - place == grid.width);
    }
    let cells = numbers.iter().flatten().count();
    let digits = |number: usize| digits(number, fault);
    let mut text = format!("FLOOR\t{}\n", digits(cells));
    for (place, other) in tracks {
        let [mut a, mut b] = [place, other].map(|place| numbers[place].unwrap_or(0));
        if fault == MapFault::PutsHigherNumberFirst {
            (a, b) = (a.max(b), a.min(b));
        }
        text += &format!("TRACK\t{}\t{}\n", digits(a), digits(b));
    }
    (cells, text.into_bytes())
}

/// A number, as a table of digits has it.
fn digits(number: usize, fault: MapFault) -> String {
    match fault {
        MapFault::KeepsLeadingZeros => format!("{number:03}"),
        MapFault::DropsInnerZeros if number > 99 => number.to_string().replace('0', ""),
        MapFault::TurnsDigitsRound => number.to_string().chars().rev().collect(),
        MapFault::HasWrongEntry if number == 207 => "208".into(),
        MapFault::TakesEntryBehind if number > 99 => (number + 1).to_string(),
        _ => number.to_string(),
    }
}

/// By place, the number of the cell there.
fn numbers(grid: &Grid, fault: MapFault) -> Vec<Option<usize>> {
    let mut order: Vec<usize> = (0..grid.letters.len()).collect();
    if fault == MapFault::NumbersByColumn {
        order.sort_by_key(|place| place % grid.width);
    }
    let mut numbers = vec![None; grid.letters.len()];
    let mut next = usize::from(fault == MapFault::NumbersFromOne);
    for place in order {
        let is_cell = is_cell(grid.letters[place], fault);
        numbers[place] = is_cell.then_some(next);
        next += usize::from(is_cell || fault == MapFault::NumbersWalls);
    }
    numbers
}

fn is_cell(letter: u8, fault: MapFault) -> bool {
    match letter {
        b'.' => true,
        b'G' => fault != MapFault::TakesGForWall,
        b'O' => fault == MapFault::TakesOForCell,
        b'T' => fault == MapFault::TakesTForCell,
        _ => false,
    }
}

/// The tracks that are written for the cell at this place, if there is one.
fn joined(grid: &Grid, numbers: &[Option<usize>], place: usize, fault: MapFault) -> Vec<(usize, usize)> {
    let (row, column, width) = (place / grid.width, place % grid.width, grid.width);
    let last_column = width - usize::from(fault == MapFault::MissesLastColumn);
    let last_row = grid.height - usize::from(fault == MapFault::MissesLastRow);
    let row_end = place - column + width;
    let mut right = (column + 1 < last_column || fault == MapFault::JoinsRowEnds).then_some(place + 1);
    if fault == MapFault::JoinsAcrossWalls {
        right = (place + 1..row_end).find(|&place| numbers[place].is_some());
    }
    let below = (row + 1 < last_row).then_some(place + width);
    let mut others = vec![right, below];
    match fault {
        MapFault::PutsBelowBeforeRight => others.reverse(),
        MapFault::JoinsBothWays => {
            others.push((column > 0).then(|| place - 1));
            others.push((row > 0).then(|| place - width));
        }
        MapFault::JoinsDiagonally => {
            others.push((column + 1 < width && row + 1 < last_row).then_some(place + width + 1))
        }
        _ => (),
    }
    let is_cell = |place: &usize| numbers.get(*place).is_some_and(Option::is_some);
    let others = others.into_iter().flatten().filter(is_cell);
    others.filter(|_| is_cell(&place)).map(|other| (place, other)).collect()
}
