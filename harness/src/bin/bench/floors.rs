//! Floors that the tests have no use for, without carts and calls.

use harness::gen::floors::grid;
use harness::gen::Rng;
use harness::model::job::Job;

/// A square grid without the tracks for which `is_walled` holds.
fn walled(side: usize, mut is_walled: impl FnMut((usize, usize), (usize, usize)) -> bool) -> Job {
    let mut floor = grid(side, side);
    let at = |cell: usize| (cell / side, cell % side);
    floor.tracks.retain(|&(a, b)| !is_walled(at(a), at(b)));
    floor
}

/// Two halves, left and right, joined at one row.
pub fn halves(side: usize, rng: &mut Rng) -> Job {
    let gap = rng.below(side);
    walled(side, |(row, left), (_, right)| left + 1 == side / 2 && right == side / 2 && row != gap)
}

/// Rooms of 4 by 4 cells, with a door between each two neighbours.
pub fn rooms(side: usize, rng: &mut Rng) -> Job {
    let doors: Vec<usize> = (0..side * side).map(|_| rng.below(4)).collect();
    walled(side, |(row, column), (row_b, column_b)| {
        let door = doors[row / 4 * side + column / 4];
        let is_across = column / 4 != column_b / 4 && row % 4 != door;
        let is_down = row / 4 != row_b / 4 && column % 4 != door;
        is_across || is_down
    })
}

/// Long aisles, joined at both ends and in the middle.
pub fn aisles(side: usize) -> Job {
    let cross = [0, side / 2, side - 1];
    walled(side, |(row, column), (_, column_b)| column != column_b && !cross.contains(&row))
}

/// Teeth that are joined at one end.
pub fn comb(side: usize) -> Job {
    walled(side, |(row, column), (_, column_b)| column != column_b && row != 0)
}

/// Each cell joined to one before it, and so many tracks more.
pub fn sparse(cells: usize, more: usize, rng: &mut Rng) -> Job {
    let mut tracks: Vec<(usize, usize)> = (1..cells).map(|c| (rng.below(c), c)).collect();
    while tracks.len() < cells - 1 + more {
        let (a, b) = (rng.below(cells), rng.below(cells));
        if a < b && !tracks.contains(&(a, b)) {
            tracks.push((a, b));
        }
    }
    Job { cells, tracks, ..Job::default() }
}

/// All cells joined to the first two.
pub fn two_hubs(cells: usize) -> Job {
    let tracks = (0..2).flat_map(|hub| (hub + 1..cells).map(move |c| (hub, c))).collect();
    Job { cells, tracks, ..Job::default() }
}

/// Every two cells joined.
pub fn clique(cells: usize) -> Job {
    let tracks = (0..cells).flat_map(|a| (a + 1..cells).map(move |b| (a, b))).collect();
    Job { cells, tracks, ..Job::default() }
}
