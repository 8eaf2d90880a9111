//! Floors up to the limits, without carts and calls.

use super::Rng;
use crate::model::job::Job;
use crate::model::limits;

/// A floor of rows and columns, neighbours joined; no cart yet.
pub fn grid(rows: usize, columns: usize) -> Job {
    let cells = rows * columns;
    let across = (0..cells).filter(|c| c % columns + 1 < columns).map(|c| (c, c + 1));
    let down = (0..cells - columns).map(|c| (c, c + columns));
    Job { cells, tracks: across.chain(down).collect(), ..Job::default() }
}

/// One cell in the middle, cell 0, and so many round it.
pub fn star(round: usize) -> Job {
    Job { cells: round + 1, tracks: (1..=round).map(|c| (0, c)).collect(), ..Job::default() }
}

/// The floor with further tracks by chance, up to the limit.
pub fn with_most_tracks(mut floor: Job, rng: &mut Rng) -> Job {
    while floor.tracks.len() < limits::TRACKS {
        let (a, b) = (rng.below(floor.cells), rng.below(floor.cells));
        if a != b && !floor.tracks.contains(&(a, b)) && !floor.tracks.contains(&(b, a)) {
            floor.tracks.push((a, b));
        }
    }
    floor
}

/// The largest floor. All its tracks are between cells from 100 on, each cell and the next few of a ring.
pub fn ring() -> Job {
    let far = limits::CELLS - 100;
    let on = |i: usize| 100 + i % far;
    let tracks = (0..limits::TRACKS).map(|i| (on(i), on(i % far + 1 + i / far))).collect();
    Job { cells: limits::CELLS, tracks, ..Job::default() }
}

/// The cells one behind the other.
pub fn line(cells: usize) -> Job {
    grid(1, cells)
}

/// Cells that no track joins.
pub fn loose(cells: usize) -> Job {
    Job { cells, ..Job::default() }
}

/// A floor of any shape and of up to some 60 cells.
pub fn some_floor(rng: &mut Rng) -> Job {
    match rng.below(4) {
        0 => star(1 + rng.below(60)),
        1 => line(2 + rng.below(60)),
        2 => with_most_tracks(grid(6, 6), rng),
        _ => grid(2 + rng.below(7), 2 + rng.below(7)),
    }
}
