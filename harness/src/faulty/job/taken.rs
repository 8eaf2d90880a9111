//! The lines of a job that were taken, and what may not stand twice.

use std::collections::BTreeSet;

use crate::model::job::{Call, End, Job};
use crate::model::limits;

/// Kinds of lines are told by their rank: FLOOR is 1, TRACK 2, CART 3, CALL and BAY 4.
#[derive(Default)]
pub struct Taken {
    pub job: Job,
    /// The tracks with their lower cell first, and the cells of carts and of calls, which are in both places.
    places: BTreeSet<(usize, usize, usize)>,
    spelled: BTreeSet<(usize, Vec<Vec<u8>>)>,
}

impl Taken {
    pub fn is_in_range(&self, rank: usize, field: usize, value: u64) -> bool {
        let cells = self.job.cells as u64;
        match (rank, field) {
            (1, _) => value > 0 && value < 1 + limits::CELLS as u64,
            (4, 1) => value < 1 + limits::DEADLINE as u64,
            _ => value < cells,
        }
    }

    pub fn has_room(&self, rank: usize) -> bool {
        let Job { tracks, carts, calls, .. } = &self.job;
        match rank {
            2 => tracks.len() != limits::TRACKS,
            3 => carts.len() != limits::CARTS,
            4 => calls.len() != limits::CALLS,
            _ => true,
        }
    }

    pub fn is_doubled(&self, rank: usize, values: &[usize]) -> bool {
        let place = place(rank, values);
        rank == 2 && place.1 == place.2 || self.places.contains(&place)
    }

    /// The same by the bytes of the fields.
    pub fn is_spelled_twice(&self, rank: usize, fields: &[&[u8]]) -> bool {
        let mut turned = fields.to_vec();
        turned.reverse();
        rank == 2 && fields == turned
            || self.spelled.contains(&spelling(rank, fields))
            || self.spelled.contains(&spelling(rank, &turned)) && rank == 2
    }

    pub fn add(&mut self, rank: usize, end: End, values: &[usize], fields: &[&[u8]]) {
        self.places.insert(place(rank, values));
        self.spelled.insert(spelling(rank, fields));
        match *values {
            [cells] if rank == 1 => self.job.cells = cells,
            [cell] => self.job.carts.push(cell),
            [one, other] if rank == 2 => self.job.tracks.push((one, other)),
            [cell, deadline] => self.job.calls.push(Call { cell, deadline, end }),
            _ => unreachable!("a line has one field or two"),
        }
    }
}

/// What no second line of its kind may have.
fn place(rank: usize, values: &[usize]) -> (usize, usize, usize) {
    match *values {
        [one, other] if rank == 2 => (rank, one.min(other), one.max(other)),
        _ => (rank, values[0], values[0]),
    }
}

/// The same by the bytes of the fields.
fn spelling(rank: usize, fields: &[&[u8]]) -> (usize, Vec<Vec<u8>>) {
    let counted = if rank == 4 { 1 } else { fields.len() };
    (rank, fields[..counted].iter().map(|field| field.to_vec()).collect())
}
