//! A job with its cells, carts and calls in other places, and its sheets with it: the same but for the numbers.

use super::Rng;
use crate::model::job::{Call, Job};
use crate::model::sheet::{Choke, Path, Plan, Spare};

/// By the number that each had, the number that each has.
pub struct Numbers {
    cells: Vec<usize>,
    carts: Vec<usize>,
    calls: Vec<usize>,
}

impl Numbers {
    /// New numbers as chance has them.
    pub fn of(job: &Job, rng: &mut Rng) -> Numbers {
        let mut any = |count| rng.sample(count, count);
        Numbers { cells: any(job.cells), carts: any(job.carts.len()), calls: any(job.calls.len()) }
    }

    /// The job, its tracks in any order too, each either way round.
    pub fn job(&self, job: &Job, rng: &mut Rng) -> Job {
        let either_way = |a: usize, b: usize, rng: &mut Rng| if rng.once_in(2) { (a, b) } else { (b, a) };
        let mut tracks: Vec<(usize, usize)> =
            job.tracks.iter().map(|&(a, b)| either_way(self.cells[a], self.cells[b], rng)).collect();
        rng.shuffle(&mut tracks);
        let carts = job.carts.iter().map(|&cell| self.cells[cell]).collect();
        let calls = job.calls.iter().map(|call| Call { cell: self.cells[call.cell], ..*call }).collect();
        Job { cells: job.cells, tracks, carts: placed(&self.carts, carts), calls: placed(&self.calls, calls) }
    }

    /// A plan of the job, its lines by the new numbers.
    pub fn plan(&self, job: &Job, plan: &Plan) -> Plan {
        let spare = |spare: &Spare| Spare { cart: self.carts[spare.cart], cells: self.cells_of(&spare.cells) };
        let mut spares: Vec<Spare> = plan.spares.iter().map(spare).collect();
        spares.sort_by_key(|spare| spare.cart);
        Plan { paths: self.paths(job, &plan.paths), spares }
    }

    /// Its paths, by the new cells.
    pub fn paths(&self, job: &Job, paths: &[Path]) -> Vec<Path> {
        let mut paths = paths.to_vec();
        paths.sort_by_key(|p| (job.calls[p.call].deadline, self.cells[job.calls[p.call].cell]));
        let path =
            |p: Path| Path { cart: self.carts[p.cart], call: self.calls[p.call], cells: self.cells_of(&p.cells) };
        paths.into_iter().map(path).collect()
    }

    fn cells_of(&self, walk: &[usize]) -> Vec<usize> {
        walk.iter().map(|&cell| self.cells[cell]).collect()
    }

    /// A choke list of the job, in order.
    pub fn list(&self, list: &[Choke]) -> Vec<Choke> {
        let choke = |choke: &Choke| match *choke {
            Choke::Cell { step, cell } => Choke::Cell { step, cell: self.cells[cell] },
            Choke::Call(call) => Choke::Call(self.calls[call]),
        };
        let mut list: Vec<Choke> = list.iter().map(choke).collect();
        list.sort();
        list
    }
}

/// Each of them at its new place.
fn placed<T: Clone>(places: &[usize], all: Vec<T>) -> Vec<T> {
    let mut placed = all.clone();
    for (&place, one) in places.iter().zip(all) {
        placed[place] = one;
    }
    placed
}
