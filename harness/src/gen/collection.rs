//! A collection as a hall keeps one: folders with jobs on one floor each, grids from 4 by 4 to 16 by 16 and corridors,
//! deadlines up to 255.

use super::floors::{grid, line};
use super::large::{moving, moving_to_bays, scattered, scattered_with_bays};
use super::Rng;
use crate::model::job::Job;

const ON_A_FLOOR: usize = 5;

/// A job of a collection, and the name it has there: `031/2.job`.
pub struct Entry {
    pub name: String,
    pub job: Job,
}

/// So many jobs, in the order of their names. About one in seven has no plan.
pub fn collection(count: usize, seed: u64) -> Vec<Entry> {
    let mut rng = Rng::new(seed);
    let mut entries = Vec::with_capacity(count);
    for number in 0.. {
        let floor = some_floor(&mut rng);
        for i in 0..ON_A_FLOOR {
            if entries.len() == count {
                return entries;
            }
            let name = format!("{number:04}/{i}.job");
            entries.push(Entry { name, job: some_job(floor.clone(), i, &mut rng) });
        }
    }
    entries
}

fn some_floor(rng: &mut Rng) -> Job {
    match rng.once_in(4) {
        true => line(8 + rng.below(100)),
        false => grid(4 + rng.below(13), 4 + rng.below(13)),
    }
}

/// Three of five have a plan; of the others nobody knows. About half have bays.
fn some_job(floor: Job, i: usize, rng: &mut Rng) -> Job {
    let carts = 1 + rng.below((floor.cells / 4).min(64));
    let last = *rng.pick(&[10, 20, 40, 80, 160, 255]);
    let has_bays = i == 1 || i == 3 || (i == 0 && rng.once_in(2));
    match (i, has_bays) {
        (0..3, false) => moving(floor, carts, 0, last, rng).0,
        (0..3, true) => moving_to_bays(floor, carts, 0, last, rng).0,
        (_, false) => scattered(floor, carts, last, rng),
        (_, true) => scattered_with_bays(floor, carts, last, rng),
    }
}
