//! Spare carts kept, beside as many calls served more: jobs at the limits with the same floor and the same carts, all with
//! plans. By turns in one process, the best of several counts.
//!
//! Lifts are what calls are mostly, but each takes its cart off the floor early, and its line on the sheet is short. A bay at
//! the last step has as many cells on the sheet as a spare cart.

use harness::gen::floors::{grid, line, star};
use harness::gen::large::moving;
use harness::gen::Rng;
use harness::model::answer::{unpack, PLAN};
use harness::model::job::{Call, Job};
use harness::model::limits::{sheet_least, store_least, CARTS, CELLS, DEADLINE};

use crate::clock::timed;
use crate::families::LIMITS;
use crate::floors::{aisles, comb, rooms, sparse, two_hubs};
use crate::spares::latest_first;
use crate::tight::has_plan;

/// Calls of a job with spare carts, and how many these are.
pub const CALLS: usize = 8;
pub const SPARES: usize = CARTS - CALLS;

const JOBS: u64 = 4;
/// What is shorter is timed several times at once.
const SHORTEST: f64 = 200.0;

struct Floor {
    name: &'static str,
    make: fn(usize, &mut Rng) -> Job,
}

const FLOORS: [Floor; 9] = [
    Floor { name: "open grid", make: |side, _| grid(side, side) },
    Floor { name: "rooms", make: rooms },
    Floor { name: "aisles", make: |side, _| aisles(side) },
    Floor { name: "line", make: |_, _| line(CELLS) },
    Floor { name: "comb", make: |side, _| comb(side) },
    Floor { name: "tree", make: |_, rng| sparse(CELLS, 0, rng) },
    Floor { name: "random sparse", make: |side, rng| sparse(CELLS, 5 * side, rng) },
    Floor { name: "star", make: |_, _| star(CELLS - 1) },
    Floor { name: "two hubs", make: |_, _| two_hubs(CELLS) },
];

/// The jobs of a floor.
pub struct OnFloor {
    pub name: &'static str,
    pub jobs: Vec<Figures>,
}

/// Microseconds with spare carts, and with lifts and with bays in their place.
pub struct Figures {
    pub spares: f64,
    pub lifts: f64,
    pub bays: f64,
}

pub fn measure(rounds: usize) -> Vec<OnFloor> {
    let on = |floor: &Floor| {
        let jobs = (1..=JOBS).map(|seed| of_jobs(&drawn(floor, &mut Rng::new(seed)), rounds)).collect();
        OnFloor { name: floor.name, jobs }
    };
    FLOORS.iter().map(on).collect()
}

/// A job with spare carts, and the same with lifts and with bays for them. What the lifts were drawn from is a plan of these;
/// whether there is one to the bays is tried.
fn drawn(floor: &Floor, rng: &mut Rng) -> [Job; 3] {
    loop {
        let made = moving((floor.make)(LIMITS.side, rng), CARTS, 0, DEADLINE, rng).0;
        let lifts = latest_first(made, DEADLINE);
        let mut bays = lifts.clone();
        for call in bays.calls.iter_mut().skip(CALLS) {
            *call = Call::bay(call.cell, DEADLINE);
        }
        let spares = Job { calls: lifts.calls[..CALLS].to_vec(), ..lifts.clone() };
        if lifts.carts.len() == CARTS && has_plan(&bays) {
            return [spares, lifts, bays];
        }
    }
}

/// All three in the same buffers: carts and steps are as many in each.
fn of_jobs(jobs: &[Job; 3], rounds: usize) -> Figures {
    let texts = jobs.each_ref().map(Job::text);
    let (mut store, mut sheet) = (vec![1u8; store_least(&jobs[0])], vec![1u8; sheet_least(&jobs[0])]);
    let mut plan = |text: &[u8]| unpack(cartfloor::plan(text, &mut store, &mut sheet)).0;
    let (mut best, mut times) = ([f64::NAN; 3], [1; 3]);
    for _ in 0..rounds + 1 {
        for ((text, best), times) in texts.iter().zip(&mut best).zip(&mut times) {
            let time = timed(*times, || assert_eq!(plan(text), PLAN, "the library has no plan for a job that has one"));
            *best = best.min(time);
            *times = (SHORTEST / *best).ceil() as usize;
        }
    }
    let [spares, lifts, bays] = best;
    Figures { spares, lifts, bays }
}
