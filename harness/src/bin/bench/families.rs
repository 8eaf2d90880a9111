//! The families of jobs that are timed, at the limits and below them, all from seeds.

use harness::gen::bays::with_bays;
use harness::gen::floors::{grid, line, star};
use harness::gen::large::{moving, moving_to_bays, scattered};
use harness::gen::Rng;
use harness::model::job::{Call, Job};
use harness::model::limits::{CARTS, DEADLINE};

use crate::floors::{aisles, clique, comb, rooms, sparse, two_hubs};
use crate::tight::{bottleneck, crossing, crossing_to_bays, gap_behind_lifts, main_aisle, shut_aisles, tight};

/// How large: the side of a grid, the carts, the latest deadline.
#[derive(Clone, Copy)]
pub struct Size {
    pub side: usize,
    pub carts: usize,
    pub last: usize,
}

pub const LIMITS: Size = Size { side: 16, carts: CARTS, last: DEADLINE };
pub const BELOW: Size = Size { side: 12, carts: 36, last: 120 };

/// Makes the i-th job of a family.
pub type Make = fn(Size, usize, &mut Rng) -> Job;

pub struct Family {
    pub name: &'static str,
    pub make: Make,
}

pub const OPEN_GRID: Family = Family { name: "open grid", make: |s, i, r| on(grid(s.side, s.side), s, i, r) };
pub const SMALL_HALL: Family = Family { name: "small hall", make: |_, i, r| small_hall(i, r) };
pub const HALF_BAYS: Family =
    Family { name: "open grid, half bays", make: |s, i, r| to_bays_on(grid(s.side, s.side), s, i, r) };

/// As many carts as calls; `spares` has the others.
pub const FAMILIES: [Family; 18] = [
    OPEN_GRID,
    Family { name: "bottleneck", make: |s, _, r| bottleneck(s, r) },
    Family { name: "rooms", make: |s, i, r| on(rooms(s.side, r), s, i, r) },
    Family { name: "aisles", make: |s, i, r| on(aisles(s.side), s, i, r) },
    Family { name: "line", make: |s, i, r| on(line(s.side * s.side), s, i, r) },
    Family { name: "comb", make: |s, i, r| on(comb(s.side), s, i, r) },
    Family { name: "tree", make: |s, i, r| on(sparse(s.side * s.side, 0, r), s, i, r) },
    Family { name: "random sparse", make: |s, i, r| on(sparse(s.side * s.side, 5 * s.side, r), s, i, r) },
    Family { name: "just feasible", make: |s, i, r| tight(s, i, r).0 },
    Family { name: "just infeasible", make: |s, i, r| tight(s, i, r).1 },
    SMALL_HALL,
    Family { name: "star", make: |s, i, r| on(star(s.side * s.side - 1), s, i, r) },
    Family { name: "two hubs", make: |s, i, r| on(two_hubs(s.side * s.side), s, i, r) },
    Family { name: "clique", make: |s, i, r| on(clique(2 * s.side), Size { carts: s.carts / 3, ..s }, i, r) },
    HALF_BAYS,
    Family { name: "aisles that bays shut", make: |s, i, r| by_turns(shut_aisles(s, r), i) },
    Family { name: "lifts on the main aisle", make: |s, i, r| by_turns(main_aisle(s, i % 4 < 2, r), i) },
    Family { name: "gap behind lifts", make: |s, i, r| by_turns(gap_behind_lifts(s, r), i) },
];

impl Family {
    /// Four jobs at the limits and two below them; one of these alone for a quick run.
    pub fn jobs(&self, is_quick: bool) -> Vec<Job> {
        let numbers = if is_quick { 5..6 } else { 0..6 };
        numbers.map(|i| self.job(if i < 4 { LIMITS } else { BELOW }, i)).collect()
    }

    pub fn job(&self, size: Size, i: usize) -> Job {
        let seed = self.name.bytes().fold(i, |sum, b| 131 * sum + b as usize);
        (self.make)(size, i, &mut Rng::new(seed as u64))
    }
}

/// By turns: a plan is known; carts and calls anywhere; deadlines so tight that only just no plan exists, or just one.
fn on(floor: Job, size: Size, i: usize, rng: &mut Rng) -> Job {
    match i % 4 {
        0 => moving(floor, size.carts, 0, size.last, rng).0,
        1 => scattered(floor, size.carts, size.last, rng),
        2 => crossing(floor, size, rng).1,
        _ => crossing(floor, size, rng).0,
    }
}

/// The same with bays for about half of the calls.
fn to_bays_on(floor: Job, size: Size, i: usize, rng: &mut Rng) -> Job {
    match i % 4 {
        0 => moving_to_bays(floor, size.carts, 0, size.last, rng).0,
        1 => with_bays(scattered(floor, size.carts, size.last, rng), size.carts / 2, rng),
        2 => crossing_to_bays(floor, size, rng).1,
        _ => crossing_to_bays(floor, size, rng).0,
    }
}

/// The first job, which has a plan, or the second, which has none.
fn by_turns((some, none): (Job, Job), i: usize) -> Job {
    match i % 2 {
        0 => some,
        _ => none,
    }
}

/// 12 to 63 cells, a cart for about six of them, deadlines up to 8 to 50.
fn small_hall(i: usize, rng: &mut Rng) -> Job {
    let (rows, columns) = (3 + rng.below(5), 4 + rng.below(6));
    let size = Size { side: columns, carts: rows * columns / 6, last: 8 + rng.below(43) };
    on(grid(rows, columns), size, i, rng)
}

/// The same job with its cells renumbered at random, its lines of each kind in another order.
pub fn renumbered(job: &Job, rng: &mut Rng) -> Job {
    let name = rng.sample(job.cells, job.cells);
    let mut track = |&(a, b): &(usize, usize)| if rng.once_in(2) { (name[a], name[b]) } else { (name[b], name[a]) };
    let mut new = Job {
        cells: job.cells,
        tracks: job.tracks.iter().map(&mut track).collect(),
        carts: job.carts.iter().map(|&c| name[c]).collect(),
        calls: job.calls.iter().map(|call| Call { cell: name[call.cell], ..*call }).collect(),
    };
    rng.shuffle(&mut new.tracks);
    rng.shuffle(&mut new.carts);
    rng.shuffle(&mut new.calls);
    new
}
