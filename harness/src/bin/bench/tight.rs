//! Carts and calls with deadlines that only just leave a plan, or only just none.

use std::ops::Range;

use harness::baseline;
use harness::gen::bays::{no_bays, with_bays};
use harness::gen::floors::grid;
use harness::gen::large::scattered;
use harness::gen::Rng;
use harness::model::answer::{unpack, PLAN};
use harness::model::job::{Call, Job};
use harness::model::limits::{sheet_least, store_least};

use crate::families::Size;
use crate::floors::{aisles, comb, halves, rooms, sparse};

/// More calls beyond a gap of one cell than there are steps up to their deadline; some are late.
pub fn bottleneck(size: Size, rng: &mut Rng) -> Job {
    let due = size.carts / 4 + rng.below(size.carts / 2);
    let late = size.carts / 8;
    across(halves(size.side, rng), size, late, rng, due)
}

/// Carts in the left half, calls in the right half, the last ones late and the others all due at one step.
fn across(floor: Job, size: Size, late: usize, rng: &mut Rng, due: usize) -> Job {
    let half = |is_left: bool| (0..floor.cells).filter(|c| (c % size.side < size.side / 2) == is_left).collect();
    let (mut left, mut right): (Vec<usize>, Vec<usize>) = (half(true), half(false));
    rng.shuffle(&mut left);
    rng.shuffle(&mut right);
    let count = size.carts.min(left.len());
    left.truncate(count);
    right.truncate(count);
    let mut deadline = |i: usize| if i + late < count { due } else { size.last - rng.below(8) };
    let calls = right.into_iter().enumerate().map(|(i, cell)| Call::lift(cell, deadline(i))).collect();
    Job { carts: left, calls, ..floor }
}

/// Two jobs with deadlines so tight that the first only just has a plan, and the second only just has none.
pub fn tight(size: Size, i: usize, rng: &mut Rng) -> (Job, Job) {
    if i.is_multiple_of(2) {
        let floor = some_floor(size, i / 2, rng);
        crossing(floor, size, rng)
    } else {
        shrunk(size, i / 2, rng)
    }
}

/// A floor with several ways across, other ones by turns.
fn some_floor(size: Size, i: usize, rng: &mut Rng) -> Job {
    match i % 4 {
        0 => grid(size.side, size.side),
        1 => rooms(size.side, rng),
        2 => aisles(size.side),
        _ => sparse(size.side * size.side, 5 * size.side, rng),
    }
}

/// Carts and calls anywhere; all deadlines but some late ones shrunk alike.
fn shrunk(size: Size, i: usize, rng: &mut Rng) -> (Job, Job) {
    loop {
        let job = scattered(some_floor(size, i, rng), size.carts, size.last, rng);
        let shrunk_by = |k: usize| {
            let mut job = job.clone();
            for call in job.calls.iter_mut().skip(6) {
                call.deadline = call.deadline * k / 256;
            }
            job
        };
        if let Some(pair) = brink(256, shrunk_by) {
            return pair;
        }
    }
}

/// From one half to the other by a common deadline, some late calls apart.
pub fn crossing(floor: Job, size: Size, rng: &mut Rng) -> (Job, Job) {
    let seed = rng.below(1 << 30) as u64;
    let due_at = |k: usize| across(floor.clone(), size, 1 + size.carts / 16, &mut Rng::new(seed), k);
    brink(size.last, due_at).expect("time for all to cross")
}

/// The same with so many of the calls alone, some of them bays, and with all carts.
pub fn crossing_of_some(floor: Job, size: Size, calls: usize, bays: usize, rng: &mut Rng) -> (Job, Job) {
    loop {
        let seed = rng.below(1 << 30) as u64;
        let due_at = |k: usize| {
            let rng = &mut Rng::new(seed);
            let mut job = across(floor.clone(), size, 1 + calls / 16, rng, k);
            job.calls.drain(..job.calls.len() - calls); // the last ones are late
            with_bays(job, bays, rng)
        };
        if let Some(pair) = brink(size.last, due_at) {
            return pair;
        }
    }
}

/// The same with all calls, half of them bays.
pub fn crossing_to_bays(floor: Job, size: Size, rng: &mut Rng) -> (Job, Job) {
    loop {
        let seed = rng.below(1 << 30) as u64;
        let due_at = |k: usize| {
            let rng = &mut Rng::new(seed);
            let job = across(floor.clone(), size, 1 + size.carts / 16, rng, k);
            let bays = job.calls.len() / 2;
            with_bays(job, bays, rng)
        };
        if let Some(pair) = brink(size.last, due_at) {
            return pair;
        }
    }
}

/// Carts in the upper half of the aisles; in the lower half bays on three of four ends, those in the middle met at one step
/// and those at the far end later; the other calls are between the ends and late. Most carts have to pass a bay's cell before
/// it is closed: in the second job they cannot, and could if the bays were lifts.
pub fn shut_aisles(size: Size, rng: &mut Rng) -> (Job, Job) {
    let (side, middle) = (size.side, size.side / 2);
    let row = |row: usize| (row * side..(row + 1) * side).collect::<Vec<usize>>();
    let mut some_of = |rows: Range<usize>, count: usize| {
        let mut cells: Vec<usize> = rows.flat_map(row).collect();
        rng.shuffle(&mut cells);
        cells.truncate(count);
        cells
    };
    loop {
        let near = some_of(middle..middle + 1, 3 * side / 4);
        let far = some_of(side - 1..side, 3 * side / 4);
        let between = some_of(middle + 1..side - 1, size.carts - near.len() - far.len());
        let carts = some_of(0..middle, size.carts);
        let shut_at = |k: usize| {
            let bays = near.iter().map(|&cell| Call::bay(cell, k));
            let bays = bays.chain(far.iter().map(|&cell| Call::bay(cell, (k + side).min(size.last))));
            let lifts = between.iter().map(|&cell| Call::lift(cell, size.last - cell % 8));
            Job { carts: carts.clone(), calls: bays.chain(lifts).collect(), ..aisles(side) }
        };
        let pair = brink(size.last, shut_at);
        if let Some((some, none)) = pair.filter(|(_, none)| has_plan(&no_bays(none.clone()))) {
            return (some, none);
        }
    }
}

/// Through a gap of one cell, as in `bottleneck`, with lifts on all cells before it, due at one step on the way. Nobody comes
/// to the gap from a cell where a cart has to be met at that step: in the first job the lifts have to take theirs earlier.
pub fn gap_behind_lifts(size: Size, rng: &mut Rng) -> (Job, Job) {
    let floor = halves(size.side, rng);
    let is_gap = |&&(a, b): &&(usize, usize)| b == a + 1 && b % size.side == size.side / 2;
    let (gap, beyond) = *floor.tracks.iter().find(is_gap).expect("a gap");
    let before: Vec<usize> = floor.within_a_step()[gap].iter().copied().filter(|&c| c != gap && c != beyond).collect();
    let (seed, met) = (rng.below(1 << 30) as u64, size.carts / 4 + rng.below(size.carts / 4));
    let due_at = |k: usize| {
        let mut job = across(floor.clone(), size, 1 + size.carts / 16, &mut Rng::new(seed), k);
        for (call, &cell) in job.calls.iter_mut().zip(&before) {
            *call = Call::lift(cell, met);
        }
        job
    };
    brink(size.last, due_at).expect("time for all to cross")
}

/// Teeth that a main aisle joins, with carts and lifts on all cells of its middle. Everyone else crosses these, from the teeth
/// on the left to those on the right. The lifts are due late, or one after the other as the others come by.
pub fn main_aisle(size: Size, is_late: bool, rng: &mut Rng) -> (Job, Job) {
    let (side, quarter) = (size.side, size.side / 4);
    let aisle = quarter..side - quarter;
    let mut some_of = |columns: Range<usize>| {
        let mut cells: Vec<usize> = (side..side * side).filter(|cell| columns.contains(&(cell % side))).collect();
        rng.shuffle(&mut cells);
        cells.truncate(size.carts - aisle.len());
        cells
    };
    let (left, right) = (some_of(0..quarter), some_of(side - quarter..side));
    let due_at = |k: usize| {
        let lifts = aisle.clone().map(|cell| Call::lift(cell, if is_late { size.last - cell } else { side + cell }));
        let calls = lifts.chain(right.iter().map(|&cell| Call::lift(cell, k))).collect();
        Job { carts: aisle.clone().chain(left.iter().copied()).collect(), calls, ..comb(side) }
    };
    brink(size.last, due_at).expect("time for all to cross")
}

/// Jobs from k = 0, without a plan, to k = `most`, with one: the first of two neighbours between which that changes has
/// a plan, the second has none.
fn brink(most: usize, job: impl Fn(usize) -> Job) -> Option<(Job, Job)> {
    let (mut none, mut some) = (0, most);
    if has_plan(&job(none)) || !has_plan(&job(some)) {
        return None;
    }
    while none + 1 < some {
        let k = (none + some) / 2;
        *(if has_plan(&job(k)) { &mut some } else { &mut none }) = k;
    }
    Some((job(some), job(none)))
}

pub fn has_plan(job: &Job) -> bool {
    let (mut store, mut sheet) = (vec![0; store_least(job)], vec![0; sheet_least(job)]);
    unpack(baseline::plan(&job.text(), &mut store, &mut sheet)).0 == PLAN
}
