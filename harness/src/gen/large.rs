//! Large jobs up to the limits, most with a sheet that is right by the way they are made.

use super::bays::some_bays;
use super::floors::{line, ring, star};
use super::lists::ends;
use super::spelled::at_full_length;
use super::Rng;
use crate::model::job::{Call, End, Job};
use crate::model::limits;
use crate::model::sheet::{Choke, Path, Plan, Spare};

/// So many carts that stand on the last cells of the floor up to the deadline, where their calls are.
pub fn standing(floor: Job, carts: usize, deadline: usize) -> (Job, Vec<Path>) {
    let on: Vec<usize> = (floor.cells - carts..floor.cells).collect();
    let calls = on.iter().map(|&cell| Call::lift(cell, deadline)).collect();
    let path = |(i, &cell)| Path { cart: i, call: i, cells: vec![cell; deadline + 1] };
    let paths = on.iter().enumerate().map(path).collect();
    (Job { carts: on, calls, ..floor }, paths)
}

/// The job with its calls the other way round, and its plan, whose lines stay where they are.
pub fn backwards((mut job, mut paths): (Job, Vec<Path>)) -> (Job, Vec<Path>) {
    job.calls.reverse();
    for path in &mut paths {
        path.call = job.calls.len() - 1 - path.call;
    }
    (job, paths)
}

/// Carts that move as chance has it, each up to some deadline, where a call is put under it. Carts that find no cell
/// without a call up to the last step are left out, so there may be fewer than asked for.
pub fn moving(floor: Job, carts: usize, least: usize, most: usize, rng: &mut Rng) -> (Job, Vec<Path>) {
    let (job, plan) = moved(floor, (carts, 0), least, most, |_| End::Lift, rng);
    (job, plan.paths)
}

/// The same where about half of the calls are bays, whose cells the carts keep off from then on.
pub fn moving_to_bays(floor: Job, carts: usize, least: usize, most: usize, rng: &mut Rng) -> (Job, Vec<Path>) {
    let (job, plan) = moved(floor, (carts, 0), least, most, bay_or_lift, rng);
    (job, plan.paths)
}

/// The same with so many spare carts among them, which move up to the last step.
pub fn moving_with_spares(
    floor: Job,
    (carts, spares): (usize, usize),
    least: usize,
    most: usize,
    rng: &mut Rng,
) -> (Job, Plan) {
    moved(floor, (carts, spares), least, most, bay_or_lift, rng)
}

fn bay_or_lift(rng: &mut Rng) -> End {
    match rng.once_in(2) {
        true => End::Bay,
        false => End::Lift,
    }
}

/// How a walk ends, as chance has it.
type SomeEnd = fn(&mut Rng) -> End;

/// A walk that has ended, and how.
type Ended = (Vec<usize>, End);

/// So many carts, of which so many are spare.
fn moved(
    floor: Job,
    (carts, spares): (usize, usize),
    least: usize,
    most: usize,
    end: SomeEnd,
    rng: &mut Rng,
) -> (Job, Plan) {
    let near = floor.within_a_step();
    let starts = rng.sample(floor.cells, carts);
    let is_spare = |walk: &[usize]| starts[..spares].contains(&walk[0]);
    let mut on_floor: Vec<Vec<usize>> = starts.iter().map(|&cell| vec![cell]).collect();
    let mut ended: Vec<Ended> = Vec::new();
    for step in 0..=most {
        if step >= least {
            let left = most - step;
            end_some(&mut on_floor, &mut ended, |walk, rng| !is_spare(walk) && rng.once_in(left + 1), end, rng);
        }
        rng.shuffle(&mut on_floor);
        move_all(&near, &mut on_floor, &closed(&ended), rng);
    }
    on_floor.retain(|walk| is_spare(walk));
    called(floor, ended, on_floor, rng)
}

/// Ends the walks of some carts that stand where no call is yet.
fn end_some(
    on_floor: &mut Vec<Vec<usize>>,
    ended: &mut Vec<Ended>,
    ends: impl Fn(&[usize], &mut Rng) -> bool,
    end: SomeEnd,
    rng: &mut Rng,
) {
    for i in (0..on_floor.len()).rev() {
        let here = on_floor[i].last();
        let free = ended.iter().all(|(walk, _)| walk.last() != here);
        if free && ends(&on_floor[i], rng) {
            ended.push((on_floor.remove(i), end(rng)));
        }
    }
}

/// The cells on which a cart is parked.
fn closed(ended: &[Ended]) -> Vec<usize> {
    let parked = ended.iter().filter(|(_, end)| *end == End::Bay);
    parked.map(|(walk, _)| walk[walk.len() - 1]).collect()
}

/// Each cart in turn stands, or goes to an open cell that nobody is on any more. A cart that has not had its turn keeps
/// its cell: so standing is always open to it, and no two trade.
fn move_all(near: &[Vec<usize>], walks: &mut [Vec<usize>], closed: &[usize], rng: &mut Rng) {
    let mut now: Vec<usize> = walks.iter().map(|walk| walk[walk.len() - 1]).collect();
    for (i, walk) in walks.iter_mut().enumerate() {
        let to = *rng.pick(&near[now[i]]);
        if !now.contains(&to) && !closed.contains(&to) {
            now[i] = to;
        }
        walk.push(now[i]);
    }
}

/// The job with later deadlines, up to the given step, for some of its lifts. Its plan stays one: who was lifted at the
/// deadline is lifted early now. The lines of the plan take the order of the new deadlines.
pub fn put_off((mut job, mut paths): (Job, Vec<Path>), most: usize, rng: &mut Rng) -> (Job, Vec<Path>) {
    for call in job.calls.iter_mut().filter(|call| !call.is_bay()) {
        if rng.once_in(2) {
            call.deadline += rng.below(most.max(call.deadline) - call.deadline + 1);
        }
    }
    paths.sort_by_key(|p| (job.calls[p.call].deadline, job.calls[p.call].cell));
    (job, paths)
}

/// The same with spare carts, which stand on where they are: nobody else is on the floor then.
pub fn put_off_with_spares((job, plan): (Job, Plan), most: usize, rng: &mut Rng) -> (Job, Plan) {
    let (job, paths) = put_off((job, plan.paths), most, rng);
    let mut spares = plan.spares;
    for spare in &mut spares {
        spare.cells.resize(job.last() + 1, spare.cells[spare.cells.len() - 1]);
    }
    (job, Plan { paths, spares })
}

/// The job of which the walks, with those of spare carts, are a plan, carts and calls in any order.
fn called(floor: Job, walks: Vec<Ended>, spare_walks: Vec<Vec<usize>>, rng: &mut Rng) -> (Job, Plan) {
    let count = walks.len() + spare_walks.len();
    let mut carts = rng.sample(count, count);
    let mut spare_carts = carts.split_off(walks.len());
    let calls = rng.sample(walks.len(), walks.len());
    let mut job = floor;
    job.carts = vec![0; count];
    job.calls = vec![Call::lift(0, 0); walks.len()];
    let mut paths = Vec::new();
    for (((cells, end), cart), call) in walks.into_iter().zip(carts).zip(calls) {
        let deadline = cells.len() - 1;
        job.carts[cart] = cells[0];
        job.calls[call] = Call { cell: cells[deadline], deadline, end };
        paths.push(Path { cart, call, cells });
    }
    paths.sort_by_key(|p| (p.cells.len(), job.calls[p.call].cell));
    spare_carts.sort();
    let mut spares = Vec::new();
    for (mut cells, cart) in spare_walks.into_iter().zip(spare_carts) {
        job.carts[cart] = cells[0];
        cells.truncate(job.last() + 1);
        spares.push(Spare { cart, cells });
    }
    (job, Plan { paths, spares })
}

/// Carts round a star, with calls across it: each walk goes through the middle between the first step and the last, and
/// there are fewer such steps than calls. The list is true, and none of its points can be missed.
pub fn crowded_star(round: usize, carts: usize, deadline: usize) -> (Job, Vec<Choke>) {
    assert!(deadline - 1 < carts && 2 * carts <= round, "more steps than carts, or carts too near their calls");
    let mut job = star(round);
    job.carts = (1..=carts).collect();
    job.calls = (carts + 1..=2 * carts).map(|cell| Call::lift(cell, deadline)).collect();
    (job, (1..deadline).map(|step| Choke::Cell { step, cell: 0 }).collect())
}

/// Carts round a star, with calls across it, one of which, of the given number, no track leads to. The others have so many
/// steps that no list of cells stops what goes through the middle: all the calls that can be come to, each as a whole, are
/// the only true list.
pub fn late_star(carts: usize, lost: usize, deadline: usize) -> (Job, Vec<Choke>) {
    assert!(lost < carts && carts < deadline, "an unknown call, or no more steps than carts");
    let mut job = star(2 * carts - 1);
    job.carts = (1..=carts).collect();
    job.calls = (carts + 1..2 * carts).map(|cell| Call::lift(cell, deadline)).collect();
    job.calls.insert(lost, Call::lift(job.cells, deadline));
    job.cells += 1;
    (job, (0..carts).filter(|&call| call != lost).map(Choke::Call).collect())
}

/// Carts on one side of a bay on a line, all other calls on its other side and late. Each walk is on the bay's cell between
/// step 1 and the bay's step, and there are fewer such steps than calls. The list is true only since the bay closes the
/// line, and none of its points can be missed; with one step more there is a plan.
pub fn shut_line(carts: usize, step: usize, last: usize) -> (Job, Vec<Choke>) {
    assert!(step < carts && 2 * carts <= last, "more steps than carts, or too few for the others");
    let mut job = line(2 * carts);
    job.carts = (0..carts).collect();
    job.calls = (carts + 1..2 * carts).map(|cell| Call::lift(cell, last)).collect();
    job.calls.insert(carts / 2, Call::bay(carts, step));
    (job, (1..=step).map(|step| Choke::Cell { step, cell: carts }).collect())
}

/// The job with one cart more, and one call more on a cell that no track leads to. Every other call as a whole, or a bay's
/// cell at its step, is a true choke list; where the job had a plan, none of its points can be missed.
pub fn with_lost_call(mut job: Job) -> (Job, Vec<Choke>) {
    let chokes = ends(&job);
    let free = (0..job.cells).find(|cell| !job.carts.contains(cell)).expect("a cell without a cart");
    job.carts.push(free);
    job.calls.push(Call::lift(job.cells, job.last()));
    job.cells += 1;
    (job, chokes)
}

/// The longest text that is accepted without an exponent: a job at every limit, with three digits in every number.
pub fn full_text() -> Vec<u8> {
    standing(ring(), limits::CARTS, limits::DEADLINE).0.text()
}

/// The longest text that is accepted: the same with six bytes for every number.
pub fn longest_text() -> Vec<u8> {
    at_full_length(&full_text())
}

/// Carts and calls anywhere on the floor, deadlines up to the given one. Nobody knows whether it has a plan.
pub fn scattered(floor: Job, carts: usize, most: usize, rng: &mut Rng) -> Job {
    let on = rng.sample(floor.cells, carts);
    let calls = rng.sample(floor.cells, carts);
    let call = |cell| Call::lift(cell, rng.below(most + 1));
    Job { carts: on, calls: calls.into_iter().map(call).collect(), ..floor }
}

/// The same with bays among the calls.
pub fn scattered_with_bays(floor: Job, carts: usize, most: usize, rng: &mut Rng) -> Job {
    let job = scattered(floor, carts, most, rng);
    some_bays(job, rng)
}
