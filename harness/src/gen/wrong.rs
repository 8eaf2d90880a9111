//! Sheets in the form that are hardly ever right: plans with conflicts, lists that let walks through.

use super::{lists, spare_lines, Rng};
use crate::model::job::{Call, End, Job};
use crate::model::sheet::{Choke, Path, Plan};
use crate::model::walks::Walk;

/// A path for each call, in order, by a sharing out and walks as chance has them, and walks of the carts that are left.
/// They may conflict. A cart that cannot come to its call jumps.
pub fn plan_by_chance(job: &Job, walks: &[Vec<Vec<Walk>>], rng: &mut Rng) -> Plan {
    let mut carts = rng.sample(job.carts.len(), job.carts.len());
    let mut left = carts.split_off(job.calls.len());
    left.sort();
    let order = job.written_order();
    let path = |(call, cart): (usize, usize)| {
        let cells = match walks[cart][call].as_slice() {
            [] => jumps(job, call, rng),
            ways => rng.pick(ways).clone(),
        };
        Path { cart, call, cells }
    };
    let paths = order.into_iter().zip(carts).map(path).collect();
    Plan { paths, spares: left.into_iter().map(|cart| spare_lines::by_chance(job, cart, rng)).collect() }
}

/// As many cells as the call allows, any of the floor.
fn jumps(job: &Job, call: usize, rng: &mut Rng) -> Walk {
    let call = &job.calls[call];
    let steps: Vec<usize> = (0..=call.deadline).filter(|&step| call.is_met_at(step)).collect();
    (0..=*rng.pick(&steps)).map(|_| rng.below(job.cells)).collect()
}

/// The plan with one thing changed, a path or a spare cart, if it has any.
pub fn tampered_plan(job: &Job, plan: &Plan, rng: &mut Rng) -> Plan {
    let mut plan = plan.clone();
    match (plan.paths.is_empty(), plan.spares.is_empty()) {
        (true, true) => (),
        (is_without, false) if is_without || rng.once_in(2) => {
            let changed = spare_lines::in_the_form(job, &plan, rng);
            plan = rng.pick(&changed).clone();
        }
        _ => plan.paths = tampered_paths(job, &plan.paths, rng),
    }
    plan
}

/// The paths, of which there are some, with one thing changed.
pub fn tampered_paths(job: &Job, paths: &[Path], rng: &mut Rng) -> Vec<Path> {
    let mut paths = paths.to_vec();
    let (one, other) = (rng.below(paths.len()), rng.below(paths.len()));
    match rng.below(if job.has_bays() { 9 } else { 8 }) {
        0 => paths.swap(one, other),
        1 => paths[one] = paths[other].clone(),
        2 => paths[one].cart = rng.below(job.carts.len()),
        3 => swap_carts(&mut paths, one, other),
        4 => swap_tails(&mut paths, one, other, rng),
        5 => change_cell(&mut paths[one].cells, job, rng),
        6 => end_earlier(&mut paths[one], job, rng),
        7 => wait_for_the_deadline(&mut paths[one], job),
        _ => stand_in_bay(&mut paths[one].cells, job, rng),
    }
    paths
}

/// Cuts a path to a lift short, wherever that is.
fn end_earlier(path: &mut Path, job: &Job, rng: &mut Rng) {
    if !job.calls[path.call].is_bay() {
        path.cells.truncate(1 + rng.below(path.cells.len()));
    }
}

/// Lets the cart of a path stand on its last cell up to the deadline, where others may want to cross.
pub fn wait_for_the_deadline(path: &mut Path, job: &Job) {
    let last = path.cells[path.cells.len() - 1];
    path.cells.resize(job.calls[path.call].deadline + 1, last);
}

pub(super) fn change_cell(cells: &mut [usize], job: &Job, rng: &mut Rng) {
    cells[rng.below(cells.len())] = rng.below(job.cells);
}

/// On the cell of a bay after its step, where the path is long enough for one.
pub(super) fn stand_in_bay(cells: &mut [usize], job: &Job, rng: &mut Rng) {
    let passed: Vec<&Call> = job.calls.iter().filter(|call| call.is_bay() && call.deadline + 1 < cells.len()).collect();
    if !passed.is_empty() {
        let bay = *rng.pick(&passed);
        let steps = bay.deadline + 1..cells.len();
        cells[steps.start + rng.below(steps.len())] = bay.cell;
    }
}

fn swap_carts(paths: &mut [Path], one: usize, other: usize) {
    let (cart, other_cart) = (paths[one].cart, paths[other].cart);
    paths[one].cart = other_cart;
    paths[other].cart = cart;
}

/// From some step on each goes the other's way.
fn swap_tails(paths: &mut [Path], one: usize, other: usize, rng: &mut Rng) {
    let steps = paths[one].cells.len().min(paths[other].cells.len());
    for step in rng.below(steps)..steps {
        let (cell, other_cell) = (paths[one].cells[step], paths[other].cells[step]);
        paths[one].cells[step] = other_cell;
        paths[other].cells[step] = cell;
    }
}

/// The job with one of its lifts made a bay, one that is met at its deadline and whose cell a path stands on later; none if
/// there is no such call. What was a plan is none any more, and nothing else is wrong with it.
pub fn bay_in_the_way(job: &Job, paths: &[Path], rng: &mut Rng) -> Option<Job> {
    let is_crossed_later = |number: usize| {
        let call = &job.calls[number];
        let crosses = |p: &Path| p.cells.iter().skip(call.deadline + 1).any(|&cell| cell == call.cell);
        let in_time = |p: &Path| p.call != number || p.cells.len() == call.deadline + 1;
        !call.is_bay() && paths.iter().any(crosses) && paths.iter().all(in_time)
    };
    let crossed: Vec<usize> = (0..job.calls.len()).filter(|&i| is_crossed_later(i)).collect();
    if crossed.is_empty() {
        return None;
    }
    let mut job = job.clone();
    job.calls[*rng.pick(&crossed)].end = End::Bay;
    Some(job)
}

/// The list with one thing changed; an empty one with a point.
pub fn tampered_list(job: &Job, list: &[Choke], rng: &mut Rng) -> Vec<Choke> {
    if list.is_empty() {
        return lists::some_points(job, 1, rng);
    }
    let mut list = list.to_vec();
    let (one, other) = (rng.below(list.len()), rng.below(list.len()));
    match rng.below(if job.has_bays() { 8 } else { 6 }) {
        0 => list.swap(one, other),
        1 => return doubled_point(&list, rng),
        2 => drop(list.remove(one)),
        3 => list.reverse(),
        4 => list[one] = lists::some_points(job, 1, rng)[0],
        5 => return last_cell_instead(job, &list, rng),
        6 => return closed_point_more(job, &list, rng),
        _ => return closed_point_instead(job, &list, rng),
    }
    list
}

/// The list with the cell of a whole call at its deadline for that call, if it has any. It lets the carts through that are
/// lifted earlier.
pub fn last_cell_instead(job: &Job, list: &[Choke], rng: &mut Rng) -> Vec<Choke> {
    let whole = |choke: &Choke| if let Choke::Call(call) = *choke { Some(call) } else { None };
    let calls: Vec<usize> = list.iter().filter_map(whole).collect();
    let mut list = list.to_vec();
    if !calls.is_empty() {
        let call = *rng.pick(&calls);
        list.retain(|choke| *choke != Choke::Call(call));
        list.push(lists::last_cell(job, call));
        list.sort();
    }
    list
}

/// The list with one point more that is on a closed cell, if there are such.
pub fn closed_point_more(job: &Job, list: &[Choke], rng: &mut Rng) -> Vec<Choke> {
    let mut closed = lists::closed_points(job);
    closed.retain(|point| !list.contains(point));
    rng.shuffle(&mut closed);
    closed.truncate(1);
    let mut list = [list, &closed].concat();
    list.sort();
    list
}

/// The list with such a point for one of its own, a later one on the same cell, where it has one on a bay's cell. It lets
/// the walks through that only the lost point stopped.
pub fn closed_point_instead(job: &Job, list: &[Choke], rng: &mut Rng) -> Vec<Choke> {
    let mut closed = lists::closed_points(job);
    closed.retain(|point| !list.contains(point));
    let is_on = |point: &Choke, at: usize| cell_of(point).is_some() && cell_of(point) == cell_of(&list[at]);
    let of = |at: usize| closed.iter().filter(move |point| is_on(point, at)).map(move |&point| (at, point));
    let pairs: Vec<(usize, Choke)> = (0..list.len()).flat_map(of).collect();
    let mut list = list.to_vec();
    if !pairs.is_empty() {
        let (at, point) = *rng.pick(&pairs);
        list[at] = point;
        list.sort();
    }
    list
}

fn cell_of(point: &Choke) -> Option<usize> {
    match *point {
        Choke::Cell { cell, .. } => Some(cell),
        Choke::Call(_) => None,
    }
}

/// The list with one of its points twice, one behind the other, if it has any.
pub fn doubled_point(list: &[Choke], rng: &mut Rng) -> Vec<Choke> {
    let mut list = list.to_vec();
    if !list.is_empty() {
        let at = rng.below(list.len());
        list.insert(at, list[at]);
    }
    list
}
