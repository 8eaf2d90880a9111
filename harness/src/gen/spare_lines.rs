//! SPARE lines that are wrong: each way alone, on a plan that is right but for it.

use super::wrong::{change_cell, stand_in_bay};
use super::Rng;
use crate::model::job::Job;
use crate::model::lines::LF;
use crate::model::sheet::{Plan, Sheet, Spare};

/// A spare cart that goes as chance has it, on open cells, and may be in the way of others. Where a bay closes under it, it
/// jumps.
pub fn by_chance(job: &Job, cart: usize, rng: &mut Rng) -> Spare {
    let near = job.within_a_step();
    let mut cells = vec![job.carts[cart]];
    for step in 1..=job.last() {
        let open: Vec<usize> = near[cells[step - 1]].iter().copied().filter(|&cell| job.is_open(cell, step)).collect();
        cells.push(if open.is_empty() { rng.below(job.cells) } else { *rng.pick(&open) });
    }
    Spare { cart, cells }
}

/// A change to the spare cart of a line.
type Change = fn(&Job, &mut Plan, usize, &mut Rng);

const CHANGES: [Change; 12] = [
    // Out of order, and carts that have two lines.
    |_, plan, _, _| plan.spares.reverse(),
    swap_lines,
    |_, plan, at, rng| plan.spares[at] = rng.pick(&plan.spares).clone(),
    |job, plan, at, rng| plan.spares[at].cart = rng.below(job.carts.len()),
    with_cart_of_a_path,
    with_walks_exchanged,
    // No walk.
    |job, plan, at, rng| change_cell(&mut plan.spares[at].cells, job, rng),
    |job, plan, at, rng| stand_in_bay(&mut plan.spares[at].cells, job, rng),
    // In the way: where it stands, where chance leads it, and with another cart.
    stand_all_the_time,
    |job, plan, at, rng| plan.spares[at] = by_chance(job, plan.spares[at].cart, rng),
    go_with_another,
    trade_with_another,
];

/// The plan, which has spare carts, changed in every way that leaves it in the form. One of these can be right by chance.
pub fn in_the_form(job: &Job, plan: &Plan, rng: &mut Rng) -> Vec<Plan> {
    let at = rng.below(plan.spares.len());
    let changed = |change: &Change| {
        let mut plan = plan.clone();
        change(job, &mut plan, at, rng);
        plan
    };
    CHANGES.iter().map(changed).collect()
}

fn swap_lines(_: &Job, plan: &mut Plan, at: usize, rng: &mut Rng) {
    let other = rng.below(plan.spares.len());
    plan.spares.swap(at, other);
}

/// The walk of a cart that has a path, standing on behind its end, in place of a spare cart's.
fn with_cart_of_a_path(job: &Job, plan: &mut Plan, at: usize, rng: &mut Rng) {
    if plan.paths.is_empty() {
        return;
    }
    let path = rng.pick(&plan.paths);
    let mut cells = path.cells.clone();
    cells.resize(job.last() + 1, cells[cells.len() - 1]);
    plan.spares[at] = Spare { cart: path.cart, cells };
    plan.spares.sort_by_key(|spare| spare.cart);
}

/// Two spare carts with each other's walks.
fn with_walks_exchanged(_: &Job, plan: &mut Plan, at: usize, rng: &mut Rng) {
    let other = rng.below(plan.spares.len());
    plan.spares.swap(at, other);
    (plan.spares[at].cart, plan.spares[other].cart) = (plan.spares[other].cart, plan.spares[at].cart);
}

fn stand_all_the_time(job: &Job, plan: &mut Plan, at: usize, _: &mut Rng) {
    let spare = &mut plan.spares[at];
    spare.cells.fill(job.carts[spare.cart]);
}

/// From some step on with another cart, up to its end.
fn go_with_another(_: &Job, plan: &mut Plan, at: usize, rng: &mut Rng) {
    let other = rng.pick(&plan.walks()).to_vec();
    let from = rng.below(other.len());
    plan.spares[at].cells[from..other.len()].copy_from_slice(&other[from..]);
}

/// For one step against another cart that goes from one cell to the next, where there is such a step.
fn trade_with_another(_: &Job, plan: &mut Plan, at: usize, rng: &mut Rng) {
    let other = rng.pick(&plan.walks()).to_vec();
    let moves: Vec<usize> = (1..other.len()).filter(|&step| other[step - 1] != other[step]).collect();
    if !moves.is_empty() {
        let step = *rng.pick(&moves);
        plan.spares[at].cells[step - 1..=step].copy_from_slice(&[other[step], other[step - 1]]);
    }
}

/// The text of the plan, which has spare carts, in every way that is out of the form.
pub fn out_of_the_form(job: &Job, plan: &Plan, rng: &mut Rng) -> Vec<Vec<u8>> {
    let at = rng.below(plan.spares.len());
    let with = |change: &dyn Fn(&mut Spare)| {
        let mut plan = plan.clone();
        change(&mut plan.spares[at]);
        Sheet::Plan(plan).text()
    };
    let text = Sheet::Plan(plan.clone()).text();
    let lines: Vec<&[u8]> = text.split_inclusive(|&b| b == LF).collect();
    let (first, line) = (1 + plan.paths.len(), 1 + plan.paths.len() + at);
    let mut all = vec![
        with(&|spare| spare.cells.truncate(job.last())),
        with(&|spare| spare.cells.push(spare.cells[job.last()])),
        with(&|spare| spare.cells.clear()),
        with(&|spare| spare.cart = job.carts.len()),
        with(&|spare| spare.cells[job.last()] = job.cells),
        [&lines[..line], &lines[line + 1..]].concat().concat(),
        [&lines[..], &[lines[line]]].concat().concat(),
        lines[..first].concat(),
        with_word(&lines, line, b"PATH"),
        with_word(&lines, line, b"SPARES"),
        [format!("PLAN\t{}\n", job.carts.len()).as_bytes(), &lines[1..].concat()].concat(),
        [&lines[..1], &lines[first..], &lines[1..first]].concat().concat(),
    ];
    if first > 1 {
        all.push(with_word(&lines, 1 + rng.below(first - 1), b"SPARE"));
        all.push([&lines[..], &[lines[first - 1]]].concat().concat());
    }
    // A path for every cart, a spare cart's to the first call.
    let path = |spare: &Spare| [b"PATH\t", format!("{}\t0\t{}\n", spare.cart, spare.cells[0]).as_bytes()].concat();
    all.push([lines[..first].concat(), plan.spares.iter().flat_map(path).collect()].concat());
    all
}

/// The lines with another word for that of one of them.
fn with_word(lines: &[&[u8]], at: usize, word: &[u8]) -> Vec<u8> {
    let length = lines[at].iter().take_while(|b| b.is_ascii_alphabetic()).count();
    let line = [word, &lines[at][length..]].concat();
    [&lines[..at], &[line.as_slice()], &lines[at + 1..]].concat().concat()
}
