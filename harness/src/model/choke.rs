//! Whether a choke list is true, layer by layer: for jobs with more walks than can be written out.

use super::job::Job;
use super::sheet::Choke;

/// Strictly rising, cells by step, then cell, and whole calls behind them by number: so none stands twice.
pub fn is_in_order(chokes: &[Choke]) -> bool {
    chokes.windows(2).all(|pair| pair[0] < pair[1])
}

/// A layer is the set of cells on which a walk can stand at a step without having stood on a choke point.
/// The list is true if no call's cell is in a layer at which the call can be met, but for calls that are choke points as a
/// whole. These take nothing from a layer: who only crosses such a call's cell goes on. A point on a closed cell takes
/// nothing away either.
pub fn stops_every_walk(job: &Job, chokes: &[Choke]) -> bool {
    let mut layer = vec![false; job.cells];
    for &cell in &job.carts {
        layer[cell] = true;
    }
    for step in 0..=job.last() {
        for cell in stopped_at(step, chokes) {
            layer[cell] = false;
        }
        let mut calls = job.calls.iter().enumerate().filter(|(_, call)| call.is_met_at(step) && layer[call.cell]);
        if calls.any(|(number, _)| !chokes.contains(&Choke::Call(number))) {
            return false;
        }
        layer = next_layer(job, &layer, step + 1);
    }
    true
}

/// The cells at which walks are stopped at the step.
fn stopped_at(step: usize, chokes: &[Choke]) -> impl Iterator<Item = usize> + '_ {
    chokes.iter().filter_map(move |choke| match *choke {
        Choke::Cell { step: at, cell } => (at == step).then_some(cell),
        Choke::Call(_) => None,
    })
}

fn next_layer(job: &Job, layer: &[bool], step: usize) -> Vec<bool> {
    let mut next = layer.to_vec();
    for &(a, b) in &job.tracks {
        next[a] |= layer[b];
        next[b] |= layer[a];
    }
    for (cell, is_reached) in next.iter_mut().enumerate() {
        *is_reached = *is_reached && job.is_open(cell, step);
    }
    next
}
