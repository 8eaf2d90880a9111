//! A planner in plain Rust without proofs: what the library's planner is timed against.
//!
//! The same algorithm and the same lent buffers, the store wiped at the end. From each call in the written order it
//! searches back to a free cart, along a guess first; carts that no call gets are kept out of the way of the others. It
//! trusts the job: no line is refused. `map` turns maps into floors.

mod aim;
mod augment;
mod job;
pub mod map;
mod planes;
mod search;
mod sheet;
mod spares;

use aim::aim;
use augment::augment;
use job::Job;
use planes::{planes, Planes};
use search::search;
use sheet::{write_cannot, write_plan, Writer};
use spares::{keep_spares, write_spares};

use crate::model::answer::{pack, CANNOT, PLAN};
use crate::model::limits::CELLS;

/// How the search goes, and who counts.
pub trait Mode {
    /// Standing is tried before all tracks, not after them.
    const STAND_FIRST: bool = false;
    /// A node that is come back to goes on with the tracks that were not looked at.
    const KEEP_PLACE: bool = true;
    /// A position is put on the stack.
    fn visit(&mut self) {}
    /// A neighbour of a position is looked at.
    fn look(&mut self) {}
}

/// What is timed.
struct Quick;

impl Mode for Quick {}

/// Serves all calls. If it cannot: the call where it was stuck, and the stamp of the marks that show the choke list.
fn solve<M: Mode>(j: &Job, p: &mut Planes, mode: &mut M) -> Result<(), (usize, u8)> {
    let (mut stamp, mut dirty) = (1u8, false);
    let mut hint = [0u8; CELLS];
    for (c, hint) in hint.iter_mut().enumerate().take(j.cells) {
        *hint = j.stand::<M>(c) as u8;
    }
    for &q in &j.order[..j.calls] {
        let cell = j.call[q as usize].0 as usize;
        // Short walks leave the floor to others, and are soon written: first one twice as long as the guess.
        let soon = 2 * aim::<M>(j, p, cell, &mut hint);
        let depth = loop {
            match search(j, p, &hint, (cell, soon), stamp, mode) {
                0 if dirty => (stamp, dirty) = (stamp + 1, false),
                0 => return Err((q as usize, stamp)),
                depth => break depth,
            }
        };
        augment(j, p, depth);
        dirty = true;
    }
    Ok(())
}

/// Reading alone.
pub fn read(text: &[u8]) -> Job {
    job::read::<Quick>(text)
}

/// The whole call: read, search, write the sheet, wipe the store. Answers as the library does.
pub fn plan(text: &[u8], store: &mut [u8], sheet: &mut [u8]) -> u64 {
    plan_by(&mut Quick, text, store, sheet)
}

pub fn plan_by<M: Mode>(mode: &mut M, text: &[u8], store: &mut [u8], sheet: &mut [u8]) -> u64 {
    let j = job::read::<M>(text);
    let positions = j.cells * (j.beyond + 1);
    store[..2 * positions].fill(0); // used and mark: the store may hold anything
    let mut p = planes(store, positions);
    let mut w = Writer { sheet, at: 0 };
    let answer = match solve(&j, &mut p, mode) {
        Ok(()) => {
            let spares = (j.carts > j.calls).then(|| keep_spares(&j, &mut p));
            write_plan(&j, &p, &mut w);
            if let Some(ends) = spares {
                write_spares(&j, &mut p, &ends, &mut w);
            }
            PLAN
        }
        Err(stuck) => {
            write_cannot(&j, &p, stuck, &mut w);
            CANNOT
        }
    };
    let written = w.at;
    store.fill(0);
    pack(answer, written)
}
