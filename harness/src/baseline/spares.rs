//! Spare carts: walks up to the last step for those that no call gets, laid into a flow that serves every call.
//!
//! There is nothing to search. At each step a cart without a node at the next one stands; if another was to come to its cell,
//! that one stands instead, and so on. All nodes of the calls' ways stay used: only who comes to them changes.

use super::job::Job;
use super::planes::{Planes, FREE, LEADS};
use super::sheet::{came_from, Writer};
use crate::model::limits::CARTS;

/// Cells of the spare carts, in no order of their numbers.
type Cells = [u8; CARTS];

/// Lays the walks, and answers where they end.
pub fn keep_spares(j: &Job, p: &mut Planes) -> Cells {
    let mut on = first_cells(j, p);
    for t in 0..j.last {
        for x in &mut on[..j.carts - j.calls] {
            *x = stand(j, p, t, *x);
        }
    }
    on
}

/// At step 0, where they are used from now on.
fn first_cells(j: &Job, p: &mut Planes) -> Cells {
    let mut on = [0; CARTS];
    let is_spare = |c: &usize| j.cart_on[*c] != 0 && p.used[*c] == FREE;
    for (x, c) in on.iter_mut().zip((0..j.cells).filter(is_spare)) {
        *x = c as u8;
    }
    on[..j.carts - j.calls].iter().for_each(|&x| p.used[x as usize] = LEADS);
    on
}

/// The cart on x at step t stands, in its place who was to come there, and so on: the cell of the one to whose cell nobody
/// was to come. There is one: a cell that came twice would lead to two.
fn stand(j: &Job, p: &mut Planes, t: usize, mut x: u8) -> u8 {
    loop {
        let v = (t + 1) * j.cells + x as usize;
        let came = std::mem::replace(&mut p.prev[v], x);
        if p.used[v] == FREE {
            p.used[v] = LEADS;
            return x;
        }
        x = came;
    }
}

/// By the numbers of the carts, which only following a walk back tells: until then the walks are kept in the search's stack.
pub fn write_spares(j: &Job, p: &mut Planes, ends: &Cells, w: &mut Writer) {
    let mut place = [None; CARTS];
    for (i, &end) in ends[..j.carts - j.calls].iter().enumerate() {
        let start = follow(j, p, end, i * j.beyond);
        place[j.cart_on[start as usize] as usize - 1] = Some(i * j.beyond);
    }
    for (cart, place) in place.into_iter().enumerate() {
        if let Some(at) = place {
            write_spare(cart, &p.cell[at..at + j.beyond], w);
        }
    }
}

/// The walk that ends on cell c, from place `at` of the stack on: the cell where it starts.
fn follow(j: &Job, p: &mut Planes, mut c: u8, at: usize) -> u8 {
    p.cell[at + j.last] = c;
    for t in (1..=j.last).rev() {
        // Most carts stand at most steps, and then nothing waits for what is looked up here.
        if p.prev[t * j.cells + c as usize] != c {
            c = came_from(j, p, c, t);
        }
        p.cell[at + t - 1] = c;
    }
    c
}

fn write_spare(cart: usize, cells: &[u8], w: &mut Writer) {
    w.word(b"SPARE");
    w.number(cart);
    for &c in cells {
        w.number(c as usize);
    }
    w.byte(b'\n');
}
