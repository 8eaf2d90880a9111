//! One search: from a call back to a free cart.
//!
//! To be at a position means that it needs something to come from: a node a cell one step earlier, a call its own cell
//! at a step at which it is met. A node that is free is then the next position. One that is used would be taken over:
//! what it leads to is the next position. A used node may also drop out of the flow, and leave what it leads to.

use super::job::Job;
use super::planes::{Planes, CALL, DROP, FREE, MEETS};
use super::Mode;
use crate::model::limits::CELLS;

/// The next position, by way of which cell or step, and how.
type Found = Option<(usize, usize, usize, u8)>;

/// What the used node (x, s) leads to.
#[inline(always)]
fn follower(j: &Job, p: &Planes, x: usize, s: usize) -> (usize, usize) {
    let u = s * j.cells + x;
    if p.used[u] == MEETS {
        (x, j.beyond)
    } else {
        (p.next[u] as usize, s + 1)
    }
}

#[inline(always)]
fn unmarked(j: &Job, p: &Planes, (y, s): (usize, usize), via: usize, how: u8, stamp: u8) -> Found {
    (p.mark[s * j.cells + y] != stamp).then_some((y, s, via, how))
}

/// By way of the node (x, s).
#[inline(always)]
fn look(j: &Job, p: &Planes, x: usize, s: usize, via: usize, stamp: u8) -> Found {
    let to = if p.used[s * j.cells + x] == FREE { (x, s) } else { follower(j, p, x, s) };
    unmarked(j, p, to, via, 0, stamp)
}

/// The position on the stack's top, how many of its arcs lead to marked positions, and whether it is new there.
struct Top {
    c: usize,
    t: usize,
    place: usize,
    is_new: bool,
}

/// From a call: by way of the step `soon`, if there is one, then its latest step first.
#[inline(always)]
fn from_call<M: Mode>(j: &Job, p: &Planes, top: &mut Top, soon: Option<usize>, stamp: u8, mode: &mut M) -> Found {
    let mut at = |s: usize| {
        mode.look();
        look(j, p, top.c, s, s, stamp)
    };
    if let Some(s) = soon {
        let found = at(s);
        if found.is_some() {
            return found;
        }
    }
    while let Some(s) = j.meeting(top.c, top.place) {
        top.place += 1;
        let found = at(s);
        if found.is_some() {
            return found;
        }
    }
    None
}

/// From a node: along the hint, then along each track, then by dropping out.
#[inline(always)]
fn from_node<M: Mode>(j: &Job, p: &Planes, hint: &[u8; CELLS], top: &mut Top, stamp: u8, mode: &mut M) -> Found {
    let (c, t) = (top.c, top.t);
    if t > 0 {
        let from = j.from(c);
        let mut back = |x: usize| {
            mode.look();
            if j.is_shut(x, t - 1) {
                return None;
            }
            look(j, p, x, t - 1, x, stamp)
        };
        let h = hint[c] as usize;
        if top.is_new && h < from.len() {
            let found = back(from[h] as usize);
            if found.is_some() {
                return found;
            }
        }
        while top.place < from.len() {
            let found = back(from[top.place] as usize);
            if found.is_some() {
                return found;
            }
            top.place += 1;
        }
    }
    if p.used[t * j.cells + c] == FREE {
        return None;
    }
    unmarked(j, p, follower(j, p, c, t), 0, DROP, stamp)
}

/// The depth of the stack where its top is a free cart; 0 if there is no way. It begins at the step `soon`, if the call can
/// be met then.
pub fn search<M: Mode>(
    j: &Job,
    p: &mut Planes,
    hint: &[u8; CELLS],
    (call, soon): (usize, usize),
    stamp: u8,
    mode: &mut M,
) -> usize {
    let n = j.cells;
    let mut soon = Some(soon).filter(|&s| j.can_meet(call, s));
    let mut top = Top { c: call, t: j.beyond, place: 0, is_new: true };
    p.cell[0] = call as u8;
    p.how[0] = CALL;
    p.mark[top.t * n + call] = stamp;
    mode.visit();
    let mut depth = 1;
    // A position at step 0 is free: nothing takes over what comes before it.
    while !(top.t == 0 && j.cart_on[top.c] != 0) {
        let found = if top.t == j.beyond {
            // The call that the search is from comes first, and takes it.
            from_call(j, p, &mut top, soon.take(), stamp, mode)
        } else {
            from_node(j, p, hint, &mut top, stamp, mode)
        };
        if let Some((c, t, via, how)) = found {
            mode.visit();
            p.mark[t * n + c] = stamp;
            p.place[depth - 1] = top.place.min(255) as u8;
            p.cell[depth] = c as u8;
            p.step[depth] = t as u8;
            p.via[depth] = via as u8;
            p.how[depth] = if t == j.beyond { how | CALL } else { how };
            depth += 1;
            top = Top { c, t, place: 0, is_new: true };
        } else {
            depth -= 1;
            if depth == 0 {
                return 0;
            }
            let (c, t) = p.entry(depth - 1, j.beyond);
            let keeps = M::KEEP_PLACE || t == j.beyond;
            let place = if keeps { p.place[depth - 1] as usize } else { 0 };
            top = Top { c, t, place, is_new: !keeps };
        }
    }
    depth
}
