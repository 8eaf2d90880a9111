//! What the store holds.

/// What a node is to the flow: it leads to the cell `next` one step later, or to the call on its own cell.
pub const FREE: u8 = 0;
pub const LEADS: u8 = 1;
pub const MEETS: u8 = 2;

/// How an entry of the stack was come to: the one before it drops out of the flow. What it is: a call.
pub const DROP: u8 = 1;
pub const CALL: u8 = 2;

/// Byte planes in the store, one byte a position. Node (cell, step) is step * cells + cell; behind the last step come the
/// calls by their cells, where `prev` is the step at which a call is met.
pub struct Planes<'a> {
    pub used: &'a mut [u8],
    pub mark: &'a mut [u8],
    pub next: &'a mut [u8],
    pub prev: &'a mut [u8],
    // the search's stack; via: by way of which cell, of a call at which step, the entry was come to; place: all arcs of the
    // entry before it lead to marked positions
    pub cell: &'a mut [u8],
    pub step: &'a mut [u8],
    pub via: &'a mut [u8],
    pub how: &'a mut [u8],
    pub place: &'a mut [u8],
}

pub fn planes(store: &mut [u8], positions: usize) -> Planes<'_> {
    let (used, r) = store.split_at_mut(positions);
    let (mark, r) = r.split_at_mut(positions);
    let (next, r) = r.split_at_mut(positions);
    let (prev, r) = r.split_at_mut(positions);
    let (cell, r) = r.split_at_mut(positions);
    let (step, r) = r.split_at_mut(positions);
    let (via, r) = r.split_at_mut(positions);
    let (how, r) = r.split_at_mut(positions);
    let (place, _) = r.split_at_mut(positions);
    Planes { used, mark, next, prev, cell, step, via, how, place }
}

impl Planes<'_> {
    /// Cell and step of an entry of the stack. The step of the calls may be too large for a byte.
    #[inline(always)]
    pub fn entry(&self, i: usize, beyond: usize) -> (usize, usize) {
        let is_call = self.how[i] & CALL != 0;
        (self.cell[i] as usize, if is_call { beyond } else { self.step[i] as usize })
    }
}
