//! The way that a search has found laid into the flow.

use super::job::Job;
use super::planes::{Planes, DROP, FREE, LEADS, MEETS};

/// Hop by hop. The marks of the way go: it is open to later searches.
pub fn augment(j: &Job, p: &mut Planes, depth: usize) {
    for i in 1..depth {
        let (c, t) = p.entry(i - 1, j.beyond);
        let (v, via) = (t * j.cells + c, p.via[i] as usize);
        p.mark[v] = 0;
        if p.how[i] & DROP != 0 {
            p.used[v] = FREE;
        } else if t == j.beyond {
            p.used[via * j.cells + c] = MEETS;
            p.prev[v] = via as u8;
        } else {
            let u = (t - 1) * j.cells + via;
            p.used[u] = LEADS;
            p.next[u] = c as u8;
            p.prev[v] = via as u8;
        }
    }
    let (cart, _) = p.entry(depth - 1, j.beyond);
    p.mark[cart] = 0;
}
