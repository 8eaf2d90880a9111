//! The guess that a search looks at first.

use super::job::Job;
use super::planes::Planes;
use super::Mode;
use crate::model::limits::CELLS;

/// Along a shortest way over the floor from the call's cell back to a free cart: hint[c] is the place in from(c)
/// of the cell to come from. Answers how many steps the way has, 0 if there is none. Only a guess: nothing rests on it but
/// speed; the guards stand in for proofs.
pub fn aim<M: Mode>(j: &Job, p: &Planes, call: usize, hint: &mut [u8; CELLS]) -> usize {
    let (mut queue, mut seen) = ([0u8; CELLS], [false; CELLS]);
    let (mut to, mut at) = ([0u8; CELLS], [0u8; CELLS]); // cell x was met at place at[x] of from(to[x])
    let is_free = |c: usize| j.cart_on[c] != 0 && p.used[c] == 0;
    queue[0] = call as u8;
    seen[call] = true;
    let (mut head, mut tail) = (0, 1);
    while head < tail {
        let mut x = queue[tail - 1] as usize;
        if is_free(x) {
            hint[x] = j.stand::<M>(x) as u8;
            for far in 0..j.cells {
                if x == call {
                    return far;
                }
                hint[to[x] as usize] = at[x];
                x = to[x] as usize;
            }
        }
        let c = queue[head] as usize;
        head += 1;
        for (i, &x) in j.from(c).iter().enumerate() {
            if !seen[x as usize] && tail < CELLS {
                seen[x as usize] = true;
                (to[x as usize], at[x as usize]) = (c as u8, i as u8);
                queue[tail] = x;
                tail += 1;
                if is_free(x as usize) {
                    break; // the last of the queue
                }
            }
        }
    }
    0
}
