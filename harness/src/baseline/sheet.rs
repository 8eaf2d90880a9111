//! The sheet: paths from a flow that serves every call, choke points from one that cannot.

use super::job::Job;
use super::planes::Planes;
use crate::model::limits::{CALLS, DEADLINE};

pub struct Writer<'a> {
    pub sheet: &'a mut [u8],
    pub at: usize,
}

impl Writer<'_> {
    pub fn byte(&mut self, b: u8) {
        self.sheet[self.at] = b;
        self.at += 1;
    }
    pub fn word(&mut self, w: &[u8]) {
        for &b in w {
            self.byte(b);
        }
    }
    pub fn number(&mut self, v: usize) {
        self.byte(b'\t');
        if v >= 100 {
            self.byte(b'0' + (v / 100) as u8);
        }
        if v >= 10 {
            self.byte(b'0' + (v / 10 % 10) as u8);
        }
        self.byte(b'0' + (v % 10) as u8);
    }
}

/// Where the cart on b at step t comes from. Two carts that would trade places both stand instead.
pub fn came_from(j: &Job, p: &Planes, b: u8, t: usize) -> u8 {
    let a = p.prev[t * j.cells + b as usize];
    let w = t * j.cells + a as usize;
    if p.used[w] != 0 && p.prev[w] == b {
        b
    } else {
        a
    }
}

pub fn write_plan(j: &Job, p: &Planes, w: &mut Writer) {
    w.word(b"PLAN");
    w.number(j.calls);
    w.byte(b'\n');
    let mut path = [0u8; DEADLINE + 1];
    for &q in &j.order[..j.calls] {
        let (c, _) = j.call[q as usize];
        let met = p.prev[j.beyond * j.cells + c as usize] as usize;
        path[met] = c;
        for t in (1..=met).rev() {
            path[t - 1] = came_from(j, p, path[t], t);
        }
        w.word(b"PATH");
        w.number(j.cart_on[path[0] as usize] as usize - 1);
        w.number(q as usize);
        for &c in &path[..=met] {
            w.number(c as usize);
        }
        w.byte(b'\n');
    }
}

/// The first position without a mark on the line of call q, going back: (step, cell), and for a call the step beyond
/// and its number. A bay is its own node: nothing else follows that.
fn cut(j: &Job, p: &Planes, q: usize, stamp: u8) -> (usize, usize) {
    let (mut c, due) = (j.call[q].0 as usize, j.call[q].1 as usize);
    let call = j.beyond * j.cells + c;
    if p.mark[call] != stamp {
        return if j.has_bay(c) { (due, c) } else { (j.beyond, q) };
    }
    let mut t = p.prev[call] as usize;
    while p.mark[t * j.cells + c] == stamp {
        c = p.prev[t * j.cells + c] as usize;
        t -= 1; // a used node at step 0 has no mark
    }
    (t, c)
}

/// A choke point on the line of each call but the one where the search was stuck.
pub fn write_cannot(j: &Job, p: &Planes, (stuck, stamp): (usize, u8), w: &mut Writer) {
    let mut list = [(0, 0); CALLS];
    let mut m = 0;
    for q in (0..j.calls).filter(|&q| q != stuck) {
        let point = cut(j, p, q, stamp);
        let mut i = m;
        while i > 0 && list[i - 1] > point {
            list[i] = list[i - 1];
            i -= 1;
        }
        list[i] = point;
        m += 1;
    }
    w.word(b"CANNOT");
    w.number(m);
    w.byte(b'\n');
    for &(t, c) in &list[..m] {
        if t == j.beyond {
            w.word(b"CHOKE\tCALL");
            w.number(c);
        } else {
            w.word(b"CHOKE");
            w.number(c);
            w.number(t);
        }
        w.byte(b'\n');
    }
}
