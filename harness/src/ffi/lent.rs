//! A buffer as lent to the library: at any address, odd or even, with guard bytes on both sides.
//!
//! The guard bytes could be part of a text, so that a call which reads past an end is likely to answer wrongly, and
//! one which writes there is found out by the byte.

use crate::gen::Rng;

const GUARD: usize = 64;
const GUARD_TEXT: &[u8] =
    b"\nCALL\t0\t0\nBAY\t0\t0\nCHOKE\t0\t0\nCHOKE\tCALL\t0\nPATH\t0\t0\t0\nSPARE\t0\t0\nCART\t0\n0\t1\n.@\n..GT\nheight 1\nwidth 2\nmap\nO.e0\nE+1\n";

pub struct Lent {
    bytes: Vec<u8>,
    start: usize,
    len: usize,
    /// Where in its text the guard begins.
    phase: usize,
}

impl Lent {
    pub fn new(content: &[u8], rng: &mut Rng) -> Lent {
        let start = GUARD + rng.below(16);
        let phase = rng.below(GUARD_TEXT.len());
        let before = (0..start).map(|i| guard(phase + i));
        let behind = (0..GUARD).map(|i| guard(phase + i));
        let mut bytes = Vec::with_capacity(start + content.len() + GUARD);
        bytes.extend(before);
        bytes.extend_from_slice(content);
        bytes.extend(behind);
        Lent { bytes, start, len: content.len(), phase }
    }

    /// Pointer and length, as the C call wants them.
    pub fn parts(&mut self) -> (*mut u8, usize) {
        (self.bytes.as_mut_ptr().wrapping_add(self.start), self.len)
    }

    /// The content as it is now, if both guards are whole.
    pub fn take(&self, name: &str) -> Result<Vec<u8>, String> {
        let (before, rest) = self.bytes.split_at(self.start);
        let (content, behind) = rest.split_at(self.len);
        let whole = |part: &[u8]| part.iter().enumerate().all(|(i, &b)| b == guard(self.phase + i));
        if !whole(before) {
            return Err(format!("a byte before the {name} was changed"));
        }
        if !whole(behind) {
            return Err(format!("a byte behind the {name} was changed"));
        }
        Ok(content.to_vec())
    }

    /// Whether guards and content are as lent.
    pub fn is_unchanged(&self, name: &str, lent: &[u8]) -> Result<(), String> {
        match self.take(name)? == lent {
            true => Ok(()),
            false => Err(format!("the {name} was changed")),
        }
    }
}

fn guard(i: usize) -> u8 {
    GUARD_TEXT[i % GUARD_TEXT.len()]
}
