//! The library's calls with buffers that a thread keeps.
//!
//! Each job is first lent 64 KiB and twice as much whenever that is too short. The library wipes all that is lent, so that
//! a small job behind a large one is still lent 64 KiB of what is there.

use crate::finding::Refusal;
use crate::words::{CANNOT, PLAN, SHEET_TOO_SHORT, STORE_TOO_SHORT};

const FIRST: usize = 64 * 1024;

/// What the library says of a job: that it has a plan, that it has none, or that it is no job.
#[derive(Clone, Copy, PartialEq, Eq, Debug)]
pub enum Verdict {
    Plan,
    Cannot,
    Refused(Refusal),
}

pub struct Buffers {
    store: Vec<u8>,
    sheet: Vec<u8>,
}

impl Default for Buffers {
    fn default() -> Buffers {
        Buffers { store: vec![0; FIRST], sheet: vec![0; FIRST] }
    }
}

impl Buffers {
    /// Plans a job and has the sheet checked; the sheet is empty where the job is refused. `None` if the two calls differ,
    /// which is proved never to be.
    pub fn plan(&mut self, job: &[u8]) -> Option<(Verdict, &[u8])> {
        let (verdict, written, store_len) = self.planned(job);
        let sheet = &self.sheet[..written];
        let is_refused = matches!(verdict, Verdict::Refused(_));
        let is_right = is_refused || checked(&mut self.store, store_len, job, sheet) == verdict;
        is_right.then_some((verdict, sheet))
    }

    /// Checks a sheet: `Refused` with 11 or 12 is of the sheet, with any other number of the job.
    pub fn check(&mut self, job: &[u8], sheet: &[u8]) -> Verdict {
        checked(&mut self.store, FIRST, job, sheet)
    }

    /// The verdict, how many bytes of sheet were written, and how much store was enough.
    fn planned(&mut self, job: &[u8]) -> (Verdict, usize, usize) {
        let (mut store_len, mut sheet_len) = (FIRST, FIRST);
        loop {
            let (store, sheet) = (lent(&mut self.store, store_len), lent(&mut self.sheet, sheet_len));
            match unpacked(cartfloor::plan(job, store, sheet)) {
                (STORE_TOO_SHORT, _) => store_len *= 2,
                (SHEET_TOO_SHORT, _) => sheet_len *= 2,
                (answer @ (PLAN | CANNOT), written) => return (verdict(answer, 0), written as usize, store_len),
                (number, line) => return (verdict(number, line), 0, store_len),
            }
        }
    }
}

fn checked(store: &mut Vec<u8>, mut store_len: usize, job: &[u8], sheet: &[u8]) -> Verdict {
    loop {
        match unpacked(cartfloor::check(job, lent(store, store_len), sheet)) {
            (STORE_TOO_SHORT, _) => store_len *= 2,
            (answer, line) => return verdict(answer, line),
        }
    }
}

/// So many bytes of the buffer, which becomes longer if it has to.
fn lent(buffer: &mut Vec<u8>, len: usize) -> &mut [u8] {
    if buffer.len() < len {
        *buffer = vec![0; len];
    }
    &mut buffer[..len]
}

/// The answer, and what goes with it: the bytes written, or the line.
fn unpacked(packed: u64) -> (u8, u64) {
    (packed as u8, packed >> 8)
}

fn verdict(number: u8, line: u64) -> Verdict {
    match number {
        PLAN => Verdict::Plan,
        CANNOT => Verdict::Cannot,
        _ => Verdict::Refused(Refusal { number, line }),
    }
}

#[cfg(test)]
mod tests {
    use super::*;

    const NOISE: u8 = 1;

    /// A job that needs as much store as any.
    fn large() -> Vec<u8> {
        let tracks = (0..512).map(|i| format!("TRACK\t{}\t{}\n", i % 256, (i % 256 + 1 + i / 256) % 256));
        format!("FLOOR\t256\n{}CART\t0\nCALL\t0\t255\n", tracks.collect::<String>()).into_bytes()
    }

    /// What is lent is wiped: so what is left as it was has not been lent.
    #[test]
    fn a_small_job_behind_a_large_one_is_lent_little() {
        let mut buffers = Buffers::default();
        assert_eq!(buffers.plan(&large()).map(|planned| planned.0), Some(Verdict::Plan));
        assert!(buffers.store.len() > 10_000_000);
        buffers.store.fill(NOISE);
        let small = b"FLOOR\t1\nCART\t0\nCALL\t0\t0\n";
        assert_eq!(buffers.plan(small).map(|planned| planned.1), Some(&b"PLAN\t1\nPATH\t0\t0\t0\n"[..]));
        assert_eq!(buffers.check(small, b"PLAN\t0\n"), Verdict::Refused(Refusal { number: 11, line: 1 }));
        let (lent, rest) = buffers.store.split_at(FIRST);
        assert!(lent.iter().all(|&byte| byte == 0) && rest.iter().all(|&byte| byte == NOISE));
    }

    /// The sheet buffer grows too: 64 paths of 256 cells with three digits pass 64 KiB.
    #[test]
    fn the_longest_sheets() {
        let lines =
            |word: &str, more: &str| -> String { (192..256).map(|cell| format!("{word}\t{cell}{more}\n")).collect() };
        let job = format!("FLOOR\t256\n{}{}", lines("CART", ""), lines("BAY", "\t255")).into_bytes();
        let mut buffers = Buffers::default();
        let (verdict, sheet) = buffers.plan(&job).expect("a sheet that passes");
        assert_eq!(verdict, Verdict::Plan);
        assert!(sheet.len() > FIRST, "{} bytes", sheet.len());
        let sheet = sheet.to_vec();
        assert_eq!(buffers.check(&job, &sheet), Verdict::Plan);
    }
}
