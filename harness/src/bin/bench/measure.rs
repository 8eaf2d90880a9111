//! One job: every call by turns in one process, the best of several counts.

use std::hint::black_box;

use harness::baseline;
use harness::model::answer::{is_refusal, pack, unpack, PLAN};
use harness::model::job::Job;
use harness::model::limits::{sheet_least, store_least};

use crate::before::Before;
use crate::clock::timed;
use crate::counts::{counts, Counts};
use crate::peers::{Columns, Peer};
use crate::table::least;

/// How often each is timed.
#[derive(Clone, Copy)]
pub struct Effort {
    pub rounds: usize,
    pub peer_rounds: usize,
}

/// Microseconds, and counts.
pub struct Figures {
    pub is_plan: bool,
    pub nodes: usize,
    pub plan: f64,
    pub baseline: f64,
    pub memset: f64,
    pub check: f64,
    /// Those of the library before: no number where there is none.
    pub plan_before: f64,
    pub check_before: f64,
    /// Each peer's, in its better direction.
    pub peers: Vec<f64>,
    /// The best of all peers, and the best of those used as their manuals have it: no number where there is none.
    pub best: f64,
    pub best_plain: f64,
    /// The library's, and if it kept places. None with spare carts.
    pub counts: Option<(Counts, Counts)>,
}

/// Runs this short are timed several at once.
const SHORTEST: f64 = 200.0;

pub fn measure(job: &Job, peers: &[Peer], before: Option<Before>, effort: Effort) -> Figures {
    let text = job.text();
    let (mut store, mut sheet) = (vec![1u8; store_least(job)], vec![1u8; sheet_least(job)]);
    let planned = cartfloor::plan(&text, &mut store, &mut sheet);
    let (answer, len) = unpack(planned);
    assert!(!is_refusal(answer), "the library refuses a job: {answer}");
    let passed = pack(answer, 0);
    let written = sheet[..len].to_vec();
    let has_spares = job.carts.len() > job.calls.len();
    let counts = (!has_spares).then(|| counts(&text, &mut store, &mut sheet, &written));
    // A former library turns back what it did not know yet, and had other plans. Its lines may go in another order: it
    // checks its own sheet.
    let mut before = before.and_then(|b| {
        let (its_own, len) = unpack(b.plan(&text, &mut store, &mut sheet));
        (its_own == answer).then(|| (b, sheet[..len].to_vec()))
    });

    let mut best = [f64::NAN; 6];
    let mut times = 1;
    for _ in 0..effort.rounds + 1 {
        let round = [
            timed(times, || assert_eq!(cartfloor::plan(&text, &mut store, &mut sheet), planned)),
            timed(times, || assert_eq!(unpack(baseline::plan(&text, &mut store, &mut sheet)).0, answer)),
            timed(times, || black_box(&mut store).fill(0)),
            timed(times, || assert_eq!(cartfloor::check(&text, &mut store, &written), passed)),
            before.as_ref().map_or(f64::NAN, |(b, _)| {
                timed(times, || assert_eq!(unpack(b.plan(&text, &mut store, &mut sheet)).0, answer))
            }),
            before.as_mut().map_or(f64::NAN, |(b, its_own)| {
                timed(times, || assert_eq!(b.check(&text, &mut store, its_own), passed))
            }),
        ];
        for (best, time) in best.iter_mut().zip(round) {
            *best = best.min(time);
        }
        times = (SHORTEST / best[0]).ceil() as usize;
    }
    let [plan, baseline, memset, check, plan_before, check_before] = best;
    let served = |flow: usize| assert_eq!(flow == job.calls.len(), answer == PLAN, "a peer answers otherwise");
    let by_peer = by_peers(&Columns::of(job), peers, effort.peer_rounds, served);
    let plain = peers.iter().zip(&by_peer).filter(|(peer, _)| !peer.is_tuned).map(|(_, &time)| time);
    Figures {
        is_plan: answer == PLAN,
        nodes: job.cells * (job.last() + 1),
        plan,
        baseline,
        memset,
        check,
        plan_before,
        check_before,
        best: least(by_peer.iter().copied()),
        best_plain: least(plain),
        peers: by_peer,
        counts,
    }
}

/// Each peer's best. Both directions are tried once; those that come near the best peer go on in their better one.
fn by_peers(job: &Columns, peers: &[Peer], rounds: usize, served: impl Fn(usize)) -> Vec<f64> {
    let run = |peer: &Peer, backward: bool, n: usize| timed(n, || served(peer.max_flow(job, backward)));
    let first: Vec<[f64; 2]> = peers.iter().map(|peer| [run(peer, false, 1), run(peer, true, 1)]).collect();
    let near = 2.0 * least(first.iter().flatten().copied());
    let again = |(peer, [forward, backward]): (&Peer, [f64; 2])| {
        let best = forward.min(backward);
        let rounds = if best <= near { rounds } else { 0 };
        let n = (SHORTEST / best).ceil() as usize;
        (0..rounds).map(|_| run(peer, backward < forward, n)).fold(best, f64::min)
    };
    peers.iter().zip(first).map(again).collect()
}
