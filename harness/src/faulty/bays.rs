//! Which cells are closed, by a table of the step from which each is.

use super::Fault;
use crate::model::job::{Call, Job};

/// By cell, the first step at which nobody may stand on it. A cell without a bay is open for good.
pub struct Closed {
    from: Vec<usize>,
    fault: Fault,
}

impl Closed {
    pub fn by_bays(job: &Job, fault: Fault) -> Closed {
        let closes = |call: &&Call| call.is_bay() || fault == Fault::ClosesLiftCells;
        let mut from = vec![usize::MAX; job.cells];
        for call in job.calls.iter().filter(closes) {
            from[call.cell] = match fault {
                Fault::ClosesBayAtItsStep => call.deadline,
                Fault::ClosesBayOneStepLate => call.deadline + 2,
                _ => call.deadline + 1,
            };
        }
        Closed { from, fault }
    }

    pub fn at(&self, cell: usize, step: usize) -> bool {
        match self.fault {
            Fault::ClosesBayForOneStep => step == self.from[cell],
            _ => step >= self.from[cell],
        }
    }

    /// The last step at which one may stand on a closed cell: the bay's.
    pub fn last_open_step(&self, cell: usize) -> usize {
        self.from[cell] - 1
    }
}

/// The calls that are no bays.
pub fn lifts(job: &Job) -> impl Iterator<Item = &Call> {
    job.calls.iter().filter(|call| !call.is_bay())
}
