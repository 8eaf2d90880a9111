//! Whether paths and choke points are in the written order, each held against the one before it.

use super::Fault;
use crate::model::job::Job;
use crate::model::sheet::{Choke, Path, Spare};

/// Each call once, by deadline, then cell.
pub fn is_kept(job: &Job, paths: &[Path], fault: Fault) -> bool {
    let all_by = |fault| paths.windows(2).all(|pair| is_before(job, &pair[0], &pair[1], fault));
    all_by(fault) || (fault == Fault::PassesOrderOfJobToo && all_by(Fault::PutsOneStepAsInJob))
}

fn is_before(job: &Job, one: &Path, other: &Path, fault: Fault) -> bool {
    let (a, b) = (&job.calls[one.call], &job.calls[other.call]);
    let by = |of_a: usize, of_b: usize| a.deadline < b.deadline || (a.deadline == b.deadline && of_a < of_b);
    match fault {
        Fault::PutsOneStepAsInJob => by(one.call, other.call),
        Fault::PutsOneStepByCart => by(one.cart, other.cart),
        Fault::PutsHigherCellFirst => by(b.cell, a.cell),
        Fault::PutsCellBeforeDeadline => a.cell < b.cell,
        Fault::PassesOneStepInAnyOrder => a.deadline <= b.deadline,
        Fault::PutsBaysAsInJob if a.is_bay() || b.is_bay() => by(one.call, other.call),
        Fault::PutsBaysBehindCalls if a.is_bay() != b.is_bay() => by(a.is_bay().into(), b.is_bay().into()),
        Fault::PutsPathsByLift => (one.cells.len(), a.cell) < (other.cells.len(), b.cell),
        _ => by(a.cell, b.cell),
    }
}

/// Each spare cart once, by number.
pub fn is_by_cart(spares: &[Spare], fault: Fault) -> bool {
    spares.windows(2).all(|pair| pair[0].cart < pair[1].cart || fault == Fault::PassesSparesInAnyOrder)
}

/// Each choke point once: cells by step, then cell, then whole calls by number.
pub fn is_rising(chokes: &[Choke], fault: Fault) -> bool {
    chokes.windows(2).all(|pair| match (pair[0], pair[1]) {
        (Choke::Cell { step, cell }, Choke::Cell { step: later, cell: other }) => {
            step < later || (step == later && cell < other)
        }
        (Choke::Cell { .. }, Choke::Call(_)) => true,
        (Choke::Call(_), Choke::Cell { .. }) => fault == Fault::PassesWholeCallsFirst,
        (Choke::Call(one), Choke::Call(other)) => {
            one < other || (fault == Fault::PassesWholeCallsFalling && one > other)
        }
    })
}
