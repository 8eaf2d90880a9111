//! A second check, into which one fault can be put. The tests of the harness see that the comparison finds each.
//!
//! It reads jobs as the model does, since its faults are about sheets. The rest goes other ways than the model: the
//! sheet in one pass of bytes, conflicts by a table of who stands where, choke lists backwards from the calls, closed cells
//! by a table of steps, the order of paths by looking at each two. `job` has a second reader of jobs, and `map` a second
//! converter of maps.

mod backwards;
mod bays;
mod conflicts;
mod form;
pub mod job;
pub mod map;
mod order;

use crate::ffi::Checker;
use crate::model::answer::*;
use crate::model::job::Job;
use crate::model::limits::store_least;
use crate::model::reader;
use crate::model::sheet::{Choke, Plan, Sheet};
use bays::Closed;

#[derive(Clone, Copy, Debug, PartialEq, Eq)]
pub enum Fault {
    None,
    IgnoresTrades,
    PassesAsManyPointsAsCalls,
    PassesDoubledPoint,
    FreesCellAtLift,
    TouchesStoreBeforeRefusal,
    PassesLinesOutOfOrder,
    LiftsCrossingCart,
    ParksCrossingCart,
    CountsCellsByPlace,
    TakesLastCallForLargestDeadline,
    WipesLeastLengthOnly,
    WritesBehindStore,
    WritesIntoJob,
    WritesIntoSheet,
    IgnoresBaysInPlans,
    IgnoresBaysInLists,
    ClosesBayAtItsStep,
    ClosesBayOneStepLate,
    ClosesBayForOneStep,
    ClosesLiftCells,
    TakesClosedPointForBaysStep,
    RefusesClosedPoint,
    CountsNoBays,
    TakesLastLiftForLargestDeadline,
    PutsBaysBehindCalls,
    PutsOneStepAsInJob,
    PassesOrderOfJobToo,
    PassesOneStepInAnyOrder,
    PutsOneStepByCart,
    PutsHigherCellFirst,
    PutsCellBeforeDeadline,
    PutsBaysAsInJob,
    BlocksUpToDeadline,
    PassesEarlyBay,
    PassesPathWithoutCell,
    PassesPathOneTooLong,
    RefusesEarlyLift,
    PutsPathsByLift,
    TakesWholeCallForItsCell,
    TakesWholeCallForItsDeadline,
    StopsWalksToDeadlinesOnly,
    TakesWholeBay,
    TakesUnknownWholeCall,
    PassesWholeCallsFirst,
    PassesWholeCallsFalling,
    CountsNoWholeCalls,
    BoundsCellsAlone,
    TakesExponents,
    TakesPowerZero,
    RefusesSpareCarts,
    CountsNoSpareLines,
    CountsSparesInPlan,
    PassesPathForSpare,
    PassesSparesBeforePaths,
    PassesSpareThatEndsEarly,
    PassesSpareOneTooLong,
    EndsSparesWithLastPath,
    PassesSparesInAnyOrder,
    PassesPathAndSpareOfOneCart,
    PassesJumpsOfSpares,
    PassesSpareFromElsewhere,
    LetsSparesIntoBays,
    RefusesSpareOnLift,
    IgnoresSharesOfSpares,
    IgnoresTradesOfSpares,
    IgnoresSparesAmongThemselves,
    FreesSpareAtLastStep,
    StopsWalksOfFirstCarts,
    StopsWalksOfSparesToo,
    BoundsPointsByCarts,
}

/// The faults, without `None`.
pub const FAULTS: &[Fault] = &[
    Fault::IgnoresTrades,
    Fault::PassesAsManyPointsAsCalls,
    Fault::PassesDoubledPoint,
    Fault::FreesCellAtLift,
    Fault::TouchesStoreBeforeRefusal,
    Fault::PassesLinesOutOfOrder,
    Fault::LiftsCrossingCart,
    Fault::ParksCrossingCart,
    Fault::CountsCellsByPlace,
    Fault::TakesLastCallForLargestDeadline,
    Fault::WipesLeastLengthOnly,
    Fault::WritesBehindStore,
    Fault::WritesIntoJob,
    Fault::WritesIntoSheet,
    Fault::IgnoresBaysInPlans,
    Fault::IgnoresBaysInLists,
    Fault::ClosesBayAtItsStep,
    Fault::ClosesBayOneStepLate,
    Fault::ClosesBayForOneStep,
    Fault::ClosesLiftCells,
    Fault::TakesClosedPointForBaysStep,
    Fault::RefusesClosedPoint,
    Fault::CountsNoBays,
    Fault::TakesLastLiftForLargestDeadline,
    Fault::PutsBaysBehindCalls,
    Fault::PutsOneStepAsInJob,
    Fault::PassesOrderOfJobToo,
    Fault::PassesOneStepInAnyOrder,
    Fault::PutsOneStepByCart,
    Fault::PutsHigherCellFirst,
    Fault::PutsCellBeforeDeadline,
    Fault::PutsBaysAsInJob,
    Fault::BlocksUpToDeadline,
    Fault::PassesEarlyBay,
    Fault::PassesPathWithoutCell,
    Fault::PassesPathOneTooLong,
    Fault::RefusesEarlyLift,
    Fault::PutsPathsByLift,
    Fault::TakesWholeCallForItsCell,
    Fault::TakesWholeCallForItsDeadline,
    Fault::StopsWalksToDeadlinesOnly,
    Fault::TakesWholeBay,
    Fault::TakesUnknownWholeCall,
    Fault::PassesWholeCallsFirst,
    Fault::PassesWholeCallsFalling,
    Fault::CountsNoWholeCalls,
    Fault::BoundsCellsAlone,
    Fault::TakesExponents,
    Fault::TakesPowerZero,
    Fault::RefusesSpareCarts,
    Fault::CountsNoSpareLines,
    Fault::CountsSparesInPlan,
    Fault::PassesPathForSpare,
    Fault::PassesSparesBeforePaths,
    Fault::PassesSpareThatEndsEarly,
    Fault::PassesSpareOneTooLong,
    Fault::EndsSparesWithLastPath,
    Fault::PassesSparesInAnyOrder,
    Fault::PassesPathAndSpareOfOneCart,
    Fault::PassesJumpsOfSpares,
    Fault::PassesSpareFromElsewhere,
    Fault::LetsSparesIntoBays,
    Fault::RefusesSpareOnLift,
    Fault::IgnoresSharesOfSpares,
    Fault::IgnoresTradesOfSpares,
    Fault::IgnoresSparesAmongThemselves,
    Fault::FreesSpareAtLastStep,
    Fault::StopsWalksOfFirstCarts,
    Fault::StopsWalksOfSparesToo,
    Fault::BoundsPointsByCarts,
];

/// The second check with a fault.
pub struct Faulty(pub Fault);

impl Checker for Faulty {
    unsafe fn check(&self, job: (*const u8, usize), store: (*mut u8, usize), sheet: (*const u8, usize)) -> u64 {
        match self.0 {
            Fault::WritesBehindStore => *store.0.add(store.1) ^= 1,
            Fault::WritesIntoJob if job.1 > 0 => *job.0.cast_mut() ^= 1,
            Fault::WritesIntoSheet if sheet.1 > 0 => *sheet.0.cast_mut() ^= 1,
            _ => (),
        }
        self.answer(
            std::slice::from_raw_parts(job.0, job.1),
            std::slice::from_raw_parts_mut(store.0, store.1),
            std::slice::from_raw_parts(sheet.0, sheet.1),
        )
    }
}

impl Faulty {
    fn answer(&self, job: &[u8], store: &mut [u8], sheet: &[u8]) -> u64 {
        let job = match reader::read(job) {
            Ok(job) => job,
            Err(refusal) => return pack(refusal.number, refusal.line),
        };
        if self.0 == Fault::RefusesSpareCarts && job.carts.len() != job.calls.len() {
            return pack(UNEVEN, 0);
        }
        let least = store_least(&job);
        if store.len() < least {
            return pack(STORE_TOO_SHORT, 0);
        }
        let (answer, right) = match form::read(sheet, &job, self.0) {
            Err(line) => return pack(BAD_SHEET, line),
            Ok(Sheet::Plan(plan)) => (PLAN, self.is_plan(&job, plan)),
            Ok(Sheet::Cannot(chokes)) => (CANNOT, self.is_true_list(&job, &chokes)),
        };
        if !right {
            if self.0 == Fault::TouchesStoreBeforeRefusal {
                store[0] ^= 1;
            }
            return pack(WRONG_SHEET, 0);
        }
        match self.0 {
            Fault::WipesLeastLengthOnly => store[..least].fill(0),
            _ => store.fill(0),
        }
        pack(answer, 0)
    }

    fn is_plan(&self, job: &Job, mut plan: Plan) -> bool {
        if self.0 == Fault::PassesLinesOutOfOrder {
            plan.paths.sort_by_key(|p| (job.calls[p.call].deadline, job.calls[p.call].cell));
        }
        let in_order = order::is_kept(job, &plan.paths, self.0) && order::is_by_cart(&plan.spares, self.0);
        in_order && conflicts::none(job, plan, self.0)
    }

    fn is_true_list(&self, job: &Job, chokes: &[Choke]) -> bool {
        let mut chokes = chokes.to_vec();
        if self.0 == Fault::PassesLinesOutOfOrder {
            chokes.sort();
        }
        if self.0 == Fault::PassesDoubledPoint {
            chokes.dedup();
        }
        let rising = order::is_rising(&chokes, self.0);
        if self.0 == Fault::TakesClosedPointForBaysStep {
            let closed = Closed::by_bays(job, self.0);
            for choke in &mut chokes {
                match choke {
                    Choke::Cell { step, cell } if closed.at(*cell, *step) => *step = closed.last_open_step(*cell),
                    _ => (),
                }
            }
        }
        rising && backwards::stops_every_walk(job, &chokes, self.0)
    }
}
