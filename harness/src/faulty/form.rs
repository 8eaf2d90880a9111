//! The form of a sheet, in one pass over its bytes.

use super::bays::{lifts, Closed};
use super::Fault;
use crate::model::job::{Call, End, Job};
use crate::model::sheet::{Choke, Path, Plan, Sheet, Spare};

/// The bytes that are left to read.
struct Rest<'a>(&'a [u8], Fault);

impl Rest<'_> {
    fn bytes(&mut self, wanted: &[u8]) -> Option<()> {
        self.0 = self.0.strip_prefix(wanted)?;
        Some(())
    }

    /// A tab, and a number up to the next tab or LF.
    fn field(&mut self) -> Option<usize> {
        self.bytes(b"\t")?;
        let digits = self.0.iter().take_while(|b| b.is_ascii_digit()).count();
        let (number, rest) = self.0.split_at(digits);
        self.0 = rest;
        let number: usize = match number {
            [b'0', _, ..] => return None,
            _ if digits > 3 => return None,
            _ => std::str::from_utf8(number).ok()?.parse().ok()?,
        };
        Some(number * 10_usize.pow(self.power()))
    }

    /// The power behind a number that the fault takes; else none.
    fn power(&mut self) -> u32 {
        let (is_taken, sign) = match (self.1, self.0) {
            (Fault::TakesExponents, [b'e' | b'E', b'+', ..]) => (true, 1),
            (Fault::TakesExponents, [b'e' | b'E', ..]) => (true, 0),
            (Fault::TakesPowerZero, [b'e', b'0', ..]) => (true, 0),
            _ => (false, 0),
        };
        match self.0.get(1 + sign) {
            Some(digit @ b'0'..=b'9') if is_taken => {
                self.0 = &self.0[2 + sign..];
                u32::from(digit - b'0')
            }
            _ => 0,
        }
    }

    fn field_below(&mut self, bound: usize) -> Option<usize> {
        self.field().filter(|&n| n < bound)
    }
}

/// The sheet, or its first bad line.
pub fn read(sheet: &[u8], job: &Job, fault: Fault) -> Result<Sheet, usize> {
    let mut rest = Rest(sheet, fault);
    let calls = job.calls.len();
    let is_plan = sheet.starts_with(b"PLAN");
    let count = head(&mut rest, is_plan).ok_or(1usize)?;
    let right = match is_plan {
        true if fault == Fault::CountsSparesInPlan => count == job.carts.len(),
        true => count == calls,
        false if fault == Fault::BoundsPointsByCarts => count < job.carts.len(),
        false if fault == Fault::PassesAsManyPointsAsCalls => count <= calls,
        false if fault == Fault::CountsNoBays => count < lifts(job).count(),
        false if fault == Fault::BoundsCellsAlone => count < calls + whole_calls_in(sheet),
        false => count < calls,
    };
    if !right {
        return Err(1);
    }
    if is_plan {
        return plan(&mut rest, job).map(Sheet::Plan);
    }
    let mut chokes = Vec::new();
    for i in 0..count {
        chokes.push(choke(&mut rest, job, fault).ok_or(i + 2)?);
    }
    if fault == Fault::CountsNoWholeCalls {
        if chokes.iter().any(|choke| matches!(choke, Choke::Call(_))) {
            return Err(2);
        }
        while !rest.0.is_empty() {
            chokes.push(choke(&mut rest, job, fault).ok_or(chokes.len() + 2)?);
        }
    }
    match rest.0 {
        [] => Ok(Sheet::Cannot(chokes)),
        _ => Err(count + 2),
    }
}

fn head(rest: &mut Rest, is_plan: bool) -> Option<usize> {
    rest.bytes(if is_plan { b"PLAN" } else { b"CANNOT" })?;
    let count = rest.field()?;
    rest.bytes(b"\n")?;
    Some(count)
}

/// The PATH lines, the SPARE lines, and nothing behind them; else the first bad line.
fn plan(rest: &mut Rest, job: &Job) -> Result<Plan, usize> {
    let mut plan = Plan::default();
    let spares_first = rest.1 == Fault::PassesSparesBeforePaths && rest.0.starts_with(b"SPARE");
    if spares_first {
        spares(rest, job, &mut plan)?;
    }
    for place in 0..job.calls.len() {
        plan.paths.push(path(rest, job, place, rest.1).ok_or(2 + lines_of(&plan))?);
    }
    if !spares_first {
        spares(rest, job, &mut plan)?;
    }
    match rest.0 {
        [] => Ok(plan),
        _ => Err(2 + lines_of(&plan)),
    }
}

fn lines_of(plan: &Plan) -> usize {
    plan.paths.len() + plan.spares.len()
}

fn spares(rest: &mut Rest, job: &Job, plan: &mut Plan) -> Result<(), usize> {
    let is_due = |rest: &Rest, plan: &Plan| match rest.1 {
        Fault::CountsNoSpareLines => !rest.0.is_empty(),
        _ => plan.spares.len() + job.calls.len() < job.carts.len(),
    };
    while is_due(rest, plan) {
        plan.spares.push(spare(rest, job, plan).ok_or(2 + lines_of(plan))?);
    }
    Ok(())
}

fn spare(rest: &mut Rest, job: &Job, plan: &Plan) -> Option<Spare> {
    let fault = rest.1;
    match fault {
        Fault::PassesPathForSpare if rest.bytes(b"PATH").is_some() => (),
        _ => rest.bytes(b"SPARE")?,
    }
    let cart = rest.field_below(job.carts.len())?;
    let mut cells = Vec::new();
    while !rest.0.starts_with(b"\n") {
        cells.push(rest.field_below(job.cells)?);
    }
    rest.bytes(b"\n")?;
    let exact = job.last() + 1;
    let (least, most) = match fault {
        Fault::PassesSpareThatEndsEarly => (1, exact),
        Fault::PassesSpareOneTooLong => (exact, exact + 1),
        Fault::EndsSparesWithLastPath => {
            let last = plan.paths.iter().map(|p| p.cells.len()).max().unwrap_or(exact);
            (last, last)
        }
        _ => (exact, exact),
    };
    (least <= cells.len() && cells.len() <= most).then_some(Spare { cart, cells })
}

fn path(rest: &mut Rest, job: &Job, place: usize, fault: Fault) -> Option<Path> {
    rest.bytes(b"PATH")?;
    let cart = rest.field_below(job.carts.len())?;
    let call = rest.field_below(job.calls.len())?;
    let counting = if fault == Fault::CountsCellsByPlace { job.written_order()[place] } else { call };
    let mut cells = Vec::new();
    while !rest.0.starts_with(b"\n") {
        cells.push(rest.field_below(job.cells)?);
    }
    rest.bytes(b"\n")?;
    let (least, most) = lengths(&job.calls[counting], fault);
    (least <= cells.len() && cells.len() <= most).then_some(Path { cart, call, cells })
}

/// The least and the most cells of a path to the call.
fn lengths(call: &Call, fault: Fault) -> (usize, usize) {
    let exact = call.deadline + 1;
    match (call.end, fault) {
        (End::Lift, Fault::PassesPathWithoutCell) => (0, exact),
        (End::Lift, Fault::PassesPathOneTooLong) => (1, exact + 1),
        (End::Lift, Fault::RefusesEarlyLift) => (exact, exact),
        (End::Lift, _) | (End::Bay, Fault::PassesEarlyBay) => (1, exact),
        (End::Bay, _) => (exact, exact),
    }
}

/// How many lines of the sheet have a whole call.
fn whole_calls_in(sheet: &[u8]) -> usize {
    sheet.split(|&b| b == b'\n').filter(|line| line.starts_with(b"CHOKE\tCALL\t")).count()
}

fn choke(rest: &mut Rest, job: &Job, fault: Fault) -> Option<Choke> {
    rest.bytes(b"CHOKE")?;
    if rest.bytes(b"\tCALL").is_some() {
        return whole_call(rest, job, fault);
    }
    let cell = rest.field_below(job.cells)?;
    let last = match (fault, job.calls.last()) {
        (Fault::TakesLastCallForLargestDeadline, Some(call)) => call.deadline,
        (Fault::TakesLastLiftForLargestDeadline, _) => lifts(job).map(|call| call.deadline).max().unwrap_or(0),
        _ => job.last(),
    };
    let step = rest.field_below(last + 1)?;
    rest.bytes(b"\n")?;
    let is_refused = fault == Fault::RefusesClosedPoint && Closed::by_bays(job, fault).at(cell, step);
    (!is_refused).then_some(Choke::Cell { step, cell })
}

fn whole_call(rest: &mut Rest, job: &Job, fault: Fault) -> Option<Choke> {
    let number = rest.field()?;
    rest.bytes(b"\n")?;
    let right = match job.calls.get(number) {
        Some(call) => !call.is_bay() || fault == Fault::TakesWholeBay,
        None => fault == Fault::TakesUnknownWholeCall,
    };
    right.then_some(Choke::Call(number))
}
