//! Whether paths and spare walks are a plan but for their order, by a table of who stands where at each step.

use super::bays::Closed;
use super::Fault;
use crate::model::job::Job;
use crate::model::sheet::{Path, Plan};

/// A line of the sheet: the walk of a cart.
struct Entry {
    cart: usize,
    cells: Vec<usize>,
    is_spare: bool,
}

/// Enters the walks into the table, one after the other, until one does not fit.
pub fn none(job: &Job, plan: Plan, fault: Fault) -> bool {
    let ends = plan.paths.iter().all(|p| ends_at_its_call(job, p));
    let paths = plan.paths.iter().map(|p| as_entered(job, p, fault));
    let spares = plan.spares.into_iter().map(|spare| Entry { cart: spare.cart, cells: spare.cells, is_spare: true });
    let lines: Vec<Entry> = paths.chain(spares).collect();
    // One step more than there is, for faults that let a walk be too long.
    let who = vec![None; (job.last() + 2) * job.cells];
    let closed = Closed::by_bays(job, fault);
    let mut table = Table { joined: joined(job), cells: job.cells, lines: &lines, who, closed, fault };
    let mut free = vec![true; job.carts.len()];
    ends && lines.iter().enumerate().all(|(i, line)| {
        let is_first = std::mem::replace(&mut free[line.cart], false);
        (is_first || fault == Fault::PassesPathAndSpareOfOneCart && line.is_spare)
            && (line.cells[0] == job.carts[line.cart] || fault == Fault::PassesSpareFromElsewhere && line.is_spare)
            && !(fault == Fault::LiftsCrossingCart && crosses_a_lift(job, &line.cells))
            && !(fault == Fault::RefusesSpareOnLift && line.is_spare && ends_on_a_lift(job, &line.cells))
            && table.enter(i)
    })
}

fn ends_at_its_call(job: &Job, path: &Path) -> bool {
    // A path without a cell, which a fault lets pass, is that of a cart that is lifted where it stands.
    *path.cells.last().unwrap_or(&job.carts[path.cart]) == job.calls[path.call].cell
}

fn ends_on_a_lift(job: &Job, walk: &[usize]) -> bool {
    job.calls.iter().any(|call| !call.is_bay() && call.cell == walk[walk.len() - 1])
}

/// The path as it is, but for faults: one that stands on up to the deadline, and one without a cell that is taken for a
/// cart that is lifted where it stands.
fn as_entered(job: &Job, path: &Path, fault: Fault) -> Entry {
    let mut cells = path.cells.clone();
    if cells.is_empty() {
        cells.push(job.carts[path.cart]);
    }
    if fault == Fault::BlocksUpToDeadline {
        cells.resize(job.calls[path.call].deadline + 1, cells[cells.len() - 1]);
    }
    Entry { cart: path.cart, cells, is_spare: false }
}

/// Whether the walk is on a lift's cell in time, and goes on from there.
fn crosses_a_lift(job: &Job, walk: &[usize]) -> bool {
    let on_way = &walk[..walk.len() - 1];
    let mut steps = on_way.iter().enumerate();
    steps.any(|(step, &cell)| job.calls.iter().any(|c| !c.is_bay() && c.cell == cell && step <= c.deadline))
}

fn joined(job: &Job) -> Vec<bool> {
    let mut joined = vec![false; job.cells * job.cells];
    for &(a, b) in &job.tracks {
        joined[a * job.cells + b] = true;
        joined[b * job.cells + a] = true;
    }
    joined
}

struct Table<'a> {
    joined: Vec<bool>,
    cells: usize,
    lines: &'a [Entry],
    /// Which line's cart is on the cell at the step.
    who: Vec<Option<usize>>,
    closed: Closed,
    fault: Fault,
}

impl Table<'_> {
    fn enter(&mut self, line: usize) -> bool {
        let lines = self.lines;
        let walk = &lines[line].cells;
        (0..walk.len()).all(|step| {
            let from = if step == 0 { walk[0] } else { walk[step - 1] };
            self.is_step(line, from, walk[step])
                && !self.is_closed(line, walk[step], step)
                && !self.trades(line, step, from, walk[step])
                && self.stand(line, step)
        })
    }

    fn is_step(&self, line: usize, from: usize, to: usize) -> bool {
        let jumps = self.fault == Fault::PassesJumpsOfSpares && self.lines[line].is_spare;
        jumps || from == to || self.joined[from * self.cells + to]
    }

    fn is_closed(&self, line: usize, cell: usize, step: usize) -> bool {
        let is_let_in = match self.fault {
            Fault::IgnoresBaysInPlans => true,
            Fault::LetsSparesIntoBays => self.lines[line].is_spare,
            _ => false,
        };
        !is_let_in && self.closed.at(cell, step)
    }

    /// Whether the cart of another line goes from `to` to `from` as this one goes from `from` to `to`.
    fn trades(&self, line: usize, step: usize, from: usize, to: usize) -> bool {
        if from == to || self.fault == Fault::IgnoresTrades {
            return false;
        }
        let there_before = self.who[(step - 1) * self.cells + to];
        there_before == self.who[step * self.cells + from]
            && there_before.is_some_and(|other| self.conflict(line, other, Fault::IgnoresTradesOfSpares))
    }

    /// Takes the cell at the step, if nobody is on it.
    fn stand(&mut self, line: usize, step: usize) -> bool {
        let Entry { cells: walk, is_spare, .. } = &self.lines[line];
        let is_freed = match self.fault {
            Fault::FreesCellAtLift => !is_spare,
            Fault::FreesSpareAtLastStep => *is_spare,
            _ => false,
        };
        if is_freed && step + 1 == walk.len() {
            return true;
        }
        let before = self.who[step * self.cells + walk[step]].replace(line);
        !before.is_some_and(|other| self.conflict(line, other, Fault::IgnoresSharesOfSpares))
    }

    /// Whether what these two do is a conflict: it always is, but for faults, one of which is about this kind.
    fn conflict(&self, line: usize, other: usize, ignoring_spares: Fault) -> bool {
        let (one, other) = (&self.lines[line], &self.lines[other]);
        let is_ignored = match self.fault {
            Fault::IgnoresSparesAmongThemselves => one.is_spare && other.is_spare,
            Fault::PassesPathAndSpareOfOneCart => one.cart == other.cart,
            fault => fault == ignoring_spares && (one.is_spare || other.is_spare),
        };
        !is_ignored
    }
}
