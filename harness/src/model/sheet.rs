//! Sheets: what they say, how they are read, how they are written.
//!
//! The reader looks at the form alone: words, numbers, counts, and whether carts, calls, cells and steps are known.

use super::answer::{Refusal, BAD_SHEET};
use super::job::Job;
use super::lines::{lines, number, numbers, write, Line};

#[derive(Clone, Debug, PartialEq, Eq)]
pub enum Sheet {
    Plan(Plan),
    Cannot(Vec<Choke>),
}

/// A path for each call, and a walk for each cart that has no path.
#[derive(Clone, Debug, Default, PartialEq, Eq)]
pub struct Plan {
    pub paths: Vec<Path>,
    pub spares: Vec<Spare>,
}

/// A cart's walk to its call: the cells from step 0 to the step at which it is lifted, or parks.
#[derive(Clone, Debug, PartialEq, Eq)]
pub struct Path {
    pub cart: usize,
    pub call: usize,
    pub cells: Vec<usize>,
}

/// A spare cart's walk: the cells from step 0 to the job's last, wherever that is.
#[derive(Clone, Debug, PartialEq, Eq)]
pub struct Spare {
    pub cart: usize,
    pub cells: Vec<usize>,
}

/// Where a walk can be stopped. The order is that of the sheet: cells by step, then cell, and behind them whole calls by
/// number.
#[derive(Clone, Copy, Debug, PartialEq, Eq, PartialOrd, Ord)]
pub enum Choke {
    /// A cell at a step.
    Cell { step: usize, cell: usize },
    /// A whole call, a lift's, by its number.
    Call(usize),
}

/// What the first line announces, and how many lines it counts.
enum Head {
    Plan(usize),
    Cannot(usize),
}

/// The sheet, or the refusal of its first bad line.
pub fn read(text: &[u8], job: &Job) -> Result<Sheet, Refusal> {
    let mut body = Body { rest: lines(text), number: 1 };
    let sheet = match body.next(|line| head(line, job))? {
        Head::Plan(count) => {
            let paths = body.several(count, |line| path(line, job))?;
            let spares = body.several(job.spares(), |line| spare(line, job))?;
            Sheet::Plan(Plan { paths, spares })
        }
        Head::Cannot(count) => Sheet::Cannot(body.several(count, |line| choke(line, job))?),
    };
    body.end()?;
    Ok(sheet)
}

/// The lines that are left, and the number of the next, which need not be there.
struct Body<I> {
    rest: I,
    number: usize,
}

impl<'a, I: Iterator<Item = Line<'a>>> Body<I> {
    fn next<T>(&mut self, read: impl Fn(&Line) -> Option<T>) -> Result<T, Refusal> {
        let one = self.rest.next().and_then(|line| read(&line)).ok_or(self.bad_line())?;
        self.number += 1;
        Ok(one)
    }

    fn several<T>(&mut self, count: usize, read: impl Fn(&Line) -> Option<T>) -> Result<Vec<T>, Refusal> {
        (0..count).map(|_| self.next(&read)).collect()
    }

    fn end(mut self) -> Result<(), Refusal> {
        match self.rest.next() {
            None => Ok(()),
            Some(_) => Err(self.bad_line()),
        }
    }

    fn bad_line(&self) -> Refusal {
        Refusal { number: BAD_SHEET, line: self.number }
    }
}

/// The fields of a line that is ended and opens with the word.
fn fields_of<'a, 'b>(line: &'b Line<'a>, word: &str) -> Option<&'b [&'a [u8]]> {
    (line.ended && line.word == word.as_bytes()).then_some(line.fields.as_slice())
}

/// The same where all of them are numbers.
fn numbers_of(line: &Line, word: &str) -> Option<Vec<usize>> {
    numbers(fields_of(line, word)?)
}

fn head(line: &Line, job: &Job) -> Option<Head> {
    let calls = job.calls.len();
    if let Some([count]) = numbers_of(line, "PLAN").as_deref() {
        return (*count == calls).then_some(Head::Plan(*count));
    }
    if let Some([count]) = numbers_of(line, "CANNOT").as_deref() {
        return (*count < calls).then_some(Head::Cannot(*count));
    }
    None
}

/// The call that the line names says how many cells there may be.
fn path(line: &Line, job: &Job) -> Option<Path> {
    let n = numbers_of(line, "PATH")?;
    let [cart, call, cells @ ..] = n.as_slice() else { return None };
    let named = job.calls.get(*call)?;
    let in_time = cells.len().checked_sub(1).is_some_and(|last| named.is_met_at(last));
    (are_known(*cart, cells, job) && in_time).then(|| Path { cart: *cart, call: *call, cells: cells.to_vec() })
}

/// A cell for each step of the job, whatever the paths have.
fn spare(line: &Line, job: &Job) -> Option<Spare> {
    let n = numbers_of(line, "SPARE")?;
    let [cart, cells @ ..] = n.as_slice() else { return None };
    let to_the_last = cells.len() == job.last() + 1;
    (are_known(*cart, cells, job) && to_the_last).then(|| Spare { cart: *cart, cells: cells.to_vec() })
}

fn are_known(cart: usize, cells: &[usize], job: &Job) -> bool {
    cart < job.carts.len() && cells.iter().all(|&cell| cell < job.cells)
}

fn choke(line: &Line, job: &Job) -> Option<Choke> {
    match fields_of(line, "CHOKE")? {
        [b"CALL", call] => whole_call(number(call)?, job),
        fields => cell_at_step(&numbers(fields)?, job),
    }
}

/// A bay's number is none here: its one node is a cell at a step already.
fn whole_call(call: usize, job: &Job) -> Option<Choke> {
    let named = job.calls.get(call)?;
    (!named.is_bay()).then_some(Choke::Call(call))
}

fn cell_at_step(numbers: &[usize], job: &Job) -> Option<Choke> {
    let [cell, step] = *numbers else { return None };
    (cell < job.cells && step <= job.last()).then_some(Choke::Cell { step, cell })
}

impl Plan {
    /// The walks of all its carts, those of the paths first.
    pub fn walks(&self) -> Vec<&[usize]> {
        let of_paths = self.paths.iter().map(|p| p.cells.as_slice());
        of_paths.chain(self.spares.iter().map(|spare| spare.cells.as_slice())).collect()
    }

    /// Their numbers, in the same order.
    pub fn carts(&self) -> Vec<usize> {
        let of_paths = self.paths.iter().map(|p| p.cart);
        of_paths.chain(self.spares.iter().map(|spare| spare.cart)).collect()
    }
}

/// The plan of a job that has no spare carts.
impl From<Vec<Path>> for Plan {
    fn from(paths: Vec<Path>) -> Plan {
        Plan { paths, spares: Vec::new() }
    }
}

impl Sheet {
    /// The plan of a job that has no spare carts.
    pub fn of_paths(paths: Vec<Path>) -> Sheet {
        Sheet::Plan(paths.into())
    }

    /// The sheet as it is written, also where it is wrong.
    pub fn text(&self) -> Vec<u8> {
        let mut out = Vec::new();
        match self {
            Sheet::Plan(plan) => {
                write(&mut out, "PLAN", &[plan.paths.len()]);
                for p in &plan.paths {
                    write(&mut out, "PATH", &[&[p.cart, p.call], p.cells.as_slice()].concat());
                }
                for spare in &plan.spares {
                    write(&mut out, "SPARE", &[&[spare.cart], spare.cells.as_slice()].concat());
                }
            }
            Sheet::Cannot(chokes) => {
                write(&mut out, "CANNOT", &[chokes.len()]);
                for choke in chokes {
                    write_choke(&mut out, choke);
                }
            }
        }
        out
    }
}

fn write_choke(out: &mut Vec<u8>, choke: &Choke) {
    match *choke {
        Choke::Cell { step, cell } => write(out, "CHOKE", &[cell, step]),
        Choke::Call(call) => write(out, "CHOKE\tCALL", &[call]),
    }
}
