//! The reader of job texts: the job, or the refusal of the first test that fails.
//!
//! Lines are tested from the first. The five tests of a line go one after the other, each over the whole line. Ranges and
//! what stands twice are matters of the values, however they are written.

use super::answer::*;
use super::job::{Call, End, Job};
use super::limits;
use super::lines::{lines, scaled_numbers, Line};

/// The kinds of lines. CALL and BAY lines are of one kind but for how they end.
#[derive(Clone, Copy, PartialEq)]
enum Kind {
    Floor,
    Track,
    Cart,
    Call(End),
}

impl Kind {
    /// Lines stand in the order of these; CALL and BAY lines in any mixture.
    fn rank(self) -> usize {
        match self {
            Kind::Floor => 0,
            Kind::Track => 1,
            Kind::Cart => 2,
            Kind::Call(_) => 3,
        }
    }
}

/// Accepted is `Ok`, refused is `Err`.
pub fn read(text: &[u8]) -> Result<Job, Refusal> {
    if text.len() > limits::TEXT {
        return Err(refusal(TEXT_TOO_LONG));
    }
    if text.is_empty() {
        return Err(Refusal { number: BAD_LINE, line: 1 });
    }
    let mut job = Job::default();
    let mut before = None;
    for (i, line) in lines(text).enumerate() {
        let taken = take(&mut job, before, &line);
        before = Some(taken.map_err(|number| Refusal { number, line: i + 1 })?);
    }
    if job.carts.len() < job.calls.len() {
        return Err(refusal(UNEVEN));
    }
    Ok(job)
}

/// Takes one line into the job and says its kind, or the number of the refusal.
fn take(job: &mut Job, before: Option<Kind>, line: &Line) -> Result<Kind, u8> {
    let kind = kind_in_form(before, line).ok_or(BAD_LINE)?;
    let n = scaled_numbers(&line.fields).ok_or(NO_NUMBER)?;
    if !in_range(job, kind, &n) {
        return Err(OUT_OF_RANGE);
    }
    if !has_room(job, kind) {
        return Err(TOO_MANY);
    }
    if is_doubled(job, kind, &n) {
        return Err(DOUBLED);
    }
    add(job, kind, &n);
    Ok(kind)
}

/// The kind of a line that is ended, opens with a word that may come here, and has the right count of fields.
fn kind_in_form(before: Option<Kind>, line: &Line) -> Option<Kind> {
    let (kind, fields) = match line.word {
        b"FLOOR" => (Kind::Floor, 1),
        b"TRACK" => (Kind::Track, 2),
        b"CART" => (Kind::Cart, 1),
        b"CALL" => (Kind::Call(End::Lift), 2),
        b"BAY" => (Kind::Call(End::Bay), 2),
        _ => return None,
    };
    let in_order = match before {
        None => kind == Kind::Floor,
        Some(before) => kind != Kind::Floor && kind.rank() >= before.rank(),
    };
    (line.ended && in_order && line.fields.len() == fields).then_some(kind)
}

fn in_range(job: &Job, kind: Kind, n: &[usize]) -> bool {
    match kind {
        Kind::Floor => 1 <= n[0] && n[0] <= limits::CELLS,
        Kind::Track => n[0] < job.cells && n[1] < job.cells,
        Kind::Cart => n[0] < job.cells,
        Kind::Call(_) => n[0] < job.cells && n[1] <= limits::DEADLINE,
    }
}

fn has_room(job: &Job, kind: Kind) -> bool {
    match kind {
        Kind::Floor => true,
        Kind::Track => job.tracks.len() < limits::TRACKS,
        Kind::Cart => job.carts.len() < limits::CARTS,
        Kind::Call(_) => job.calls.len() < limits::CALLS,
    }
}

fn is_doubled(job: &Job, kind: Kind, n: &[usize]) -> bool {
    match kind {
        Kind::Floor => false,
        Kind::Track => {
            let joined = |&(a, b): &(usize, usize)| (a, b) == (n[0], n[1]) || (b, a) == (n[0], n[1]);
            n[0] == n[1] || job.tracks.iter().any(joined)
        }
        Kind::Cart => job.carts.contains(&n[0]),
        Kind::Call(_) => job.calls.iter().any(|call| call.cell == n[0]),
    }
}

fn add(job: &mut Job, kind: Kind, n: &[usize]) {
    match kind {
        Kind::Floor => job.cells = n[0],
        Kind::Track => job.tracks.push((n[0], n[1])),
        Kind::Cart => job.carts.push(n[0]),
        Kind::Call(end) => job.calls.push(Call { cell: n[0], deadline: n[1], end }),
    }
}
