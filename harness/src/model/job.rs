//! A job: the floor, its carts and its calls, bays among them.

use super::lines::write;

#[derive(Clone, Debug, Default, PartialEq, Eq)]
pub struct Job {
    pub cells: usize,
    pub tracks: Vec<(usize, usize)>,
    /// Where each cart stands at step 0.
    pub carts: Vec<usize>,
    pub calls: Vec<Call>,
}

/// A CALL line or a BAY line: they are numbered, counted and limited together.
#[derive(Clone, Copy, Debug, PartialEq, Eq)]
pub struct Call {
    pub cell: usize,
    /// A bay's is its step.
    pub deadline: usize,
    pub end: End,
}

/// What becomes of the cart that meets a call.
#[derive(Clone, Copy, Debug, PartialEq, Eq)]
pub enum End {
    /// It is lifted off the floor, at any step up to the deadline.
    Lift,
    /// It parks there for the rest of the job, at the bay's very step.
    Bay,
}

impl Call {
    pub fn lift(cell: usize, deadline: usize) -> Call {
        Call { cell, deadline, end: End::Lift }
    }

    pub fn bay(cell: usize, deadline: usize) -> Call {
        Call { cell, deadline, end: End::Bay }
    }

    pub fn is_bay(&self) -> bool {
        self.end == End::Bay
    }

    /// Whether a cart that is on its cell at the step can be lifted or parked then. Paths, walks and choke lists all have
    /// it from here.
    pub fn is_met_at(&self, step: usize) -> bool {
        match self.end {
            End::Lift => step <= self.deadline,
            End::Bay => step == self.deadline,
        }
    }

    /// The word of its line.
    pub fn word(&self) -> &'static str {
        match self.end {
            End::Lift => "CALL",
            End::Bay => "BAY",
        }
    }
}

impl Job {
    /// Whether a walk may stand on the cell at the step: it may not on a bay's cell after that bay's step. Walks, plans
    /// and choke lists all have it from here.
    pub fn is_open(&self, cell: usize, step: usize) -> bool {
        !self.calls.iter().any(|call| call.is_bay() && call.cell == cell && call.deadline < step)
    }

    pub fn has_bays(&self) -> bool {
        self.calls.iter().any(Call::is_bay)
    }

    /// How many carts no call can get: they stay on the floor.
    pub fn spares(&self) -> usize {
        self.carts.len().saturating_sub(self.calls.len())
    }

    /// The largest deadline, 0 if there are no calls; the README calls it H.
    pub fn last(&self) -> usize {
        self.calls.iter().map(|c| c.deadline).max().unwrap_or(0)
    }

    /// The numbers of the calls as PATH lines go: by deadline, equal deadlines by cell, whatever the step of the lift. No
    /// two calls are on one cell, so this is one order alone.
    pub fn written_order(&self) -> Vec<usize> {
        let mut order: Vec<usize> = (0..self.calls.len()).collect();
        order.sort_by_key(|&call| (self.calls[call].deadline, self.calls[call].cell));
        order
    }

    /// For each cell, the cells that one step leads to: itself, and those one track away.
    pub fn within_a_step(&self) -> Vec<Vec<usize>> {
        let mut near: Vec<Vec<usize>> = (0..self.cells).map(|cell| vec![cell]).collect();
        for &(a, b) in &self.tracks {
            near[a].push(b);
            near[b].push(a);
        }
        near
    }

    /// The job text.
    pub fn text(&self) -> Vec<u8> {
        let mut out = Vec::new();
        write(&mut out, "FLOOR", &[self.cells]);
        for &(a, b) in &self.tracks {
            write(&mut out, "TRACK", &[a, b]);
        }
        for &cell in &self.carts {
            write(&mut out, "CART", &[cell]);
        }
        for call in &self.calls {
            write(&mut out, call.word(), &[call.cell, call.deadline]);
        }
        out
    }
}
