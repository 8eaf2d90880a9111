//! The plans of a small job, by trying every sharing out and every walk, whichever step it ends at, and for the spare carts
//! every walk up to the last step.

use crate::model::job::Job;
use crate::model::plan::keep_apart;
use crate::model::sheet::{Path, Plan, Spare};
use crate::model::walks::{all_walks, spare_walks, Walk};

/// Whether the job has a plan.
pub fn has_plan(job: &Job) -> bool {
    !plans(job, 1).is_empty()
}

/// Whether the calls alone could be served, if spare carts left the floor.
pub fn calls_have_plan(job: &Job) -> bool {
    !paths_by(job, &all_walks(job), keep_apart, 1).is_empty()
}

/// Every plan of the job in the written order; the first so many, where there are more.
pub fn plans(job: &Job, most: usize) -> Vec<Plan> {
    plans_by(job, &all_walks(job), keep_apart, most)
}

/// Plans with lifts as early as can be, and plans with lifts as late as can be: the first so many of each. For the same
/// paths there are few ways of the spare carts among them, so that there are many paths.
pub fn early_and_late_plans(job: &Job, most: usize) -> Vec<Plan> {
    let (mut walks, mut spare_walks) = (all_walks(job), spare_walks(job));
    let early = Search::new(job, &walks, &spare_walks, keep_apart, most).with_ways(2).run();
    walks.iter_mut().flatten().for_each(|walks| walks.reverse());
    spare_walks.iter_mut().for_each(|walks| walks.reverse());
    [early, Search::new(job, &walks, &spare_walks, keep_apart, most).with_ways(2).run()].concat()
}

/// Every plan that some of the walks to calls make, by some way of telling whether two walks are apart; the first so many,
/// where there are more.
pub fn plans_by(job: &Job, walks: &[Vec<Vec<Walk>>], apart: Apart, most: usize) -> Vec<Plan> {
    Search::new(job, walks, &spare_walks(job), apart, most).run()
}

/// The same with no thought of the spare carts: the paths alone.
pub fn paths_by(job: &Job, walks: &[Vec<Vec<Walk>>], apart: Apart, most: usize) -> Vec<Vec<Path>> {
    let found = Search { has_spares: false, ..Search::new(job, walks, &[], apart, most) }.run();
    found.into_iter().map(|plan| plan.paths).collect()
}

/// The first so many plans that some of the walks to calls, and some of the spare carts' walks, make.
pub fn plans_of(job: &Job, walks: &[Vec<Vec<Walk>>], spare_walks: &[Vec<Walk>], most: usize) -> Vec<Plan> {
    Search::new(job, walks, spare_walks, keep_apart, most).run()
}

/// Every plan with the given paths; the first so many, where there are more.
pub fn plans_with(job: &Job, paths: &[Path], most: usize) -> Vec<Plan> {
    let spare_walks = spare_walks(job);
    let mut search = Search::new(job, &[], &spare_walks, keep_apart, most);
    search.chosen = paths.to_vec().into();
    search.spare_carts();
    search.found
}

type Apart = fn(&[usize], &[usize]) -> bool;

struct Search<'a> {
    carts: usize,
    order: Vec<usize>,
    /// The walks of each cart to each call.
    walks: &'a [Vec<Vec<Walk>>],
    /// Those of each cart if it is spare.
    spare_walks: &'a [Vec<Walk>],
    has_spares: bool,
    apart: Apart,
    most: usize,
    /// The most plans with the same paths.
    ways: usize,
    /// Paths of the first calls in the written order and walks of the first spare carts, all apart.
    chosen: Plan,
    found: Vec<Plan>,
}

/// A cart that has no path, and its walks that are apart from all paths.
type Left<'a> = (usize, Vec<&'a Walk>);

impl<'a> Search<'a> {
    fn new(
        job: &Job,
        walks: &'a [Vec<Vec<Walk>>],
        spare_walks: &'a [Vec<Walk>],
        apart: Apart,
        most: usize,
    ) -> Search<'a> {
        let (carts, order, ways) = (job.carts.len(), job.written_order(), usize::MAX);
        let (chosen, found) = (Plan::default(), Vec::new());
        Search { carts, order, walks, spare_walks, has_spares: true, apart, most, ways, chosen, found }
    }

    fn with_ways(self, ways: usize) -> Search<'a> {
        Search { ways, ..self }
    }

    fn run(mut self) -> Vec<Plan> {
        self.next_call();
        self.found
    }

    /// Tries every cart that is left for the next call; if there is no next call, it is the spare carts' turn.
    fn next_call(&mut self) {
        let Some(&call) = self.order.get(self.chosen.paths.len()) else {
            return self.spare_carts();
        };
        for cart in 0..self.carts {
            if self.is_left(cart) {
                self.next_walk(cart, call);
            }
        }
    }

    fn is_left(&self, cart: usize) -> bool {
        self.chosen.paths.iter().all(|p| p.cart != cart)
    }

    /// Tries every walk of the cart to the call.
    fn next_walk(&mut self, cart: usize, call: usize) {
        for cells in &self.walks[cart][call] {
            if self.found.len() == self.most {
                return;
            }
            if self.is_apart(cells) {
                self.chosen.paths.push(Path { cart, call, cells: cells.clone() });
                self.next_call();
                self.chosen.paths.pop();
            }
        }
    }

    fn is_apart(&self, cells: &Walk) -> bool {
        self.chosen.walks().iter().all(|other| (self.apart)(other, cells))
    }

    /// Tries every walk of the carts that have no path. Who has none that is apart from the paths would be found out only
    /// after all walks of those before it, so that is looked at first.
    fn spare_carts(&mut self) {
        let spare_walks = self.spare_walks;
        let carts = (0..self.carts).filter(|&cart| self.has_spares && self.is_left(cart));
        let left: Vec<Left> =
            carts.map(|cart| (cart, spare_walks[cart].iter().filter(|walk| self.is_apart(walk)).collect())).collect();
        if left.iter().all(|(_, walks)| !walks.is_empty()) {
            let enough = self.found.len().saturating_add(self.ways).min(self.most);
            self.next_spare(&left, enough);
        }
    }

    /// Tries every walk of the next cart that is left; if there is none, a plan is found.
    fn next_spare(&mut self, left: &[Left], enough: usize) {
        let Some((cart, walks)) = left.get(self.chosen.spares.len()) else {
            self.found.push(self.chosen.clone());
            return;
        };
        for &cells in walks {
            if self.found.len() == enough {
                return;
            }
            if self.is_apart(cells) {
                self.chosen.spares.push(Spare { cart: *cart, cells: cells.clone() });
                self.next_spare(left, enough);
                self.chosen.spares.pop();
            }
        }
    }
}
