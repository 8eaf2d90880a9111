//! How many of each.

use std::collections::BTreeMap;
use std::fmt;

use super::states;
use crate::finding::Finding;

/// Counts by their names: jobs, troubles (files and folders that could not be read or written), and the states of jobs,
/// sheets and filings.
#[derive(Default)]
pub struct Summary(BTreeMap<&'static str, usize>);

impl Summary {
    /// Those that programs are told.
    pub const NAMES: [&str; 10] =
        ["jobs", "plan", "cannot", "refused", "right", "missing", "wrong", "filed", "due", "troubles"];

    pub fn add(&mut self, finding: &Finding) {
        self.count("jobs", 1);
        self.count("troubles", finding.troubles.len());
        for state in states(finding) {
            self.count(state, 1);
        }
    }

    pub fn count(&mut self, name: &'static str, more: usize) {
        *self.0.entry(name).or_default() += more;
    }

    pub fn of(&self, name: &str) -> usize {
        self.0.get(name).copied().unwrap_or(0)
    }
}

impl fmt::Display for Summary {
    fn fmt(&self, f: &mut fmt::Formatter) -> fmt::Result {
        let jobs = self.of("jobs");
        let [plan, cannot, refused] = ["plan", "cannot", "refused"].map(|name| self.of(name));
        let [right, missing, wrong] = ["right", "missing", "wrong"].map(|name| self.of(name));
        write!(f, "{jobs} job{}: {plan} plan, {cannot} cannot, {refused} refused; ", if jobs == 1 { "" } else { "s" })?;
        write!(f, "sheets: {right} right, {missing} missing, {wrong} wrong")?;
        for (name, words) in [("filed", "filed"), ("due", "to be filed"), ("troubles", "not read or not written")] {
            let count = self.of(name);
            if count > 0 {
                write!(f, "; {count} {words}")?;
            }
        }
        Ok(())
    }
}
