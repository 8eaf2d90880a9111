//! How often each answer came, so that a test can see that it tried what it set out to try.

use std::collections::BTreeMap;
use std::fmt;

/// Of each answer that came, how often: it need not know which answers there are.
#[derive(Default)]
pub struct Tally(BTreeMap<u8, usize>);

impl Tally {
    pub fn count(&mut self, answer: u8) {
        *self.0.entry(answer).or_default() += 1;
    }

    pub fn total(&self) -> usize {
        self.0.values().sum()
    }

    fn times(&self, answer: u8) -> usize {
        self.0.get(&answer).copied().unwrap_or(0)
    }

    /// Fails unless each of the answers came at least so often.
    pub fn assert_each(&self, answers: &[u8], least: usize) {
        let seldom: Vec<_> = answers.iter().filter(|&&answer| self.times(answer) < least).collect();
        assert!(seldom.is_empty(), "answers {seldom:?} came less than {least} times: {self}");
    }

    /// Fails if any other answer came.
    pub fn assert_only(&self, answers: &[u8]) {
        let others: Vec<_> = self.0.keys().filter(|answer| !answers.contains(answer)).collect();
        assert!(others.is_empty(), "answers {others:?} came, not only {answers:?}: {self}");
    }
}

/// Each answer that came, with how often.
impl fmt::Display for Tally {
    fn fmt(&self, f: &mut fmt::Formatter) -> fmt::Result {
        let each: Vec<String> = self.0.iter().map(|(answer, times)| format!("{answer}: {times}")).collect();
        f.write_str(&each.join(", "))
    }
}
