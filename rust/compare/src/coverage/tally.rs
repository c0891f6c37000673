//! How often each of some named conditions held.

use crate::coverage::summary::grouped;

/// The conditions by their names in the totals, and the counts.
#[derive(Clone, Copy, Debug)]
pub struct Tally<const N: usize> {
    names: [&'static str; N],
    counts: [u64; N],
}

impl<const N: usize> Tally<N> {
    pub fn of(names: [&'static str; N]) -> Tally<N> {
        let counts = [0; N];
        Tally { names, counts }
    }

    /// Counts the conditions that held, in the order of the names.
    pub fn count(&mut self, held: impl Fn(usize) -> bool) {
        for (i, count) in self.counts.iter_mut().enumerate() {
            *count += u64::from(held(i));
        }
    }

    pub fn add(&mut self, other: &Tally<N>) {
        for (mine, others) in self.counts.iter_mut().zip(other.counts) {
            *mine += others;
        }
    }

    /// Each of them by name and how often it held.
    pub fn line(&self) -> String {
        let parts: Vec<String> = self
            .names
            .iter()
            .zip(self.counts)
            .map(|(name, count)| format!("{name} {}", grouped(count)))
            .collect();
        parts.join(", ")
    }

    /// Each held at least so often.
    pub fn expect(&self, least: u64) {
        let enough = self.counts.iter().all(|count| *count >= least);
        assert!(enough, "less than {least}: {}", self.line());
    }
}
