//! Named counts, for the tallies.

use std::fmt;

/// A count for each name of a list.
pub struct Counts<const N: usize> {
    names: [&'static str; N],
    counts: [u64; N],
}

impl<const N: usize> Counts<N> {
    pub fn new(names: [&'static str; N]) -> Self {
        Self { names, counts: [0; N] }
    }

    /// Adds one to the count of the name.
    pub fn add(&mut self, name: &str) {
        self.counts[self.at(name)] += 1;
    }

    /// Adds the counts of others with the same names.
    pub fn merge(&mut self, other: &Self) {
        self.counts.iter_mut().zip(other.counts).for_each(|(count, more)| *count += more);
    }

    fn at(&self, name: &str) -> usize {
        let at = self.names.iter().position(|known| *known == name);
        at.unwrap_or_else(|| panic!("there is no count named {name}"))
    }

    pub fn sum(&self) -> u64 {
        self.counts.iter().sum()
    }

    #[cfg(test)]
    pub fn of(&self, name: &str) -> u64 {
        self.counts[self.at(name)]
    }

    #[cfg(test)]
    pub fn least(&self) -> u64 {
        self.counts.iter().copied().min().unwrap_or_default()
    }
}

impl<const N: usize> fmt::Display for Counts<N> {
    fn fmt(&self, f: &mut fmt::Formatter<'_>) -> fmt::Result {
        f.write_str(&listed(&self.names, &self.counts))
    }
}

/// The names with their counts.
pub fn listed(names: &[&str], counts: &[u64]) -> String {
    let listed: Vec<_> = names.iter().zip(counts).map(|(at, n)| format!("{at} {n}")).collect();
    listed.join(", ")
}
