//! What generated scripts reach: facts met, and those that were expected.

pub mod explain;
mod order;
pub mod pdu;
pub mod report;
pub mod session;

use std::collections::BTreeMap;

/// Facts met, each with a count, beside those expected.
pub struct Facts {
    met: BTreeMap<String, u64>,
    expected: Vec<String>,
}

impl Facts {
    fn expecting(expected: Vec<String>) -> Self {
        Self {
            met: BTreeMap::new(),
            expected,
        }
    }

    fn add(&mut self, fact: impl Into<String>) {
        *self.met.entry(fact.into()).or_default() += 1;
    }

    /// Each fact met with its count, in order.
    pub fn met(&self) -> impl Iterator<Item = (&str, u64)> {
        self.met.iter().map(|(fact, &count)| (fact.as_str(), count))
    }

    /// The expected facts that were never met.
    pub fn missing(&self) -> Vec<&str> {
        self.expected
            .iter()
            .map(String::as_str)
            .filter(|&fact| !self.met.contains_key(fact))
            .collect()
    }
}
