//! Counting which sorts of input the generators give.

use std::collections::BTreeMap;

/// How often each sort was met.
#[derive(Default)]
pub struct Met(BTreeMap<String, usize>);

impl Met {
    /// Notes a sort, also where it was not met.
    pub fn note(&mut self, sort: &str, is_met: bool) {
        *self.0.entry(sort.to_string()).or_default() += usize::from(is_met);
    }

    /// Checks that each sort noted was met more often than this.
    pub fn each_more_than(&self, count: usize) {
        let rare: Vec<_> = self.0.iter().filter(|(_, &met)| met <= count).collect();
        assert!(rare.is_empty(), "{rare:?}");
    }
}
