//! Helpers shared by the tests: generated policy files, names of all sorts,
//! texts in any layout, runs of the tool, and its answers for machines.

#![allow(dead_code)]

pub mod json;
pub mod layout;
pub mod named;
pub mod run;
pub mod subjects;

use reference::generate;
pub use reference::generate::Random;

/// The kinds of policy files that the reference generates.
pub const POLICY_KINDS: [&str; 12] = [
    "policy",
    "starting-policy",
    "no-rules-policy",
    "damaged-policy",
    "damaged-starting-policy",
    "damaged-no-rules-policy",
    "policy-pair-first",
    "policy-pair-second",
    "starting-pair-first",
    "starting-pair-second",
    "no-rules-pair-first",
    "no-rules-pair-second",
];

/// The policy file with this number, of each kind in turn, and what makes it again.
pub fn policy_file(number: u64) -> (Vec<u8>, String) {
    let kind = POLICY_KINDS[number as usize % POLICY_KINDS.len()];
    let bytes = generate::one(kind, number).expect("a kind that the generator has");
    (bytes, format!("generate {kind} {number}"))
}

/// How often each sort of input was met.
#[derive(Default)]
pub struct Met(std::collections::BTreeMap<String, usize>);

impl Met {
    /// Notes a sort, also where it was not met.
    pub fn note(&mut self, sort: &str, is_met: bool) {
        *self.0.entry(sort.to_string()).or_default() += usize::from(is_met);
    }

    /// Checks that each sort noted was met at least so often.
    pub fn each_at_least(&self, least: usize) {
        let rare: Vec<_> = self.0.iter().filter(|(_, &met)| met < least).collect();
        assert!(rare.is_empty(), "too rare: {rare:?}");
    }
}
