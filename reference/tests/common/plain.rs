//! The steps of a policy taken straight from the bytes of its file, without
//! the decoded rules of the library.

use std::collections::BTreeSet;

/// A set of valuations, each with one byte for every variable.
pub type Set = BTreeSet<Vec<u8>>;

/// A policy file of either version that is accepted.
pub struct PlainPolicy<'a> {
    bytes: &'a [u8],
    events: usize,
    fields: usize,
    variables: usize,
    rules: usize,
}

impl<'a> PlainPolicy<'a> {
    /// Takes the sizes from the header.
    pub fn new(bytes: &'a [u8]) -> PlainPolicy<'a> {
        let size = |place: usize| bytes[place] as usize;
        PlainPolicy {
            bytes,
            events: size(5),
            fields: size(6),
            variables: size(7),
            rules: size(8),
        }
    }

    /// The start: zeros in version 1; in version 2 what stands after the value
    /// counts, no greater than the bounds.
    pub fn start(&self) -> Set {
        let value = |variable: usize| match self.bytes[4] {
            1 => 0,
            _ => self.bytes[9 + self.fields + variable].min(self.bound(variable)),
        };
        Set::from([(0..self.variables).map(value).collect()])
    }

    /// The number of codes.
    pub fn width(&self) -> usize {
        let counts = &self.bytes[9..9 + self.fields];
        self.events
            + 2 * counts
                .iter()
                .map(|&count| count as usize)
                .product::<usize>()
    }

    /// The set after a code; empty if the step is not possible.
    pub fn after(&self, set: &Set, code: usize) -> Set {
        if code < self.events {
            let first = self.bytes.len() - (self.events - code) * self.variables;
            let changes = &self.bytes[first..first + self.variables];
            return set
                .iter()
                .map(|valuation| self.changed(valuation, changes))
                .collect();
        }
        let (request, decision) = ((code - self.events) / 2, 1 - (code - self.events) % 2);
        let mut reached = Set::new();
        for valuation in set {
            for rule in 0..self.rules {
                if self.decision(rule) == decision as u8 && self.applies(rule, request, valuation) {
                    let changes: Vec<u8> = self.variable_bytes(rule, 2).collect();
                    reached.insert(self.changed(valuation, &changes));
                }
            }
        }
        reached
    }

    fn rule(&self, rule: usize) -> &[u8] {
        let length = 2 * self.fields + 2 + 3 * self.variables;
        let starts = match self.bytes[4] {
            1 => 0,
            _ => self.variables,
        };
        let first = 9 + self.fields + starts + rule * length;
        &self.bytes[first..first + length]
    }

    fn decision(&self, rule: usize) -> u8 {
        self.rule(rule)[2 * self.fields]
    }

    fn level(&self, rule: usize) -> u8 {
        self.rule(rule)[2 * self.fields + 1]
    }

    /// The ge bytes (part 0), lt bytes (1) or change bytes (2) of a rule.
    fn variable_bytes(&self, rule: usize, part: usize) -> impl Iterator<Item = u8> + '_ {
        let record = self.rule(rule);
        (0..self.variables).map(move |variable| record[2 * self.fields + 2 + 3 * variable + part])
    }

    fn applies(&self, rule: usize, request: usize, valuation: &[u8]) -> bool {
        self.fits(rule, request, valuation)
            && (0..self.rules).all(|other| {
                self.level(other) <= self.level(rule) || !self.fits(other, request, valuation)
            })
    }

    fn fits(&self, rule: usize, request: usize, valuation: &[u8]) -> bool {
        let mut rest = request;
        for field in (0..self.fields).rev() {
            let count = self.bytes[9 + field] as usize;
            let value = rest % count;
            rest /= count;
            let mask_byte = self.rule(rule)[2 * field + usize::from(value < 8)];
            if mask_byte & (1 << (value % 8)) == 0 {
                return false;
            }
        }
        let at_least = self
            .variable_bytes(rule, 0)
            .zip(valuation)
            .all(|(ge, &value)| value >= ge);
        let mut below = self.variable_bytes(rule, 1).zip(valuation);
        at_least && below.all(|(lt, &value)| lt == 0 || value < lt)
    }

    fn bound(&self, variable: usize) -> u8 {
        let tests = |rule: usize| [0, 1].map(|part| self.variable_bytes(rule, part).nth(variable));
        (0..self.rules).flat_map(tests).flatten().max().unwrap_or(0)
    }

    fn changed(&self, valuation: &[u8], changes: &[u8]) -> Vec<u8> {
        let change = |(variable, (&value, &change)): (usize, (&u8, &u8))| match change {
            1 if value < self.bound(variable) => value + 1,
            2 => 0,
            _ => value,
        };
        valuation
            .iter()
            .zip(changes)
            .enumerate()
            .map(change)
            .collect()
    }
}
