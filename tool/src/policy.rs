//! A policy as data: what stands in a policy file of either version, read from
//! its bytes and written into them.

use crate::frame::Frame;
use crate::refusal::{judge_policy, Refusal};

/// The most variables.
pub const MOST_VARIABLES: usize = 4;
/// The most rules.
pub const MOST_RULES: usize = 32;
/// The greatest number that a variable is tested with, and the greatest starting value.
pub const MOST_NUMBER: u8 = 63;
/// The most valuations.
pub const MOST_VALUATIONS: usize = 64;
/// The bytes before the value counts.
pub const HEADER: usize = 9;

/// What a rule or an event does to a variable.
#[derive(Clone, Copy, Debug, PartialEq, Eq)]
pub enum Change {
    Nothing,
    AddOne,
    SetToZero,
}

/// What a rule asks of a variable; 0 is no such test.
#[derive(Clone, Copy, Debug, Default, PartialEq, Eq)]
pub struct Test {
    pub at_least: u8,
    pub below: u8,
}

/// One rule.
#[derive(Clone, Debug, PartialEq, Eq)]
pub struct Rule {
    /// For each field, the set of values that it lets through.
    pub masks: Vec<u16>,
    pub accepts: bool,
    pub level: u8,
    pub tests: Vec<Test>,
    pub changes: Vec<Change>,
}

/// What a policy file says.
#[derive(Clone, Debug, PartialEq, Eq)]
pub struct Policy {
    /// 1 or 2.
    pub version: u8,
    pub frame: Frame,
    /// For each variable, where it begins; zeros in version 1.
    pub starts: Vec<u8>,
    pub rules: Vec<Rule>,
    /// For each event, what it does to each variable.
    pub events: Vec<Vec<Change>>,
}

impl Change {
    /// The change that a byte stands for. A byte above 2 is refused before.
    fn of(byte: u8) -> Change {
        match byte {
            0 => Change::Nothing,
            1 => Change::AddOne,
            _ => Change::SetToZero,
        }
    }

    fn byte(self) -> u8 {
        match self {
            Change::Nothing => 0,
            Change::AddOne => 1,
            Change::SetToZero => 2,
        }
    }
}

/// Where the parts of a policy file are, by the numbers of its header.
#[derive(Clone, Copy, Debug)]
pub struct Layout {
    pub version: u8,
    pub events: usize,
    pub fields: usize,
    pub variables: usize,
    pub rules: usize,
}

impl Layout {
    /// The layout that the header says, of at least nine bytes.
    pub fn of(bytes: &[u8]) -> Layout {
        Layout {
            version: bytes[4],
            events: usize::from(bytes[5]),
            fields: usize::from(bytes[6]),
            variables: usize::from(bytes[7]),
            rules: usize::from(bytes[8]),
        }
    }

    /// Where the starting values begin, which version 1 has not.
    pub fn starts_at(&self) -> usize {
        HEADER + self.fields
    }

    pub fn rule_length(&self) -> usize {
        2 * self.fields + 2 + 3 * self.variables
    }

    pub fn rule_at(&self, rule: usize) -> usize {
        let starts = if self.version == 2 { self.variables } else { 0 };
        self.starts_at() + starts + rule * self.rule_length()
    }

    pub fn event_at(&self, event: usize) -> usize {
        self.rule_at(self.rules) + event * self.variables
    }

    pub fn length(&self) -> usize {
        self.event_at(self.events)
    }
}

impl Policy {
    /// Reads a policy file; rows 2 to 9 and 17 refuse one.
    pub fn decode(bytes: &[u8]) -> Result<Policy, Refusal> {
        match judge_policy(bytes) {
            Some(refusal) if refusal.number != 10 => Err(refusal),
            _ => Ok(Policy::of(bytes)),
        }
    }

    /// The policy of a file that rows 2 to 9 and 17 let pass.
    pub fn of(bytes: &[u8]) -> Policy {
        let layout = Layout::of(bytes);
        let starts = match layout.version {
            2 => bytes[layout.starts_at()..layout.rule_at(0)].to_vec(),
            _ => vec![0; layout.variables],
        };
        let changes = |event: usize| {
            let at = layout.event_at(event);
            let record = &bytes[at..at + layout.variables];
            record.iter().map(|&byte| Change::of(byte)).collect()
        };
        Policy {
            version: layout.version,
            frame: Frame {
                events: layout.events,
                counts: bytes[HEADER..layout.starts_at()].iter().map(|&count| usize::from(count)).collect(),
            },
            starts,
            rules: (0..layout.rules).map(|rule| decode_rule(bytes, &layout, rule)).collect(),
            events: (0..layout.events).map(changes).collect(),
        }
    }

    /// The bytes of the policy file.
    pub fn encode(&self) -> Vec<u8> {
        let mut bytes = b"POL".to_vec();
        let sizes = [self.events.len(), self.frame.counts.len(), self.starts.len(), self.rules.len()];
        bytes.extend([0, self.version]);
        bytes.extend(sizes.iter().chain(&self.frame.counts).map(|&number| number as u8));
        if self.version == 2 {
            bytes.extend(&self.starts);
        }
        for rule in &self.rules {
            encode_rule(rule, &mut bytes);
        }
        for changes in &self.events {
            bytes.extend(changes.iter().map(|change| change.byte()));
        }
        bytes
    }

    /// For each variable, the greatest number that a rule tests it with.
    pub fn bounds(&self) -> Vec<u8> {
        let bound = |variable: usize| {
            let tests = self.rules.iter().map(|rule| rule.tests[variable]);
            tests.map(|test| test.at_least.max(test.below)).max().unwrap_or(0)
        };
        (0..self.starts.len()).map(bound).collect()
    }

    /// The same policy without some of its rules.
    pub fn without(&self, left_out: &[usize]) -> Policy {
        let mut policy = self.clone();
        let mut number = 0;
        policy.rules.retain(|_| {
            number += 1;
            !left_out.contains(&(number - 1))
        });
        policy
    }
}

fn decode_rule(bytes: &[u8], layout: &Layout, rule: usize) -> Rule {
    let at = layout.rule_at(rule);
    let record = &bytes[at..at + layout.rule_length()];
    let (masks, rest) = record.split_at(2 * layout.fields);
    let variables = rest[2..].chunks_exact(3);
    Rule {
        masks: masks.chunks_exact(2).map(|pair| u16::from_be_bytes([pair[0], pair[1]])).collect(),
        accepts: rest[0] == 1,
        level: rest[1],
        tests: variables.clone().map(|part| Test { at_least: part[0], below: part[1] }).collect(),
        changes: variables.map(|part| Change::of(part[2])).collect(),
    }
}

fn encode_rule(rule: &Rule, bytes: &mut Vec<u8>) {
    for mask in &rule.masks {
        bytes.extend(mask.to_be_bytes());
    }
    bytes.extend([u8::from(rule.accepts), rule.level]);
    for (test, change) in rule.tests.iter().zip(&rule.changes) {
        bytes.extend([test.at_least, test.below, change.byte()]);
    }
}
