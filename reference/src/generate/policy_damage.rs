//! Policy files with something wrong in them, so that each of the numbers 2 to
//! 11 occurs. Now and then a file stays legal.

use std::ops::Range;

use super::policies::{draw, spreading};
use super::random::Random;
use crate::frame::{MOST_EVENTS, MOST_FIELDS};
use crate::policy::{write, Change, Policy, Test, Version, MOST_RULES, MOST_VARIABLES};

/// Where the parts of a legal policy file stand.
pub(super) struct Places {
    fields: usize,
    variables: usize,
    /// The starting values, none in version 1.
    pub(super) starts: Range<usize>,
    rules: usize,
    first_rule: usize,
    rule_length: usize,
    first_event: usize,
}

impl Places {
    pub(super) fn of(policy: &Policy) -> Places {
        let fields = policy.frame.counts.len();
        let rule_length = 2 * fields + 2 + 3 * policy.variables;
        let first_rule = match policy.version {
            Version::One => 9 + fields,
            Version::Two => 9 + fields + policy.variables,
        };
        Places {
            fields,
            variables: policy.variables,
            starts: 9 + fields..first_rule,
            rules: policy.rules.len(),
            first_rule,
            rule_length,
            first_event: first_rule + policy.rules.len() * rule_length,
        }
    }

    fn some_rule(&self, random: &mut Random) -> usize {
        self.first_rule + random.below(self.rules) * self.rule_length
    }

    fn decision(&self, rule: usize) -> usize {
        rule + 2 * self.fields
    }

    fn variable(&self, rule: usize, variable: usize) -> usize {
        rule + 2 * self.fields + 2 + 3 * variable
    }
}

/// A policy file with one or more faults, usually turned down.
pub fn damaged_policy(seed: u64) -> Vec<u8> {
    let mut random = Random::new(seed, "damaged policy");
    match random.below(12) {
        0 => return write(&with_many_valuations(draw(&mut random), &mut random)),
        1 => return write(&with_size_outside(draw(&mut random), &mut random)),
        2 => return write(&spreading(random.between(7, 12) as u8, &mut random)),
        _ => {}
    }
    damaged(&draw(&mut random), &mut random)
}

/// The file of a policy with one to three faults.
pub(super) fn damaged(policy: &Policy, random: &mut Random) -> Vec<u8> {
    let places = Places::of(policy);
    let mut bytes = write(policy);
    let times = *random.pick(&[1, 1, 1, 2, 3]);
    // Faults that keep the length come first, so that all places still exist.
    for _ in 1..times {
        damage_inside(&mut bytes, &places, random);
    }
    if random.chance(3, 4) {
        damage_inside(&mut bytes, &places, random);
    } else {
        damage_length(&mut bytes, random);
    }
    bytes
}

pub(super) fn damage_length(bytes: &mut Vec<u8>, random: &mut Random) {
    match random.below(5) {
        0 => bytes.truncate(random.below(9)),
        1 => bytes.truncate(random.between(9, bytes.len())),
        2 => bytes.truncate(bytes.len() - 1),
        3 => bytes.push(random.byte()),
        _ => {
            let more = *random.pick(&[1, 7, 300, 1_100]);
            for _ in 0..more {
                bytes.push(random.byte());
            }
        }
    }
}

fn damage_inside(bytes: &mut [u8], places: &Places, random: &mut Random) {
    match random.below(10) {
        0 => bytes[random.below(3)] = random.byte(),
        1 => bytes[random.between(3, 4)] = random.byte(),
        2 => damage_sizes(bytes, random),
        3 => damage_counts(bytes, places, random),
        4 | 5 => damage_mask(bytes, places, random),
        6 | 7 => damage_value(bytes, places, random),
        8 => bytes[random.below(bytes.len())] = random.byte(),
        _ => bytes[random.below(bytes.len())] ^= 1 << random.below(8),
    }
}

/// A size just outside its range, 0 for the number of rules, or any byte.
fn damage_sizes(bytes: &mut [u8], random: &mut Random) {
    let (place, wrong) = *random.pick(&[(5, 9), (6, 0), (6, 5), (7, 5), (8, 0), (8, 33)]);
    bytes[place] = if random.chance(3, 4) {
        wrong
    } else {
        random.byte()
    };
}

/// A count just outside its range, or counts whose product may be too great.
pub(super) fn damage_counts(bytes: &mut [u8], places: &Places, random: &mut Random) {
    let counts = &mut bytes[9..9 + places.fields];
    if random.chance(1, 2) {
        counts[random.below(places.fields)] = *random.pick(&[0, 17, 255]);
    } else {
        counts.fill(*random.pick(&[3, 9, 16]));
    }
}

/// An empty mask, or one with a bit that may be too high.
pub(super) fn damage_mask(bytes: &mut [u8], places: &Places, random: &mut Random) {
    let field = random.below(places.fields);
    let count = bytes[9 + field].min(15);
    let place = places.some_rule(random) + 2 * field;
    let mask = if random.chance(1, 2) {
        0
    } else {
        u16::from_be_bytes([bytes[place], bytes[place + 1]]) | 1 << count
    };
    bytes[place..place + 2].copy_from_slice(&mask.to_be_bytes());
}

/// A decision, test or change just outside its values, or any byte.
pub(super) fn damage_value(bytes: &mut [u8], places: &Places, random: &mut Random) {
    let rule = places.some_rule(random);
    let (place, outside) = if places.variables == 0 || random.chance(1, 5) {
        (places.decision(rule), 2)
    } else if bytes.len() > places.first_event && random.chance(1, 4) {
        (random.between(places.first_event, bytes.len() - 1), 3)
    } else {
        let variable = places.variable(rule, random.below(places.variables));
        *random.pick(&[(variable, 64), (variable + 1, 64), (variable + 2, 3)])
    };
    bytes[place] = if random.chance(3, 4) {
        outside
    } else {
        random.byte()
    };
}

/// Tests so great that there are usually over 64 valuations.
pub(super) fn with_many_valuations(mut policy: Policy, random: &mut Random) -> Policy {
    while policy.variables < 2 {
        add_variable(&mut policy);
    }
    let (first, second) = *random.pick(&[(63, 1), (8, 8), (8, 7), (7, 7), (32, 1), (31, 1)]);
    let place = random.below(policy.rules.len());
    policy.rules[place].tests[0].at_least = Some(first);
    policy.rules[0].tests[1].below = Some(second);
    policy
}

/// One of the four sizes just outside its range, while the length fits it. Of
/// six files one has no rules instead, which is legal.
pub(super) fn with_size_outside(mut policy: Policy, random: &mut Random) -> Policy {
    match random.below(6) {
        0 => {
            let event = vec![Change::AddOne; policy.variables];
            policy.events.resize(MOST_EVENTS + 1, event);
            policy.frame.events = MOST_EVENTS + 1;
        }
        1 => {
            let rule = policy.rules[0].clone();
            policy.rules.resize(MOST_RULES + 1, rule);
        }
        2 => policy.rules.clear(),
        3 => {
            while policy.variables <= MOST_VARIABLES {
                add_variable(&mut policy);
            }
        }
        sort => {
            let fields = if sort == 4 { 0 } else { MOST_FIELDS + 1 };
            policy.frame.counts.resize(fields, 1);
            for rule in &mut policy.rules {
                rule.masks.resize(fields, 1);
            }
        }
    }
    policy
}

/// Adds a variable that no rule tests.
fn add_variable(policy: &mut Policy) {
    policy.variables += 1;
    policy.starts.push(0);
    for rule in &mut policy.rules {
        rule.tests.push(Test::default());
        rule.changes.push(Change::Keep);
    }
    for event in &mut policy.events {
        event.push(Change::AddOne);
    }
}
