//! Drawing a policy of version 1 from given measures: how many of each part, and
//! how often each choice is taken.

use super::random::Random;
use crate::frame::{Frame, MOST_VALUES};
use crate::policy::{Change, Policy, Rule, Test, Version};

/// How the levels of the rules are chosen.
#[derive(Clone, Copy)]
pub(super) enum Levels {
    /// All levels are equal.
    Equal,
    /// No two levels are equal.
    Different,
    /// Three levels are shared by all rules.
    Few,
}

/// The three ways to choose levels, each as likely.
pub(super) const ANY_LEVELS: [Levels; 3] = [Levels::Equal, Levels::Different, Levels::Few];

/// The measures from which a policy is drawn. Shares are out of eight.
pub(super) struct Shape {
    pub(super) events: usize,
    pub(super) counts: Vec<usize>,
    /// For each variable, the greatest number of its tests.
    pub(super) greatest: Vec<u8>,
    pub(super) rules: usize,
    /// The share of rules that accept.
    pub(super) accepting: usize,
    /// The share of masks that let every value through.
    pub(super) full_masks: usize,
    /// The share of variables that a rule tests.
    pub(super) tested: usize,
    /// The share of changes that add one.
    pub(super) adding: usize,
    /// The share of changes that set to zero.
    pub(super) zeroing: usize,
    pub(super) levels: Levels,
}

/// Draws a policy of a shape.
pub(super) fn from_shape(shape: &Shape, random: &mut Random) -> Policy {
    let mut rules: Vec<Rule> = Vec::new();
    for _ in 0..shape.rules {
        let rule = draw_rule(shape, rules.last(), random);
        rules.push(rule);
    }
    set_levels(&mut rules, shape.levels, random);
    Policy {
        version: Version::One,
        frame: Frame {
            events: shape.events,
            counts: shape.counts.clone(),
        },
        variables: shape.greatest.len(),
        starts: vec![0; shape.greatest.len()],
        rules,
        events: (0..shape.events)
            .map(|_| draw_changes(shape, random))
            .collect(),
    }
}

fn draw_rule(shape: &Shape, previous: Option<&Rule>, random: &mut Random) -> Rule {
    let masks = match previous {
        Some(rule) if random.chance(1, 4) => rule.masks.clone(),
        _ => shape
            .counts
            .iter()
            .map(|&count| {
                if random.chance(shape.full_masks, 8) {
                    full_mask(count)
                } else {
                    draw_mask(count, random)
                }
            })
            .collect(),
    };
    Rule {
        masks,
        accepts: random.chance(shape.accepting, 8),
        level: 0,
        tests: shape
            .greatest
            .iter()
            .map(|&most| draw_test(shape, most, random))
            .collect(),
        changes: draw_changes(shape, random),
    }
}

fn draw_test(shape: &Shape, most: u8, random: &mut Random) -> Test {
    let mut test = Test::default();
    if most == 0 || !random.chance(shape.tested, 8) {
        return test;
    }
    let number = |random: &mut Random| {
        Some(if random.chance(1, 3) {
            most
        } else {
            random.between(1, most as usize) as u8
        })
    };
    match random.below(5) {
        0 | 1 => test.at_least = number(random),
        2 | 3 => test.below = number(random),
        _ => {
            test.at_least = number(random);
            test.below = number(random);
        }
    }
    test
}

/// A change for each variable.
pub(super) fn draw_changes(shape: &Shape, random: &mut Random) -> Vec<Change> {
    shape
        .greatest
        .iter()
        .map(|_| draw_change(random, shape.adding, shape.zeroing))
        .collect()
}

/// One change; the shares of adding and zeroing are out of eight.
pub(super) fn draw_change(random: &mut Random, adding: usize, zeroing: usize) -> Change {
    let sort = random.below(8);
    if sort < adding {
        Change::AddOne
    } else if sort < adding + zeroing {
        Change::SetToZero
    } else {
        Change::Keep
    }
}

fn set_levels(rules: &mut [Rule], levels: Levels, random: &mut Random) {
    let mut different: Vec<u8> = (0..=255).collect();
    random.shuffle(&mut different);
    let few: Vec<u8> = different[..3].to_vec();
    for (place, rule) in rules.iter_mut().enumerate() {
        rule.level = match levels {
            Levels::Equal => different[0],
            Levels::Different => different[place],
            Levels::Few => *random.pick(&few),
        };
    }
}

/// Value counts with a product of at most `requests`.
pub(super) fn draw_counts(random: &mut Random, requests: usize) -> Vec<usize> {
    let fields = random.between(1, 4);
    let mut left = requests;
    let mut counts = Vec::new();
    for _ in 0..fields {
        let most = left.min(MOST_VALUES);
        let count = if random.chance(1, 2) {
            random.between(1, most)
        } else {
            most.min(2)
        };
        counts.push(count);
        left /= count;
    }
    counts
}

/// Greatest test numbers that allow at most `valuations` valuations.
pub(super) fn draw_greatest(random: &mut Random, valuations: usize) -> Vec<u8> {
    let variables = random.between(0, 4);
    let mut left = valuations;
    let mut greatest = Vec::new();
    for _ in 0..variables {
        let values = random.between(1, left);
        greatest.push(values as u8 - 1);
        left /= values;
    }
    random.shuffle(&mut greatest);
    greatest
}

/// The mask that lets every value through.
pub(super) fn full_mask(count: usize) -> u16 {
    ((1_u32 << count) - 1) as u16
}

/// A mask with at least one bit set.
pub(super) fn draw_mask(count: usize, random: &mut Random) -> u16 {
    let one = 1 << random.below(count);
    if random.chance(1, 3) {
        one
    } else {
        one | (random.below(1 << 16) as u16 & full_mask(count))
    }
}

/// A rule of level 0 with one field and one variable. The test is given as its
/// two bytes, where 0 means no such test.
pub(super) fn plain_rule(mask: u16, accepts: bool, test: [u8; 2], change: Change) -> Rule {
    let [at_least, below] = test.map(|byte| Some(byte).filter(|&byte| byte != 0));
    Rule {
        masks: vec![mask],
        accepts,
        level: 0,
        tests: vec![Test { at_least, below }],
        changes: vec![change],
    }
}

/// A policy of such rules, with one field and one variable.
pub(super) fn plain_policy(count: usize, rules: Vec<Rule>, events: Vec<Change>) -> Policy {
    Policy {
        version: Version::One,
        frame: Frame {
            events: events.len(),
            counts: vec![count],
        },
        variables: 1,
        starts: vec![0],
        rules,
        events: events.into_iter().map(|change| vec![change]).collect(),
    }
}
