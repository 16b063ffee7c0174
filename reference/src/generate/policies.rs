//! Policies that are usually accepted, of many shapes, of version 1, with at
//! least one rule.

use super::random::Random;
use super::shape::{
    draw_change, draw_changes, draw_counts, draw_greatest, draw_mask, from_shape, full_mask,
    plain_policy, plain_rule, Levels, Shape, ANY_LEVELS,
};
use crate::book::build;
use crate::policy::{write, Change, Policy, Rule, Test};

/// A policy file, usually accepted.
pub fn policy(seed: u64) -> Vec<u8> {
    write(&draw(&mut Random::new(seed, "policy")))
}

/// Draws a policy. Most of those with only one state are put aside.
pub(super) fn draw(random: &mut Random) -> Policy {
    draw_by(draw_any, random)
}

/// Draws a policy by a way to draw one. Most of those with only one state are
/// put aside.
pub(super) fn draw_by(draw_one: fn(&mut Random) -> Policy, random: &mut Random) -> Policy {
    for _ in 0..3 {
        let policy = draw_one(random);
        let wanted = match build(&write(&policy)) {
            Ok(book) => book.states() > 1,
            Err(_) => random.chance(1, 2),
        };
        if wanted {
            return policy;
        }
    }
    draw_one(random)
}

/// Draws one policy of one of the shapes.
pub(super) fn draw_any(random: &mut Random) -> Policy {
    match random.below(20) {
        0..=4 => from_shape(&mixed(random), random),
        5 | 6 => from_shape(&small(random), random),
        7..=9 => from_shape(&counting(random), random),
        10..=12 => from_shape(&crowded(random), random),
        13 => from_shape(&full(random), random),
        14 | 15 => closing(random),
        16 | 17 => spreading(random.between(2, 6) as u8, random),
        18 => brink(random),
        _ => answering(random),
    }
}

/// Anything within the ranges.
fn mixed(random: &mut Random) -> Shape {
    let valuations = *random.pick(&[1, 4, 9, 16, 16, 32, 64]);
    let most_rules = *random.pick(&[6, 12, 32]);
    let rules = random.between(1, most_rules);
    Shape {
        events: *random.pick(&[0, 0, 1, 1, 2, 2, 3, 4, 5, 6, 7, 8]),
        counts: draw_counts(random, 64),
        greatest: draw_greatest(random, valuations),
        rules,
        accepting: random.between(1, 7),
        full_masks: random.between(0, 6),
        tested: random.between(1, 6),
        adding: random.between(0, 5),
        zeroing: random.between(0, 3),
        levels: *random.pick(&ANY_LEVELS),
    }
}

/// Few codes, few rules and few valuations.
fn small(random: &mut Random) -> Shape {
    Shape {
        events: random.between(0, 2),
        counts: draw_counts(random, 2),
        greatest: draw_greatest(random, 6),
        rules: random.between(1, 5),
        accepting: 5,
        full_masks: 3,
        tested: 5,
        adding: 3,
        zeroing: 1,
        levels: *random.pick(&ANY_LEVELS),
    }
}

/// One rule at a time and many valuations, so each situation has few valuations.
fn counting(random: &mut Random) -> Shape {
    let choices: [&[u8]; 7] = [&[63], &[40], &[20], &[7, 7], &[15, 3], &[31, 1], &[3, 3, 3]];
    let greatest = random.pick(&choices).to_vec();
    Shape {
        events: random.between(0, 4),
        counts: draw_counts(random, 12),
        greatest,
        rules: random.between(3, 16),
        accepting: 5,
        full_masks: 3,
        tested: 4,
        adding: 5,
        zeroing: 1,
        levels: if random.chance(3, 4) {
            Levels::Different
        } else {
            Levels::Few
        },
    }
}

/// Several rules at a time and few valuations, so there are many sets of them.
fn crowded(random: &mut Random) -> Shape {
    let choices: [&[u8]; 8] = [&[3], &[4], &[5], &[6], &[1, 3], &[2, 2], &[1, 1, 1], &[7]];
    let greatest = random.pick(&choices).to_vec();
    Shape {
        events: random.between(0, 3),
        counts: draw_counts(random, 16),
        greatest,
        rules: random.between(4, 12),
        accepting: random.between(3, 6),
        full_masks: 3,
        tested: random.between(3, 7),
        adding: random.between(2, 4),
        zeroing: 1,
        levels: *random.pick(&ANY_LEVELS),
    }
}

/// All sizes at their greatest.
fn full(random: &mut Random) -> Shape {
    let choices: [&[usize]; 9] = [
        &[8, 8],
        &[16, 4],
        &[4, 16],
        &[4, 4, 4],
        &[2, 2, 4, 4],
        &[16, 2, 2],
        &[2, 2, 2, 8],
        &[16, 1, 4],
        &[1, 8, 8],
    ];
    let counts = random.pick(&choices).to_vec();
    let valuations = *random.pick(&[4, 8, 16, 64]);
    Shape {
        events: 8,
        counts,
        greatest: draw_greatest(random, valuations),
        rules: *random.pick(&[8, 16, 32]),
        accepting: 4,
        full_masks: 2,
        tested: 4,
        adding: 3,
        zeroing: 2,
        levels: *random.pick(&ANY_LEVELS),
    }
}

/// Every rule needs the first variable below a number and only resets by rules
/// or events can bring it back, so blocked policies are frequent.
fn closing(random: &mut Random) -> Policy {
    let mut shape = small(random);
    shape.greatest = vec![random.between(1, 9) as u8];
    if random.chance(1, 2) {
        shape.greatest.push(random.between(1, 3) as u8);
    }
    shape.counts = draw_counts(random, 6);
    shape.events = random.between(0, 3);
    let resets = random.chance(1, 3);
    let mut policy = from_shape(&shape, random);
    for rule in &mut policy.rules {
        rule.tests[0].below = Some(random.between(1, shape.greatest[0] as usize) as u8);
        rule.changes[0] = if random.chance(3, 4) {
            Change::AddOne
        } else {
            Change::Keep
        };
    }
    for event in &mut policy.events {
        if !resets && event[0] == Change::SetToZero {
            event[0] = Change::Keep;
        }
    }
    policy
}

/// Rules that keep and rules that add apply together, so the situations are
/// many sets of values up to `top`; a rejecting rule tells some of them apart.
pub(super) fn spreading(top: u8, random: &mut Random) -> Policy {
    let requests = random.between(2, 5);
    let all = full_mask(requests);
    let some = draw_mask(requests, random);
    let mut rules = vec![
        plain_rule(all, true, [0, 1], Change::Keep),
        plain_rule(some, true, [0, 1], Change::AddOne),
        plain_rule(all, true, [1, top], Change::AddOne),
    ];
    if random.chance(3, 4) {
        let mask = draw_mask(requests, random);
        rules.push(plain_rule(mask, false, [top, 0], Change::Keep));
    }
    for _ in 0..random.below(3) {
        let (mask, accepts) = (draw_mask(requests, random), random.chance(1, 2));
        let at_least = random.below(top as usize + 1) as u8;
        let change = draw_change(random, 2, 4);
        rules.push(plain_rule(mask, accepts, [at_least, 0], change));
    }
    let events = draw_events(random, 2);
    plain_policy(requests, rules, events)
}

/// With top 63 exactly 127 situations, all told apart. A further rule may lead
/// to 128 or more.
fn brink(random: &mut Random) -> Policy {
    let top = random.between(61, 63) as u8;
    let mut rules = vec![
        plain_rule(1, true, [0, 0], Change::AddOne),
        plain_rule(2, true, [0, 1], Change::Keep),
        plain_rule(2, true, [0, 1], Change::AddOne),
        plain_rule(1, false, [top - 1, top], Change::Keep),
        plain_rule(2, false, [top, 0], Change::Keep),
    ];
    if random.chance(1, 2) {
        let test = [random.below(63) as u8, random.below(64) as u8];
        let change = draw_change(random, 1, 3);
        rules.push(plain_rule(2, random.chance(1, 2), test, change));
    }
    let events = draw_events(random, 0);
    plain_policy(2, rules, events)
}

/// Up to two events for a policy with one variable.
fn draw_events(random: &mut Random, adding: usize) -> Vec<Change> {
    (0..random.below(3))
        .map(|_| draw_change(random, adding, 4))
        .collect()
}

/// A policy in which a rule of the lowest level answers every request.
fn answering(random: &mut Random) -> Policy {
    let shape = Shape {
        rules: random.between(1, 12),
        ..mixed(random)
    };
    let mut policy = from_shape(&shape, random);
    for rule in &mut policy.rules {
        rule.level = rule.level.saturating_add(1);
    }
    policy.rules.push(Rule {
        masks: shape.counts.iter().map(|&count| full_mask(count)).collect(),
        accepts: random.chance(1, 2),
        level: 0,
        tests: vec![Test::default(); shape.greatest.len()],
        changes: draw_changes(&shape, random),
    });
    policy
}
