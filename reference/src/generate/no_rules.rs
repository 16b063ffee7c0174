//! Policies without rules, of either version, and pairs in which at least one
//! policy has no rules.

use super::random::Random;
use super::shape::{draw_change, draw_counts, draw_mask};
use crate::frame::{Frame, MOST_EVENTS, MOST_FIELDS};
use crate::policy::{
    write, Change, Policy, Rule, Test, Version, MOST_START, MOST_TEST, MOST_VARIABLES,
};

/// A policy file without rules, always accepted.
pub fn no_rules_policy(seed: u64) -> Vec<u8> {
    write(&draw(&mut Random::new(seed, "no rules")))
}

/// Two policy files, each accepted and at least one without rules. Of three
/// pairs two have equal books.
pub fn no_rules_pair(seed: u64) -> (Vec<u8>, Vec<u8>) {
    let mut random = Random::new(seed, "no rules pair");
    let mut pair = draw_pair(&mut random);
    random.shuffle(&mut pair);
    let [first, second] = pair.map(|policy| write(&policy));
    (first, second)
}

/// Draws a policy without rules.
pub(super) fn draw(random: &mut Random) -> Policy {
    let frame = draw_frame(random);
    draw_of(&frame, random)
}

/// Any frame; often one with 64 requests or 16 values, or with one request.
pub(super) fn draw_frame(random: &mut Random) -> Frame {
    let far: [&[usize]; 12] = [
        &[1],
        &[16],
        &[8, 8],
        &[16, 4],
        &[4, 16],
        &[4, 4, 4],
        &[1, 8, 8],
        &[16, 1, 4],
        &[2, 2, 4, 4],
        &[4, 2, 4, 2],
        &[1, 1, 1, 1],
        &[1, 1, 4, 16],
    ];
    Frame {
        events: *random.pick(&[0, 0, 1, 2, 3, 4, 5, 6, 7, 8, 8]),
        counts: match random.chance(1, 2) {
            true => random.pick(&far).to_vec(),
            false => draw_counts(random, 64),
        },
    }
}

/// Draws a policy without rules of this frame.
fn draw_of(frame: &Frame, random: &mut Random) -> Policy {
    let variables = random.between(0, MOST_VARIABLES);
    draw_sized(frame, variables, random)
}

/// Draws one with so many variables.
pub(super) fn draw_sized(frame: &Frame, variables: usize, random: &mut Random) -> Policy {
    let version = *random.pick(&[Version::One, Version::Two]);
    let start = |random: &mut Random| match version {
        Version::One => 0,
        Version::Two => draw_start(random),
    };
    Policy {
        version,
        frame: frame.clone(),
        variables,
        starts: (0..variables).map(|_| start(random)).collect(),
        rules: vec![],
        events: (0..frame.events)
            .map(|_| (0..variables).map(|_| draw_change(random, 3, 2)).collect())
            .collect(),
    }
}

/// A starting value. Without rules every bound is 0, so all but 0 are above it.
fn draw_start(random: &mut Random) -> u8 {
    match random.below(6) {
        0 => 0,
        1 => 1,
        2 | 3 => MOST_START,
        _ => random.between(0, MOST_START.into()) as u8,
    }
}

/// A policy without rules and another policy. The first two ways give equal
/// books, the last a book of another frame.
fn draw_pair(random: &mut Random) -> [Policy; 2] {
    let first = draw(random);
    let second = match random.below(12) {
        0..=5 => draw_of(&first.frame, random),
        6 | 7 => never_answering(&first.frame, random),
        8 | 9 => answering(&first.frame, random),
        _ => {
            let frame = other_frame(&first.frame, random);
            draw_of(&frame, random)
        }
    };
    [first, second]
}

/// A policy of this frame with one to three rules, each of which contradicts
/// itself in its tests of one variable, the same in all. Events may change that
/// variable up to its bound, so there are often several situations, all alike.
fn never_answering(frame: &Frame, random: &mut Random) -> Policy {
    let variables = random.between(1, MOST_VARIABLES);
    let mut policy = draw_sized(frame, variables, random);
    let tested = random.below(variables);
    for _ in 0..random.between(1, 3) {
        let mut rule = draw_rule(&policy, random);
        let at_least = random.between(1, MOST_TEST.into());
        rule.tests[tested] = Test {
            at_least: Some(at_least as u8),
            below: Some(random.between(1, at_least) as u8),
        };
        policy.rules.push(rule);
    }
    policy
}

/// A policy of this frame with one rule that applies: without tests, or, where
/// there is an event and a variable, only once the event has added enough.
fn answering(frame: &Frame, random: &mut Random) -> Policy {
    let mut policy = draw_of(frame, random);
    let mut rule = draw_rule(&policy, random);
    if frame.events > 0 && policy.variables > 0 && random.chance(2, 3) {
        let (event, variable) = (random.below(frame.events), random.below(policy.variables));
        rule.tests[variable].at_least = Some(random.between(1, 5) as u8);
        policy.events[event][variable] = Change::AddOne;
    }
    policy.rules.push(rule);
    policy
}

/// A rule without tests.
fn draw_rule(policy: &Policy, random: &mut Random) -> Rule {
    let counts = &policy.frame.counts;
    Rule {
        masks: counts
            .iter()
            .map(|&count| draw_mask(count, random))
            .collect(),
        accepts: random.chance(1, 2),
        level: random.byte(),
        tests: vec![Test::default(); policy.variables],
        changes: (0..policy.variables)
            .map(|_| draw_change(random, 3, 2))
            .collect(),
    }
}

/// Another frame: with one more field, of one value, or with the counts in another
/// order, so that the rows of the book are as long; any; or with other events.
fn other_frame(frame: &Frame, random: &mut Random) -> Frame {
    let mut other = frame.clone();
    match random.below(4) {
        0 if frame.counts.len() < MOST_FIELDS => {
            let place = random.below(frame.counts.len() + 1);
            other.counts.insert(place, 1);
        }
        1 => other.counts.reverse(),
        2 => other = draw_frame(random),
        _ => {}
    }
    if other == *frame {
        other.events = (frame.events + 1) % (MOST_EVENTS + 1);
    }
    other
}
