//! Policies of version 2, with starting values at 0, at the bound, near it and
//! above it, and pairs of policies of which at least one is of version 2.

use super::policies::{draw_any, draw_by};
use super::random::Random;
use super::variation::vary;
use crate::policy::{write, Policy, Version, MOST_START};
use crate::situation::bounds;

/// A policy file of version 2, usually accepted.
pub fn starting_policy(seed: u64) -> Vec<u8> {
    write(&draw_starting(&mut Random::new(seed, "starting policy")))
}

/// Two policy files of one frame, one of each version or both of version 2,
/// usually both accepted. Their books are often equal.
pub fn starting_pair(seed: u64) -> (Vec<u8>, Vec<u8>) {
    let mut random = Random::new(seed, "starting pair");
    let (first, second) = draw_pair(&mut random);
    if random.chance(1, 2) {
        (write(&second), write(&first))
    } else {
        (write(&first), write(&second))
    }
}

/// Draws a policy of version 2. Now and then it has no variables, so that the
/// rules follow the value counts as in version 1.
pub(super) fn draw_starting(random: &mut Random) -> Policy {
    let draw_one = |random: &mut Random| with_starts(draw_any(random), random);
    if random.chance(1, 16) {
        return without_variables(draw_one(random));
    }
    draw_by(draw_one, random)
}

/// The policy in version 2. Now and then all starting values are 0.
pub(super) fn with_starts(mut policy: Policy, random: &mut Random) -> Policy {
    policy.version = Version::Two;
    let bounds = bounds(&policy);
    let all_zeros = random.chance(1, 20);
    for (start, &bound) in policy.starts.iter_mut().zip(&bounds) {
        *start = match all_zeros {
            true => 0,
            false => draw_start(bound, random),
        };
    }
    policy
}

/// A starting value for a variable with this bound.
fn draw_start(bound: u8, random: &mut Random) -> u8 {
    match random.below(12) {
        0 => 0,
        1..=3 => bound,
        4 => bound.saturating_sub(1),
        5 | 6 => (bound + 1).min(MOST_START),
        7 => draw_above(bound, random),
        8 => MOST_START,
        _ => random.between(0, bound.into()) as u8,
    }
}

/// A starting value above the bound; 63 if that is the bound.
fn draw_above(bound: u8, random: &mut Random) -> u8 {
    let least = (bound + 1).min(MOST_START);
    random.between(least.into(), MOST_START.into()) as u8
}

fn without_variables(mut policy: Policy) -> Policy {
    policy.variables = 0;
    policy.starts.clear();
    for rule in &mut policy.rules {
        rule.tests.clear();
        rule.changes.clear();
    }
    policy.events.fill(Vec::new());
    policy
}

/// A policy of version 2 and one of the same frame. The first two ways give
/// equal books.
fn draw_pair(random: &mut Random) -> (Policy, Policy) {
    let mut first = draw_starting(random);
    let second = match random.below(10) {
        0 | 1 => {
            first.starts.fill(0);
            in_version_1(&first)
        }
        2 | 3 => {
            first = with_start_at_bound(first, random);
            with_starts_above(&first, random)
        }
        4 | 5 => in_version_1(&first),
        6..=8 => with_starts(first.clone(), random),
        _ => vary(&first, random),
    };
    (first, second)
}

/// The policy without its starting values.
fn in_version_1(policy: &Policy) -> Policy {
    Policy {
        version: Version::One,
        starts: vec![0; policy.variables],
        ..policy.clone()
    }
}

/// The policy with no start above its bound, and at least one start at it.
fn with_start_at_bound(mut policy: Policy, random: &mut Random) -> Policy {
    let bounds = bounds(&policy);
    let chosen = random.below(policy.variables.max(1));
    for (variable, start) in policy.starts.iter_mut().enumerate() {
        if variable == chosen || *start > bounds[variable] {
            *start = bounds[variable];
        }
    }
    policy
}

/// The policy with every start that is at its bound put above it.
fn with_starts_above(policy: &Policy, random: &mut Random) -> Policy {
    let mut raised = policy.clone();
    for (start, &bound) in raised.starts.iter_mut().zip(&bounds(policy)) {
        if *start == bound {
            *start = draw_above(bound, random);
        }
    }
    raised
}
