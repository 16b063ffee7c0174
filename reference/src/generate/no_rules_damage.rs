//! Policy files without rules with something wrong in them, so that each of the
//! numbers 2 to 7, 17 and 9 occurs, and two of them at once. 8, 10 and 11 need a
//! rule and never occur. Now and then a file stays legal.

use super::no_rules::{draw, draw_frame, draw_sized};
use super::policy_damage::{damage_counts, damage_length, Places};
use super::random::Random;
use super::start_damage::damage_start;
use crate::frame::{MOST_EVENTS, MOST_FIELDS};
use crate::policy::{write, Policy, MOST_RULES, MOST_VARIABLES};

/// A policy file without rules with one or more faults, usually turned down.
pub fn damaged_no_rules_policy(seed: u64) -> Vec<u8> {
    let mut random = Random::new(seed, "damaged no rules");
    match random.below(12) {
        0 => write(&with_size_outside(&mut random)),
        1 | 2 => with_rules_said(&draw(&mut random), &mut random),
        3 => with_rule_unsaid(&draw(&mut random), &mut random),
        _ => damaged(&draw(&mut random), &mut random),
    }
}

/// E, F or P just outside its range, while the length fits it.
fn with_size_outside(random: &mut Random) -> Policy {
    let mut frame = draw_frame(random);
    let mut variables = random.between(0, MOST_VARIABLES);
    match random.below(4) {
        0 => frame.events = MOST_EVENTS + 1,
        1 => frame.counts.clear(),
        2 => frame.counts.resize(MOST_FIELDS + 1, 1),
        _ => variables = MOST_VARIABLES + 1,
    }
    draw_sized(&frame, variables, random)
}

/// A header that says rules, while the length is that of none; half of the files
/// have another fault after the header too. The other sizes stay, since the length
/// could fit others.
fn with_rules_said(policy: &Policy, random: &mut Random) -> Vec<u8> {
    let mut bytes = write(policy);
    bytes[8] = match random.chance(3, 4) {
        true => *random.pick(&[1, MOST_RULES as u8, MOST_RULES as u8 + 1]),
        false => random.between(1, 255) as u8,
    };
    if random.chance(1, 2) {
        damage_rest(&mut bytes, policy, random);
    }
    bytes
}

/// The record of a rule in a file whose header says none.
fn with_rule_unsaid(policy: &Policy, random: &mut Random) -> Vec<u8> {
    let mut bytes = write(policy);
    let fields = policy.frame.counts.len();
    let masks = [0, 1].repeat(fields);
    let rule = [masks, vec![1, 0], vec![0; 3 * policy.variables]].concat();
    let place = Places::of(policy).starts.end;
    bytes.splice(place..place, rule);
    if random.chance(1, 4) {
        damage_rest(&mut bytes, policy, random);
    }
    bytes
}

/// One to three faults.
fn damaged(policy: &Policy, random: &mut Random) -> Vec<u8> {
    let mut bytes = write(policy);
    let times = *random.pick(&[1, 1, 2, 2, 3]);
    // Faults that keep the length come first, so that all places still exist.
    for _ in 1..times {
        damage_inside(&mut bytes, policy, random);
    }
    match random.chance(3, 4) {
        true => damage_inside(&mut bytes, policy, random),
        false => damage_length(&mut bytes, random),
    }
    bytes
}

fn damage_inside(bytes: &mut [u8], policy: &Policy, random: &mut Random) {
    match random.chance(1, 4) {
        true => damage_header(bytes, random),
        false => damage_rest(bytes, policy, random),
    }
}

/// A fault of the mark, the version, E, F or P.
fn damage_header(bytes: &mut [u8], random: &mut Random) {
    let (place, wrong) = match random.below(5) {
        0 => (random.below(3), random.byte()),
        1 => *random.pick(&[(3, 1), (4, 0), (4, 1), (4, 2), (4, 3)]),
        2 => (random.between(5, 7), random.below(10) as u8),
        _ => *random.pick(&[(5, 9), (6, 0), (6, 5), (7, 5)]),
    };
    bytes[place] = wrong;
}

/// A fault of a value count, a starting value or an event's change.
fn damage_rest(bytes: &mut [u8], policy: &Policy, random: &mut Random) {
    let places = Places::of(policy);
    match random.below(8) {
        0 => damage_counts(bytes, &places, random),
        1 => {
            let count = &mut bytes[9 + random.below(policy.frame.counts.len())];
            *count = count.wrapping_add(1);
        }
        2..=4 if !places.starts.is_empty() => damage_start(bytes, &places, random),
        _ => damage_change(bytes, &places, random),
    }
}

/// A change just outside its values, or any byte, in the record of an event.
fn damage_change(bytes: &mut [u8], places: &Places, random: &mut Random) {
    let first = places.starts.end;
    if first < bytes.len() {
        bytes[random.between(first, bytes.len() - 1)] = match random.chance(3, 4) {
            true => 3,
            false => random.byte(),
        };
    }
}
