//! Policy files of version 2 with something wrong in them, so that each of the
//! numbers 2 to 11 and 17 occurs, and two of them at once. Now and then a file
//! stays legal.

use super::policies::spreading;
use super::policy_damage::{
    damage_counts, damage_length, damage_mask, damage_value, damaged, with_many_valuations,
    with_size_outside, Places,
};
use super::random::Random;
use super::starts::{draw_starting, with_starts};
use crate::policy::{write, Policy, Version, MOST_START};

/// A policy file of version 2 with one or more faults, usually turned down.
pub fn damaged_starting_policy(seed: u64) -> Vec<u8> {
    let mut random = Random::new(seed, "damaged starting policy");
    let policy = match random.below(16) {
        0 => return write(&with_size_outside(draw_starting(&mut random), &mut random)),
        1 => with_many_valuations(draw_starting(&mut random), &mut random),
        2 => with_many_situations(&mut random),
        3 | 4 => return with_wrong_version(&draw_starting(&mut random), &mut random),
        5..=10 => return with_start_outside(&draw_starting(&mut random), &mut random),
        _ => return damaged(&draw_starting(&mut random), &mut random),
    };
    let mut bytes = write(&policy);
    if random.chance(1, 4) {
        damage_start(&mut bytes, &Places::of(&policy), &mut random);
    }
    bytes
}

/// Rules that usually lead to over 127 situations once the variable is 0, where
/// half of these policies start.
fn with_many_situations(random: &mut Random) -> Policy {
    let policy = spreading(random.between(7, 12) as u8, random);
    if random.chance(1, 2) {
        return with_starts(policy, random);
    }
    Policy {
        version: Version::Two,
        ..policy
    }
}

/// A version that there is not, or that of a file with another length.
fn with_wrong_version(policy: &Policy, random: &mut Random) -> Vec<u8> {
    let places = Places::of(policy);
    let mut bytes = write(policy);
    if random.chance(1, 4) {
        damage_start(&mut bytes, &places, random);
    }
    match random.below(7) {
        0 => bytes[4] = 0,
        1 => bytes[4] = 3,
        2 => bytes[3] = 1,
        3 => bytes[3..5].fill(1),
        4 => bytes[4] = 1,
        // The length of version 1, and now and then its version too.
        sort => {
            bytes.drain(places.starts);
            bytes[4] = if sort == 5 || random.chance(3, 4) {
                2
            } else {
                1
            };
        }
    }
    bytes
}

/// A start above 63, alone or beside a fault that is judged before or after it.
fn with_start_outside(policy: &Policy, random: &mut Random) -> Vec<u8> {
    let places = Places::of(policy);
    let mut bytes = write(policy);
    damage_start(&mut bytes, &places, random);
    match random.below(10) {
        0..=2 => {}
        3 => damage_start(&mut bytes, &places, random),
        4 | 5 => damage_counts(&mut bytes, &places, random),
        6 | 7 => damage_mask(&mut bytes, &places, random),
        8 => damage_value(&mut bytes, &places, random),
        _ => damage_length(&mut bytes, random),
    }
    bytes
}

/// A starting value just above 63 or far above it, or any byte, or 63.
pub(super) fn damage_start(bytes: &mut [u8], places: &Places, random: &mut Random) {
    if places.starts.is_empty() {
        return;
    }
    let place = places.starts.start + random.below(places.starts.len());
    bytes[place] = match random.below(8) {
        0 => MOST_START,
        1 => random.byte(),
        _ => *random.pick(&[64, 65, 255]),
    };
}
