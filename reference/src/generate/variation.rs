//! Pairs of policies of one frame: a policy and a small variation of it.

use super::policies::draw;
use super::random::Random;
use super::shape::draw_change;
use crate::policy::{write, Policy, Test, MOST_RULES};

/// Two policy files of one frame, usually both accepted. The second is a
/// variation of the first, or equal to it.
pub fn policy_pair(seed: u64) -> (Vec<u8>, Vec<u8>) {
    let mut random = Random::new(seed, "policy pair");
    let first = draw(&mut random);
    let second = vary(&first, &mut random);
    (write(&first), write(&second))
}

/// Another policy of the frame of this one, which has a rule; often with the
/// same book.
pub(super) fn vary(policy: &Policy, random: &mut Random) -> Policy {
    let mut varied = policy.clone();
    let place = random.below(varied.rules.len());
    match random.below(8) {
        0 => {}
        1 => random.shuffle(&mut varied.rules),
        2 if varied.rules.len() < MOST_RULES => {
            let twice = varied.rules[place].clone();
            varied.rules.push(twice);
        }
        3 => varied.rules[place].level = random.byte(),
        4 if varied.rules.len() > 1 => {
            varied.rules.remove(place);
        }
        5 if varied.variables > 0 => {
            let variable = random.below(varied.variables);
            varied.rules[place].changes[variable] = draw_change(random, 3, 3);
        }
        6 if varied.variables > 0 => {
            let test = &mut varied.rules[place].tests[random.below(policy.variables)];
            *test = Test {
                at_least: test.at_least.map(|number| number.max(2) - 1),
                below: test.below.map_or(Some(1), |number| Some(number.max(2) - 1)),
            };
        }
        _ => varied.rules[place].accepts = !varied.rules[place].accepts,
    }
    varied
}
