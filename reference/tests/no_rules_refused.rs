//! What turns down a policy file without rules: each row that such a file can fit,
//! and the order of judging. With `no_rules.rs` the reference's side of
//! `NoRules.antt` in `crates/definitions/specs/Cases`.

mod common;

use common::*;
use reference::entry;
use reference::refusal::Refusal;
use reference::shelf::shelf;

/// One event and three requests.
const PLAIN: &[u8] = include_bytes!("../../samples/norules.policy");

/// The same frame in version 2, with two variables.
const STARTED: &[u8] = include_bytes!("../../samples/norules-started.policy");

/// The number that turns down a policy with these bytes changed, 0 if none does.
fn number(policy: &[u8], changes: &[(usize, u8)]) -> u8 {
    let change = |so_far: Vec<u8>, &(place, byte): &(usize, u8)| with_byte(&so_far, place, byte);
    refused(&changes.iter().fold(policy.to_vec(), change)).unwrap_or(0)
}

/// 5 lets R be 0 to 32; its other ranges stand.
#[test]
fn row_5_with_no_rules() {
    for rules in 0..=255 {
        let expected = match rules {
            0 => 0,
            1..=32 => 6,
            _ => 5,
        };
        assert_eq!(number(PLAIN, &[(8, rules)]), expected);
    }
    for outside in [
        no_rules(1, 9, &[3], 0, &[]),
        no_rules(1, 1, &[], 0, &[]),
        no_rules(1, 1, &[1; 5], 0, &[]),
        no_rules(1, 0, &[3], 5, &[]),
        no_rules(2, 1, &[3], 5, &[0; 10]),
    ] {
        assert_eq!(refused(&outside), Some(5));
    }
}

#[test]
fn row_6_with_no_rules() {
    for policy in [PLAIN, &no_rules_changing(), STARTED, &no_rules_largest()] {
        for length in 9..policy.len() {
            assert_eq!(refused(&policy[..length]), Some(6));
        }
        assert_eq!(refused(&policy[..8]), Some(2));
        assert_eq!(refused(policy), None);
        assert_eq!(refused(&[policy, &[0]].concat()), Some(6));
    }
    // The other version has another length where there are variables.
    assert_eq!(number(PLAIN, &[(4, 2)]), 0);
    assert_eq!(number(&no_rules_changing(), &[(4, 2)]), 6);
    assert_eq!(number(STARTED, &[(4, 1)]), 6);
    // A rule that the header does not count.
    let counted = with_rule(PLAIN, "00 07 00 00");
    assert_eq!((number(&counted, &[]), number(&counted, &[(8, 0)])), (0, 6));
}

#[test]
fn rows_7_17_and_9_with_no_rules() {
    for (count, expected) in [(0, 7), (1, 0), (16, 0), (17, 7), (255, 7)] {
        assert_eq!(number(PLAIN, &[(9, count)]), expected);
    }
    assert_eq!(refused(&no_rules(1, 1, &[13, 5], 0, &[])), Some(7));
    assert_eq!(refused(&no_rules(1, 1, &[8, 8], 0, &[])), None);
    for place in [10, 11] {
        for (start, expected) in [(0, 0), (63, 0), (64, 17), (255, 17)] {
            assert_eq!(number(STARTED, &[(place, start)]), expected);
        }
    }
    let largest = no_rules_largest();
    let records = [
        (&no_rules_changing()[..], 10, 11),
        (STARTED, 12, 13),
        (&largest, 17, 48),
    ];
    for (policy, first, last) in records {
        assert_eq!(last + 1, policy.len());
        for place in first..=last {
            for (change, expected) in [(0, 0), (1, 0), (2, 0), (3, 9), (255, 9)] {
                assert_eq!(number(policy, &[(place, change)]), expected);
            }
        }
    }
}

#[test]
fn rows_are_judged_in_the_same_order_with_no_rules() {
    // From the row judged first to the row judged last.
    let faults = [
        ((0, 0), 3),
        ((3, 1), 4),
        ((8, 33), 5),
        ((5, 2), 6),
        ((9, 17), 7),
        ((10, 64), 17),
        ((12, 3), 9),
    ];
    for (place, &(fault, expected)) in faults.iter().enumerate() {
        assert_eq!(number(STARTED, &[fault]), expected);
        let with_later: Vec<_> = faults[place..].iter().map(|&(fault, _)| fault).collect();
        assert_eq!(number(STARTED, &with_later), expected);
        for &(later, _) in &faults[place..] {
            assert_eq!(number(STARTED, &[later, fault]), expected);
        }
    }
}

/// Each byte in turn holds 255: the head and the count, the starting values, the
/// changes.
#[test]
fn every_place_with_no_rules() {
    let numbers = |policy: &[u8]| -> Vec<u8> {
        let number = |place| number(policy, &[(place, 255)]);
        (0..policy.len()).map(number).collect()
    };
    let head = [3, 3, 3, 4, 4, 5, 5, 5, 5, 7];
    assert_eq!(numbers(PLAIN), head);
    assert_eq!(numbers(&no_rules_changing()), [&head[..], &[9, 9]].concat());
    assert_eq!(numbers(STARTED), [&head[..], &[17, 17, 9, 9]].concat());
}

#[test]
fn a_refused_file_leaves_the_buffer() {
    for (bad, refusal) in [
        (with_byte(STARTED, 8, 33), Refusal::PolicySizes),
        (with_byte(STARTED, 8, 32), Refusal::PolicyLength),
        (with_byte(STARTED, 11, 64), Refusal::PolicyStart),
        (with_byte(STARTED, 13, 3), Refusal::PolicyValue),
    ] {
        let mut buffer = vec![7; 17_284];
        assert_eq!(entry::build(&bad, &mut buffer), Err(refusal));
        assert_eq!(buffer, [7; 17_284]);
        assert_eq!(shelf(&bad), format!("refused {}\n", refusal.number()));
    }
}
