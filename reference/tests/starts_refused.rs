//! What turns down a policy file because of its version or its starting values:
//! rows 4, 6 and 17, and the place of 17 in the order.

mod common;

use common::*;
use reference::entry;
use reference::refusal::Refusal;
use reference::shelf::shelf;

/// 3 events, fields of 2 values and of 1, 4 variables, 5 rules.
const MIXED: &[u8] = include_bytes!("../../samples/mixed.policy");

/// Policy A in version 2.
fn a_from(start: u8) -> Vec<u8> {
    with_starts(&policy_a(), &[start])
}

/// The number that turns down a policy with these bytes changed.
fn number(policy: &[u8], changes: &[(usize, u8)]) -> Option<u8> {
    let change = |so_far: Vec<u8>, &(place, byte): &(usize, u8)| with_byte(&so_far, place, byte);
    refused(&changes.iter().fold(policy.to_vec(), change))
}

#[test]
fn row_4_is_neither_1_nor_2() {
    let (one, two) = (policy_a(), a_from(0));
    let with_version = |policy: &[u8], version: u16| {
        let [high, low] = version.to_be_bytes();
        number(policy, &[(3, high), (4, low)])
    };
    for version in [0, 3, 4, 255, 256, 256 + 1, 256 + 2, 512, 0x0202, 0xFFFF] {
        for policy in [&one, &two] {
            assert_eq!(with_version(policy, version), Some(4), "{version}");
        }
    }
    assert_eq!(
        [1, 2].map(|version| with_version(&one, version)),
        [None, Some(6)]
    );
    assert_eq!(
        [1, 2].map(|version| with_version(&two, version)),
        [Some(6), None]
    );
    // Without variables the two versions have the same length.
    let idle = bytes("50 4F 4C 00 01 00 01 00 01 01 | 00 01 01 00");
    let numbers = [0, 1, 2, 3, 256 + 1, 256 + 2].map(|version| with_version(&idle, version));
    assert_eq!(numbers, [Some(4), None, None, Some(4), Some(4), Some(4)]);
}

#[test]
fn row_6_in_version_2() {
    let longer = |policy: &[u8], more: usize| [policy, &vec![0; more]].concat();
    let a = a_from(2);
    assert_eq!(refused(&a), None);
    assert_eq!(refused(&a[..a.len() - 1]), Some(6));
    assert_eq!(refused(&longer(&a, 1)), Some(6));
    // None, one or three starting values for two variables.
    let two = policy_two_counters(1, 2);
    assert_eq!((two.len(), refused(&two)), (54, None));
    for wrong in [&[][..], &[1], &[1, 2, 0]] {
        let policy = [&two[..10], wrong, &two[12..]].concat();
        assert_eq!(refused(&policy), Some(6));
    }
    assert_eq!(refused(&longer(&two, 2)), Some(6));
    assert_eq!(refused(&two[..two.len() - 2]), Some(6));
    // Version 1 has no place for them.
    assert_eq!(number(&two, &[(4, 1)]), Some(6));
    let without = [&two[..10], &two[12..]].concat();
    assert_eq!(number(&without, &[(4, 1)]), None);
}

#[test]
fn row_17_at_the_place_of_each_variable() {
    let mixed = with_starts(MIXED, &[0; 4]);
    for place in 11..15 {
        for inside in [0, 1, 62, 63] {
            assert_eq!(number(&mixed, &[(place, inside)]), None);
        }
        for outside in [64, 65, 128, 255] {
            assert_eq!(number(&mixed, &[(place, outside)]), Some(17));
        }
    }
    assert_eq!(refused(&with_starts(MIXED, &[63; 4])), None);
    assert_eq!(refused(&with_starts(MIXED, &[64; 4])), Some(17));
    // In version 1 a rule's mask stands there.
    assert_eq!(number(MIXED, &[(11, 64)]), Some(8));
    assert_eq!(shelf(&with_starts(MIXED, &[64, 0, 0, 0])), "refused 17\n");
}

/// 17 comes after 7 and before 8.
#[test]
fn row_17_has_its_place_in_the_order() {
    let a = a_from(0);
    let bad_start = (10, 64);
    // A fault that comes before, and the number it gives with a bad start or without.
    let before: [(&[(usize, u8)], u8); 8] = [
        (&[(2, 0)], 3),
        (&[(4, 3)], 4),
        (&[(4, 1)], 6),
        (&[(7, 5)], 5),
        (&[(8, 33)], 5),
        (&[(5, 2)], 6),
        (&[(9, 17)], 7),
        (&[(9, 0)], 7),
    ];
    for (faults, first) in before {
        assert_eq!(number(&a, faults), Some(first));
        assert_eq!(number(&a, &[faults, &[bad_start]].concat()), Some(first));
    }
    // A mask, a decision, ge, lt, a rule's change, an event's change.
    let after = [
        ((12, 0), 8),
        ((12, 4), 8),
        ((11, 1), 8),
        ((13, 2), 9),
        ((15, 64), 9),
        ((16, 64), 9),
        ((17, 3), 9),
        ((32, 3), 9),
    ];
    for (fault, second) in after {
        assert_eq!(number(&a, &[fault]), Some(second));
        assert_eq!(number(&a, &[fault, bad_start]), Some(17));
    }
    let longer = [&a[..], &[0]].concat();
    assert_eq!(number(&longer, &[bad_start]), Some(6));
    assert_eq!(refused(&with_byte(&a, 10, 64)[..32]), Some(6));
}

#[test]
fn row_17_comes_after_too_many_requests_and_before_10_and_11() {
    // Counts 9 and 8: too many requests, each count being legal.
    let wide = bytes("50 4F 4C 00 02 00 02 01 01 09 08 | 40 | 00 01 00 01 01 00 00 00 00");
    assert_eq!(refused(&wide), Some(7));
    assert_eq!(number(&wide, &[(9, 8)]), Some(17));
    assert_eq!(number(&wide, &[(9, 8), (11, 63)]), None);
    // Two bounds of 8: over 64 valuations, whatever the starts are.
    let many = bytes("50 4F 4C 00 02 00 01 02 01 02 | 00 40 | 00 03 01 00 08 00 01 08 00 01");
    assert_eq!(refused(&many), Some(17));
    for start in [0, 7, 8, 63] {
        assert_eq!(number(&many, &[(11, start)]), Some(10));
    }
    assert_eq!(refused(&with_starts(&policy_s(7), &[64])), Some(17));
    assert_eq!(refused(&with_starts(&policy_s(7), &[0])), Some(11));
}

#[test]
fn a_refused_start_leaves_the_buffer() {
    let bad = a_from(64);
    let mut buffer = vec![7; 17_284];
    assert_eq!(entry::build(&bad, &mut buffer), Err(Refusal::PolicyStart));
    assert!(buffer.iter().all(|&byte| byte == 7));
    assert_eq!(entry::build(&bad, &mut [0; 17_283]), Err(Refusal::Buffer));
}

/// Each byte in turn holds 255; only a rule's level may.
#[test]
fn every_place_of_version_2() {
    let rule = [vec![8, 8, 9, 0], vec![9; 6]].concat();
    let expected = [
        vec![3, 3, 3, 4, 4, 5, 5, 5, 5, 7, 17, 17],
        rule.repeat(4),
        vec![9, 9],
    ]
    .concat();
    let policy = policy_two_counters(1, 2);
    let number = |place| refused(&with_byte(&policy, place, 255)).unwrap_or(0);
    assert_eq!((0..policy.len()).map(number).collect::<Vec<_>>(), expected);
}
