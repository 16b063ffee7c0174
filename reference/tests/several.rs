//! Policies with several fields, variables and events and mixed levels: the reference's side of `Several.antt`, `Large.antt` and `Places.antt` in
//! `crates/definitions/specs/Cases`.

mod common;

use common::*;
use reference::shelf::shelf;

/// Fields of 2, 3 and 2 values, variables with the bounds 2 and 3, two events, four rules.
const SEVERAL: &[u8] = include_bytes!("../../samples/several.policy");

/// Fields of 4, 2, 4 and 2 values: 64 requests.
const WIDE: &[u8] = include_bytes!("../../samples/wide.policy");

/// 3 events, fields of 2 values and of 1, 4 variables, 5 rules.
const MIXED: &[u8] = include_bytes!("../../samples/mixed.policy");

/// The places of the rules' levels in SEVERAL.
const LEVELS: [usize; 4] = [19, 33, 47, 61];

fn with_levels(levels: [u8; 4]) -> Vec<u8> {
    let pairs = LEVELS.into_iter().zip(levels);
    pairs.fold(SEVERAL.to_vec(), |policy, (place, level)| {
        with_byte(&policy, place, level)
    })
}

#[test]
fn several_fields() {
    assert_eq!(with_levels([0, 1, 3, 0]), SEVERAL);
    let expected = "42 4F 4B 00 01 02 03 02 03 02 00 0A
        01 02 03 00 01 00 01 00 01 00 01 00 01 00 01 00 01 00 01 00 01 00 01 00 01 00
        02 04 05 00 02 00 02 02 02 02 02 02 02 02 02 00 02 00 02 00 02 00 02 00 02 00
        01 05 06 00 03 00 03 00 03 00 03 00 03 00 03 00 03 00 03 00 03 00 03 00 03 00
        04 07 08 00 04 00 04 04 04 04 04 04 04 04 04 00 04 00 04 00 04 00 04 00 04 00
        02 08 09 00 05 00 05 05 05 05 05 05 05 05 05 00 05 00 05 00 05 00 05 00 05 00
        01 09 00 00 00 00 00 00 00 00 00 00 00 00 00 00 00 00 00 00 00 06 00 00 00 00
        07 07 00 00 00 00 00 00 00 00 00 00 00 00 00 00 00 00 00 00 00 00 00 00 00 00
        04 07 0A 00 08 00 08 08 08 08 08 08 08 08 08 00 08 00 08 00 08 00 08 00 08 00
        02 0A 00 00 00 00 00 09 00 09 00 09 00 09 00 00 00 00 00 00 00 06 00 00 00 00
        04 07 00 00 00 00 00 0A 00 0A 00 0A 00 0A 00 00 00 00 00 00 00 06 00 00 00 00";
    assert_eq!(book_bytes(SEVERAL), bytes(expected));
    assert_eq!(
        shelf(SEVERAL),
        "states 10\nconflict 2 1 1\nmissing 0 2 2 2\nblocked 3 1 1 1\n"
    );
}

/// All equal, and all different in both directions.
#[test]
fn levels() {
    let expected = [
        ([5; 4], "states 13\nconflict 2 1 1\nmissing 0 3 1 1 1"),
        ([0, 1, 2, 3], "states 10\nconflict -\nmissing 0 2 2 2"),
        ([3, 2, 1, 0], "states 4\nconflict -\nmissing 0 3 1 1 1"),
    ];
    for (levels, text) in expected {
        let whole = format!("{text}\nblocked 3 1 1 1\n");
        assert_eq!(shelf(&with_levels(levels)), whole);
    }
}

#[test]
fn four_fields() {
    assert_eq!(book_bytes(WIDE)[5..12], [1, 4, 4, 2, 4, 2, 6]);
    assert_eq!(
        shelf(WIDE),
        "states 6\nconflict 63 2 41 123\nmissing 48 2 41 41\nblocked -\n"
    );
}

#[test]
fn contradicting_tests() {
    let policy = with_rule(&policy_a(), "00 02 00 09 02 01 02");
    assert_eq!(book_bytes(&policy), book_bytes(&policy_a()));
}

/// Each byte in turn holds 255: a rule's masks, decision, level and tests, and the events' changes.
#[test]
fn every_place() {
    let rule = [vec![8; 4], vec![9, 0], vec![9; 12]].concat();
    let expected = [
        vec![3, 3, 3, 4, 4, 5, 5, 5, 5, 7, 7],
        rule.repeat(5),
        vec![9; 12],
    ]
    .concat();
    let number = |place| refused(&with_byte(MIXED, place, 255)).unwrap_or(0);
    let numbers: Vec<_> = (0..MIXED.len()).map(number).collect();
    assert_eq!(numbers, expected);
    assert_eq!(
        shelf(MIXED),
        "states 10\nconflict 1 2 1 5\nmissing 0 1 3\nblocked -\n"
    );
}
