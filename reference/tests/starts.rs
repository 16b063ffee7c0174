//! Starting values: policy files of either version are read and written, and the
//! books that the starts lead to.

mod common;

use common::*;
use reference::compare::{compare, Comparison};
use reference::policy::{self, Version};
use reference::shelf::shelf;
use reference::situation::{self, Valuation};

/// 3 events, fields of 2 values and of 1, 4 variables, 5 rules.
const MIXED: &[u8] = include_bytes!("../../samples/mixed.policy");

/// Policy A in version 2.
fn a_from(start: u8) -> Vec<u8> {
    with_starts(&policy_a(), &[start])
}

/// The one valuation that a policy starts in.
fn start_of(policy: &[u8]) -> Valuation {
    let start = situation::start(&policy::read(policy).expect("an accepted policy"));
    assert_eq!(start.len(), 1);
    *start.first().expect("a valuation")
}

#[test]
fn both_versions_are_read_and_written() {
    let (one, two) = (policy_a(), a_from(5));
    assert_eq!(two.len(), one.len() + 1);
    let [read_one, read_two] = [&one, &two].map(|bytes| policy::read(bytes).unwrap());
    assert_eq!(
        (read_one.version, &read_one.starts[..]),
        (Version::One, &[0][..])
    );
    assert_eq!(
        (read_two.version, &read_two.starts[..]),
        (Version::Two, &[5][..])
    );
    // The rules and events come after the starting values.
    assert_eq!(read_one.rules, read_two.rules);
    assert_eq!(read_one.events, read_two.events);
    assert_eq!(policy::write(&read_one), one);
    assert_eq!(policy::write(&read_two), two);
    let mixed = with_starts(MIXED, &[1, 0, 63, 2]);
    let read = policy::read(&mixed).unwrap();
    assert_eq!(read.starts, [1, 0, 63, 2]);
    assert_eq!(read.rules, policy::read(MIXED).unwrap().rules);
    assert_eq!(policy::write(&read), mixed);
}

/// 9 + F + P + R × (2F + 2 + 3P) + E × P, with all sizes at their greatest.
#[test]
fn the_longest_policy_has_753_bytes() {
    let rule = [bytes("00 01 00 01 00 01 00 01 | 01 00"), vec![0; 12]].concat();
    let longest = [
        bytes("50 4F 4C 00 02 08 04 04 20 | 02 02 04 04 | 3F 3F 3F 3F"),
        rule.repeat(32),
        vec![2; 32],
    ]
    .concat();
    assert_eq!(longest.len(), 753);
    assert_eq!(refused(&longest), None);
    assert_eq!(refused(&[&longest[..], &[0]].concat()), Some(6));
    assert_eq!(refused(&longest[..749]), Some(6));
}

/// A's bound is 2, and its variable is 0, 1 and 2 in the states of its book.
#[test]
fn a_from_each_start() {
    let header = "42 4F 4B 00 01 01 01 02 00 00 00 03";
    let from_0 = "01 01 00 02 00 | 01 02 00 03 00 | 01 03 00 00 03";
    // 1 is the start, then 0 by the event, then 2 by an acceptance.
    let from_1 = "02 01 00 03 00 | 02 02 00 01 00 | 02 03 00 00 03";
    // 2 is the start, then 0 by the event, then 1 from there.
    let from_2 = "02 01 00 00 01 | 02 02 00 03 00 | 02 03 00 01 00";
    let book = |rows: &str| [bytes(header), bytes(rows)].concat();
    assert_eq!(book_bytes(&a_from(0)), book_bytes(&policy_a()));
    assert_eq!(book_bytes(&a_from(0)), book(from_0));
    assert_eq!(book_bytes(&a_from(1)), book(from_1));
    for start in [2, 3, 4, 62, 63] {
        assert_eq!(book_bytes(&a_from(start)), book(from_2), "{start}");
        assert_eq!(start_of(&a_from(start)), [2, 0, 0, 0]);
    }
    for start in 0..=63 {
        let expected = "states 3\nconflict -\nmissing -\nblocked -\n";
        assert_eq!(shelf(&a_from(start)), expected);
    }
}

/// Request 1 is accepted twice from 0, once from 1 and never from 2.
#[test]
fn comparing_a_from_different_starts() {
    let [zero, one, two] = [0, 1, 2].map(|start| book_bytes(&a_from(start)));
    let differ = |history: &[u8]| Ok(Comparison::Differ(history.to_vec()));
    let a = book_bytes(&policy_a());
    assert_eq!(compare(&a, &zero), Ok(Comparison::Same));
    for (first, second, history) in [
        (&a, &one, &[3, 3][..]),
        (&a, &two, &[3]),
        (&one, &two, &[3]),
    ] {
        assert_eq!(compare(first, second), differ(history));
        assert_eq!(compare(second, first), differ(history));
        assert!(state_after(first, history).is_some());
        assert_eq!(state_after(second, history), None);
    }
}

/// With start 0 each case has the book that it has in version 1. B's bound is 1.
#[test]
fn equal_books_of_both_versions() {
    let b = |start: u8| book_bytes(&with_starts(&policy_b(), &[start]));
    assert_eq!(b(0), book_bytes(&policy_b()));
    assert_ne!(b(1), b(0));
    for above in [2, 63] {
        assert_eq!(b(above), b(1));
    }
    for (policy, name) in [
        (policy_c(), "C"),
        (policy_d(), "D"),
        (policy_e(), "E"),
        (policy_f(), "F"),
        (policy_g(), "G"),
        (policy_h(), "H"),
        (policy_j(), "J"),
        (policy_s(6), "S"),
    ] {
        let two = with_starts(&policy, &[0]);
        assert_eq!(book_bytes(&two), book_bytes(&policy), "{name}");
        assert_eq!(situations(&two), situations(&policy), "{name}");
    }
}

/// C tests its variable with 5 too, but from 0 on it never gets above 2. A start
/// of 3 to 5 is a value of its own, though it decides as 2 does.
#[test]
fn starts_that_no_history_leads_to() {
    let c = |start: u8| with_starts(&policy_c(), &[start]);
    for (start, value) in [(2, 2), (3, 3), (5, 5), (6, 5), (63, 5)] {
        assert_eq!(start_of(&c(start)), [value, 0, 0, 0]);
        assert_eq!(book_bytes(&c(start)), book_bytes(&a_from(2)));
    }
    assert_eq!(situations(&c(2)).len(), 3);
    assert_eq!(situations(&c(5)).len(), 4);
}

#[test]
fn findings_at_another_start() {
    // G is closed from 1 on; J's event opens it again.
    let from_1 = |policy: Vec<u8>| with_starts(&policy, &[1]);
    assert_eq!(
        shelf(&from_1(policy_g())),
        "states 1\nconflict -\nmissing 0 0\nblocked 0\n"
    );
    assert_eq!(
        shelf(&from_1(policy_j())),
        "states 2\nconflict -\nmissing 0 0\nblocked -\n"
    );
    assert_eq!(
        book_of(&from_1(policy_j())).rows,
        [[2, 0, 0, 0, 0], [2, 1, 0, 1, 0]]
    );
    // E's conflict and F's gap are there as soon as the variable is 2.
    for (start, length) in [(0, " 2 3 3"), (1, " 1 3"), (2, " 0"), (63, " 0")] {
        assert_eq!(
            shelf(&with_starts(&policy_e(), &[start])),
            format!("states 3\nconflict 0{length}\nmissing -\nblocked -\n")
        );
        assert_eq!(
            shelf(&with_starts(&policy_f(), &[start])),
            format!("states 3\nconflict -\nmissing 1{length}\nblocked -\n")
        );
    }
}

/// From 0 case S with 7 reaches too many situations, from 1 on it only counts up.
#[test]
fn the_start_decides_on_number_11() {
    assert_eq!(refused(&with_starts(&policy_s(7), &[0])), Some(11));
    let from_1 = with_starts(&policy_s(7), &[1]);
    assert_eq!(situations(&from_1).len(), 7);
    let counting: Vec<[u8; 4]> = (2..=7).map(|next| [next, 0, next, 0]).collect();
    assert_eq!(book_of(&from_1).rows, [&counting[..], &[[0; 4]]].concat());
    for start in [7, 8, 63] {
        let policy = with_starts(&policy_s(7), &[start]);
        assert_eq!(book_of(&policy).rows, [[0; 4]]);
    }
}

/// Its bound is 0, so every start counts as 0.
#[test]
fn a_variable_that_nobody_tests() {
    let policy = |start: u8| {
        let rule = bytes("00 01 01 00 00 02 01 00 00 01 | 00 01 00 00 02 00 00 00 00 00");
        [bytes("50 4F 4C 00 02 00 01 02 02 01"), vec![1, start], rule].concat()
    };
    for start in 0..=63 {
        assert_eq!(start_of(&policy(start)), [1, 0, 0, 0]);
        assert_eq!(book_of(&policy(start)).rows, [[2, 0], [0, 2]]);
    }
    assert_eq!(refused(&policy(64)), Some(17));
    // Its only variable is not tested at all.
    let idle = |start: u8| {
        let rule = bytes("00 01 01 00 00 00 01");
        [bytes("50 4F 4C 00 02 00 01 01 01 01"), vec![start], rule].concat()
    };
    for start in [0, 1, 63] {
        assert_eq!(start_of(&idle(start)), [0; 4]);
        assert_eq!(book_of(&idle(start)).rows, [[1, 0]]);
    }
}

/// Then version 2 is version 1 but for the version itself.
#[test]
fn no_variables() {
    let one = bytes("50 4F 4C 00 01 01 02 00 02 02 03 | 00 02 00 01 01 00 | 00 01 00 07 00 04");
    let two = with_starts(&one, &[]);
    assert_eq!(two, with_byte(&one, 4, 2));
    assert_eq!(policy::read(&two).unwrap().starts, []);
    assert_eq!(start_of(&two), [0; 4]);
    assert_eq!(book_bytes(&two), book_bytes(&one));
    assert_eq!(refused(&[&two[..], &[0]].concat()), Some(6));
    assert_eq!(refused(&two[..two.len() - 1]), Some(6));
    assert_eq!(refused(&with_byte(&two, 11, 1)), Some(8));
}

/// Each variable starts at its own value and is held by its own bound.
#[test]
fn two_counters() {
    let value = |first, second| start_of(&policy_two_counters(first, second));
    assert_eq!(value(0, 0), [0, 0, 0, 0]);
    assert_eq!(value(1, 2), [1, 2, 0, 0]);
    assert_eq!(value(2, 1), [2, 1, 0, 0]);
    assert_eq!(value(3, 3), [2, 3, 0, 0]);
    assert_eq!(value(63, 0), [2, 0, 0, 0]);
    assert_eq!(value(0, 63), [0, 3, 0, 0]);
    let rows = "02 03 00 04 00 | 02 01 00 05 00 | 02 00 03 06 00 \
                | 05 06 00 00 04 | 05 04 00 00 05 | 05 00 06 00 06";
    let header = "42 4F 4B 00 01 01 01 02 00 00 00 06";
    assert_eq!(
        book_bytes(&policy_two_counters(1, 2)),
        [bytes(header), bytes(rows)].concat()
    );
    assert_eq!(
        shelf(&policy_two_counters(1, 2)),
        "states 6\nconflict -\nmissing -\nblocked -\n"
    );
    let states = |first, second| book_of(&policy_two_counters(first, second)).states();
    assert_eq!((states(0, 0), states(2, 1), states(0, 3)), (12, 9, 3));
    assert_eq!(
        compare(
            &book_bytes(&policy_two_counters(1, 2)),
            &book_bytes(&policy_two_counters(2, 1))
        ),
        Ok(Comparison::Differ(vec![1]))
    );
}
