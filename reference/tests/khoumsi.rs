//! The examples of the source document (Khoumsi), its Tables 3 to 6, and two
//! policies with events on which its propositions and definition 2 disagree.

mod common;

use std::collections::{BTreeMap, BTreeSet};

use common::book_bytes;
use reference::book::build;
use reference::explore::{explore, Exploration};
use reference::findings::{findings, Findings, RequestFinding};
use reference::frame::Frame;
use reference::hex;
use reference::policy::{self, Change, Policy, Rule, Test, Version};
use reference::situation::{Situation, Steps, Valuation};

const IMAGE: u16 = 1;
const VIDEO: u16 = 2;
const AUDIO: u16 = 4;

const NO_FINDINGS: Findings = Findings {
    conflict: None,
    missing: None,
    blocked: None,
};

/// A rule of one field and one variable; 0 in a test means no such test.
fn rule(mask: u16, accepts: bool, at_least: u8, below: u8, change: Change) -> Rule {
    let number = |byte: u8| Some(byte).filter(|&byte| byte != 0);
    Rule {
        masks: vec![mask],
        accepts,
        level: 0,
        tests: vec![Test {
            at_least: number(at_least),
            below: number(below),
        }],
        changes: vec![change],
    }
}

fn policy(types: usize, rules: Vec<Rule>, events: Vec<Change>) -> Policy {
    Policy {
        version: Version::One,
        frame: Frame {
            events: events.len(),
            counts: vec![types],
        },
        variables: 1,
        starts: vec![0],
        rules,
        events: events.into_iter().map(|change| vec![change]).collect(),
    }
}

fn table_3() -> Policy {
    let rules = vec![
        rule(IMAGE | VIDEO, true, 0, 0, Change::SetToZero),
        rule(AUDIO, true, 0, 2, Change::AddOne),
        rule(AUDIO, false, 2, 0, Change::Keep),
    ];
    policy(3, rules, vec![])
}

/// Table 4 by method 2: no priority between the rules.
fn table_4_without_priority() -> Policy {
    let rules = vec![
        rule(IMAGE | VIDEO, true, 0, 0, Change::SetToZero),
        rule(IMAGE | AUDIO, true, 0, 2, Change::AddOne),
        rule(IMAGE | AUDIO, false, 2, 0, Change::Keep),
    ];
    policy(3, rules, vec![])
}

/// Table 4 by method 1: decreasing priority in the order of the rules.
fn table_4_with_priority() -> Policy {
    let mut policy = table_4_without_priority();
    for (place, rule) in policy.rules.iter_mut().enumerate() {
        rule.level = 2 - place as u8;
    }
    policy
}

fn table_5() -> Policy {
    let rules = vec![
        rule(IMAGE | VIDEO, true, 0, 1, Change::SetToZero),
        rule(IMAGE, true, 0, 1, Change::AddOne),
    ];
    policy(2, rules, vec![])
}

fn table_6() -> Policy {
    let rules = vec![
        rule(IMAGE | VIDEO, true, 0, 1, Change::SetToZero),
        rule(IMAGE | AUDIO, true, 0, 1, Change::AddOne),
        rule(IMAGE, false, 1, 0, Change::SetToZero),
    ];
    policy(3, rules, vec![])
}

/// The situation in which the variable has these values.
fn values(numbers: &[u8]) -> Situation {
    numbers.iter().map(|&number| [number, 0, 0, 0]).collect()
}

fn place(exploration: &Exploration, numbers: &[u8]) -> usize {
    let wanted = values(numbers);
    exploration
        .situations
        .iter()
        .position(|here| *here == wanted)
        .expect("a reached situation")
}

/// The requests that may be both accepted and rejected in a situation.
fn conflicts(policy: &Policy, exploration: &Exploration, numbers: &[u8]) -> Vec<usize> {
    let row = &exploration.table[place(exploration, numbers)];
    let frame = &policy.frame;
    (0..frame.requests())
        .filter(|&request| row[frame.accept_code(request)].is_some())
        .filter(|&request| row[frame.reject_code(request)].is_some())
        .collect()
}

fn findings_of(policy: &Policy) -> Findings {
    findings(&build(&policy::write(policy)).unwrap())
}

/// The nondeterministic automaton: for each reached valuation and each code,
/// the valuations that come next.
fn nondeterministic(policy: &Policy) -> BTreeMap<Valuation, Vec<Situation>> {
    let steps = Steps::new(policy);
    let mut automaton = BTreeMap::new();
    let mut waiting: Vec<Valuation> = vec![[0; 4]];
    while let Some(valuation) = waiting.pop() {
        if automaton.contains_key(&valuation) {
            continue;
        }
        let alone = Situation::from([valuation]);
        let row: Vec<Situation> = (0..policy.frame.width())
            .map(|code| steps.after(&alone, code).unwrap_or_default())
            .collect();
        waiting.extend(row.iter().flatten());
        automaton.insert(valuation, row);
    }
    automaton
}

/// The condition of proposition 5: no state without an outgoing transition.
fn proposition_5_promises_nonblocking(policy: &Policy) -> bool {
    nondeterministic(policy)
        .values()
        .all(|row| row.iter().any(|targets| !targets.is_empty()))
}

/// The condition of proposition 2: no state without an outgoing transition and
/// no cycle of states from which only events are executable.
fn proposition_2_says_nonblocking(policy: &Policy) -> bool {
    let table = explore(policy).unwrap().table;
    let events = policy.frame.events;
    let mut only_events: BTreeSet<usize> = (0..table.len())
        .filter(|&place| table[place][events..].iter().all(Option::is_none))
        .collect();
    if events == 0 {
        return only_events.is_empty();
    }
    // States that lead to no state of the set are on no cycle within it.
    loop {
        let kept: BTreeSet<usize> = only_events
            .iter()
            .copied()
            .filter(|&place| {
                table[place][..events]
                    .iter()
                    .flatten()
                    .any(|target| only_events.contains(target))
            })
            .collect();
        if kept == only_events {
            return only_events.is_empty();
        }
        only_events = kept;
    }
}

#[test]
fn table_3_gives_three_states() {
    let book = build(&policy::write(&table_3())).unwrap();
    let expected = "42 4F 4B 00 01 00 01 03 00 00 00 03\n\
                    01 00 01 00 02 00\n01 00 01 00 03 00\n01 00 01 00 00 03\n";
    assert_eq!(hex::book_lines(&book), expected);
    assert_eq!(findings(&book), NO_FINDINGS);
    // An image, then two audios, as in section 3.3.
    assert_eq!(common::state_after(&book.to_bytes(), &[0]), Some(1));
    assert_eq!(common::state_after(&book.to_bytes(), &[0, 4]), Some(2));
    assert_eq!(common::state_after(&book.to_bytes(), &[0, 4, 4]), Some(3));
}

#[test]
fn table_4_by_method_1_is_table_3() {
    let with_priority = policy::write(&table_4_with_priority());
    assert_eq!(
        book_bytes(&with_priority),
        book_bytes(&policy::write(&table_3()))
    );
    assert_eq!(
        explore(&table_4_with_priority()).unwrap().situations.len(),
        3
    );
}

#[test]
fn table_4_by_method_2_has_the_named_situations() {
    let exploration = explore(&table_4_without_priority()).unwrap();
    let reached: BTreeSet<Situation> = exploration.situations.iter().cloned().collect();
    let named = [&[0][..], &[0, 1], &[1, 2], &[0, 2], &[0, 1, 2], &[2]];
    for numbers in named {
        assert!(reached.contains(&values(numbers)), "{numbers:?}");
    }
    // The text does not name the situation after one audio.
    assert!(reached.contains(&values(&[1])));
    assert_eq!(reached.len(), 7);
    // The steps of section 4.2: an image, an audio, an audio accepted or rejected.
    let step = |numbers: &[u8], code: usize| exploration.table[place(&exploration, numbers)][code];
    assert_eq!(step(&[0], 0), Some(place(&exploration, &[0, 1])));
    assert_eq!(step(&[0, 1], 4), Some(place(&exploration, &[1, 2])));
    assert_eq!(step(&[1, 2], 4), Some(place(&exploration, &[2])));
    assert_eq!(step(&[1, 2], 5), Some(place(&exploration, &[2])));
}

#[test]
fn table_4_by_method_2_conflicts_where_the_text_says() {
    let policy = table_4_without_priority();
    let exploration = explore(&policy).unwrap();
    for numbers in [&[0, 2][..], &[1, 2], &[0, 1, 2]] {
        assert_eq!(
            conflicts(&policy, &exploration, numbers),
            [0, 2],
            "{numbers:?}"
        );
    }
    assert_eq!(conflicts(&policy, &exploration, &[2]), [0]);
    for numbers in [&[0][..], &[1], &[0, 1]] {
        assert_eq!(conflicts(&policy, &exploration, numbers), [], "{numbers:?}");
    }
    let conflict = Some(RequestFinding {
        request: 0,
        history: vec![0, 0],
    });
    assert_eq!(
        findings_of(&policy),
        Findings {
            conflict,
            ..NO_FINDINGS
        }
    );
}

#[test]
fn table_4_is_nonblocking_and_complete_by_both_methods() {
    for policy in [table_4_with_priority(), table_4_without_priority()] {
        assert!(proposition_2_says_nonblocking(&policy));
        assert_eq!(findings_of(&policy).missing, None);
        assert_eq!(findings_of(&policy).blocked, None);
    }
    assert_eq!(findings_of(&table_4_with_priority()).conflict, None);
}

#[test]
fn table_5_is_nonblocking_and_complete_despite_a_deadlock() {
    let policy = table_5();
    let automaton = nondeterministic(&policy);
    assert!(automaton[&[1, 0, 0, 0]].iter().all(BTreeSet::is_empty));
    assert!(!proposition_5_promises_nonblocking(&policy));
    assert!(proposition_2_says_nonblocking(&policy));
    let reached = explore(&policy).unwrap().situations;
    assert_eq!(reached, [values(&[0]), values(&[0, 1])]);
    assert_eq!(findings_of(&policy), NO_FINDINGS);
    // Both situations allow the same histories.
    assert_eq!(build(&policy::write(&policy)).unwrap().states(), 1);
}

#[test]
fn table_6_conflicts_only_in_a_set_of_values() {
    let policy = table_6();
    let exploration = explore(&policy).unwrap();
    assert_eq!(conflicts(&policy, &exploration, &[0, 1]), [0]);
    for row in nondeterministic(&policy).values() {
        for request in 0..3 {
            let accepted = !row[policy.frame.accept_code(request)].is_empty();
            let rejected = !row[policy.frame.reject_code(request)].is_empty();
            assert!(!(accepted && rejected));
        }
    }
    let conflict = Some(RequestFinding {
        request: 0,
        history: vec![0],
    });
    assert_eq!(findings_of(&policy).conflict, conflict);
}

/// One request that can be accepted once until the variable is zero again.
fn once(events: Vec<Change>) -> Policy {
    policy(1, vec![rule(IMAGE, true, 0, 1, Change::AddOne)], events)
}

#[test]
fn definition_2_disagrees_with_proposition_2() {
    // The first event stays where only events are executable, which is a
    // cycle; the second leads out of it.
    let policy = once(vec![Change::Keep, Change::SetToZero]);
    let exploration = explore(&policy).unwrap();
    let closed = place(&exploration, &[1]);
    assert_eq!(
        exploration.table[closed],
        [Some(closed), Some(0), None, None]
    );
    assert!(!proposition_2_says_nonblocking(&policy));
    assert_eq!(findings_of(&policy).blocked, None);
    // Without the way out both agree.
    let policy = once(vec![Change::Keep, Change::Keep]);
    assert!(!proposition_2_says_nonblocking(&policy));
    assert_eq!(findings_of(&policy).blocked, Some(vec![2]));
}

#[test]
fn definition_2_disagrees_with_proposition_5() {
    // The event is executable everywhere, so no state is a deadlock.
    let policy = once(vec![Change::Keep]);
    assert!(proposition_5_promises_nonblocking(&policy));
    assert_eq!(findings_of(&policy).blocked, Some(vec![1]));
    // Without the event the state is a deadlock and both agree.
    let policy = once(vec![]);
    assert!(!proposition_5_promises_nonblocking(&policy));
    assert_eq!(findings_of(&policy).blocked, Some(vec![0]));
}
