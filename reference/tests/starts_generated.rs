//! Starting values in generated policies: what is equal in both versions, where a
//! start leads, and what the generators of version 2 give.

mod common;

use std::collections::BTreeMap;

use common::{refused, with_starts};
use reference::book::{build, Book};
use reference::compare::{compare, compare_books, Comparison};
use reference::explore::{explore, Table};
use reference::generate;
use reference::policy::{self, Policy, Version};
use reference::situation::bounds;

/// The decoded policies of version 2 that the generator gives.
fn starting_policies(seeds: std::ops::Range<u64>) -> impl Iterator<Item = Policy> {
    seeds.map(|seed| policy::read(&generate::starting_policy(seed)).expect("only number 11 occurs"))
}

/// The policy with other starting values, each from the old one and its bound.
fn with_each_start(policy: &Policy, change: impl Fn(u8, u8) -> u8) -> Policy {
    let starts = policy.starts.iter().zip(bounds(policy));
    Policy {
        starts: starts.map(|(&start, bound)| change(start, bound)).collect(),
        ..policy.clone()
    }
}

#[test]
fn zeros_in_version_2_are_version_1() {
    let mut refusals = 0;
    for seed in 0..300 {
        let one = generate::policy(seed);
        let two = with_starts(&one, &vec![0; one[7] as usize]);
        assert_eq!(build(&two), build(&one));
        refusals += usize::from(build(&one).is_err());
    }
    assert!(refusals > 5, "{refusals}");
}

#[test]
fn a_start_above_the_bound_counts_as_the_bound() {
    let (mut above, mut at) = (0, 0);
    for policy in starting_policies(0..300) {
        let lowered = with_each_start(&policy, u8::min);
        let raised = with_each_start(&policy, |start, bound| match start < bound {
            true => start,
            false => 63,
        });
        let books = [&policy, &lowered, &raised].map(|policy| build(&policy::write(policy)));
        assert_eq!(books[0], books[1]);
        assert_eq!(books[0], books[2]);
        above += usize::from(policy != lowered);
        at += usize::from(lowered != raised);
    }
    assert!(above > 90 && at > above, "{above} {at}");
}

/// For each situation a history that leads to it, by the table of all steps.
fn histories(table: &Table) -> BTreeMap<usize, Vec<u8>> {
    let mut found = BTreeMap::from([(0, vec![])]);
    let mut waiting = vec![0];
    while let Some(place) = waiting.pop() {
        for (code, target) in table[place].iter().enumerate() {
            if let Some(target) = target.filter(|target| !found.contains_key(target)) {
                let history = [&found[&place][..], &[code as u8]].concat();
                found.insert(target, history);
                waiting.push(target);
            }
        }
    }
    found
}

/// The book with the numbers 1 and `state` exchanged, so that it starts there.
fn opened_at(book: &Book, state: usize) -> Book {
    let mut moved = book.clone();
    moved.rows.swap(0, state - 1);
    for entry in moved.rows.iter_mut().flatten() {
        *entry = match *entry as usize {
            1 => state as u8,
            number if number == state => 1,
            _ => *entry,
        };
    }
    moved
}

/// Where a history leads to one valuation alone, what is possible after it is
/// what is possible from that valuation as the start.
#[test]
fn a_start_is_where_a_history_leads() {
    let mut tried = 0;
    for seed in 0..120 {
        let policy = policy::read(&generate::policy(seed)).expect("only number 11 occurs");
        let Ok(exploration) = explore(&policy) else {
            continue;
        };
        let book = build(&policy::write(&policy)).expect("a book");
        for (place, history) in histories(&exploration.table) {
            let situation = &exploration.situations[place];
            let Some(valuation) = situation.first().filter(|_| situation.len() == 1) else {
                continue;
            };
            let state = common::state_after(&book.to_bytes(), &history).expect("a state");
            let from_there = Policy {
                version: Version::Two,
                starts: valuation[..policy.variables].to_vec(),
                ..policy.clone()
            };
            let started = build(&policy::write(&from_there)).expect("no more situations");
            let same = compare_books(&opened_at(&book, state), &started);
            assert_eq!(same, Comparison::Same);
            tried += usize::from(place > 0);
        }
    }
    assert!(tried > 1_000, "{tried}");
}

/// Each sort of starting value that the generator is to give.
#[test]
fn starting_policies_have_every_sort_of_start() {
    let mut met: BTreeMap<&str, usize> = BTreeMap::new();
    let mut note = |sort, is_met: bool| *met.entry(sort).or_default() += usize::from(is_met);
    for policy in starting_policies(0..300) {
        note("no variables", policy.variables == 0);
        note("all zeros", policy.starts.iter().all(|&start| start == 0));
        for (&start, bound) in policy.starts.iter().zip(bounds(&policy)) {
            note("0 below the bound", start == 0 && bound > 0);
            note("between", start > 0 && start + 1 < bound);
            note("one below the bound", start + 1 == bound);
            note("at the bound", start == bound);
            note("one above the bound", start == bound + 1);
            note("far above the bound", start > bound + 8 && start < 63);
            note("63", start == 63);
            note("above a bound of 0", start > 0 && bound == 0);
        }
    }
    assert_eq!(met.len(), 10);
    assert!(met.values().all(|&count| count >= 10), "{met:?}");
}

#[test]
fn starting_pairs_of_both_versions_are_often_equal() {
    let mut met = BTreeMap::new();
    for seed in 0..300 {
        let (first, second) = generate::starting_pair(seed);
        assert!([first[4], second[4]].contains(&2));
        assert_eq!(first[5..7], second[5..7]);
        let counts = 9..9 + first[6] as usize;
        assert_eq!(first[counts.clone()], second[counts]);
        let (Ok(one), Ok(two)) = (build(&first), build(&second)) else {
            continue;
        };
        let (one, two) = (one.to_bytes(), two.to_bytes());
        let same = compare(&one, &two) == Ok(Comparison::Same);
        assert_eq!(same, one == two);
        let sort = (first[4] == second[4], same, first == second);
        *met.entry(sort).or_insert(0) += 1;
    }
    // One of each version or both of version 2, with equal books or not.
    for versions in [false, true] {
        for same in [false, true] {
            assert!(met[&(versions, same, false)] > 20, "{met:?}");
        }
    }
}

/// Where the starting values of a file of version 2 stand, if it is so long.
fn start_places(bytes: &[u8]) -> Option<std::ops::Range<usize>> {
    let first = 9 + *bytes.get(6)? as usize;
    let places = first..first + *bytes.get(7)? as usize;
    (bytes[3..5] == [0, 2] && places.end <= bytes.len()).then_some(places)
}

/// A bad start gives 17, unless the file with good starts gives a number up to 7.
#[test]
fn a_bad_start_is_judged_after_7_and_before_8() {
    let mut beside: BTreeMap<u8, usize> = BTreeMap::new();
    for seed in 0..600 {
        let bytes = generate::damaged_starting_policy(seed);
        let places = start_places(&bytes);
        let bad = places.filter(|places| bytes[places.clone()].iter().any(|&start| start > 63));
        let Some(bad) = bad else {
            assert_ne!(refused(&bytes), Some(17));
            continue;
        };
        let mut repaired = bytes.clone();
        repaired[bad].fill(0);
        let without = refused(&repaired).unwrap_or(0);
        let expected = match without {
            2..=7 => without,
            _ => 17,
        };
        assert_eq!(refused(&bytes), Some(expected));
        *beside.entry(without).or_default() += 1;
    }
    for number in [0, 6, 7, 8, 9, 10, 11] {
        assert!(beside.contains_key(&number), "{beside:?}");
    }
}
