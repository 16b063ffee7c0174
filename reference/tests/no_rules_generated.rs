//! Policies without rules as the generators give them: their books and what is
//! possible in them, pairs, and what turns the damaged ones down.

mod common;
#[path = "common/met.rs"]
mod met;
#[path = "common/plain.rs"]
mod plain;

use std::collections::{BTreeMap, BTreeSet};

use common::{book_bytes, book_of, refused, silent_book, situations};
use met::Met;
use plain::PlainPolicy;
use reference::book::build;
use reference::compare::{compare, Comparison};
use reference::generate;
use reference::page::page;
use reference::policy::{self, Change, Policy, Rule, Version};
use reference::shelf::shelf;
use reference::walk::{Answer, OpenedBook};
use reference::way::way;

fn decoded(bytes: &[u8]) -> Policy {
    policy::read(bytes).expect("an accepted policy")
}

#[test]
fn every_book_has_one_state_and_no_answer() {
    for seed in 0..600 {
        let policy = generate::no_rules_policy(seed);
        assert!(decoded(&policy).rules.is_empty());
        assert_eq!(policy::write(&decoded(&policy)), policy);
        assert_eq!(book_bytes(&policy), silent_book(&policy));
        assert_eq!(situations(&policy).len(), 1);
        assert_eq!(
            shelf(&policy),
            "states 1\nconflict -\nmissing 0 0\nblocked 0\n"
        );
    }
}

#[test]
fn policies_without_rules_are_of_every_sort() {
    let mut met = Met::default();
    for policy in (0..1_500).map(|seed| decoded(&generate::no_rules_policy(seed))) {
        let Policy { frame, version, .. } = &policy;
        for events in 0..=8 {
            met.note(&format!("{events} events"), frame.events == events);
        }
        let fields = frame.counts.len();
        for known in 1..=4 {
            met.note(&format!("{known} fields"), fields == known);
        }
        for known in 2..=4 {
            let is_met = (fields, frame.requests()) == (known, 64);
            met.note(&format!("64 requests of {known} fields"), is_met);
        }
        met.note("one request", frame.requests() == 1);
        met.note("16 values", frame.counts.contains(&16));
        for variables in 0..=4 {
            for known in [Version::One, Version::Two] {
                let is_met = (policy.variables, *version) == (variables, known);
                met.note(&format!("{variables} variables in {known:?}"), is_met);
            }
        }
        let largest = (frame.events, fields, policy.variables) == (8, 4, 4);
        met.note("all at their greatest", largest && *version == Version::Two);
        note_values(&policy, &mut met);
    }
    met.each_more_than(5);
}

/// The starting values of version 2 and the changes.
fn note_values(policy: &Policy, met: &mut Met) {
    let starts = match policy.version {
        Version::One => &[],
        Version::Two => &policy.starts[..],
    };
    met.note("start 0", starts.contains(&0));
    met.note("start 1", starts.contains(&1));
    met.note("start 63", starts.contains(&63));
    let between = starts.iter().any(|start| (2..63).contains(start));
    met.note("a start between", between);
    for change in [Change::Keep, Change::AddOne, Change::SetToZero] {
        let is_met = policy.events.iter().flatten().any(|&other| other == change);
        met.note(&format!("{change:?}"), is_met);
    }
}

/// The steps of the policy, and those of its opened book.
#[test]
fn histories_are_lists_of_events() {
    for seed in 0..200 {
        let policy = generate::no_rules_policy(seed);
        let (plain, book) = (PlainPolicy::new(&policy), book_bytes(&policy));
        let events = policy[5] as usize;
        for code in 0..plain.width() {
            let reached = plain.after(&plain.start(), code);
            match code < events {
                true => assert_eq!(reached, plain.start()),
                false => assert!(reached.is_empty()),
            }
        }
        let mut opened = OpenedBook::open(&book).expect("a book");
        for code in generate::codes(seed, plain.width(), 60) {
            assert_eq!(opened.step(code).is_ok(), code < events);
            assert_eq!(opened.state, 1);
        }
        for request in 0..book_of(&policy).frame.requests() {
            assert_eq!(opened.tell(request), Ok(Answer::None));
        }
    }
}

#[test]
fn pages_and_ways_say_that_nothing_is_answered() {
    for seed in 0..200 {
        let book = book_of(&generate::no_rules_policy(seed));
        let requests = book.frame.requests();
        let dots = ".".repeat(requests);
        assert_eq!(page(&book), format!("  1   0 {dots:<64}\n"));
        for request in 0..requests {
            let ways = [0, 1, 2, 3].map(|outcome| way(&book, request, outcome));
            assert_eq!(ways, [Ok(Some(vec![])), Ok(None), Ok(None), Ok(None)]);
        }
    }
}

/// Whatever the rules were, and also where they led to too many situations.
#[test]
fn taking_all_rules_away_leaves_silence() {
    for seed in 0..300 {
        for bytes in [generate::policy(seed), generate::starting_policy(seed)] {
            let mut policy = decoded(&bytes);
            policy.rules.clear();
            let silent = policy::write(&policy);
            assert_eq!(book_bytes(&silent), silent_book(&silent));
        }
    }
}

/// Whether no value passes the tests of some variable.
fn contradicts_itself(rule: &Rule) -> bool {
    let mut pairs = rule.tests.iter().map(|test| (test.at_least, test.below));
    pairs.any(|pair| matches!(pair, (Some(at_least), Some(below)) if at_least >= below))
}

/// Two policies without rules and of one frame have equal books. A rule changes
/// that, unless it contradicts itself.
#[test]
fn pairs_have_equal_books_unless_something_is_answered() {
    let mut met = Met::default();
    for seed in 0..600 {
        let (first, second) = generate::no_rules_pair(seed);
        let pair = [decoded(&first), decoded(&second)];
        let answering = |policy: &Policy| !policy.rules.iter().all(contradicts_itself);
        let [one, two] = [&first, &second].map(|policy| book_bytes(policy));
        let other_frame = pair[0].frame != pair[1].frame;
        let different = pair.iter().any(answering);
        match compare(&one, &two) {
            Ok(Comparison::Same) => assert!(!different && !other_frame && one == two),
            Ok(Comparison::Differ(history)) => {
                assert!(different && !other_frame);
                met.note("different at once", history.len() == 1);
                met.note("different after events", history.len() > 1);
            }
            Err(refusal) => assert!(other_frame && refusal.number() == 15),
        }
        note_pair(&pair, &mut met);
        let rules = pair.iter().any(|policy| !policy.rules.is_empty());
        assert!(pair.iter().any(|policy| policy.rules.is_empty()));
        met.note("rules that never apply", rules && !different);
        let several = [&first, &second].map(|policy| situations(policy).len() > 1);
        met.note(
            "several alike situations",
            one == two && several != [false; 2],
        );
        met.note("as many bytes", other_frame && one.len() == two.len());
    }
    met.each_more_than(10);
}

/// What two policies without rules and of one frame do not share.
fn note_pair(pair: &[Policy; 2], met: &mut Met) {
    let [first, second] = pair;
    let is_silent = |policy: &Policy| policy.rules.is_empty();
    if first.frame == second.frame && pair.iter().all(is_silent) {
        let versions = (first.version, second.version);
        met.note("both 1", versions == (Version::One, Version::One));
        met.note("1 and 2", versions == (Version::One, Version::Two));
        met.note("2 and 1", versions == (Version::Two, Version::One));
        met.note("both 2", versions == (Version::Two, Version::Two));
        met.note("other variables", first.variables != second.variables);
        if first.variables == second.variables && first.variables > 0 {
            met.note("other starts", first.starts != second.starts);
            met.note("other changes", first.events != second.events);
        }
    }
}

/// The numbers whose conditions a file of no rules fits, in the order in which
/// they are judged, straight from its bytes as far as they go.
fn fitting(bytes: &[u8]) -> Vec<u8> {
    if bytes.len() < 9 {
        return vec![2];
    }
    let [events, fields, variables, rules] = [5, 6, 7, 8].map(|place| bytes[place] as usize);
    let starts = match bytes[4] {
        2 => variables,
        _ => 0,
    };
    let length =
        9 + fields + starts + rules * (2 * fields + 2 + 3 * variables) + events * variables;
    let part = |from: usize, count: usize| bytes.iter().skip(from).take(count);
    let mut counts = part(9, fields);
    let requests = counts.clone().fold(1, |product: usize, &count| {
        product.saturating_mul(count.into())
    });
    let bad_sizes = events > 8 || !(1..=4).contains(&fields) || variables > 4 || rules > 32;
    let bad_counts = requests > 64 || counts.any(|&count| count == 0 || count > 16);
    let mut changes = part(9 + fields + starts, events * variables);
    let conditions = [
        (3, bytes[..3] != *b"POL"),
        (4, bytes[3] != 0 || ![1, 2].contains(&bytes[4])),
        (5, bad_sizes),
        (6, bytes.len() != length),
        (7, bad_counts),
        (17, part(9 + fields, starts).any(|&start| start > 63)),
        (9, changes.any(|&change| change > 2)),
    ];
    let fits = |(number, fits): (u8, bool)| fits.then_some(number);
    conditions.into_iter().filter_map(fits).collect()
}

#[test]
fn damaged_files_give_the_first_number_that_fits() {
    let (mut met, mut beside) = (BTreeMap::new(), BTreeSet::new());
    for seed in 0..1_500 {
        let bytes = generate::damaged_no_rules_policy(seed);
        let numbers = fitting(&bytes);
        assert_eq!(refused(&bytes), numbers.first().copied());
        *met.entry(refused(&bytes).unwrap_or(0)).or_insert(0) += 1;
        beside.extend(numbers.iter().skip(1).map(|&later| (numbers[0], later)));
    }
    assert!(met.keys().eq(&[0, 2, 3, 4, 5, 6, 7, 9, 17]), "{met:?}");
    assert!(met.values().all(|&count| count >= 30), "{met:?}");
    for order in [
        (3, 4),
        (4, 5),
        (5, 6),
        (5, 7),
        (6, 7),
        (6, 17),
        (6, 9),
        (7, 17),
        (7, 9),
        (17, 9),
    ] {
        assert!(beside.contains(&order), "{order:?}");
    }
}

/// Rules that the header says, where the length is that of none.
#[test]
fn rules_that_are_not_there_give_5_or_6() {
    let mut said = BTreeMap::new();
    for seed in 0..1_500 {
        let bytes = generate::damaged_no_rules_policy(seed);
        let rules = bytes.get(8).copied().unwrap_or(0);
        if rules != 0 {
            let expected = if rules > 32 { 5 } else { 6 };
            assert_eq!(refused(&bytes), Some(expected));
            *said.entry(rules).or_insert(0) += 1;
        }
    }
    for rules in [1, 32, 33] {
        assert!(said[&rules] > 30, "{said:?}");
    }
}

/// The other kinds of damaged files have no rules now and then too.
#[test]
fn other_damaged_files_without_rules_are_judged_alike() {
    let kinds = [generate::damaged_policy, generate::damaged_starting_policy];
    for kind in kinds {
        let (mut accepted, mut refusals) = (0, 0);
        for bytes in (0..1_500)
            .map(kind)
            .filter(|bytes| bytes.get(8) == Some(&0))
        {
            assert_eq!(refused(&bytes), fitting(&bytes).first().copied());
            match build(&bytes) {
                Ok(book) => {
                    assert_eq!(book.to_bytes(), silent_book(&bytes));
                    accepted += 1;
                }
                Err(_) => refusals += 1,
            }
        }
        assert!(accepted > 5 && refusals > 0, "{accepted} {refusals}");
    }
}
