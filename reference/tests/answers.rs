//! Comparisons, findings and walks on generated books, against all histories
//! tried one after another.

mod common;

use common::{entry, histories, requests, state_after, width};
use reference::book::{self, build};
use reference::compare::{compare, Comparison};
use reference::findings::{findings, RequestFinding};
use reference::generate;
use reference::walk::{Answer, OpenedBook};
use reference::History;

/// The earliest history possible in just one of two small books, by trying all.
fn earliest_difference(first: &[u8], second: &[u8], most: usize) -> Option<History> {
    let possible =
        |history: &[u8]| [first, second].map(|book| state_after(book, history).is_some());
    histories(width(first), most, |history| {
        possible(history) != [false, false]
    })
    .into_iter()
    .find(|history| possible(history) != [true, true])
}

/// Whether all histories that matter for the comparison can be tried.
fn is_small_pair(first: &[u8], second: &[u8]) -> bool {
    let longest = u32::from(first[11]) + u32::from(second[11]) - 1;
    (width(first) as u64)
        .checked_pow(longest)
        .is_some_and(|count| count <= 20_000)
}

#[test]
fn differences_of_small_books_are_the_earliest() {
    let (mut same, mut differ) = (0, 0);
    for seed in 0..900 {
        let (first, second) = generate::book_pair(seed);
        if !is_small_pair(&first, &second) {
            continue;
        }
        let longest = usize::from(first[11]) + usize::from(second[11]) - 1;
        let expected = match earliest_difference(&first, &second, longest) {
            Some(history) => Comparison::Differ(history),
            None => Comparison::Same,
        };
        assert_eq!(compare(&first, &second).as_ref(), Ok(&expected));
        assert_eq!(compare(&second, &first).as_ref(), Ok(&expected));
        match expected {
            Comparison::Same => same += 1,
            Comparison::Differ(_) => differ += 1,
        }
    }
    assert!(same > 30 && differ > 30, "{same} {differ}");
}

#[test]
fn differences_are_possible_in_just_one_book() {
    let (mut differ, mut same_but_unequal) = (0, 0);
    for seed in 0..300 {
        let (first, second) = generate::book_pair(seed);
        let Ok(Comparison::Differ(history)) = compare(&first, &second) else {
            assert_eq!(compare(&first, &second), Ok(Comparison::Same));
            same_but_unequal += usize::from(first != second);
            continue;
        };
        let before = &history[..history.len() - 1];
        assert!(state_after(&first, before).is_some() && state_after(&second, before).is_some());
        let possible = [&first, &second].map(|book| state_after(book, &history).is_some());
        assert_ne!(possible[0], possible[1]);
        assert!(history.len() < usize::from(first[11]) + usize::from(second[11]));
        differ += 1;
    }
    assert!(
        differ > 50 && same_but_unequal > 50,
        "{differ} {same_but_unequal}"
    );
}

#[test]
fn built_books_are_the_same_exactly_if_their_bytes_are_equal() {
    let (mut equal, mut unequal) = (0, 0);
    for seed in 0..300 {
        let (first, second) = generate::policy_pair(seed);
        let (Ok(first), Ok(second)) = (build(&first), build(&second)) else {
            continue;
        };
        let (first, second) = (first.to_bytes(), second.to_bytes());
        assert_eq!(
            compare(&first, &second) == Ok(Comparison::Same),
            first == second
        );
        if first == second {
            equal += 1;
        } else {
            unequal += 1;
        }
    }
    assert!(equal > 50 && unequal > 50, "{equal} {unequal}");
}

#[test]
fn far_pairs_differ_as_late_as_they_can() {
    let length = |(first, second): (Vec<u8>, Vec<u8>)| match compare(&first, &second) {
        Ok(Comparison::Differ(history)) => history.len(),
        other => panic!("{other:?}"),
    };
    for first in 1..=12 {
        for second in 1..=12 {
            for seed in 0..8 {
                let pair = generate::far_pair(first, second, seed);
                assert_eq!(length(pair), first + second - 1, "{first} {second}");
            }
        }
    }
    for (first, second) in [(127, 1), (1, 127), (126, 127), (127, 64), (100, 90)] {
        assert_eq!(
            length(generate::far_pair(first, second, 1)),
            first + second - 1
        );
    }
    for seed in 0..20 {
        let (first, second) = generate::longest_pair(seed);
        assert_eq!((first[11], second[11]), (127, 127));
        assert_eq!(length((first, second)), 253);
    }
}

/// Conflict, missing and blocked.
type Tried = (
    Option<RequestFinding>,
    Option<RequestFinding>,
    Option<History>,
);

/// The findings of a small book by trying all histories of up to n - 1 codes.
fn tried_findings(book: &[u8]) -> Tried {
    let most = book[11] as usize - 1;
    let reached = histories(width(book), most, |history| {
        state_after(book, history).is_some()
    });
    let about_request = |wanted: [bool; 2]| {
        reached.iter().find_map(|history| {
            (0..requests(book))
                .find(|&request| answers(book, history, request) == wanted)
                .map(|request| RequestFinding {
                    request,
                    history: history.clone(),
                })
        })
    };
    let event_lists = histories(book[5] as usize, most, |_| true);
    let silent = |history: &[u8]| {
        (0..requests(book)).all(|request| answers(book, history, request) == [false, false])
    };
    let blocked = reached.iter().find(|history| {
        event_lists
            .iter()
            .all(|list| silent(&[&history[..], &list[..]].concat()))
    });
    (
        about_request([true, true]),
        about_request([false, false]),
        blocked.cloned(),
    )
}

/// Whether a request may be accepted, and rejected, after a history.
fn answers(book: &[u8], history: &[u8], request: usize) -> [bool; 2] {
    let state = state_after(book, history).expect("a possible history");
    [0, 1].map(|decision| entry(book, state, book[5] as usize + 2 * request + decision) != 0)
}

#[test]
fn findings_of_small_books_are_the_earliest() {
    let mut found = [0; 3];
    for seed in 0..400 {
        let bytes = generate::book(seed);
        let longest = u32::from(bytes[11]) - 1;
        let count = (width(&bytes) as u64).checked_pow(longest);
        if count.is_none_or(|count| count > 5_000) {
            continue;
        }
        let answer = findings(&book::read(&bytes).unwrap());
        let (conflict, missing, blocked) = tried_findings(&bytes);
        found[0] += usize::from(conflict.is_some());
        found[1] += usize::from(missing.is_some());
        found[2] += usize::from(blocked.is_some());
        assert_eq!(
            (answer.conflict, answer.missing, answer.blocked),
            (conflict, missing, blocked)
        );
    }
    assert!(found.iter().all(|&count| count > 20), "{found:?}");
}

#[test]
fn late_findings_come_after_126_codes() {
    let mut found = [0; 3];
    for seed in 0..60 {
        let answer = findings(&book::read(&generate::late_finding_book(seed)).unwrap());
        let about_requests = [answer.conflict, answer.missing];
        let mut histories: Vec<Option<History>> = about_requests
            .map(|finding| finding.map(|found| found.history))
            .to_vec();
        histories.push(answer.blocked);
        assert!(histories.iter().any(Option::is_some));
        for (place, history) in histories.iter().enumerate() {
            if let Some(history) = history {
                assert_eq!(history.len(), 126);
                found[place] += 1;
            }
        }
    }
    assert!(found.iter().all(|&count| count > 5), "{found:?}");
}

/// The state is the one that the steps not refused lead to.
#[test]
fn walks_follow_the_steps_not_refused() {
    for seed in 0..200 {
        let bytes = generate::book(seed);
        let mut opened = OpenedBook::open(&bytes).unwrap();
        let mut history = History::new();
        for code in generate::codes(seed, width(&bytes), 60) {
            let before = opened.state;
            match opened.step(code) {
                Ok(state) => {
                    assert_eq!(state, opened.state);
                    history.push(code as u8);
                }
                Err(refusal) => {
                    assert_eq!((refusal.number(), opened.state), (16, before));
                    assert!(code >= width(&bytes) || entry(&bytes, before, code) == 0);
                }
            }
            assert_eq!(state_after(&bytes, &history), Some(opened.state));
        }
        check_telling(&opened, &bytes);
    }
}

fn check_telling(opened: &OpenedBook, bytes: &[u8]) {
    for request in 0..requests(bytes) {
        let code = bytes[5] as usize + 2 * request;
        let possible = [code, code + 1].map(|code| entry(bytes, opened.state, code) != 0);
        let expected = match possible {
            [false, false] => Answer::None,
            [true, false] => Answer::Accept,
            [false, true] => Answer::Reject,
            [true, true] => Answer::Both,
        };
        assert_eq!(opened.tell(request), Ok(expected));
    }
    assert!(opened.tell(requests(bytes)).is_err());
}
