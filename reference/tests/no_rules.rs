//! Policies without rules: their books, and what is found and possible in them.
//! With `no_rules_refused.rs` the reference's side of `NoRules.antt` in
//! `crates/definitions/specs/Cases`.

mod common;

use common::*;
use reference::book;
use reference::compare::{compare, equal_bytes, Comparison};
use reference::dot::dot;
use reference::entry::{self, RequestVerdict, Verdict};
use reference::findings::{findings, Findings, RequestFinding};
use reference::host::{host, File};
use reference::page::page;
use reference::play::{input, play};
use reference::policy::{self, Version};
use reference::refusal::Refusal;
use reference::shelf::shelf;
use reference::situation::{all_valuations, start};
use reference::walk::{Answer, OpenedBook};
use reference::way::way;
use reference::words::Names;

/// One event and three requests.
const PLAIN: &[u8] = include_bytes!("../../samples/norules.policy");

/// The same frame in version 2, with two variables.
const STARTED: &[u8] = include_bytes!("../../samples/norules-started.policy");

/// The book of both.
const BOOK: &str = "42 4F 4B 00 01 01 01 03 00 00 00 01 | 01 00 00 00 00 00 00";

/// A book of one state: so many events lead to it, and of so many requests none
/// is answered.
fn events_only(events: usize, fields: u8, counts: [u8; 4], requests: usize) -> Vec<u8> {
    let frame = [&[events as u8, fields][..], &counts, &[1]].concat();
    let row = [vec![1; events], vec![0; 2 * requests]].concat();
    [bytes("42 4F 4B 00 01"), frame, row].concat()
}

#[test]
fn the_samples_are_read_and_written() {
    assert_eq!(PLAIN, bytes("50 4F 4C 00 01 01 01 00 00 03"));
    assert_eq!(PLAIN, no_rules(1, 1, &[3], 0, &[]));
    assert_eq!(STARTED, bytes("50 4F 4C 00 02 01 01 02 00 03 05 3F 02 01"));
    assert_eq!(STARTED, no_rules(2, 1, &[3], 2, &[5, 63, 2, 1]));
    for (file, version, starts) in [
        (PLAIN, Version::One, &[][..]),
        (&no_rules_changing(), Version::One, &[0, 0]),
        (STARTED, Version::Two, &[5, 63]),
        (&no_rules_largest(), Version::Two, &FOUR_STARTS),
    ] {
        let policy = policy::read(file).expect("an accepted policy");
        assert_eq!((policy.version, &policy.starts[..]), (version, starts));
        assert!(policy.rules.is_empty());
        assert_eq!(policy::write(&policy), file);
        // No variable is tested, so 0 is its only value, wherever it starts.
        assert_eq!(all_valuations(&policy), [[0; 4]]);
        assert!(start(&policy).iter().eq(&[[0; 4]]));
    }
}

#[test]
fn the_book_has_one_state_whose_events_lead_to_itself() {
    assert_eq!(bytes(BOOK), events_only(1, 1, [3, 0, 0, 0], 3));
    for policy in [PLAIN, &no_rules_changing(), STARTED] {
        assert_eq!(book_bytes(policy), bytes(BOOK));
        assert_eq!(silent_book(policy), bytes(BOOK));
        assert_eq!(situations(policy).len(), 1);
    }
    assert_eq!(book::read(&bytes(BOOK)), Ok(book_of(PLAIN)));
    let smallest = no_rules(1, 0, &[1], 0, &[]);
    assert_eq!(smallest.len(), 10);
    assert_eq!(
        book_bytes(&smallest),
        bytes("42 4F 4B 00 01 00 01 01 00 00 00 01 | 00 00")
    );
    assert_eq!(book_bytes(&smallest), events_only(0, 1, [1, 0, 0, 0], 1));
}

/// E = 0 and 8, P = 0 and 4, F = 4 and 64 requests, in either version.
#[test]
fn equal_books_whatever_the_variables_starts_changes_and_versions_are() {
    let without_events = events_only(0, 4, FOUR, 64);
    for policy in [
        no_rules(1, 0, &FOUR, 0, &[]),
        no_rules(2, 0, &FOUR, 0, &[]),
        no_rules(1, 0, &FOUR, 4, &[]),
        no_rules(2, 0, &FOUR, 4, &FOUR_STARTS),
    ] {
        assert_eq!(book_bytes(&policy), without_events);
        assert_eq!(situations(&policy).len(), 1);
    }
    let eight_events = events_only(8, 4, FOUR, 64);
    for policy in [
        no_rules(1, 8, &FOUR, 0, &[]),
        no_rules(2, 8, &FOUR, 0, &[]),
        no_rules(1, 8, &FOUR, 4, &no_rules_changes()),
        no_rules(1, 8, &FOUR, 4, &[2; 32]),
        no_rules(2, 8, &FOUR, 4, &[0; 36]),
        no_rules_largest(),
    ] {
        assert_eq!(book_bytes(&policy), eight_events);
        assert_eq!(situations(&policy).len(), 1);
    }
    assert_eq!((no_rules_largest().len(), eight_events.len()), (49, 148));
}

#[test]
fn missing_and_blocked_after_the_empty_history() {
    let expected = Findings {
        conflict: None,
        missing: Some(RequestFinding {
            request: 0,
            history: vec![],
        }),
        blocked: Some(vec![]),
    };
    let text = "states 1\nconflict -\nmissing 0 0\nblocked 0\n";
    for policy in [
        PLAIN,
        STARTED,
        &no_rules(1, 0, &[1], 0, &[]),
        &no_rules(1, 0, &FOUR, 0, &[]),
        &no_rules_largest(),
    ] {
        assert_eq!(findings(&book_of(policy)), expected);
        assert_eq!(shelf(policy), text);
    }
}

#[test]
fn a_page_of_one_line() {
    let line = |dots: &str| format!("  1   0 {dots:<64}\n");
    assert_eq!(page(&book_of(PLAIN)), line("..."));
    assert_eq!(page(&book_of(STARTED)), line("..."));
    assert_eq!(page(&book_of(&no_rules(1, 0, &[1], 0, &[]))), line("."));
    assert_eq!(page(&book_of(&no_rules_largest())), line(&".".repeat(64)));
}

/// Every request is unanswered from the start on, and has no other outcome.
#[test]
fn ways_lead_to_none_alone() {
    for policy in [
        PLAIN,
        STARTED,
        &no_rules(1, 0, &FOUR, 0, &[]),
        &no_rules_largest(),
    ] {
        let book = book_of(policy);
        let requests = book.frame.requests();
        for request in 0..requests {
            assert_eq!(way(&book, request, 0), Ok(Some(vec![])));
            for outcome in 1..=3 {
                assert_eq!(way(&book, request, outcome), Ok(None));
            }
            assert_eq!(way(&book, request, 4), Err(Refusal::Outcome));
        }
        assert_eq!(way(&book, requests, 0), Err(Refusal::Walk));
    }
}

#[test]
fn buffers_hold_the_book_and_keep_the_rest() {
    for policy in [STARTED, &no_rules_largest()] {
        let (book, mut buffer) = (silent_book(policy), vec![7; 17_284]);
        assert_eq!(entry::build(policy, &mut buffer), Ok(book.len()));
        assert_eq!(buffer[..book.len()], book);
        assert!(buffer[book.len()..].iter().all(|&byte| byte == 7));
        assert_eq!(entry::build(policy, &mut [0; 17_283]), Err(Refusal::Buffer));
    }
    assert_eq!(silent_book(STARTED).len(), 19);
    let [mut one, mut two, mut three] = [128, 129, 130].map(|size| vec![7; size]);
    let expected = Verdict {
        conflict: None,
        missing: Some(RequestVerdict {
            request: 0,
            length: 0,
        }),
        blocked: Some(0),
    };
    let found = entry::verdict(&bytes(BOOK), &mut one, &mut two, &mut three);
    assert_eq!(found, Ok(expected));
    assert!([one, two, three].concat().iter().all(|&byte| byte == 7));
    let mut buffer = [7; 128];
    assert_eq!(entry::way(&bytes(BOOK), 2, 0, &mut buffer), Ok(Some(0)));
    assert_eq!(entry::way(&bytes(BOOK), 0, 1, &mut buffer), Ok(None));
    assert_eq!(buffer, [7; 128]);
}

#[test]
fn events_are_the_only_steps() {
    let book = book_bytes(STARTED);
    let mut opened = OpenedBook::open(&book).expect("a book");
    for code in 0..8 {
        let answer = match code {
            0 => Ok(1),
            _ => Err(Refusal::Walk),
        };
        assert_eq!(opened.step(code), answer);
        assert_eq!(opened.state, 1);
    }
    for request in 0..3 {
        assert_eq!(opened.tell(request), Ok(Answer::None));
    }
    assert_eq!(opened.tell(3), Err(Refusal::Walk));
    let none = "1 none none none\n";
    assert_eq!(
        play(&input(&book, &[0, 1, 2, 0, 255])),
        [
            none,
            none,
            "refused 16\n",
            "refused 16\n",
            none,
            "refused 16\n"
        ]
        .concat()
    );
    let without_events = book_bytes(&no_rules(1, 0, &[1], 0, &[]));
    assert_eq!(
        play(&input(&without_events, &[0, 1])),
        "1 none\nrefused 16\nrefused 16\n"
    );
}

#[test]
fn a_picture_of_one_blocked_state() {
    let picture = |policy: &[u8]| {
        let book = book_of(policy);
        dot(&book, &Names::plain(&book.frame))
    };
    let text = picture(PLAIN);
    assert_eq!(picture(STARTED), text);
    assert!(text.ends_with(
        "  start -> 1;\n  \
         1 [label=<<b>1</b><br/><font point-size=\"10\">blocked</font>>, fillcolor=\"#d0d4d9\"];\n  \
         1 -> 1 [label=<<font color=\"#57606a\">&#160;event 0&#160;</font>>];\n}\n"
    ));
    assert_eq!(picture(&no_rules_largest()).matches(" -> ").count(), 2);
    assert_eq!(
        picture(&no_rules(1, 0, &FOUR, 4, &[]))
            .matches(" -> ")
            .count(),
        1
    );
}

#[test]
fn the_host_tells_that_nothing_is_answered() {
    let file = |name, bytes: &[u8]| File {
        name,
        content: Ok(bytes.to_vec()),
    };
    let judged = |name: &str| {
        format!(
            "{name}: a book of 19 bytes, states: 1\n  conflict: none\n  \
             missing: request 0 is unanswered, already at the start\n  \
             blocked: no request is ever answered\n"
        )
    };
    assert_eq!(
        host(file("one", PLAIN), file("two", STARTED)),
        judged("one")
            + &judged("two")
            + "comparison: the same histories are possible under both\nexit status 0\n"
    );
}

/// One rule that rejects everything, and one that no number of at least 5 and
/// below 3 lets apply.
#[test]
fn silence_is_no_rejection() {
    let (book, same) = (bytes(BOOK), Ok(Comparison::Same));
    assert_eq!(compare(&book, &book_bytes(STARTED)), same);
    assert!(equal_bytes(&book, &book_bytes(&no_rules_changing())));
    let rejecting = book_bytes(&with_rule(PLAIN, "00 07 00 00"));
    let differ = Ok(Comparison::Differ(vec![2]));
    assert_eq!(compare(&book, &rejecting), differ);
    assert_eq!(compare(&rejecting, &book), differ);
    let one_variable = no_rules(1, 1, &[3], 1, &[2]);
    let contradictory = with_rule(&one_variable, "00 07 01 00 05 03 01");
    assert_eq!(book_bytes(&contradictory), book);
    assert_eq!(situations(&contradictory).len(), 1);
    // Where the event adds instead, it leads through all six valuations.
    let adding = with_byte(&contradictory, 17, 1);
    assert_eq!(book_bytes(&adding), book);
    assert_eq!(situations(&adding).len(), 6);
}

/// As many events and requests, but two fields.
#[test]
fn another_frame_is_another_book() {
    let other = book_bytes(&no_rules(1, 1, &[1, 3], 0, &[]));
    let expected = [(6, 2), (7, 1), (8, 3)]
        .iter()
        .fold(bytes(BOOK), |book, &(place, byte)| {
            with_byte(&book, place, byte)
        });
    assert_eq!(other, expected);
    assert_eq!(compare(&bytes(BOOK), &other), Err(Refusal::Frames));
    let more_events = book_bytes(&no_rules(1, 2, &[3], 0, &[]));
    assert_eq!(compare(&bytes(BOOK), &more_events), Err(Refusal::Frames));
}
