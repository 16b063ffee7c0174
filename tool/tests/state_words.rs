//! What `after` says of a state in words: every request once, below its outcome,
//! with where it leads, against the reference.

mod common;

use std::collections::BTreeSet;

use common::run::{run, Folder};
use common::subjects::{walk, with_books, Subject};
use common::Random;
use policybook::frame::Frame;
use policybook::names::Names;
use policybook::notation::{parse, print};
use policybook::policy::Policy;
use reference::book::Book;
use reference::way::outcome_in;

/// The requests that a line of words stands for, as in a rule.
fn requests(line: &str, subject: &Subject, book: &Book) -> BTreeSet<usize> {
    let all = 0..book.frame.requests();
    if line == "any request" {
        return all.collect();
    }
    let declared = Policy {
        version: 1,
        frame: Frame { events: book.frame.events, counts: book.frame.counts.clone() },
        starts: Vec::new(),
        rules: Vec::new(),
        events: vec![Vec::new(); book.frame.events],
    };
    let names = Names { variables: Vec::new(), ..subject.names.clone() };
    let text = format!("{}rule {line} accept\n", print(&declared, &names, &[]));
    let masks = parse(&text).expect(line).policy.rules[0].masks.clone();
    let is_meant = |request: &usize| {
        let values = book.frame.values_of(*request);
        masks.iter().zip(values).all(|(mask, value)| mask >> value & 1 == 1)
    };
    all.filter(is_meant).collect()
}

/// The first part of a line, up to two blanks that do not stand in quotes, and
/// what follows.
fn parts(line: &str) -> (&str, &str) {
    let is_quoted = |place: usize| line[..place].matches('"').count() % 2 == 1;
    let mut gaps = line.match_indices("  ").map(|(place, _)| place);
    let end = gaps.find(|&place| !is_quoted(place)).unwrap_or(line.len());
    (&line[..end], line[end..].trim_start())
}

/// Where a step leads from a state, in words.
fn leads(book: &Book, state: usize, code: usize) -> Option<String> {
    match book.entry(state, code) {
        0 => None,
        to if to == state => Some("stays here".to_string()),
        to => Some(format!("to state {to}")),
    }
}

/// Where both decisions on a request lead, in words.
fn request_leads(book: &Book, state: usize, request: usize) -> String {
    let accepted = leads(book, state, book.frame.accept_code(request));
    let rejected = leads(book, state, book.frame.reject_code(request));
    match (accepted, rejected) {
        (Some(accepted), Some(rejected)) => format!("accepted {accepted}, rejected {rejected}"),
        (one, other) => one.or(other).unwrap_or_default(),
    }
}

/// Checks the words on a state: each request in one line below its outcome, with
/// where it leads, and where events lead.
fn check_words(words: &str, subject: &Subject, book: &Book, state: usize) {
    let titles = ["  unanswered:", "  accepted:", "  rejected:", "  accepted or rejected (conflict):"];
    let mut said = vec![BTreeSet::new(); 4];
    let mut events = Vec::new();
    let mut title = None;
    for line in words.lines().skip(1) {
        match (line.strip_prefix("    ").map(parts), title) {
            (None, _) => title = titles.iter().position(|title| *title == line),
            (Some((name, to)), None) => events.push((name.to_string(), Some(to.to_string()))),
            (Some((who, to)), Some(outcome)) => {
                for request in requests(who, subject, book) {
                    assert!(to.starts_with(&request_leads(book, state, request)), "{words}");
                    assert!(said[outcome].insert(request), "{}:\n{words}", subject.input);
                }
            }
        }
    }
    for (outcome, said) in said.iter().enumerate() {
        let has_outcome = |request: &usize| outcome_in(book, state, *request) == outcome;
        let expected: BTreeSet<usize> = (0..book.frame.requests()).filter(has_outcome).collect();
        assert_eq!(*said, expected, "{}:\n{words}", subject.input);
    }
    let event = |event: usize| (subject.step(book, event), leads(book, state, event));
    let expected: Vec<_> = (0..book.frame.events).map(event).collect();
    assert_eq!(events, expected, "{}:\n{words}", subject.input);
}

#[test]
fn words_say_every_request_once() {
    let folder = Folder::new("words");
    for (number, subject, book) in with_books(4_000..4_400, &folder) {
        let steps = walk(&book, &mut Random::new(number, "walk"));
        let codes: Vec<String> = steps.iter().map(|(code, _)| format!("code {code}")).collect();
        let ran = run(&["after", &subject.file, &codes.join(", ")], &[]);
        assert_eq!(ran.status, 0, "{}: {}", subject.input, ran.errors);
        let state = steps.last().map_or(1, |&(_, state)| state);
        check_words(ran.text(), &subject, &book, state);
    }
}
