//! Ways in generated books: against all histories tried one after another,
//! against the findings, and what the generators of questions give.

mod common;

use std::collections::BTreeMap;

use common::{entry, histories, requests, state_after, width};
use reference::book;
use reference::entry::WAY_BUFFER;
use reference::findings::{findings, RequestFinding};
use reference::generate::{self, Question};
use reference::refusal::Refusal;
use reference::way::way;
use reference::History;

/// The way in a book that passes, for a request and an outcome within limits.
fn way_in(book: &[u8], request: usize, outcome: usize) -> Option<History> {
    let book = book::read(book).expect("a book that passes");
    way(&book, request, outcome).expect("a good question")
}

/// The outcome of a request in a state, straight from the book's bytes.
fn outcome(book: &[u8], state: usize, request: usize) -> usize {
    let code = book[5] as usize + 2 * request;
    let [accepted, rejected] = [code, code + 1].map(|code| entry(book, state, code) != 0);
    usize::from(accepted) + 2 * usize::from(rejected)
}

/// Holds the ways to every outcome of every request against all histories tried
/// in order, one code further than a way can have, and gives their lengths.
fn checked_lengths(bytes: &[u8]) -> Vec<Option<usize>> {
    let tried = histories(width(bytes), bytes[11].into(), |history| {
        state_after(bytes, history).is_some()
    });
    let mut lengths = Vec::new();
    for (request, wanted) in (0..requests(bytes)).flat_map(|r| [0, 1, 2, 3].map(|o| (r, o))) {
        let fits = |history: &&History| {
            let state = state_after(bytes, history).expect("a possible history");
            outcome(bytes, state, request) == wanted
        };
        let expected = tried.iter().find(fits);
        assert_eq!(way_in(bytes, request, wanted).as_ref(), expected);
        lengths.push(expected.map(Vec::len));
    }
    lengths
}

#[test]
fn ways_in_small_generated_books_are_the_earliest() {
    let mut met = BTreeMap::new();
    for bytes in (0..900).map(generate::book) {
        let count = (width(&bytes) as u64).checked_pow(bytes[11].into());
        if count.is_some_and(|count| count <= 20_000) {
            for length in checked_lengths(&bytes) {
                *met.entry(length).or_insert(0) += 1;
            }
        }
    }
    for length in [None, Some(0), Some(1), Some(2), Some(3)] {
        assert!(met[&length] > 10, "{met:?}");
    }
}

/// All books of up to three states without events and with one request.
#[test]
fn ways_in_every_smallest_book_are_the_earliest() {
    for states in 1..=3_u8 {
        let header = [b"BOK\0\x01\0\x01\x01\0\0\0", &[states][..]].concat();
        let base = usize::from(states) + 1;
        let entries = 2 * u32::from(states);
        for number in 0..base.pow(entries) {
            let digits = (0..entries).map(|place| (number / base.pow(place) % base) as u8);
            checked_lengths(&header.iter().copied().chain(digits).collect::<Vec<u8>>());
        }
    }
}

/// Missing is the earliest way to outcome 0 of any request, conflict to 3.
#[test]
fn findings_are_the_earliest_ways() {
    let earliest = |bytes: &[u8], outcome: usize| {
        (0..requests(bytes))
            .filter_map(|request| Some((way_in(bytes, request, outcome)?, request)))
            .min_by_key(|(history, request)| (history.len(), history.clone(), *request))
            .map(|(history, request)| RequestFinding { request, history })
    };
    for seed in 0..60 {
        for bytes in [
            generate::book(seed),
            generate::late_finding_book(seed),
            generate::late_outcome_book(seed),
        ] {
            let found = findings(&book::read(&bytes).unwrap());
            assert_eq!(earliest(&bytes, 0), found.missing);
            assert_eq!(earliest(&bytes, 3), found.conflict);
        }
    }
}

/// Each of the four outcomes comes after 126 codes in some of these books.
#[test]
fn late_outcomes_come_after_126_codes() {
    let mut met = [0; 4];
    for seed in 0..80 {
        let bytes = generate::late_outcome_book(seed);
        assert_eq!(bytes[11], 127);
        let late = |wanted: &usize| {
            let ways = |request| way_in(&bytes, request, *wanted);
            (0..requests(&bytes))
                .filter_map(ways)
                .any(|history| history.len() == 126)
        };
        let outcomes: Vec<usize> = (0..4).filter(late).collect();
        assert!(!outcomes.is_empty());
        for outcome in outcomes {
            met[outcome] += 1;
        }
    }
    assert!(met.iter().all(|&count| count > 10), "{met:?}");
}

/// A book of each sort that questions are asked of.
fn asked_book(seed: u64) -> Vec<u8> {
    match seed % 8 {
        0 => generate::damaged_book(seed),
        1 => generate::late_finding_book(seed),
        2 => generate::late_outcome_book(seed),
        _ => generate::book(seed),
    }
}

#[test]
fn questions_meet_every_answer() {
    let mut numbers: BTreeMap<u8, usize> = BTreeMap::new();
    let mut found = [0; 4];
    // No history, with no state that has the outcome, and with one.
    let mut no_history = [0; 2];
    let mut longest = 0;
    for seed in 0..1_600 {
        let bytes = asked_book(seed);
        let Question {
            request,
            outcome: wanted,
        } = generate::question(seed, &bytes);
        let answer = book::read(&bytes).and_then(|book| way(&book, request, wanted));
        let number = answer
            .as_ref()
            .map_or_else(|refusal| refusal.number(), |_| 0);
        *numbers.entry(number).or_default() += 1;
        match answer {
            Ok(Some(history)) => {
                let state = state_after(&bytes, &history).expect("a possible history");
                assert_eq!(outcome(&bytes, state, request), wanted);
                assert!(history.len() < usize::from(bytes[11]));
                found[wanted] += 1;
                longest += usize::from(history.len() == 126);
            }
            Ok(None) => {
                let states = 1..=usize::from(bytes[11]);
                let mut outcomes = states.map(|state| outcome(&bytes, state, request));
                no_history[usize::from(outcomes.any(|met| met == wanted))] += 1;
            }
            Err(_) => {}
        }
    }
    assert!(numbers.keys().eq(&[0, 12, 13, 14, 16, 18]));
    assert!(numbers.values().all(|&count| count > 20), "{numbers:?}");
    assert!(numbers[&0] > 1_000, "{numbers:?}");
    assert!(found.iter().all(|&count| count > 100), "{found:?}");
    assert!(no_history.iter().all(|&count| count > 50), "{no_history:?}");
    assert!(longest > 100, "{longest}");
}

/// Numbers past a limit: next to it, good but for a higher bit, and the greatest.
#[test]
fn questions_past_the_limits_are_of_any_size() {
    let mut met: BTreeMap<&str, usize> = BTreeMap::new();
    let mut note = |sort, is_met: bool| *met.entry(sort).or_default() += usize::from(is_met);
    for seed in 0..2_000 {
        let bytes = generate::book(seed);
        let question = generate::question(seed, &bytes);
        let (request, wanted, limit) = (question.request, question.outcome, requests(&bytes));
        note("both good", request < limit && wanted < 4);
        note("both past", request >= limit && wanted >= 4);
        note("the last request", request + 1 == limit);
        note("request at the limit", request == limit);
        note("outcome at the limit", wanted == 4);
        for (value, limit) in [(request, limit), (wanted, 4)] {
            note("good in its low bytes", value >= 256 && value % 256 < limit);
            note("from 2 to the 32", (1 << 32..1 << 63).contains(&value));
            note("from 2 to the 63", value >= 1 << 63);
            note("the greatest", value == usize::MAX);
        }
    }
    assert_eq!(met.len(), 9);
    assert!(met.values().all(|&count| count >= 10), "{met:?}");
    assert!(met["both good"] > 1_400, "{met:?}");
}

/// Each generated question with a buffer of each sort.
#[test]
fn buffers_keep_what_is_not_written() {
    for seed in 0..400 {
        let bytes = asked_book(seed);
        let Question { request, outcome } = generate::question(seed, &bytes);
        let expected = book::read(&bytes).and_then(|book| way(&book, request, outcome));
        for size in [WAY_BUFFER, WAY_BUFFER + 1 + seed as usize % 70] {
            let before: Vec<u8> = (0..size).map(|place| (place as u64 ^ seed) as u8).collect();
            let mut buffer = before.clone();
            let answer = reference::entry::way(&bytes, request, outcome, &mut buffer);
            let lengths = expected.as_ref().map(|found| found.as_ref().map(Vec::len));
            assert_eq!(answer, lengths.map_err(|&refusal| refusal));
            let written = expected.clone().ok().flatten().unwrap_or_default();
            assert_eq!(buffer, [&written[..], &before[written.len()..]].concat());
        }
        let mut short = vec![7; WAY_BUFFER - 1 - seed as usize % 128];
        let answer = reference::entry::way(&bytes, request, outcome, &mut short);
        assert_eq!(answer, Err(Refusal::Buffer));
        assert!(short.iter().all(|&byte| byte == 7));
    }
}
