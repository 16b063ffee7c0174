//! The library as the tool calls it, and the places of refusals, against the
//! reference on generated policies and books, good, damaged and foreign.

mod common;

use common::{policy_file, Met};
use policybook::library::{self, Finding};
use policybook::refusal::{judge_book, judge_policy, Refusal};
use reference::book::{self, Book};
use reference::compare::{compare, Comparison};
use reference::findings::{findings, RequestFinding};
use reference::generate::{self, Question};
use reference::{page, way};

/// How many policies, books and pairs are asked about.
const POLICIES: u64 = 12_000;
const BOOKS: u64 = 4_000;
const PAIRS: u64 = 3_000;

/// A book, as the differential test has them: built, foreign, late or damaged.
fn some_book(number: u64) -> (Vec<u8>, String) {
    let kinds = ["book", "damaged-book", "late-finding-book", "late-outcome-book"];
    match number % 8 {
        0..=2 => {
            let (policy, input) = policy_file(number);
            let bytes = book::build(&policy).map(|book| book.to_bytes());
            (bytes.unwrap_or_default(), format!("the book of {input}"))
        }
        rest => {
            let kind = kinds[rest as usize % kinds.len()];
            let bytes = generate::one(kind, number).expect("a kind that the generator has");
            (bytes, format!("generate {kind} {number}"))
        }
    }
}

fn finding(found: &Option<Finding>) -> Option<RequestFinding> {
    let found = found.clone()?;
    Some(RequestFinding { request: found.request, history: found.history })
}

/// Findings and page of a book that is not refused.
fn check_book(bytes: &[u8], book: &Book, input: &str) {
    let (found, expected) = (library::verdict(bytes).expect(input), findings(book));
    assert_eq!(finding(&found.conflict), expected.conflict, "{input}");
    assert_eq!(finding(&found.missing), expected.missing, "{input}");
    let blocked = found.blocked.map(|found| (found.history, found.request));
    assert_eq!(blocked, expected.blocked.map(|history| (history, 0)), "{input}");
    let page = library::page(bytes).expect(input);
    assert_eq!(page, page::page(book).into_bytes(), "{input}");
}

#[test]
fn answers_on_books_are_the_reference_answers() {
    let mut met = Met::default();
    for number in 0..BOOKS {
        let (bytes, input) = some_book(number);
        let Question { request, outcome } = generate::question(number, &bytes);
        let found = library::way(&bytes, request, outcome);
        let expected = book::read(&bytes).and_then(|book| {
            check_book(&bytes, &book, &input);
            way::way(&book, request, outcome)
        });
        if let Err(row @ 12..=14) = expected.as_ref().map_err(|refusal| refusal.number()) {
            assert_eq!(library::verdict(&bytes), Err(row), "{input}");
            assert_eq!(library::page(&bytes), Err(row), "{input}");
        }
        met.note("a way", matches!(expected, Ok(Some(_))));
        met.note("no way", matches!(expected, Ok(None)));
        met.note("refused", expected.is_err());
        let expected = expected.map_err(|refusal| refusal.number());
        assert_eq!(found, expected, "{input}: {request} {outcome}");
    }
    met.each_at_least(100);
}

#[test]
fn comparisons_are_the_reference_comparisons() {
    let mut met = Met::default();
    for number in 0..PAIRS {
        let build = |policy: Vec<u8>| book::build(&policy).map(|book| book.to_bytes()).unwrap_or_default();
        let both = |(first, second)| (build(first), build(second));
        let (first, second) = match number % 8 {
            0 | 1 => both(generate::policy_pair(number)),
            2 => both(generate::starting_pair(number)),
            3 => both(generate::no_rules_pair(number)),
            4 | 5 => generate::book_pair(number),
            6 => generate::longest_pair(number),
            _ => generate::faulty_pair(number),
        };
        let expected = match compare(&first, &second) {
            Ok(Comparison::Same) => Ok(None),
            Ok(Comparison::Differ(history)) => Ok(Some(history)),
            Err(refusal) => Err(refusal.number()),
        };
        met.note("same", expected == Ok(None));
        met.note("different", matches!(expected, Ok(Some(_))));
        met.note("refused", expected.is_err());
        assert_eq!(library::compare(&first, &second), expected, "pair {number}");
        assert_eq!(library::same_bytes(&first, &second), first == second, "pair {number}");
    }
    met.each_at_least(100);
}

/// The numbers of the bytes that a place names: behind `byte`, and behind `bytes`
/// the first and the last.
fn named_bytes(place: &str) -> Vec<usize> {
    let words: Vec<&str> = place.split_whitespace().collect();
    let number = |word: &&str| word.trim_end_matches([',', ':']).parse::<usize>().ok();
    let mut bytes = Vec::new();
    for (at, word) in words.iter().enumerate() {
        let behind: &[usize] = match *word {
            "byte" => &[1],
            "bytes" => &[1, 3],
            _ => &[],
        };
        bytes.extend(behind.iter().filter_map(|behind| words.get(at + behind).and_then(number)));
    }
    bytes
}

/// The place says something, of bytes that exist, and what stands there.
fn check_place(refusal: &Refusal, bytes: &[u8], input: &str) {
    let place = &refusal.place;
    assert!(!place.is_empty(), "{input}");
    let named = named_bytes(place);
    assert!(named.iter().all(|&at| at < bytes.len()), "{input}: {place}");
    if let ([at], true) = (&named[..], place.contains("byte ")) {
        let (_, is) = place.split_once(" is ").expect("what the byte is");
        let value: String = is.chars().take_while(char::is_ascii_digit).collect();
        assert_eq!(value.parse(), Ok(bytes[*at]), "{input}: {place}");
    }
    if let [first, last] = named[..] {
        let digits = |at: usize| format!("{:02X}", bytes[at]);
        let hex: Vec<String> = (first..=last).map(digits).collect();
        let decimal: Vec<String> = bytes[first..=last].iter().map(u8::to_string).collect();
        let shown = place.contains(&hex.join(" ")) || place.contains(&decimal.join(" × "));
        assert!(shown, "{input}: {place}");
    }
}

#[test]
fn policies_have_the_reference_book_or_number_and_a_place() {
    let mut met = Met::default();
    for number in 0..POLICIES {
        let (bytes, input) = policy_file(number);
        let built = book::build(&bytes).map(|book| book.to_bytes());
        let built = built.map_err(|refusal| refusal.number());
        assert_eq!(library::build(&bytes), built, "{input}");
        let expected = built.err();
        for row in (2..=11).chain([17]) {
            met.note(&format!("row {row}"), expected == Some(row));
        }
        let found = judge_policy(&bytes);
        let row = found.as_ref().map(|refusal| refusal.number);
        assert_eq!(row, expected.filter(|&row| row != 11), "{input}");
        if let Some(refusal) = found.filter(|refusal| refusal.number != 10) {
            let bare = [2, 6].contains(&refusal.number);
            assert_eq!(named_bytes(&refusal.place).is_empty(), bare, "{}", refusal.place);
            check_place(&refusal, &bytes, &input);
        }
    }
    met.each_at_least(30);
}

#[test]
fn refused_books_have_the_reference_number_and_a_place() {
    let mut met = Met::default();
    for number in 0..2 * BOOKS {
        let (bytes, input) = match number % 4 {
            0 => some_book(number),
            1 => (generate::faulty_pair(number).0, format!("the first of faulty pair {number}")),
            _ => (generate::damaged_book(number), format!("generate damaged-book {number}")),
        };
        let expected = book::read(&bytes).err().map(|refusal| refusal.number());
        for row in 12..=14 {
            met.note(&format!("row {row}"), expected == Some(row));
        }
        met.note("good", expected.is_none());
        let found = judge_book(&bytes);
        assert_eq!(found.as_ref().map(|refusal| refusal.number), expected, "{input}");
        if let Some(refusal) = found {
            check_place(&refusal, &bytes, &input);
        }
    }
    met.each_at_least(300);
}
