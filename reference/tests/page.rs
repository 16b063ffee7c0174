//! The page of a book: the cases whole, its columns at their limits, lengths
//! against all histories tried, and what the lent buffer holds.

mod common;

use common::*;
use reference::book::{self, Book};
use reference::entry::{self, PAGE_BUFFER};
use reference::frame::Frame;
use reference::generate;
use reference::page::page;
use reference::refusal::Refusal;

/// These lines, each filled up to 72 columns and ended by the byte 10.
fn lines(texts: &[&str]) -> String {
    texts.iter().map(|text| format!("{text:<72}\n")).collect()
}

/// The page of a book given by its bytes.
fn page_of(bytes: &[u8]) -> String {
    page(&book::read(bytes).expect("a book that passes"))
}

/// A line's columns: the state's number, the length and the letters.
fn columns(line: &str) -> (usize, Option<usize>, &str) {
    let bytes = line.as_bytes();
    assert_eq!((bytes.len(), bytes[3], bytes[7]), (72, b' ', b' '));
    let length = &line[4..7];
    (
        line[..3].trim_start().parse().expect("a state's number"),
        (length != "---").then(|| length.trim_start().parse().expect("a length")),
        &line[8..],
    )
}

/// A book with one event and these entries for the requests of each state; the
/// event leads to the next state, and stays in the last one.
fn chain(states: usize, counts: &[usize], answer: impl Fn(usize, usize) -> u8) -> Book {
    let frame = Frame {
        events: 1,
        counts: counts.to_vec(),
    };
    let row = |state: usize| {
        let next = (state + 1).min(states) as u8;
        let answers = (0..2 * frame.requests()).map(|place| answer(state, place));
        [next].into_iter().chain(answers).collect()
    };
    let rows = (1..=states).map(row).collect();
    Book { frame, rows }
}

#[test]
fn the_cases_whole() {
    let a = lines(&["  1   0 AA", "  2   1 AA", "  3   2 AR"]);
    assert_eq!(page(&book_of(&policy_a())), a);
    assert_eq!(page(&book_of(&policy_d())), a);
    let e = lines(&["  1   0 AA", "  2   1 AA", "  3   2 BR"]);
    assert_eq!(page(&book_of(&policy_e())), e);
    let level_1 = lines(&["  1   0 AA", "  2   1 AA", "  3   2 RR"]);
    assert_eq!(page(&book_of(&policy_e_level_1())), level_1);
    let g = lines(&["  1   0 AA", "  2   1 .."]);
    assert_eq!(page(&book_of(&policy_g())), g);
    assert_eq!(page(&book_of(&policy_h())), lines(&["  1   0 A"]));
}

#[test]
fn a_state_that_no_history_leads_to() {
    let foreign = bytes(
        "42 4F 4B 00 01 01 01 03 00 00 00 04 | 02 01 00 00 03 02 02 \
         | 02 00 00 00 00 01 00 | 01 03 03 00 00 00 00 | 04 00 04 04 00 04 04",
    );
    let expected = lines(&["  1   0 ARB", "  2   1 ..A", "  3   1 B..", "  4 --- RAB"]);
    assert_eq!(page_of(&foreign), expected);
    // An unreached state that leads to others does not make them reached.
    let foreign = bytes("42 4F 4B 00 01 00 01 01 00 00 00 03 | 01 00 | 03 00 | 00 02");
    let expected = lines(&["  1   0 A", "  2 --- A", "  3 --- R"]);
    assert_eq!(page_of(&foreign), expected);
}

/// The length is that of the earliest history, not the place in the numbering.
#[test]
fn lengths_do_not_follow_the_numbers() {
    let foreign = bytes("42 4F 4B 00 01 00 01 01 00 00 00 04 | 03 04 | 00 00 | 03 02 | 02 00");
    let expected = lines(&["  1   0 B", "  2   2 .", "  3   1 B", "  4   1 A"]);
    assert_eq!(page_of(&foreign), expected);
}

#[test]
fn numbers_of_one_two_and_three_digits() {
    let text = page(&chain(127, &[1], |_, _| 0));
    assert_eq!(text.len(), 127 * 73);
    for (state, line) in [
        (1, "  1   0 ."),
        (9, "  9   8 ."),
        (10, " 10   9 ."),
        (11, " 11  10 ."),
        (99, " 99  98 ."),
        (100, "100  99 ."),
        (101, "101 100 ."),
        (127, "127 126 ."),
    ] {
        assert_eq!(text[73 * (state - 1)..73 * state], lines(&[line]));
    }
}

/// Request 0 is in the ninth column and request 63 in the last.
#[test]
fn one_request_and_64_requests() {
    // The answers of request r are none, accept, reject, both in turn.
    let turn = |_: usize, place: usize| ((place / 2 % 4) >> (place % 2) & 1) as u8;
    for counts in [&[4, 16][..], &[16, 4], &[4, 4, 4], &[2, 2, 4, 4]] {
        let text = page(&chain(1, counts, turn));
        assert_eq!(text, format!("  1   0 {}\n", ".ARB".repeat(16)));
    }
    for (number, letter) in [".", "A", "R", "B"].iter().enumerate() {
        let one = chain(1, &[1, 1, 1], |_, place| (number >> place & 1) as u8);
        assert_eq!(page(&one), lines(&[&format!("  1   0 {letter}")]));
    }
    let most = chain(1, &[7, 9], turn);
    let text = page(&most);
    assert!(text.ends_with(".AR \n") && text.len() == 73);
}

#[test]
fn the_longest_page_fills_its_buffer() {
    let both = chain(127, &[8, 8], |state, _| state as u8).to_bytes();
    let mut buffer = [0; 9_271];
    assert_eq!(entry::page(&both, &mut buffer), Ok(9_271));
    let last = format!("127 126 {}\n", "B".repeat(64));
    assert!(buffer.ends_with(last.as_bytes()));
}

#[test]
fn a_short_buffer_comes_before_a_bad_book() {
    let a = book_bytes(&policy_a());
    let mut buffer = [7; 9_271];
    for (book, number) in [
        (&a[..], 0),
        (&[], 12),
        (&with_byte(&a, 2, 0x58), 12),
        (&a[..26], 13),
        (&with_byte(&a, 11, 0), 13),
        (&with_byte(&a, 26, 4), 14),
        (&with_byte(&a, 12, 0), 14),
    ] {
        assert_eq!(
            entry::page(book, &mut buffer[..9_270]),
            Err(Refusal::Buffer)
        );
        assert_eq!(entry::page(book, &mut []), Err(Refusal::Buffer));
        if number != 0 {
            let answer = entry::page(book, &mut buffer);
            assert_eq!(answer.map_err(Refusal::number), Err(number));
        }
        assert_eq!(buffer, [7; 9_271]);
    }
    assert_eq!(entry::page(&a, &mut buffer), Ok(3 * 73));
}

#[test]
fn bytes_after_the_page_stay() {
    for seed in 0..200 {
        let bytes = match seed % 4 {
            0 => generate::damaged_book(seed),
            _ => generate::book(seed),
        };
        let before: Vec<u8> = (0..PAGE_BUFFER + seed as usize % 3)
            .map(|place| (place as u8).wrapping_mul(31) ^ seed as u8)
            .collect();
        let mut buffer = before.clone();
        match entry::page(&bytes, &mut buffer) {
            Ok(length) => {
                assert_eq!(length, 73 * bytes[11] as usize);
                assert_eq!(buffer[..length], *page_of(&bytes).as_bytes());
                assert_eq!(buffer[length..], before[length..]);
            }
            Err(_) => assert_eq!(buffer, before),
        }
    }
}

/// A length is 0 for the start alone; every step raises it by at most one, and
/// each other length is that of a state before and one more. Only the lengths of
/// earliest histories are so.
#[test]
fn lengths_are_those_of_earliest_histories() {
    let (mut unreached, mut longest) = (0, 0);
    for seed in 0..300 {
        let bytes = match seed % 5 {
            0 => generate::late_finding_book(seed),
            _ => generate::book(seed),
        };
        let text = page_of(&bytes);
        let lengths: Vec<Option<usize>> = text.lines().map(|line| columns(line).1).collect();
        assert_eq!(lengths[0], Some(0));
        let mut one_less = vec![false; lengths.len()];
        for (from, length) in lengths.iter().enumerate() {
            let Some(length) = *length else { continue };
            for code in 0..width(&bytes) {
                let Some(target) = entry(&bytes, from + 1, code).checked_sub(1) else {
                    continue;
                };
                let reached = lengths[target].expect("a step from a reached state");
                assert!(reached <= length + 1);
                one_less[target] |= reached == length + 1;
            }
        }
        for (state, length) in lengths.iter().enumerate().skip(1) {
            assert_eq!(one_less[state], length.is_some());
            unreached += usize::from(length.is_none());
            longest = longest.max(length.unwrap_or(0));
        }
    }
    assert!(unreached > 100 && longest == 126, "{unreached} {longest}");
}

#[test]
fn lines_of_generated_books_say_what_the_bytes_say() {
    let mut widest = 0;
    for seed in 0..300 {
        let bytes = generate::book(seed);
        let text = page_of(&bytes);
        assert_eq!(text.len(), 73 * bytes[11] as usize);
        for (place, line) in text.lines().enumerate() {
            let (state, _, letters) = columns(line);
            assert_eq!(state, place + 1);
            for (request, letter) in letters.bytes().enumerate() {
                assert_eq!(letter, expected_letter(&bytes, state, request));
            }
        }
        widest += usize::from(text.len() == PAGE_BUFFER && requests(&bytes) == 64);
    }
    assert!(widest > 10, "{widest}");
}

fn expected_letter(bytes: &[u8], state: usize, request: usize) -> u8 {
    if request >= requests(bytes) {
        return b' ';
    }
    let code = bytes[5] as usize + 2 * request;
    let accepted = entry(bytes, state, code) != 0;
    let rejected = entry(bytes, state, code + 1) != 0;
    b".ARB"[usize::from(accepted) + 2 * usize::from(rejected)]
}
