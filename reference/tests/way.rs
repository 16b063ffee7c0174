//! A way to a decision: the cases, foreign books, which of several histories is
//! the earliest, the limits and the order of refusals, and the lent buffer.

mod common;

use common::*;
use reference::book::{self, Book};
use reference::entry::{self, WAY_BUFFER};
use reference::frame::Frame;
use reference::refusal::Refusal;
use reference::way::way;
use reference::History;

const NONE: usize = 0;
const ACCEPT: usize = 1;
const REJECT: usize = 2;
const BOTH: usize = 3;

/// The way in a book that passes, for a request and an outcome within limits.
fn way_in(book: &[u8], request: usize, outcome: usize) -> Option<History> {
    let book = book::read(book).expect("a book that passes");
    way(&book, request, outcome).expect("a good question")
}

/// The ways to none, accept, reject and both of each request in turn, as codes
/// in hexadecimal; a dash is no history, and no text the empty one.
fn ways(book: &[u8]) -> Vec<[String; 4]> {
    let text = |found: Option<History>| {
        found.map_or("-".to_string(), |history| reference::hex::line(&history))
    };
    (0..requests(book))
        .map(|request| {
            [NONE, ACCEPT, REJECT, BOTH].map(|wanted| text(way_in(book, request, wanted)))
        })
        .collect()
}

#[test]
fn the_cases() {
    let cases: [(Vec<u8>, &[[&str; 4]]); 8] = [
        (policy_a(), &[["-", "", "-", "-"], ["-", "", "03 03", "-"]]),
        (policy_b(), &[["-", "", "-", "-"], ["-", "", "03", "-"]]),
        (
            policy_e(),
            &[["-", "", "-", "03 03"], ["-", "", "03 03", "-"]],
        ),
        (
            policy_e_level_1(),
            &[["-", "", "03 03", "-"], ["-", "", "03 03", "-"]],
        ),
        (policy_f(), &[["-", "", "-", "-"], ["03 03", "", "-", "-"]]),
        (policy_g(), &[["00", "", "-", "-"], ["00", "", "-", "-"]]),
        (policy_j(), &[["01", "", "-", "-"], ["01", "", "-", "-"]]),
        (policy_h(), &[["-", "", "-", "-"]]),
    ];
    for (policy, expected) in cases {
        assert_eq!(ways(&book_bytes(&policy)), expected);
    }
}

/// Events and two fields, ten states: every outcome of both requests.
#[test]
fn several_fields_and_events() {
    let mixed = book_bytes(include_bytes!("../../samples/mixed.policy"));
    let expected = [["03", "", "01 05 06", "-"], ["-", "", "-", "01 05"]];
    assert_eq!(ways(&mixed), expected);
}

/// Where a counter starts changes the ways, and with it what there is no way to.
#[test]
fn the_start_of_version_2() {
    let at_the_bound = book_bytes(&with_starts(&policy_a(), &[2]));
    let expected = [["-", "", "-", "-"], ["-", "00", "", "-"]];
    assert_eq!(ways(&at_the_bound), expected);
    let two_counters = book_bytes(&policy_two_counters(1, 2));
    let expected = [["-", "", "01", "-"], ["-", "", "03", "-"]];
    assert_eq!(ways(&two_counters), expected);
}

/// A state that no history leads to does not count, though it has the outcome.
#[test]
fn states_that_no_history_leads_to() {
    let foreign = bytes(
        "42 4F 4B 00 01 01 01 03 00 00 00 04 | 02 01 00 00 03 02 02 \
         | 02 00 00 00 00 01 00 | 01 03 03 00 00 00 00 | 04 00 04 04 00 04 04",
    );
    let expected = [
        ["00", "", "-", "04"],
        ["00", "-", "", "-"],
        ["04", "00", "-", ""],
    ];
    assert_eq!(ways(&foreign), expected);
    // State 3 is led to by state 2 alone, which is not reached either.
    let foreign = bytes("42 4F 4B 00 01 00 01 01 00 00 00 03 | 01 00 | 03 00 | 00 02");
    assert_eq!(ways(&foreign), [["-", "", "-", "-"]]);
    // They lead to reached states, which makes no way either.
    let foreign = bytes("42 4F 4B 00 01 00 01 01 00 00 00 03 | 02 00 | 01 00 | 01 02");
    assert_eq!(ways(&foreign), [["-", "", "-", "-"]]);
}

/// Rows of a book without events and with one request, whose codes are 0 and 1.
fn of_rows(rows: &[[u8; 2]]) -> Vec<u8> {
    let frame = Frame {
        events: 0,
        counts: vec![1],
    };
    let rows = rows.iter().map(|row| row.to_vec()).collect();
    Book { frame, rows }.to_bytes()
}

#[test]
fn the_earliest_of_several() {
    for (rows, expected) in [
        // A shorter one before one with smaller codes.
        (&[[2, 3], [4, 0], [0, 0], [0, 0]][..], vec![1]),
        // The first difference decides, not a later one, nor the states' numbers.
        (&[[2, 3], [0, 4], [4, 0], [0, 0]], vec![0, 1]),
        (&[[3, 2], [4, 0], [0, 4], [0, 0]], vec![0, 1]),
        (&[[4, 2], [0, 0], [0, 0], [2, 3]], vec![1]),
        // Two codes that lead to one state, and two states with the outcome.
        (&[[2, 2], [3, 3], [0, 0]], vec![0, 0]),
        (&[[3, 2], [0, 0], [0, 0]], vec![0]),
        // The smallest code only stays, goes back, or comes to no end.
        (&[[1, 2], [1, 3], [0, 0]], vec![1, 1]),
        (&[[2, 3], [2, 2], [1, 4], [0, 0]], vec![1, 1]),
    ] {
        assert_eq!(way_in(&of_rows(rows), 0, NONE), Some(expected));
    }
}

/// Accept and reject mean those alone; both is neither of them.
#[test]
fn an_outcome_is_exact() {
    for (first, second, outcomes) in [
        ([2, 2], [2, 0], [None, Some(vec![0]), None, Some(vec![])]),
        ([2, 2], [0, 2], [None, None, Some(vec![0]), Some(vec![])]),
        ([2, 0], [2, 2], [None, Some(vec![]), None, Some(vec![0])]),
        ([0, 2], [0, 0], [Some(vec![1]), None, Some(vec![]), None]),
    ] {
        let book = of_rows(&[first, second]);
        let found = [NONE, ACCEPT, REJECT, BOTH].map(|wanted| way_in(&book, 0, wanted));
        assert_eq!(found, outcomes);
    }
}

/// A book in a line: the event leads on, and the one request has an outcome in
/// the last state and another one in all states before it.
fn line(states: usize, last: usize, before: usize) -> Vec<u8> {
    let frame = Frame {
        events: 1,
        counts: vec![1],
    };
    let row = |state: usize| {
        let outcome = if state == states { last } else { before };
        let answer = |bit: usize| (outcome >> bit & 1) as u8;
        vec![(state + 1).min(states) as u8, answer(0), answer(1)]
    };
    let rows = (1..=states).map(row).collect();
    Book { frame, rows }.to_bytes()
}

#[test]
fn the_longest_has_126_codes() {
    for states in [1, 2, 126, 127] {
        for (last, before) in (0..4).flat_map(|last| [1, 2, 3].map(|by| (last, (last + by) % 4))) {
            let book = line(states, last, before);
            let mut buffer = [9; WAY_BUFFER];
            let answer = entry::way(&book, 0, last, &mut buffer);
            assert_eq!(answer, Ok(Some(states - 1)));
            assert_eq!(buffer[..states - 1], vec![0; states - 1]);
            assert!(buffer[states - 1..].iter().all(|&byte| byte == 9));
        }
    }
    // With 8 events and 64 requests the greatest code is 135.
    let frame = Frame {
        events: 8,
        counts: vec![4, 16],
    };
    let row = |state: u8| [vec![1; 8], vec![0; 127], vec![state % 127 + 1]].concat();
    let rows: Vec<Vec<u8>> = (1..=127).map(row).collect();
    let mut book = Book { frame, rows };
    assert_eq!(way(&book, 63, NONE), Ok(None));
    book.rows[126][135] = 0;
    assert_eq!(way(&book, 63, NONE), Ok(Some(vec![135; 126])));
    assert_eq!(way(&book, 62, NONE), Ok(Some(vec![])));
}

/// The answer, with a refusal as its number, after a look at the whole buffer.
fn asked(
    book: &[u8],
    request: usize,
    outcome: usize,
    buffer_size: usize,
) -> Result<Option<usize>, u8> {
    let before: Vec<u8> = (0..buffer_size).map(|place| 200 - place as u8).collect();
    let mut buffer = before.clone();
    let answer = entry::way(book, request, outcome, &mut buffer);
    let written = answer.ok().flatten().unwrap_or(0);
    if written > 0 {
        assert_eq!(way_in(book, request, outcome).unwrap(), buffer[..written]);
    }
    assert_eq!(buffer[written..], before[written..]);
    answer.map_err(Refusal::number)
}

/// Case A has the requests 0 and 1.
#[test]
fn limits_of_request_and_outcome() {
    let a = book_bytes(&policy_a());
    for (request, outcome, answer) in [
        (0, 0, Ok(None)),
        (0, 1, Ok(Some(0))),
        (1, 2, Ok(Some(2))),
        (1, 3, Ok(None)),
        (0, 4, Err(18)),
        (1, 255, Err(18)),
        (1, 256 + 2, Err(18)),
        (1, (1 << 32) + 2, Err(18)),
        (1, 1 << 63, Err(18)),
        (1, usize::MAX, Err(18)),
        (2, 0, Err(16)),
        (2, 3, Err(16)),
        (128 + 1, 2, Err(16)),
        (256 + 1, 2, Err(16)),
        ((1 << 32) + 1, 2, Err(16)),
        (1 << 63, 1, Err(16)),
        ((1 << 63) + 1, 2, Err(16)),
        (usize::MAX, 1, Err(16)),
    ] {
        assert_eq!(asked(&a, request, outcome, 128), answer);
        assert_eq!(asked(&a, request, outcome, 127), Err(1));
    }
    let widest = Book {
        frame: Frame {
            events: 0,
            counts: vec![8, 8],
        },
        rows: vec![vec![1; 128]],
    };
    let widest = widest.to_bytes();
    assert_eq!(asked(&widest, 63, BOTH, 128), Ok(Some(0)));
    assert_eq!(asked(&widest, 63, NONE, 128), Ok(None));
    assert_eq!(asked(&widest, 64, BOTH, 128), Err(16));
}

#[test]
fn the_first_number_that_fits_wins() {
    let a = book_bytes(&policy_a());
    let bad_books = [
        (vec![], 12),
        (with_byte(&a, 2, 0x58), 12),
        (a[..26].to_vec(), 13),
        (with_byte(&a, 11, 0), 13),
        (with_byte(&a, 26, 4), 14),
        (with_byte(&a, 12, 0), 14),
    ];
    let questions = [(1, 2), (0, 4), (2, 1), (2, 4), (usize::MAX, usize::MAX)];
    for (request, outcome) in questions {
        for (bad, number) in &bad_books {
            assert_eq!(asked(bad, request, outcome, 128), Err(*number));
            for short in [0, 127] {
                assert_eq!(asked(bad, request, outcome, short), Err(1));
                assert_eq!(asked(&a, request, outcome, short), Err(1));
            }
        }
    }
    for outside in [2, 3, 1 << 63, usize::MAX] {
        assert_eq!(asked(&a, outside, 4, 128), Err(18));
        assert_eq!(asked(&a, outside, usize::MAX, 128), Err(18));
        assert_eq!(asked(&a, outside, 3, 128), Err(16));
    }
}

/// `asked` looks at every byte; here are the three sorts of answer.
#[test]
fn longer_buffers_keep_the_rest() {
    let e = book_bytes(&policy_e());
    for size in [128, 129, 200] {
        assert_eq!(asked(&e, 0, BOTH, size), Ok(Some(2)));
        assert_eq!(asked(&e, 0, ACCEPT, size), Ok(Some(0)));
        assert_eq!(asked(&e, 0, NONE, size), Ok(None));
    }
}
