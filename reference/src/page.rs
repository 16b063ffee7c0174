//! The page of a book for the file room: one line of 72 columns a state, with
//! the length of its earliest history and a letter for each request.

use crate::book::{Book, MOST_STATES};
use crate::frame::MOST_REQUESTS;

/// The bytes of a line: 72 columns and the byte 10.
pub const LINE_LENGTH: usize = 73;
/// The length of the longest page.
pub const MOST_LENGTH: usize = MOST_STATES * LINE_LENGTH;

/// The lines of a book's states, in the order of their numbers.
pub fn page(book: &Book) -> String {
    let lengths = earliest_lengths(book);
    (1..=book.states())
        .map(|state| line(book, state, lengths[state - 1]))
        .collect()
}

fn line(book: &Book, state: usize, length: Option<usize>) -> String {
    let length = length.map_or("---".to_string(), |length| length.to_string());
    let letters: String = (0..book.frame.requests())
        .map(|request| letter(book, state, request))
        .collect();
    format!("{state:>3} {length:>3} {letters:<MOST_REQUESTS$}\n")
}

/// What may happen to a request in a state.
fn letter(book: &Book, state: usize, request: usize) -> char {
    match (book.accepts(state, request), book.rejects(state, request)) {
        (false, false) => '.',
        (true, false) => 'A',
        (false, true) => 'R',
        (true, true) => 'B',
    }
}

/// For each state the length of its earliest history, nothing if none leads to
/// it. That is the least number k such that some history of at most k codes
/// leads there: these sets of states are made for k = 0, 1, .. as long as they
/// grow.
fn earliest_lengths(book: &Book) -> Vec<Option<usize>> {
    let mut lengths = vec![None; book.states()];
    lengths[0] = Some(0);
    for codes in 1.. {
        let within = lengths.clone();
        for state in (1..=book.states()).filter(|&state| within[state - 1].is_some()) {
            for code in 0..book.frame.width() {
                let target = book.entry(state, code);
                if target != 0 && lengths[target - 1].is_none() {
                    lengths[target - 1] = Some(codes);
                }
            }
        }
        if lengths == within {
            break;
        }
    }
    lengths
}
