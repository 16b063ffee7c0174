//! The text that the program `play` writes for a book and a list of steps.

use crate::shelf::refusal_line;
use crate::walk::{Answer, OpenedBook};

/// The greatest number of steps that `play` tries.
pub const MOST_STEPS: usize = 255;

/// The input of `play`: the length of the book in two bytes, the high byte
/// first, the book, and one byte for each step.
pub fn input(book: &[u8], codes: &[u8]) -> Vec<u8> {
    let length = u16::try_from(book.len()).expect("a length of two bytes");
    [&length.to_be_bytes(), book, codes].concat()
}

/// The output for an input: a line after the opening and after each step.
pub fn play(input: &[u8]) -> String {
    let (book, codes) = parts(input);
    let mut opened = match OpenedBook::open(book) {
        Ok(opened) => opened,
        Err(refusal) => return refusal_line(refusal),
    };
    let mut text = state_line(&opened);
    for &code in codes.iter().take(MOST_STEPS) {
        text += &match opened.step(code.into()) {
            Ok(_) => state_line(&opened),
            Err(refusal) => refusal_line(refusal),
        };
    }
    text
}

/// The book and the codes of an input; what is cut off is missing from them.
fn parts(input: &[u8]) -> (&[u8], &[u8]) {
    match input {
        [high, low, rest @ ..] => {
            let length = usize::from(u16::from_be_bytes([*high, *low]));
            rest.split_at(length.min(rest.len()))
        }
        _ => (&[], &[]),
    }
}

/// The state, and what is told of each request.
fn state_line(opened: &OpenedBook) -> String {
    let told: String = (0..)
        .map_while(|request| opened.tell(request).ok())
        .map(|answer| format!(" {}", word(answer)))
        .collect();
    format!("{}{told}\n", opened.state)
}

fn word(answer: Answer) -> &'static str {
    match answer {
        Answer::None => "none",
        Answer::Accept => "accept",
        Answer::Reject => "reject",
        Answer::Both => "both",
    }
}
