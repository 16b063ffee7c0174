//! Inputs of the program `play`: a book and steps to try on it.

use super::{book, damaged_book, Random};
use crate::book::{self as books, Book};
use crate::play;

/// A book, now and then a damaged one, and up to 280 steps, most of them
/// possible. Now and then the end of the input is missing.
pub fn play(seed: u64) -> Vec<u8> {
    let mut random = Random::new(seed, "play");
    let mut bytes = if random.chance(1, 8) {
        damaged_book(seed)
    } else {
        book(seed)
    };
    bytes.truncate(usize::from(u16::MAX));
    let steps = random.below(281);
    let codes = match books::read(&bytes) {
        Ok(book) => steps_on(&book, steps, &mut random),
        Err(_) => (0..steps).map(|_| random.byte()).collect(),
    };
    let mut input = play::input(&bytes, &codes);
    if random.chance(1, 16) {
        input.truncate(random.below(input.len() + 1));
    }
    input
}

/// Steps from state 1: three of four are possible where one is.
fn steps_on(book: &Book, count: usize, random: &mut Random) -> Vec<u8> {
    let mut state = 1;
    (0..count)
        .map(|_| {
            let possible: Vec<usize> = (0..book.frame.width())
                .filter(|&code| book.entry(state, code) != 0)
                .collect();
            if possible.is_empty() || random.chance(1, 4) {
                return random.byte();
            }
            let code = *random.pick(&possible);
            state = book.entry(state, code);
            u8::try_from(code).expect("a code is below 136")
        })
        .collect()
}
