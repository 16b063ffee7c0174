//! Books and histories to draw: those of the samples, and pseudo-random ones.

use crate::book::Book;
use crate::frame::Frame;

/// The numbers of values of the fields in pseudo-random books.
const COUNTS: [&[usize]; 6] = [&[1], &[3], &[2, 2], &[2, 1, 3], &[2, 2, 1, 2], &[8, 8]];

/// The books of the samples.
pub fn sample_books() -> Vec<Book> {
    let lines = include_str!("../sample_books.txt").lines().filter(|line| !line.starts_with('#'));
    let hex = lines.filter_map(|line| line.split_once(' ')).map(|(_, hex)| hex);
    let byte = |hex: &str, at: usize| u8::from_str_radix(&hex[at..at + 2], 16).unwrap();
    hex.map(|hex| Book::new((0..hex.len()).step_by(2).map(|at| byte(hex, at)).collect())).collect()
}

/// Pseudo-random numbers (a linear congruence, its upper bits).
pub struct Random(pub u64);

impl Random {
    pub fn below(&mut self, bound: usize) -> usize {
        self.0 = self.0.wrapping_mul(6_364_136_223_846_793_005).wrapping_add(1_442_695_040_888_963_407);
        (self.0 >> 33) as usize % bound
    }

    /// A book of at most so many states, whose requests lead elsewhere in so many of a
    /// hundred cases.
    pub fn book(&mut self, most_states: usize, leaving: usize) -> Book {
        // The last frame makes large tables: only in small books.
        let choice = self.below(if most_states > 5 { 5 } else { 6 });
        let frame = Frame { events: self.below(4), counts: COUNTS[choice].to_vec() };
        let states = 1 + self.below(most_states);
        book(&frame, states, |state, code| match self.below(100) {
            share if share < leaving => 1 + self.below(states),
            share if share < 60 || code < frame.events => 1 + state % states,
            share if share < 80 => state,
            _ => 0,
        })
    }

    /// A book that counts: from most states of its first half each code leads in the same
    /// way, the last one to the next.
    pub fn counting(&mut self) -> Book {
        let choice = self.below(4);
        let frame = Frame { events: self.below(4), counts: COUNTS[choice].to_vec() };
        let half = 4 + self.below(20);
        let ways: Vec<usize> = (0..frame.width()).map(|_| self.below(7)).collect();
        book(&frame, 2 * half, |state, code| {
            let other = self.below(60) == 0;
            match ways[code] {
                _ if state > half => [0, state, 1][code % 3],
                _ if other => 1 + self.below(half),
                _ if code + 1 == frame.width() => state + 1,
                0 => 0,
                1 | 2 => state,
                3 => 1,
                4 => state + 1,
                5 => half + state,
                _ => 2 * half,
            }
        })
    }

    /// Steps that are possible one after the other.
    pub fn history(&mut self, book: &Book, most: usize) -> Vec<u8> {
        let mut state = 1;
        let mut codes = Vec::new();
        for _ in 0..self.below(most + 1) {
            let possible: Vec<(usize, usize)> =
                (0..book.frame().width()).filter_map(|code| Some((code, book.next(state, code)?))).collect();
            let Some(&(code, next)) = possible.get(self.below(possible.len().max(1))) else {
                break;
            };
            codes.push(code as u8);
            state = next;
        }
        codes
    }

    /// Steps that are possible one after the other, most of them several times.
    pub fn runs(&mut self, book: &Book, most: usize) -> Vec<u8> {
        let mut state = 1;
        let mut codes = Vec::new();
        while codes.len() < most {
            let last = book.frame().width() - 1;
            let code = [last, self.below(last + 1)][self.below(2)];
            for _ in 0..1 + self.below(20) {
                let Some(next) = book.next(state, code) else {
                    break;
                };
                codes.push(code as u8);
                state = next;
            }
            if self.below(12) == 0 {
                break;
            }
        }
        codes
    }
}

/// The book of a frame and a number of states, with an entry for each state and code.
fn book(frame: &Frame, states: usize, mut entry: impl FnMut(usize, usize) -> usize) -> Book {
    let counts = (0..4).map(|field| *frame.counts.get(field).unwrap_or(&0) as u8);
    let mut bytes = vec![0x42, 0x4f, 0x4b, 0, 1, frame.events as u8];
    bytes.push(frame.counts.len() as u8);
    bytes.extend(counts);
    bytes.push(states as u8);
    for state in 1..=states {
        bytes.extend((0..frame.width()).map(|code| entry(state, code) as u8));
    }
    Book::new(bytes)
}
