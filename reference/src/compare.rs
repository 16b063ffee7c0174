//! Comparing two books: the same histories, or the earliest history that is
//! possible in just one of them.

use std::collections::BTreeSet;

use crate::book::{self, Book};
use crate::reached::{history_of, Reached};
use crate::refusal::Refusal;
use crate::History;

/// The answer of a comparison.
#[derive(Clone, Debug, PartialEq, Eq)]
pub enum Comparison {
    /// The same histories are possible in both books.
    Same,
    /// The earliest history possible in just one of the books.
    Differ(History),
}

/// Compares two books given as bytes. Numbers 12 to 14 are taken for the first
/// book, then for the second, then 15.
pub fn compare(first: &[u8], second: &[u8]) -> Result<Comparison, Refusal> {
    let first = book::read(first)?;
    let second = book::read(second)?;
    if first.frame != second.frame {
        return Err(Refusal::Frames);
    }
    Ok(compare_books(&first, &second))
}

/// Compares two books of one frame, breadth first over pairs of states with the
/// codes ascending.
pub fn compare_books(first: &Book, second: &Book) -> Comparison {
    let mut met = BTreeSet::from([(1, 1)]);
    let mut pairs = vec![Reached::start((1, 1))];
    let mut next = 0;
    while next < pairs.len() {
        let states = pairs[next].state;
        for code in 0..first.frame.width() {
            match (first.entry(states.0, code), second.entry(states.1, code)) {
                (0, 0) => {}
                (0, _) | (_, 0) => {
                    let mut history = history_of(&pairs, next);
                    history.push(code as u8);
                    return Comparison::Differ(history);
                }
                targets => {
                    if met.insert(targets) {
                        pairs.push(Reached::after(next, code, targets));
                    }
                }
            }
        }
        next += 1;
    }
    Comparison::Same
}

/// Whether two byte strings, books or not, have equal bytes.
pub fn equal_bytes(first: &[u8], second: &[u8]) -> bool {
    first == second
}
