//! Ways to an outcome: the questions asked of books, and what was answered.

use reference::generate::{self, Question, Random};

use crate::{expected, lent, library, Tally};

/// Way, with how its questions came out.
#[derive(Default)]
pub struct Ways {
    pub way: Tally,
    /// How many ways were found to each of the four outcomes.
    found: [u64; 4],
    no_history: u64,
    longest: u64,
}

impl Ways {
    /// Asks the question of a seed about a book. One of sixteen is about another: one in which an outcome comes as late as it can.
    pub fn note(&mut self, i: u64, kind: &str, book: &[u8]) {
        match i % 16 {
            15 => self.ask(i, "late-outcome-book", &generate::late_outcome_book(i)),
            _ => self.ask(i, kind, book),
        }
    }

    fn ask(&mut self, i: u64, kind: &str, book: &[u8]) {
        let Question { request, outcome } = generate::question(i, book);
        let mut given = lent(&mut Random::new(i, "way's buffer"), 128);
        let mut wanted = given.clone();
        let answers = (
            library::way(book, request, outcome, &mut given),
            expected::way(book, request, outcome, &mut wanted),
        );
        self.note_answer(outcome, answers.1);
        self.way.note(
            (answers.0, given),
            (answers.1, wanted),
            &format!("{kind} {i}, request {request}, outcome {outcome}"),
        );
    }

    fn note_answer(&mut self, outcome: usize, answer: u64) {
        match (answer % 256, answer / 256) {
            (0, 0) => self.no_history += 1,
            (0, value) => {
                self.found[outcome] += 1;
                self.longest = self.longest.max(value - 1);
            }
            _ => {}
        }
    }

    pub fn print(&self) {
        let [none, accept, reject, both] = self.found;
        println!(
            "ways to none: {none}, accept: {accept}, reject: {reject}, both: {both}; no history: {}; longest way: {} codes",
            self.no_history, self.longest
        );
    }
}
