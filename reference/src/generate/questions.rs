//! Questions for a way: a request and an outcome of it to ask of a book. Most
//! are good; the others are past their limits by little or by any amount.

use super::random::Random;
use crate::book::{self, Book};
use crate::frame::MOST_REQUESTS;
use crate::way::{outcome_in, MOST_OUTCOME};

/// A request and the outcome that it is to have.
#[derive(Clone, Copy, Debug, PartialEq, Eq)]
pub struct Question {
    /// The number of the request.
    pub request: usize,
    /// The number of the outcome.
    pub outcome: usize,
}

/// A question to ask of a book, also of a damaged one. In one of eight the
/// request is too great, and as often, apart from that, the outcome.
pub fn question(seed: u64, book: &[u8]) -> Question {
    let mut random = Random::new(seed, "question");
    let (good, requests) = match book::read(book) {
        Ok(book) => (good_question(&book, &mut random), book.frame.requests()),
        Err(_) => (any_question(MOST_REQUESTS, &mut random), MOST_REQUESTS),
    };
    let mut usually = |value, limit| match random.chance(1, 8) {
        true => past(value, limit, &mut random),
        false => value,
    };
    Question {
        request: usually(good.request, requests),
        outcome: usually(good.outcome, MOST_OUTCOME + 1),
    }
}

fn good_question(book: &Book, random: &mut Random) -> Question {
    match random.below(4) {
        0 => any_question(book.frame.requests(), random),
        1 => {
            let state = random.between(1, book.states());
            let request = random.below(book.frame.requests());
            let outcome = outcome_in(book, state, request);
            Question { request, outcome }
        }
        _ => rarest(book, random),
    }
}

fn any_question(requests: usize, random: &mut Random) -> Question {
    Question {
        request: random.below(requests),
        outcome: random.below(MOST_OUTCOME + 1),
    }
}

/// One of the questions that the fewest states fit, but at least one: the way
/// there is often long, or there is none although a state fits.
fn rarest(book: &Book, random: &mut Random) -> Question {
    let mut questions = Vec::new();
    for request in 0..book.frame.requests() {
        let mut states = [0; MOST_OUTCOME + 1];
        for state in 1..=book.states() {
            states[outcome_in(book, state, request)] += 1;
        }
        let met = (0..=MOST_OUTCOME).filter(|&outcome| states[outcome] > 0);
        questions.extend(met.map(|outcome| (states[outcome], Question { request, outcome })));
    }
    let fewest = questions.iter().map(|&(states, _)| states).min();
    questions.retain(|&(states, _)| Some(states) == fewest);
    random.pick(&questions).1
}

/// Bits that are lost where a number is cut to 8, 16 or 32 bits, or doubled in
/// 8, 16, 32 or 64.
const LOST_BITS: [usize; 7] = [7, 8, 15, 16, 31, 32, 63];

/// A number not below the limit: just past it, good but for a bit that is easily
/// lost, the greatest, or of any size.
fn past(good: usize, limit: usize, random: &mut Random) -> usize {
    match random.below(8) {
        0..=2 => limit,
        3 => limit + random.below(300),
        4 | 5 => good + (1 << *random.pick(&LOST_BITS)),
        6 => usize::MAX,
        _ => limit.max(random.number() as usize >> random.below(64)),
    }
}
