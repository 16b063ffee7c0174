//! A way to a decision: the earliest history after which a request has an
//! outcome, with refusals 18 and 16. It is made from its end: how many codes
//! each state is away from the outcome, then the lowest codes that come nearer.

use crate::book::Book;
use crate::refusal::Refusal;
use crate::History;

/// The greatest outcome: 0 is none, 1 accept, 2 reject, 3 both.
pub const MOST_OUTCOME: usize = 3;

/// The earliest history possible in the book after which the request has the
/// outcome, nothing if there is none.
pub fn way(book: &Book, request: usize, outcome: usize) -> Result<Option<History>, Refusal> {
    if outcome > MOST_OUTCOME {
        return Err(Refusal::Outcome);
    }
    if request >= book.frame.requests() {
        return Err(Refusal::Walk);
    }
    Ok(history_by(book, &distances(book, request, outcome)))
}

/// What may happen to a request in a state, as the number of an outcome.
pub fn outcome_in(book: &Book, state: usize, request: usize) -> usize {
    match (book.accepts(state, request), book.rejects(state, request)) {
        (false, false) => 0,
        (true, false) => 1,
        (false, true) => 2,
        (true, true) => 3,
    }
}

/// For each state the least number of codes that lead from it to a state with
/// the outcome, nothing if none do. The states within k codes are found for
/// k = 0, 1, .. as long as they grow.
fn distances(book: &Book, request: usize, outcome: usize) -> Vec<Option<usize>> {
    let mut distances: Vec<Option<usize>> = (1..=book.states())
        .map(|state| (outcome_in(book, state, request) == outcome).then_some(0))
        .collect();
    for codes in 1.. {
        let within = distances.clone();
        for state in (1..=book.states()).filter(|&state| within[state - 1].is_none()) {
            let nearer = |code| distance_after(book, &within, state, code).is_some();
            if (0..book.frame.width()).any(nearer) {
                distances[state - 1] = Some(codes);
            }
        }
        if distances == within {
            break;
        }
    }
    distances
}

/// From state 1 on, always the lowest code that comes one nearer: no history is
/// shorter, and none as long has a smaller code at the first difference.
fn history_by(book: &Book, distances: &[Option<usize>]) -> Option<History> {
    let mut state = 1;
    let mut history = History::new();
    for left in (0..distances[0]?).rev() {
        let code = (0..book.frame.width())
            .find(|&code| distance_after(book, distances, state, code) == Some(left))
            .expect("a code that comes one nearer");
        state = book.entry(state, code);
        history.push(code as u8);
    }
    Some(history)
}

/// The distance of the state after a code, nothing if the step is not possible.
fn distance_after(
    book: &Book,
    distances: &[Option<usize>],
    state: usize,
    code: usize,
) -> Option<usize> {
    match book.entry(state, code) {
        0 => None,
        target => distances[target - 1],
    }
}
