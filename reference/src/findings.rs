//! The three findings about a book: conflict, missing and blocked. They are
//! looked for breadth first, so that each is given with its earliest history.

use crate::book::Book;
use crate::reached::{history_of, Reached};
use crate::History;

/// A finding about one request.
#[derive(Clone, Debug, PartialEq, Eq)]
pub struct RequestFinding {
    /// The lowest request concerned after the history.
    pub request: usize,
    /// The earliest history.
    pub history: History,
}

/// The three findings; each may be absent.
#[derive(Clone, Debug, PartialEq, Eq)]
pub struct Findings {
    /// Some request may be both accepted and rejected.
    pub conflict: Option<RequestFinding>,
    /// Some request is unanswered.
    pub missing: Option<RequestFinding>,
    /// No request is answered, now or after any list of events.
    pub blocked: Option<History>,
}

/// Gives the findings over all histories possible in the book.
pub fn findings(book: &Book) -> Findings {
    let reached = reached_states(book);
    let about_request = |lowest: fn(&Book, usize) -> Option<usize>| {
        reached.iter().enumerate().find_map(|(place, here)| {
            let request = lowest(book, here.state)?;
            Some(RequestFinding {
                request,
                history: history_of(&reached, place),
            })
        })
    };
    Findings {
        conflict: about_request(lowest_conflict),
        missing: about_request(lowest_missing),
        blocked: reached
            .iter()
            .position(|here| is_blocked(book, here.state))
            .map(|place| history_of(&reached, place)),
    }
}

/// The lowest request that may be both accepted and rejected in the state.
pub fn lowest_conflict(book: &Book, state: usize) -> Option<usize> {
    (0..book.frame.requests())
        .find(|&request| book.accepts(state, request) && book.rejects(state, request))
}

/// The lowest request that is unanswered in the state.
pub fn lowest_missing(book: &Book, state: usize) -> Option<usize> {
    (0..book.frame.requests())
        .find(|&request| !book.accepts(state, request) && !book.rejects(state, request))
}

/// Whether no request is answered in the state or in any state that events
/// alone lead to from it.
pub fn is_blocked(book: &Book, state: usize) -> bool {
    let mut by_events = vec![state];
    let mut next = 0;
    while next < by_events.len() {
        let here = by_events[next];
        if (book.frame.events..book.frame.width()).any(|code| book.entry(here, code) != 0) {
            return false;
        }
        for event in 0..book.frame.events {
            let target = book.entry(here, event);
            if !by_events.contains(&target) {
                by_events.push(target);
            }
        }
        next += 1;
    }
    true
}

/// The states that histories lead to, in the order of their earliest history.
fn reached_states(book: &Book) -> Vec<Reached<usize>> {
    let mut met = vec![false; book.states() + 1];
    met[1] = true;
    let mut reached = vec![Reached::start(1)];
    let mut next = 0;
    while next < reached.len() {
        for code in 0..book.frame.width() {
            let target = book.entry(reached[next].state, code);
            if target != 0 && !met[target] {
                met[target] = true;
                reached.push(Reached::after(next, code, target));
            }
        }
        next += 1;
    }
    reached
}
