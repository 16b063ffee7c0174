//! What a breadth-first search has reached, with a way back to its start.

use crate::History;

/// A state, or a pair of states, that some history leads to.
pub(crate) struct Reached<S> {
    pub(crate) state: S,
    /// The place of the one before in the list, and the code that led here.
    pub(crate) from: Option<(usize, u8)>,
}

impl<S> Reached<S> {
    /// Where a search starts.
    pub(crate) fn start(state: S) -> Reached<S> {
        Reached { state, from: None }
    }

    /// What a code leads to from the one at `place`.
    pub(crate) fn after(place: usize, code: usize, state: S) -> Reached<S> {
        Reached {
            state,
            from: Some((place, code as u8)),
        }
    }
}

/// The codes that led to the one at `place`.
pub(crate) fn history_of<S>(reached: &[Reached<S>], place: usize) -> History {
    let mut history = History::new();
    let mut here = &reached[place];
    while let Some((before, code)) = here.from {
        history.push(code);
        here = &reached[before];
    }
    history.reverse();
    history
}
