//! A book that the library has built, or has not refused, as a table to read.

use crate::frame::{Frame, Step};

/// Where the rows begin.
const HEADER: usize = 12;

/// What a state says of a request.
#[derive(Clone, Copy, Debug, PartialEq, Eq, PartialOrd, Ord)]
pub enum Outcome {
    Unanswered,
    Accept,
    Reject,
    Both,
}

impl Outcome {
    /// All four, in the order of their numbers.
    pub const ALL: [Outcome; 4] = [Outcome::Unanswered, Outcome::Accept, Outcome::Reject, Outcome::Both];

    /// The number that the library knows it by.
    pub fn number(self) -> usize {
        self as usize
    }

    /// Its word on the command line and for machines.
    pub fn word(self) -> &'static str {
        ["none", "accept", "reject", "both"][self.number()]
    }

    /// The outcome of a word or a number.
    pub fn named(word: &str) -> Option<Outcome> {
        match word {
            "0" | "none" | "unanswered" => Some(Outcome::Unanswered),
            "1" | "accept" | "accepted" => Some(Outcome::Accept),
            "2" | "reject" | "rejected" => Some(Outcome::Reject),
            "3" | "both" => Some(Outcome::Both),
            _ => None,
        }
    }

    /// What it says of a request.
    pub fn words(self) -> &'static str {
        match self {
            Outcome::Unanswered => "is neither accepted nor rejected",
            Outcome::Accept => "may only be accepted",
            Outcome::Reject => "may only be rejected",
            Outcome::Both => "may be both accepted and rejected",
        }
    }
}

/// A book whose bytes passed the library's checks.
#[derive(Clone, Debug, PartialEq, Eq)]
pub struct Book {
    bytes: Vec<u8>,
    frame: Frame,
}

impl Book {
    /// Takes bytes that the library has built, or has not refused by 12 to 14.
    pub fn new(bytes: Vec<u8>) -> Book {
        let fields = usize::from(bytes[6]);
        let frame = Frame {
            events: usize::from(bytes[5]),
            counts: bytes[7..7 + fields].iter().map(|&count| usize::from(count)).collect(),
        };
        Book { bytes, frame }
    }

    pub fn bytes(&self) -> &[u8] {
        &self.bytes
    }

    pub fn frame(&self) -> &Frame {
        &self.frame
    }

    /// The number of states. They are numbered from 1, which is the start.
    pub fn states(&self) -> usize {
        usize::from(self.bytes[11])
    }

    /// The state that a code leads to, nothing if the step is not possible.
    pub fn next(&self, state: usize, code: usize) -> Option<usize> {
        let entry = self.bytes[HEADER + (state - 1) * self.frame.width() + code];
        (entry != 0).then_some(usize::from(entry))
    }

    /// The states that some history leads to, in the order of the earliest ones;
    /// each with the state and the code by which it is found.
    fn found(&self) -> Vec<(usize, Option<(usize, u8)>)> {
        let mut found = vec![(1, None)];
        let mut visited = 0;
        while visited < found.len() {
            let (state, _) = found[visited];
            for code in 0..self.frame.width() {
                if let Some(to) = self.next(state, code) {
                    if found.iter().all(|(other, _)| *other != to) {
                        found.push((to, Some((state, code as u8))));
                    }
                }
            }
            visited += 1;
        }
        found
    }

    /// The states that some history leads to.
    pub fn reached(&self) -> Vec<usize> {
        self.found().into_iter().map(|(state, _)| state).collect()
    }

    /// The earliest history that leads to a state, nothing if none does.
    pub fn history_to(&self, state: usize) -> Option<Vec<u8>> {
        let found = self.found();
        let mut history = Vec::new();
        let mut at = state;
        loop {
            match found.iter().find(|(other, _)| *other == at)?.1 {
                None => break,
                Some((before, code)) => {
                    history.push(code);
                    at = before;
                }
            }
        }
        history.reverse();
        Some(history)
    }

    /// What a state says of a request.
    pub fn outcome(&self, state: usize, request: usize) -> Outcome {
        let possible = |accepted| {
            let code = self.frame.code(Step::Decided { request, accepted });
            self.next(state, code).is_some()
        };
        match (possible(true), possible(false)) {
            (false, false) => Outcome::Unanswered,
            (true, false) => Outcome::Accept,
            (false, true) => Outcome::Reject,
            (true, true) => Outcome::Both,
        }
    }
}
