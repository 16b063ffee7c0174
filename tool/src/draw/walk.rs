//! A history that was followed through a book, and its runs through states that can be one
//! box.

use super::divide::Ways;
use super::graph::Said;
use super::table::Place;
use crate::book::Book;
use std::collections::BTreeMap;

/// A run through so many states or more is drawn as one box.
const LEAST_FOLDED: usize = 3;

/// The state before each step and after the last, and the codes of the steps.
pub struct Walk {
    pub states: Vec<usize>,
    pub codes: Vec<usize>,
}

/// All that may be said of where steps lead, by their codes, the plainest first.
type Sayings = BTreeMap<usize, Vec<Place>>;

impl Walk {
    /// Follows codes from the start. The walk ends before the first step that is not
    /// possible.
    pub fn along(book: &Book, codes: &[u8]) -> Walk {
        let mut walk = Walk { states: vec![1], codes: Vec::new() };
        let mut state = 1;
        for code in codes.iter().map(|&code| usize::from(code)) {
            if code >= book.frame().width() {
                break;
            }
            let Some(next) = book.next(state, code) else {
                break;
            };
            walk.codes.push(code);
            walk.states.push(next);
            state = next;
        }
        walk
    }

    /// The steps, also those that stay.
    pub fn ways(&self) -> Ways {
        let mut ways = Ways::new();
        for (pair, &code) in self.states.windows(2).zip(&self.codes) {
            let codes = ways.entry((pair[0], pair[1])).or_default();
            if !codes.contains(&code) {
                codes.push(code);
            }
        }
        ways
    }

    /// How many states from a place on are drawn as one node, and what that says of them:
    /// one, or a run that the same step goes into, through and out of at every visit, by
    /// states of which the same can be said.
    pub fn run(&self, said: &BTreeMap<usize, Said>, place: usize) -> (usize, Said) {
        let alone = &said[&self.states[place]];
        let mut common = self.sayings(alone, place);
        let mut count = 0;
        for (at, state) in self.states.iter().enumerate().skip(place) {
            let alike = self.passes(at) && self.codes[at] == self.codes[place];
            if !alike || said[state].marks != alone.marks {
                break;
            }
            let Some(both) = in_common(&common, &self.sayings(&said[state], at)) else {
                break;
            };
            common = both;
            count += 1;
        }
        if count < LEAST_FOLDED {
            return (1, alone.clone());
        }
        let listed = common.iter().map(|(&code, sayings)| (code, sayings[0]));
        let folded = Said { marks: alone.marks.clone(), listed: listed.collect() };
        (count, folded)
    }

    /// Whether every visit to the state at a place comes from one and the same state, and
    /// goes on, by one and the same code.
    fn passes(&self, place: usize) -> bool {
        let visit = |at: usize| {
            let before = at.checked_sub(1)?;
            let (into, out) = (self.codes.get(before)?, self.codes.get(at)?);
            (into == out).then_some((self.states[before], into))
        };
        let visits = (0..self.states.len()).filter(|&at| self.states[at] == self.states[place]);
        let first = visit(place);
        first.is_some() && visits.map(visit).all(|other| other == first)
    }

    /// What may be said of the steps from the state at a place, in a box with others.
    fn sayings(&self, said: &Said, place: usize) -> Sayings {
        let of_place = |to: Place| {
            let mut sayings = vec![to];
            if let Place::To(state) = to {
                let is_next = self.states.get(place + 1) == Some(&state);
                sayings.extend(is_next.then_some(Place::Next));
                let is_off = !self.states.contains(&state);
                sayings.extend(is_off.then_some(Place::Elsewhere));
            }
            sayings
        };
        let listed = said.listed.iter();
        listed.map(|(&code, &to)| (code, of_place(to))).collect()
    }
}

/// What may be said in both cases; nothing if there is a code of which nothing may.
fn in_common(one: &Sayings, other: &Sayings) -> Option<Sayings> {
    if one.len() != other.len() {
        return None;
    }
    let both = one.iter().map(|(&code, sayings)| {
        let others = other.get(&code)?;
        let mut both = sayings.clone();
        both.retain(|saying| others.contains(saying));
        (!both.is_empty()).then_some((code, both))
    });
    both.collect()
}
