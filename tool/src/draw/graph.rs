//! What is drawn of a whole book: a node for each state, with the table of what has no
//! arrow, and an arrow for all steps from one state to another.

use super::divide::{arrows, Earliest, Thinning, Ways};
use super::rows::{arrow_rows, common_kind, Kind, Row};
use super::table::{table, Listed, Place};
use crate::book::{Book, Outcome};
use crate::names::Names;
use std::collections::BTreeSet;

/// The mark of a state without an arrow in, since events are left out.
pub const BY_EVENTS: &str = "by events";

/// A box of the picture.
#[derive(Clone, Debug, PartialEq, Eq)]
pub struct Node {
    /// The state's number, or how many states an ellipsis stands for.
    pub heading: String,
    /// Words beside the heading.
    pub marks: Vec<&'static str>,
    pub rows: Vec<Row>,
    /// The steps of a history that do not leave it.
    pub steps: Vec<Row>,
    /// How many arrows or steps it is from the start.
    pub layer: usize,
    /// Drawn with a heavy line.
    pub emphasised: bool,
    /// Drawn with a dotted line: it stands for several states.
    pub ellipsis: bool,
}

impl Node {
    /// Whether there is only its number in it.
    pub fn is_bare(&self) -> bool {
        self.marks.is_empty() && self.rows.is_empty() && self.steps.is_empty()
    }
}

/// An arrow between two nodes, never the same, with the rows of its label.
#[derive(Clone, Debug, PartialEq, Eq)]
pub struct Arrow {
    pub from: usize,
    pub to: usize,
    pub rows: Vec<Row>,
    pub kind: Kind,
}

impl Arrow {
    pub fn new(from: usize, to: usize, rows: Vec<Row>) -> Arrow {
        let kind = common_kind(&rows);
        Arrow { from, to, rows, kind }
    }
}

/// All that is drawn. Node 0 is the start.
#[derive(Clone, Debug, Default, PartialEq, Eq)]
pub struct Graph {
    pub nodes: Vec<Node>,
    pub arrows: Vec<Arrow>,
    /// States that no history reaches.
    pub apart: Vec<Node>,
    /// Whether a history is drawn, not a whole book.
    pub is_path: bool,
}

/// A book with its names, and the first code that is drawn: that of the first request if
/// events are left out.
pub struct Source<'a> {
    pub book: &'a Book,
    pub names: &'a Names,
    first: usize,
    earliest: Earliest,
}

/// What a box says of a state: words beside its number, and where the steps lead that stand
/// in it.
#[derive(Clone, Debug, PartialEq, Eq)]
pub struct Said {
    pub marks: Vec<&'static str>,
    pub listed: Listed,
}

impl Source<'_> {
    pub fn new<'a>(book: &'a Book, names: &'a Names, events: bool) -> Source<'a> {
        let first = if events { 0 } else { book.frame().events };
        Source { book, names, first, earliest: Earliest::of(book, first) }
    }

    /// The graph of the whole book.
    pub fn whole(&self, thinning: Thinning) -> Graph {
        let drawn = arrows(self.book, &self.earliest, self.first, thinning);
        let (reached, apart): (Vec<usize>, Vec<usize>) =
            (1..=self.book.states()).partition(|&state| self.earliest.depths[state].is_some());
        let arrow = |(&(from, to), codes): (&(usize, usize), &Vec<usize>)| {
            let place = |state| reached.binary_search(&state).ok();
            let rows = arrow_rows(self.names, codes);
            Some(Arrow::new(place(from)?, place(to)?, rows))
        };
        let node = |&state: &usize| {
            let mut said = self.said(state, &drawn);
            if self.earliest.by_events.contains(&state) {
                said.marks.push(BY_EVENTS);
            }
            self.node(state, &said)
        };
        Graph {
            nodes: reached.iter().map(node).collect(),
            apart: apart.iter().map(node).collect(),
            arrows: drawn.iter().filter_map(arrow).collect(),
            is_path: false,
        }
    }

    /// What a box says of a state if some steps are drawn otherwise.
    pub fn said(&self, state: usize, drawn: &Ways) -> Said {
        let place = |code: usize| {
            let next = self.book.next(state, code)?;
            let way = drawn.get(&(state, next));
            let place = if next == state { Place::Stays } else { Place::To(next) };
            (!way.is_some_and(|codes| codes.contains(&code))).then_some((code, place))
        };
        let marks = [(blocked(self.book, state), "blocked"), (self.earliest.depths[state].is_none(), "not reached")];
        let marks = marks.iter().filter(|(fits, _)| *fits);
        Said {
            marks: marks.map(|&(_, mark)| mark).collect(),
            listed: (self.first..self.book.frame().width()).filter_map(place).collect(),
        }
    }

    /// The node of a state.
    pub fn node(&self, state: usize, said: &Said) -> Node {
        Node {
            heading: state.to_string(),
            marks: said.marks.clone(),
            rows: table(self.book, self.names, state, &said.listed),
            steps: Vec::new(),
            layer: self.earliest.depths[state].unwrap_or(0),
            emphasised: false,
            ellipsis: false,
        }
    }
}

/// Whether no request is answered in the state, nor after any events.
fn blocked(book: &Book, state: usize) -> bool {
    let mut seen = BTreeSet::from([state]);
    let mut waiting = vec![state];
    while let Some(state) = waiting.pop() {
        let mut requests = 0..book.frame().requests();
        if requests.any(|request| book.outcome(state, request) != Outcome::Unanswered) {
            return false;
        }
        let after = (0..book.frame().events).filter_map(|event| book.next(state, event));
        waiting.extend(after.filter(|&next| seen.insert(next)));
    }
    true
}
