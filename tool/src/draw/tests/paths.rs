//! In the picture of a history every step that is possible in one of its states stands
//! exactly once, in a box or as a numbered step, and leads to where the book says.

use super::books::{sample_books, Random};
use super::steps::{check_findings, table, Table};
use crate::book::Book;
use crate::draw::graph::{Graph, Node, Source};
use crate::draw::path::path;
use crate::draw::rows::Row;
use crate::draw::table::Place;
use crate::draw::walk::Walk;
use crate::names::Names;

/// A picture of a history.
struct Drawn<'a> {
    book: &'a Book,
    names: &'a Names,
    walk: Walk,
    graph: Graph,
    /// The first code that tables have.
    first: usize,
}

/// How often something stands in pictures that is not often there.
#[derive(Default)]
struct Seen {
    folded: usize,
    next: usize,
    elsewhere: usize,
    in_boxes: usize,
}

/// The numbers of ranges: `1, 4–7, 9`.
fn numbers(ranges: &str) -> Vec<usize> {
    let range = |range: &str| {
        let (low, high) = range.split_once('–').unwrap_or((range, range));
        low.parse::<usize>().unwrap()..=high.parse().unwrap()
    };
    ranges.split(", ").flat_map(range).collect()
}

/// The states of a node, and the rows of its table.
fn states_of(node: &Node) -> (Vec<usize>, &[Row]) {
    if !node.ellipsis {
        return (vec![node.heading.parse().unwrap()], &node.rows);
    }
    let states = numbers(&node.rows[0].words);
    assert_eq!(node.rows[0].tag, "states");
    assert_eq!(node.heading, format!("… {} states", states.len()));
    assert!(states.len() > 2);
    (states, &node.rows[1..])
}

impl Drawn<'_> {
    /// Checks that each step of the history has its number once, at the right place.
    fn check_numbers(&self) {
        let nodes = self.graph.nodes.iter().enumerate();
        let within = nodes.map(|(number, node)| (number, number, &node.steps));
        let arrows = self.graph.arrows.iter();
        let between = arrows.map(|arrow| (arrow.from, arrow.to, &arrow.rows));
        let mut said = Vec::new();
        for (from, to, rows) in within.chain(between) {
            let [from, to] = [from, to].map(|node| states_of(&self.graph.nodes[node]).0);
            for row in rows {
                let (ranges, words) = row.words.split_once(". ").unwrap();
                for number in numbers(ranges) {
                    assert!(from.contains(&self.walk.states[number - 1]));
                    assert!(to.contains(&self.walk.states[number]));
                    let step = self.names.step(self.walk.codes[number - 1]);
                    let tag = row.tag.strip_prefix("event").unwrap_or(&row.tag);
                    assert_eq!(format!("{words} {tag}").trim(), step);
                    said.push(number);
                }
            }
        }
        said.sort_unstable();
        assert_eq!(said, (1..=self.walk.codes.len()).collect::<Vec<usize>>());
    }

    /// Checks what a table says of a state.
    fn check_state(&self, state: usize, table: &Table, is_folded: bool) {
        check_findings(self.book, state, table);
        let visits = (0..self.walk.codes.len()).filter(|&at| self.walk.states[at] == state);
        let visits: Vec<usize> = visits.collect();
        for code in 0..self.book.frame().width() {
            let next = self.book.next(state, code);
            let walked = visits.iter().any(|&at| self.walk.codes[at] == code);
            let of_code = table.steps.iter().filter(|(other, _)| *other == code);
            let places: Vec<Place> = of_code.map(|&(_, place)| place).collect();
            match (places[..].first(), next) {
                (None, _) => assert!(walked || next.is_none() || code < self.first),
                (Some(Place::Stays), Some(next)) => assert_eq!(next, state),
                (Some(Place::To(to)), Some(next)) => assert!(next == *to && next != state),
                (Some(Place::Next), Some(next)) => {
                    assert!(is_folded && visits.iter().all(|at| self.walk.states[at + 1] == next));
                }
                (Some(Place::Elsewhere), Some(next)) => {
                    assert!(is_folded && !self.walk.states.contains(&next));
                }
                (Some(_), None) => panic!("code {code} is not possible"),
            }
            assert!(places.is_empty() || places.len() == 1 && !walked && code >= self.first);
        }
    }

    /// Checks all nodes, and counts what is in them.
    fn check(&self, seen: &mut Seen) {
        self.check_numbers();
        let mut drawn = Vec::new();
        for node in &self.graph.nodes {
            let (states, rows) = states_of(node);
            let table = table(self.book.frame(), rows);
            for &state in &states {
                self.check_state(state, &table, states.len() > 1);
            }
            let with = |place| table.steps.iter().filter(|step| step.1 == place).count();
            seen.folded += usize::from(states.len() > 1);
            seen.next += with(Place::Next);
            seen.elsewhere += with(Place::Elsewhere);
            seen.in_boxes += node.steps.len();
            drawn.extend(states);
        }
        drawn.sort_unstable();
        let mut visited = self.walk.states.clone();
        visited.sort_unstable();
        visited.dedup();
        assert_eq!(drawn, visited);
    }
}

/// Checks the pictures of a history, with and without events.
fn check(book: &Book, codes: &[u8], seen: &mut Seen) {
    let names = Names::made_up(book.frame(), 0);
    for events in [true, false] {
        let drawn = Drawn {
            book,
            names: &names,
            walk: Walk::along(book, codes),
            graph: path(&Source::new(book, &names, events), codes),
            first: if events { 0 } else { book.frame().events },
        };
        assert_eq!(drawn.walk.codes.len(), codes.len());
        drawn.check(seen);
    }
}

#[test]
fn samples_and_random_books() {
    let mut random = Random(6);
    let mut seen = Seen::default();
    let mut books = sample_books();
    books.extend((0..60).map(|number| random.book([5, 12, 127][number % 3], [1, 10, 40][number % 3])));
    for book in &books {
        for most in [0, 3, 20, 250] {
            check(book, &random.history(book, most), &mut seen);
            check(book, &random.runs(book, most), &mut seen);
        }
    }
    assert!(seen.in_boxes > 100);
}

#[test]
fn folded_runs() {
    let mut random = Random(7);
    let mut seen = Seen::default();
    for _ in 0..300 {
        let book = random.counting();
        check(&book, &random.runs(&book, 200), &mut seen);
    }
    assert!(seen.folded > 100 && seen.next > 50 && seen.elsewhere > 50);
}
