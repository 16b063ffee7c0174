//! Every step that is possible stands in a picture exactly once and leads to where the book
//! says, and so do conflicts and requests without an answer: the rows are read back from
//! their words.

use super::books::{sample_books, Random};
use crate::book::{Book, Outcome};
use crate::draw::graph::{Graph, Node, Source, BY_EVENTS};
use crate::draw::rows::Row;
use crate::draw::table::Place;
use crate::draw::Thinning;
use crate::frame::{Frame, Step};
use crate::names::Names;
use std::collections::BTreeSet;

/// What a table says: where steps lead, and which requests are in conflict or open.
#[derive(Default)]
pub struct Table {
    pub steps: Vec<(usize, Place)>,
    conflicts: Vec<usize>,
    open: Vec<usize>,
}

/// The requests that words with made-up names stand for.
fn requests(frame: &Frame, words: &str) -> Vec<usize> {
    let fits = |request: &usize| {
        let values = frame.values(*request);
        let mut said = words.split(", ").zip('a'..).zip(values);
        said.all(|((said, letter), value)| {
            let mut names = said.split(" or ");
            said == "any" || names.any(|name| name == format!("{letter}{value}"))
        })
    };
    let all = 0..frame.requests();
    if words == "any request" {
        return all.collect();
    }
    assert_eq!(words.split(", ").count(), frame.counts.len());
    all.filter(fits).collect()
}

/// The codes of the steps that words with a tag's word stand for.
fn codes(frame: &Frame, words: &str, tag: &str) -> Vec<usize> {
    let answers: &[bool] = match tag {
        "accepted" => &[true],
        "rejected" => &[false],
        "both: conflict" | "accepted or rejected" => &[true, false],
        _ => {
            assert!(["", "stay", "stays", "event"].contains(&tag), "{tag}");
            let numbers = words.split(" or ").map(|event| event[1..].parse());
            return numbers.map(Result::unwrap).collect();
        }
    };
    let code = |request| move |&accepted: &bool| frame.code(Step::Decided { request, accepted });
    let requests = requests(frame, words).into_iter();
    requests.flat_map(|request| answers.iter().map(code(request))).collect()
}

/// The words of each row, a part's from the row that it belongs to.
fn whole_words(rows: &[Row]) -> Vec<(&str, &Row)> {
    let groups = rows.chunk_by(|_, next| next.part);
    let named = groups.flat_map(|group| group.iter().map(|row| (group[0].words.as_str(), row)));
    named.collect()
}

/// Reads a table.
pub fn table(frame: &Frame, rows: &[Row]) -> Table {
    let mut table = Table::default();
    for (words, row) in whole_words(rows) {
        assert_eq!(row.part, row.words.is_empty());
        let tag = row.tag.strip_suffix(", stays").unwrap_or(&row.tag);
        let (tag, place) = match tag.split_once('→').map(|(tag, to)| (tag.trim(), to.trim())) {
            None => (tag, Place::Stays),
            Some((tag, "next")) => (tag, Place::Next),
            Some((tag, "…")) => (tag, Place::Elsewhere),
            Some((tag, to)) => (tag, Place::To(to.parse().unwrap())),
        };
        if tag.ends_with("conflict") {
            table.conflicts.extend(requests(frame, words));
        }
        match tag {
            "conflict" => {}
            "unanswered" => table.open.extend(requests(frame, words)),
            _ => {
                let codes = codes(frame, words, tag).into_iter();
                table.steps.extend(codes.map(|code| (code, place)));
            }
        }
    }
    table.steps.sort_unstable();
    table.conflicts.sort_unstable();
    table.open.sort_unstable();
    table
}

/// Checks what a table says of requests that are in conflict or open.
pub fn check_findings(book: &Book, state: usize, table: &Table) {
    let with = |outcome| {
        let requests = 0..book.frame().requests();
        let fits = requests.filter(|&request| book.outcome(state, request) == outcome);
        fits.collect::<Vec<usize>>()
    };
    assert_eq!(table.conflicts, with(Outcome::Both));
    assert_eq!(table.open, with(Outcome::Unanswered));
}

/// Checks the picture of a whole book, with steps from a first code on.
fn check_whole(book: &Book, graph: &Graph, first: usize) {
    let frame = book.frame();
    let state_of = |node: &Node| node.heading.parse::<usize>().unwrap();
    let mut states = Vec::new();
    for (number, node) in graph.nodes.iter().chain(&graph.apart).enumerate() {
        let state = state_of(node);
        let table = table(frame, &node.rows);
        check_findings(book, state, &table);
        let next = |(code, place)| match place {
            Place::Stays => (code, state),
            Place::To(next) => (code, next),
            _ => panic!("{place:?} in {node:?}"),
        };
        let mut said: Vec<(usize, usize)> = table.steps.into_iter().map(next).collect();
        for arrow in graph.arrows.iter().filter(|arrow| arrow.from == number) {
            let to = state_of(&graph.nodes[arrow.to]);
            for row in &arrow.rows {
                let codes = codes(frame, &row.words, &row.tag).into_iter();
                said.extend(codes.map(|code| (code, to)));
            }
        }
        said.sort_unstable();
        let steps = (first..frame.width()).filter_map(|code| Some((code, book.next(state, code)?)));
        assert_eq!(said, steps.collect::<Vec<(usize, usize)>>());
        states.push(state);
    }
    states.sort_unstable();
    assert_eq!(states, (1..=book.states()).collect::<Vec<usize>>());
}

/// The nodes that arrows lead to from some nodes, and these.
fn reached(graph: &Graph, mut waiting: Vec<usize>) -> BTreeSet<usize> {
    let mut reached: BTreeSet<usize> = waiting.iter().copied().collect();
    while let Some(node) = waiting.pop() {
        let after = graph.arrows.iter().filter(|arrow| arrow.from == node);
        waiting.extend(after.map(|arrow| arrow.to).filter(|&to| reached.insert(to)));
    }
    reached
}

/// Checks that no box is without an arrow in unless it is marked, or the start.
fn check_entrances(graph: &Graph) {
    let is_marked = |node: &usize| graph.nodes[*node].marks.contains(&BY_EVENTS);
    let all: BTreeSet<usize> = (0..graph.nodes.len()).collect();
    let marked: Vec<usize> = all.iter().copied().filter(is_marked).collect();
    assert!(!reached(graph, vec![0]).iter().any(is_marked));
    assert_eq!(reached(graph, [vec![0], marked].concat()), all);
}

#[test]
fn whole_pictures_say_every_step_once() {
    let mut random = Random(5);
    let mut books = sample_books();
    books.extend((0..90).map(|number| random.book([4, 12, 30][number % 3], 20)));
    books.extend((0..10).map(|_| random.counting()));
    for book in &books {
        let names = Names::made_up(book.frame(), 0);
        for thinning in Thinning::ALL {
            for events in [true, false] {
                let graph = Source::new(book, &names, events).whole(thinning);
                check_whole(book, &graph, if events { 0 } else { book.frame().events });
                check_entrances(&graph);
                let marks = graph.nodes.iter().flat_map(|node| &node.marks);
                assert!(!events || marks.clone().all(|mark| *mark != BY_EVENTS));
            }
        }
    }
}
