//! Rows of words with a tag, and those of an arrow's label.

use super::cover::{cover, words};
use crate::frame::{Frame, Step};
use crate::names::Names;

/// What a row is about. It has a colour, and its tag says the same in words.
#[derive(Clone, Copy, Debug, PartialEq, Eq, PartialOrd, Ord)]
pub enum Kind {
    Accepted,
    Rejected,
    /// Accepted and rejected.
    Both,
    Unanswered,
    Event,
    /// Of several kinds, or none of them.
    Plain,
}

/// A row: words on the left, and a tag.
#[derive(Clone, Debug, PartialEq, Eq)]
pub struct Row {
    pub words: String,
    pub tag: String,
    pub kind: Kind,
    /// Whether it says more of what the row before is about, and so has no words.
    pub part: bool,
}

impl Row {
    pub fn new(words: String, tag: &str, kind: Kind) -> Row {
        Row { words, tag: tag.to_string(), kind, part: false }
    }

    /// A row that says more of what the row before is about.
    pub fn part(tag: &str, kind: Kind) -> Row {
        Row { part: true, ..Row::new(String::new(), tag, kind) }
    }
}

/// The rows for steps that all lead along one arrow.
pub fn arrow_rows(names: &Names, codes: &[usize]) -> Vec<Row> {
    let frame = names.frame();
    let mut rows = Vec::new();
    for (kind, tag) in
        [(Kind::Accepted, "accepted"), (Kind::Rejected, "rejected"), (Kind::Both, "accepted or rejected")]
    {
        let requests = requests_of_kind(&frame, codes, kind);
        let row = |words| Row::new(words, tag, kind);
        rows.extend(products(names, &frame, &requests).map(row));
    }
    let events = codes.iter().filter(|&&code| code < frame.events);
    let events: Vec<String> = events.map(|&event| names.event(event)).collect();
    if !events.is_empty() {
        rows.push(Row::new(events.join(" or "), "event", Kind::Event));
    }
    rows
}

/// The words of the products that cover some requests.
pub fn products<'a>(names: &'a Names, frame: &Frame, requests: &[usize]) -> impl Iterator<Item = String> + 'a {
    let products = cover(frame, requests).into_iter();
    products.map(|product| words(names, &product))
}

/// The kind of an arrow: that of its rows if it is the same for all.
pub fn common_kind(rows: &[Row]) -> Kind {
    match rows.split_first() {
        Some((first, rest)) if rest.iter().all(|row| row.kind == first.kind) => first.kind,
        _ => Kind::Plain,
    }
}

/// The requests that the codes accept only, reject only, or both.
fn requests_of_kind(frame: &Frame, codes: &[usize], kind: Kind) -> Vec<usize> {
    let has = |request, accepted| codes.contains(&frame.code(Step::Decided { request, accepted }));
    let fits = |request: &usize| match kind {
        Kind::Accepted => has(*request, true) && !has(*request, false),
        Kind::Rejected => !has(*request, true) && has(*request, false),
        _ => has(*request, true) && has(*request, false),
    };
    (0..frame.requests()).filter(fits).collect()
}
