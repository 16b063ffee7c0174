//! The table in a state's box: every request and event with where it leads, unless it is
//! drawn otherwise.

use super::rows::{products, Kind, Row};
use crate::book::{Book, Outcome};
use crate::frame::Step;
use crate::names::Names;
use std::collections::BTreeMap;

/// Where a step leads that stands in a box.
#[derive(Clone, Copy, Debug, PartialEq, Eq, PartialOrd, Ord)]
pub enum Place {
    /// Nowhere else: the state is not left.
    Stays,
    /// To the state of this number.
    To(usize),
    /// In a box of several states: from each to where the history goes on.
    Next,
    /// In a box of several states: off the history, not from all to the same state.
    Elsewhere,
}

/// Where the steps lead that stand in a box, by their codes.
pub type Listed = BTreeMap<usize, Place>;

/// What is said after a row's words: its tag, and those of rows that belong to it.
type Tags = Vec<(String, Kind)>;

/// The rows of a state's table: requests, those of one answer together, then events.
pub fn table(book: &Book, names: &Names, state: usize, listed: &Listed) -> Vec<Row> {
    let frame = book.frame();
    let mut rows = Vec::new();
    for outcome in [Outcome::Accept, Outcome::Reject, Outcome::Both, Outcome::Unanswered] {
        let mut groups: BTreeMap<[Option<Place>; 2], Vec<usize>> = BTreeMap::new();
        let requests = 0..frame.requests();
        for request in requests.filter(|&request| book.outcome(state, request) == outcome) {
            let place = |accepted| {
                let code = frame.code(Step::Decided { request, accepted });
                listed.get(&code).copied()
            };
            let places = [place(true), place(false)];
            groups.entry(places).or_default().push(request);
        }
        for (places, requests) in groups {
            let tags = tags(outcome, places);
            let Some(((tag, kind), parts)) = tags.split_first() else {
                continue;
            };
            for words in products(names, frame, &requests) {
                rows.push(Row::new(words, tag, *kind));
                rows.extend(parts.iter().map(|(tag, kind)| Row::part(tag, *kind)));
            }
        }
    }
    rows.extend(event_rows(names, frame.events, listed));
    rows
}

/// What is said of requests with an outcome that are accepted and rejected to places;
/// nothing if they are drawn otherwise.
fn tags(outcome: Outcome, [accepted, rejected]: [Option<Place>; 2]) -> Tags {
    let answered = |word: &str, place: Option<Place>, kind| {
        let tag = place.map(|place| (tag(word, place), kind));
        tag.into_iter().collect()
    };
    match outcome {
        Outcome::Accept => answered("accepted", accepted, Kind::Accepted),
        Outcome::Reject => answered("rejected", rejected, Kind::Rejected),
        Outcome::Both => conflict_tags(accepted, rejected),
        Outcome::Unanswered => vec![("unanswered".to_string(), Kind::Unanswered)],
    }
}

/// What is said of requests in conflict: both at once if they lead to one state, else each
/// below.
fn conflict_tags(accepted: Option<Place>, rejected: Option<Place>) -> Tags {
    match accepted {
        Some(place) if accepted == rejected && place != Place::Elsewhere => {
            return vec![(tag("both: conflict", place), Kind::Both)];
        }
        _ => {}
    }
    let part = |word: &str, place, kind| match place {
        Place::Stays => (format!("{word}, stays"), kind),
        _ => (tag(word, place), kind),
    };
    let mut tags = vec![("conflict".to_string(), Kind::Both)];
    tags.extend(accepted.map(|place| part("accepted", place, Kind::Accepted)));
    tags.extend(rejected.map(|place| part("rejected", place, Kind::Rejected)));
    tags
}

/// A word, and where what it says leads.
fn tag(word: &str, place: Place) -> String {
    match place {
        Place::Stays => word.to_string(),
        _ => format!("{word} {}", arrow(place)),
    }
}

/// Where a step leads that does not stay.
fn arrow(place: Place) -> String {
    match place {
        Place::To(state) => format!("→ {state}"),
        Place::Next => "→ next".to_string(),
        _ => "→ …".to_string(),
    }
}

/// The rows of events, those to one place together.
fn event_rows(names: &Names, events: usize, listed: &Listed) -> Vec<Row> {
    let mut groups: BTreeMap<Place, Vec<String>> = BTreeMap::new();
    for (&event, &place) in listed.range(..events) {
        groups.entry(place).or_default().push(names.event(event));
    }
    let row = |(place, events): (Place, Vec<String>)| {
        let tag = match place {
            Place::Stays if events.len() == 1 => "stays".to_string(),
            Place::Stays => "stay".to_string(),
            _ => arrow(place),
        };
        Row::new(events.join(" or "), &tag, Kind::Event)
    };
    groups.into_iter().map(row).collect()
}
