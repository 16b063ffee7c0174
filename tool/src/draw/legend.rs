//! What is written below a picture: what its marks mean, as far as they stand in it.

use super::graph::{Graph, Node, BY_EVENTS};
use super::rows::Kind;

/// A line of the legend: a tag as in the picture, and its meaning.
pub struct Entry {
    pub tag: Option<(&'static str, Kind)>,
    pub text: &'static str,
}

/// A tag, its kind, and its meaning in a whole book and in a history.
type Meaning = (&'static str, Kind, [&'static str; 2]);

/// What tags of rows mean; `n` stands for a number.
const TAGS: [Meaning; 6] = [
    (
        "→ n",
        Kind::Event,
        [
            "but this leads to state n, without an arrow",
            "leads to state n, which may not be in the picture; what has no → stays",
        ],
    ),
    ("→ next", Kind::Event, ["", "leads where the numbered step leads"]),
    ("→ …", Kind::Event, ["", "leads to different states, none of them in the picture"]),
    (
        "conflict",
        Kind::Both,
        [
            "may be both accepted and rejected; where each leads is said below it or by an arrow",
            "may be both accepted and rejected; where each leads is said below it or by a numbered step",
        ],
    ),
    ("both: conflict", Kind::Both, ["may be both accepted and rejected, and what follows is the same"; 2]),
    ("unanswered", Kind::Unanswered, ["neither accepted nor rejected"; 2]),
];

/// What marks beside the number of a state mean.
const MARKS: [Meaning; 3] = [
    ("blocked", Kind::Plain, ["no request is answered, nor after any events"; 2]),
    ("not reached", Kind::Plain, ["no history leads there"; 2]),
    (BY_EVENTS, Kind::Plain, ["reached only through events"; 2]),
];

const WHOLE: &str = "A box is a state: its number in bold, and what does not leave it. \
    An arrow says which steps lead from one state to another.";
const PATH: &str = "A box is a state on the history: its number in bold, and everything that \
    is possible there. An arrow is a step of the history; its number comes first.";
const PATH_IN_BOXES: &str = "A box is a state on the history: its number in bold, and everything \
    that is possible there. An arrow, or a row below a line, is a step of the history; its \
    number comes first.";
const FOLDED: &str = "A dotted box is several states that look the same.";

/// The legend of a graph, of a history or of a whole book.
pub fn legend(graph: &Graph, events: bool) -> Vec<Entry> {
    let nodes: Vec<&Node> = graph.nodes.iter().chain(&graph.apart).collect();
    let in_rows = |meaning: &&Meaning| {
        let mut rows = nodes.iter().flat_map(|node| &node.rows);
        rows.any(|row| says(&row.tag, meaning.0))
    };
    let in_marks = |meaning: &&Meaning| nodes.iter().any(|node| node.marks.contains(&meaning.0));
    let in_boxes = nodes.iter().any(|node| !node.steps.is_empty());
    let mut entries = vec![said(match graph.is_path {
        true if in_boxes => PATH_IN_BOXES,
        true => PATH,
        false => WHOLE,
    })];
    let has_folded = nodes.iter().any(|node| node.ellipsis);
    entries.extend(has_folded.then_some(said(FOLDED)));
    let tags = TAGS.iter().filter(in_rows);
    let used = tags.chain(MARKS.iter().filter(in_marks));
    entries.extend(
        used.map(|&(tag, kind, texts)| Entry { tag: Some((tag, kind)), text: texts[usize::from(graph.is_path)] }),
    );
    let left_out = ["Events are left out.", "Events are left out, but for those of the history."];
    entries.extend((!events).then_some(said(left_out[usize::from(graph.is_path)])));
    entries
}

/// Whether a row's tag says what one of the legend does.
fn says(tag: &str, of_legend: &str) -> bool {
    let (word, place) = match tag.split_once('→') {
        Some((word, place)) => (word.trim_end(), place.trim_start()),
        None => (tag, ""),
    };
    match of_legend.strip_prefix("→ ") {
        Some("n") => place.parse::<usize>().is_ok(),
        Some(other) => place == other,
        None => word == of_legend,
    }
}

fn said(text: &'static str) -> Entry {
    Entry { tag: None, text }
}

#[cfg(test)]
mod tests {
    use super::says;

    #[test]
    fn tags_are_found_by_what_they_say() {
        for (tag, of_legend) in [
            ("accepted → 12", "→ n"),
            ("→ 3", "→ n"),
            ("rejected → next", "→ next"),
            ("→ …", "→ …"),
            ("conflict", "conflict"),
            ("both: conflict", "both: conflict"),
            ("unanswered", "unanswered"),
        ] {
            let found = super::TAGS.iter().filter(|entry| says(tag, entry.0));
            let found: Vec<&str> = found.map(|entry| entry.0).collect();
            assert_eq!(found, [of_legend]);
        }
        assert!(says("both: conflict → 3", "both: conflict"));
        assert!(says("both: conflict → 3", "→ n"));
        assert!(!says("accepted, stays", "→ n"));
    }
}
