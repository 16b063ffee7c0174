//! A book as a picture: text for Graphviz, whose program `dot` draws it.
//! A circle is a state; an arrow has a line for each step it stands for. The
//! states in which something is to be seen to are coloured and say what.

use std::collections::BTreeMap;

use crate::book::Book;
use crate::findings::{is_blocked, lowest_conflict, lowest_missing};
use crate::words::Names;

const HEAD: &str = "\
digraph book {
  graph [rankdir=LR, bgcolor=white, pad=0.2, nodesep=0.6, ranksep=0.8];
  node [shape=circle, style=filled, fillcolor=\"#eef3fa\", color=\"#33475b\", fontname=\"Helvetica\", fontsize=14, width=0.55, margin=0.03];
  edge [color=\"#6b7785\", fontname=\"Helvetica\", fontsize=11, arrowsize=0.7];
  start [shape=point, width=0.1, fillcolor=\"#33475b\"];
  start -> 1;
";

const EVENT: &str = "#57606a";
const ACCEPTED: &str = "#1a7f37";
const REJECTED: &str = "#b42318";

/// The text for Graphviz.
pub fn dot(book: &Book, names: &Names) -> String {
    let mut text = HEAD.to_string();
    for state in 1..=book.states() {
        text.push_str(&node(book, names, state));
    }
    for state in 1..=book.states() {
        text.push_str(&edges(book, names, state));
    }
    text.push_str("}\n");
    text
}

/// A state's circle: its number and, where there is one, what is found there.
fn node(book: &Book, names: &Names, state: usize) -> String {
    let mut remarks = Vec::new();
    let mut colour = None;
    if let Some(request) = lowest_missing(book, state) {
        remarks.push(format!("missing:<br/>{}", escaped(names.request(request))));
        colour = Some("#fff3c4");
    }
    if let Some(request) = lowest_conflict(book, state) {
        remarks.push(format!("conflict:<br/>{}", escaped(names.request(request))));
        colour = Some("#ffd8b5");
    }
    if is_blocked(book, state) {
        remarks = vec!["blocked".to_string()];
        colour = Some("#d0d4d9");
    }
    let remarks: String = remarks
        .iter()
        .map(|remark| format!("<br/><font point-size=\"10\">{remark}</font>"))
        .collect();
    let fill = colour.map_or(String::new(), |colour| format!(", fillcolor=\"{colour}\""));
    format!("  {state} [label=<<b>{state}</b>{remarks}>{fill}];\n")
}

/// A state's arrows, one to each state that some step leads to.
fn edges(book: &Book, names: &Names, state: usize) -> String {
    let mut lines: BTreeMap<usize, Vec<String>> = BTreeMap::new();
    for code in 0..book.frame.width() {
        let target = book.entry(state, code);
        if target != 0 {
            lines
                .entry(target)
                .or_default()
                .push(line(book, names, code));
        }
    }
    lines
        .iter()
        .map(|(target, lines)| {
            // States that follow each other stand in one line.
            let weight = if *target == state + 1 {
                ", weight=8"
            } else {
                ""
            };
            let label = lines.join("<br/>");
            format!("  {state} -> {target} [label=<{label}>{weight}];\n")
        })
        .collect()
}

fn line(book: &Book, names: &Names, code: usize) -> String {
    let colour = match code.checked_sub(book.frame.events) {
        None => EVENT,
        Some(rest) => [ACCEPTED, REJECTED][rest % 2],
    };
    format!(
        "<font color=\"{colour}\">&#160;{}&#160;</font>",
        escaped(&names.step(code))
    )
}

/// A name as text between the tags of a label.
fn escaped(name: &str) -> String {
    name.replace('&', "&amp;")
        .replace('<', "&lt;")
        .replace('>', "&gt;")
}
