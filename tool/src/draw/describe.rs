//! A picture in words, for those who cannot see it.

use super::graph::{Graph, Node};
use super::rows::Row;

/// Each node with its table and where its arrows lead, a line each.
pub fn describe(graph: &Graph) -> String {
    let mut lines = Vec::new();
    for (number, node) in graph.nodes.iter().enumerate() {
        let mut line = table(node, number == 0);
        for arrow in graph.arrows.iter().filter(|arrow| arrow.from == number) {
            let to = name(&graph.nodes[arrow.to]);
            line += &format!(" To {to}: {}.", rows(&arrow.rows));
        }
        lines.push(line);
    }
    lines.extend(graph.apart.iter().map(|node| table(node, false)));
    lines.join("\n")
}

fn name(node: &Node) -> String {
    if node.ellipsis {
        node.heading.trim_start_matches("… ").to_string()
    } else {
        format!("state {}", node.heading)
    }
}

/// A node with its marks and rows.
fn table(node: &Node, is_start: bool) -> String {
    let mut line = name(node).replacen("state ", "State ", 1);
    let marks = is_start.then_some("start");
    for mark in marks.iter().chain(&node.marks) {
        line += &format!(", {mark}");
    }
    if !node.rows.is_empty() {
        line += &format!(": {}", rows(&node.rows));
    }
    if !node.steps.is_empty() {
        line += &format!(". Steps within it: {}", rows(&node.steps));
    }
    line + "."
}

/// Rows one after the other, what belongs to a row in brackets.
fn rows(rows: &[Row]) -> String {
    let groups = rows.chunk_by(|_, next| next.part);
    let said = groups.map(|group| {
        let parts: Vec<&str> = group[1..].iter().map(|row| row.tag.as_str()).collect();
        let brackets = match parts[..] {
            [] => String::new(),
            _ => format!(" ({})", parts.join("; ")),
        };
        format!("{} {}{brackets}", group[0].words, group[0].tag)
    });
    said.collect::<Vec<String>>().join("; ")
}
