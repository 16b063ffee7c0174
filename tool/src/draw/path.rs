//! What is drawn of a history: the states that it visits with all that is possible there,
//! its steps with their numbers, and one box for a long run of the same step through
//! states that look the same.

use super::graph::{Arrow, Graph, Node, Said, Source};
use super::rows::{Kind, Row};
use super::walk::Walk;
use crate::frame::Step;
use std::collections::{BTreeMap, VecDeque};

/// The numbers of steps with one code from one node to another, or within one.
type Steps = BTreeMap<(usize, usize), Vec<(usize, Vec<usize>)>>;

/// The graph of a history. It ends before the first step that is not possible.
pub fn path(source: &Source, codes: &[u8]) -> Graph {
    let walk = Walk::along(source.book, codes);
    let drawn = walk.ways();
    let mut said: BTreeMap<usize, Said> = BTreeMap::new();
    for &state in &walk.states {
        said.entry(state).or_insert_with(|| source.said(state, &drawn));
    }
    let mut nodes = Vec::new();
    let mut node_of: BTreeMap<usize, usize> = BTreeMap::new();
    let mut place = 0;
    while place < walk.states.len() {
        let (run, said) = walk.run(&said, place);
        let states = &walk.states[place..place + run];
        if !node_of.contains_key(&states[0]) {
            node_of.extend(states.iter().map(|&state| (state, nodes.len())));
            nodes.push(folded(states, source.node(states[0], &said)));
        }
        place += run;
    }
    let last = walk.states.last().and_then(|state| node_of.get(state));
    if let Some(last) = last.and_then(|&node| nodes.get_mut(node)) {
        last.emphasised = true;
        last.marks.push("end");
    }
    finish(source, nodes, &steps(&walk, &node_of))
}

/// The node of a state, or of several.
fn folded(states: &[usize], first: Node) -> Node {
    if states.len() == 1 {
        return first;
    }
    let numbers = Row::new(ranges(states), "states", Kind::Plain);
    Node {
        heading: format!("… {} states", states.len()),
        rows: [vec![numbers], first.rows].concat(),
        ellipsis: true,
        ..first
    }
}

/// The steps of a walk between nodes, those of one code together.
fn steps(walk: &Walk, node_of: &BTreeMap<usize, usize>) -> Steps {
    let mut steps = Steps::new();
    for (number, (pair, &code)) in walk.states.windows(2).zip(&walk.codes).enumerate() {
        let ways = steps.entry((node_of[&pair[0]], node_of[&pair[1]])).or_default();
        match ways.iter_mut().find(|(other, _)| *other == code) {
            Some((_, numbers)) => numbers.push(number + 1),
            None => ways.push((code, vec![number + 1])),
        }
    }
    steps
}

/// Adds the steps to the nodes, as arrows or as rows, and says how far the nodes are from
/// the start.
fn finish(source: &Source, mut nodes: Vec<Node>, steps: &Steps) -> Graph {
    let mut arrows = Vec::new();
    for (&(from, to), ways) in steps {
        let rows: Vec<Row> = ways.iter().map(|(code, numbers)| numbered_row(source, *code, numbers)).collect();
        if from == to {
            nodes[from].steps.extend(rows);
        } else {
            arrows.push(Arrow::new(from, to, rows));
        }
    }
    for (node, depth) in nodes.iter_mut().zip(depths(&arrows)) {
        node.layer = depth;
    }
    Graph { nodes, arrows, apart: Vec::new(), is_path: true }
}

/// A step with its numbers in the history.
fn numbered_row(source: &Source, code: usize, numbers: &[usize]) -> Row {
    let (words, tag, kind) = match source.book.frame().step(code) {
        Step::Event(event) => (source.names.event(event), "event", Kind::Event),
        Step::Decided { request, accepted: true } => (source.names.request(request), "accepted", Kind::Accepted),
        Step::Decided { request, .. } => (source.names.request(request), "rejected", Kind::Rejected),
    };
    Row::new(format!("{}. {words}", ranges(numbers)), tag, kind)
}

/// How many arrows each node is from node 0, in the order of the nodes: all are reached.
fn depths(arrows: &[Arrow]) -> Vec<usize> {
    let mut depths = BTreeMap::from([(0, 0)]);
    let mut waiting = VecDeque::from([(0, 0)]);
    while let Some((node, depth)) = waiting.pop_front() {
        for arrow in arrows.iter().filter(|arrow| arrow.from == node) {
            depths.entry(arrow.to).or_insert_with(|| {
                waiting.push_back((arrow.to, depth + 1));
                depth + 1
            });
        }
    }
    depths.into_values().collect()
}

/// Numbers with those that follow each other joined: `1, 4–7, 9`.
fn ranges(numbers: &[usize]) -> String {
    let said = numbers.chunk_by(|one, next| one + 1 == *next).map(|run| match run {
        [first, .., last] => format!("{first}–{last}"),
        _ => run[0].to_string(),
    });
    said.collect::<Vec<String>>().join(", ")
}

#[cfg(test)]
mod tests {
    use super::ranges;

    #[test]
    fn numbers_that_follow_each_other_are_joined() {
        assert_eq!(ranges(&[1, 2, 3, 5, 7, 8]), "1–3, 5, 7–8");
        assert_eq!(ranges(&[3, 2]), "3, 2");
    }
}
