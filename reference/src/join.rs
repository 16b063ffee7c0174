//! Joining alike situations into states by filling a table of pairs that are
//! told apart, and numbering the states by their earliest history.

use crate::explore::Table;

/// For each pair of situations, whether some history is possible from just one
/// of them.
pub fn told_apart(table: &Table) -> Vec<Vec<bool>> {
    let mut apart = vec![vec![false; table.len()]; table.len()];
    let mut unused = Vec::new();
    for first in 0..table.len() {
        for second in 0..first {
            if possible_codes_differ(&table[first], &table[second]) {
                mark(&mut apart, &mut unused, first, second);
            }
        }
    }
    let before = steps_back(table);
    while let Some((first, second)) = unused.pop() {
        for sources in &before {
            for &from_first in &sources[first] {
                for &from_second in &sources[second] {
                    mark(&mut apart, &mut unused, from_first, from_second);
                }
            }
        }
    }
    apart
}

fn possible_codes_differ(first: &[Option<usize>], second: &[Option<usize>]) -> bool {
    first
        .iter()
        .zip(second)
        .any(|(one, other)| one.is_some() != other.is_some())
}

/// Marks a pair as told apart and keeps it for later use, unless it was marked.
fn mark(apart: &mut [Vec<bool>], unused: &mut Vec<(usize, usize)>, first: usize, second: usize) {
    if !apart[first][second] {
        apart[first][second] = true;
        apart[second][first] = true;
        unused.push((first, second));
    }
}

/// For each code and each situation, the situations the code leads from.
fn steps_back(table: &Table) -> Vec<Vec<Vec<usize>>> {
    let width = table.first().map_or(0, Vec::len);
    let mut before = vec![vec![Vec::new(); table.len()]; width];
    for (source, row) in table.iter().enumerate() {
        for (code, &target) in row.iter().enumerate() {
            if let Some(target) = target {
                before[code][target].push(source);
            }
        }
    }
    before
}

/// Joins alike situations. Row s of the answer is state s + 1; an entry is the
/// number of the state after the code, or 0 if the step is not possible.
pub fn join(table: &Table) -> Vec<Vec<u8>> {
    let apart = told_apart(table);
    let leader = |place: usize| {
        (0..=place)
            .find(|&other| !apart[place][other])
            .expect("a situation is alike to itself")
    };
    let leaders: Vec<usize> = (0..table.len()).map(leader).collect();
    let order = breadth_first(table, &leaders);
    let mut numbers = vec![0; table.len()];
    for (index, &place) in order.iter().enumerate() {
        numbers[place] = index as u8 + 1;
    }
    let entry = |&target: &Option<usize>| target.map_or(0, |place| numbers[leaders[place]]);
    order
        .iter()
        .map(|&place| table[place].iter().map(entry).collect())
        .collect()
}

/// The leaders of the joined situations, breadth first with the codes
/// ascending, which is the order of their earliest histories.
fn breadth_first(table: &Table, leaders: &[usize]) -> Vec<usize> {
    let mut order = vec![leaders[0]];
    let mut next = 0;
    while next < order.len() {
        for &target in table[order[next]].iter().flatten() {
            if !order.contains(&leaders[target]) {
                order.push(leaders[target]);
            }
        }
        next += 1;
    }
    order
}
