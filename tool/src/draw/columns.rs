//! A long drawing cut into columns side by side, where only one link goes from a rank of
//! labels to the states after it; that link then runs up between the columns.

use super::layers::Layers;
use super::place::Places;
use std::ops::Range;

/// Between two columns.
const BETWEEN: f64 = 60.0;
/// Above the first states of a column and below the last of another, for the link between.
pub const TURN: f64 = 16.0;
const ABOVE: f64 = 44.0;
/// How often the height of columns is halved between too low and high enough.
const HALVINGS: usize = 24;

/// Where the columns are.
pub struct Columns {
    /// The column of each rank.
    pub of_rank: Vec<usize>,
    /// How far each column is moved along and across its ranks.
    pub shifts: Vec<(f64, f64)>,
    /// Where the link after each column runs.
    pub lanes: Vec<f64>,
    pub length: f64,
    pub across: f64,
}

/// The drawing in about so many columns.
pub fn columns(layers: &Layers, places: &Places, count: usize) -> Columns {
    let of_rank = columns_of_ranks(layers, places, count);
    let last = of_rank.last().copied().unwrap_or(0);
    let mut columns = Columns { of_rank, shifts: Vec::new(), lanes: Vec::new(), length: 0.0, across: 0.0 };
    for column in 0..=last {
        let (low, high) = columns.extent(layers, places, column);
        let ranks = places.ranks.iter().zip(&columns.of_rank);
        let ranks: Vec<(f64, f64)> = ranks.filter(|(_, of)| **of == column).map(|(&extent, _)| extent).collect();
        let (begin, end) = (ranks[0].0, ranks[ranks.len() - 1].1);
        let above = if column == 0 { 0.0 } else { ABOVE };
        let below = if column == last { 0.0 } else { TURN };
        let left = if column == 0 { 0.0 } else { columns.length + BETWEEN };
        columns.shifts.push((left - low, above - begin));
        columns.length = left + high - low;
        columns.lanes.push(columns.length + BETWEEN / 2.0);
        columns.across = columns.across.max(above + end - begin + below);
    }
    columns
}

impl Columns {
    /// From where to where the cells of a column reach along their ranks.
    fn extent(&self, layers: &Layers, places: &Places, column: usize) -> (f64, f64) {
        let cells = layers.cells.iter().zip(&places.along);
        let own = cells.filter(|(cell, _)| self.of_rank[cell.rank] == column);
        own.fold((f64::MAX, f64::MIN), |(low, high), (cell, middle)| {
            (low.min(middle - cell.length / 2.0), high.max(middle + cell.length / 2.0))
        })
    }
}

/// The column of each rank: the lowest columns that are not more than so many.
fn columns_of_ranks(layers: &Layers, places: &Places, count: usize) -> Vec<usize> {
    let pieces = pieces(layers);
    let (mut low, mut high) = (0.0, places.across);
    for _ in 0..HALVINGS {
        let middle = (low + high) / 2.0;
        let columns = filled(places, &pieces, middle);
        if columns.last().is_some_and(|&last| last < count) {
            high = middle;
        } else {
            low = middle;
        }
    }
    let columns = filled(places, &pieces, high);
    let pieces = pieces.iter().zip(columns);
    pieces.flat_map(|(piece, column)| vec![column; piece.len()]).collect()
}

/// The ranks in pieces that must not be parted.
fn pieces(layers: &Layers) -> Vec<Range<usize>> {
    let mut links_into = vec![0; layers.ranks.len()];
    for link in &layers.links {
        links_into[layers.cells[link.lower].rank] += 1;
    }
    let may_begin = |&rank: &usize| rank % 2 == 1 && rank > 1 && links_into[rank] == 1;
    let ranks = 0..layers.ranks.len();
    let begins: Vec<usize> = std::iter::once(0).chain(ranks.clone().filter(may_begin)).collect();
    let ends = begins.iter().skip(1).copied().chain([ranks.end]);
    begins.iter().zip(ends).map(|(&begin, end)| begin..end).collect()
}

/// The column of each piece if columns are filled up to a height; a higher piece has its own.
fn filled(places: &Places, pieces: &[Range<usize>], height: f64) -> Vec<usize> {
    let mut column = 0;
    let mut begin = 0.0;
    let column_of = |piece: &Range<usize>| {
        let (from, to) = (places.ranks[piece.start].0, places.ranks[piece.end - 1].1);
        if piece.start > 0 && to - begin > height {
            column += 1;
            begin = from;
        }
        column
    };
    pieces.iter().map(column_of).collect()
}
