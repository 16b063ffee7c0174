//! The order of cells within their ranks: sweeps by barycenter, then exchanges of
//! neighbours, keeping the order with the fewest crossings.

use super::layers::Layers;

const SWEEPS: usize = 16;

/// For each cell the cells that it is linked with in the rank before and in the one after.
pub struct Neighbours {
    pub before: Vec<Vec<usize>>,
    pub after: Vec<Vec<usize>>,
}

impl Neighbours {
    pub fn of(layers: &Layers) -> Neighbours {
        let none = vec![Vec::new(); layers.cells.len()];
        let mut neighbours = Neighbours { before: none.clone(), after: none };
        for link in &layers.links {
            neighbours.before[link.lower].push(link.upper);
            neighbours.after[link.upper].push(link.lower);
        }
        neighbours
    }
}

/// Orders the cells of every rank, and tells how many pairs of links cross.
pub fn order(layers: &mut Layers) -> usize {
    let neighbours = Neighbours::of(layers);
    let mut ranks = layers.ranks.clone();
    let mut places = vec![0; layers.cells.len()];
    ranks.iter().for_each(|rank| number(rank, &mut places));
    let mut fewest = usize::MAX;
    for sweep in 0..SWEEPS {
        let count = ranks.len();
        for step in 0..count {
            let (rank, side) =
                if sweep % 2 == 0 { (step, &neighbours.before) } else { (count - 1 - step, &neighbours.after) };
            by_barycenter(&mut ranks[rank], side, &mut places);
        }
        exchange(&mut ranks, &neighbours, &mut places);
        let crossings = crossings(&ranks, &neighbours.after, &places);
        if crossings < fewest {
            fewest = crossings;
            layers.ranks.clone_from(&ranks);
        }
    }
    fewest
}

/// The place of each cell in its rank.
fn number(rank: &[usize], places: &mut [usize]) {
    for (place, &cell) in rank.iter().enumerate() {
        places[cell] = place;
    }
}

/// Sorts a rank by the mean place of each cell's neighbours on one side. A cell without
/// neighbours there keeps its place.
fn by_barycenter(rank: &mut [usize], side: &[Vec<usize>], places: &mut [usize]) {
    let mean = |cell: usize| {
        let near = &side[cell];
        if near.is_empty() {
            return places[cell] as f64;
        }
        near.iter().map(|&other| places[other] as f64).sum::<f64>() / near.len() as f64
    };
    let mut keyed: Vec<(f64, usize)> = rank.iter().map(|&cell| (mean(cell), cell)).collect();
    keyed.sort_by(|one, other| one.0.total_cmp(&other.0));
    for (slot, (_, cell)) in rank.iter_mut().zip(keyed) {
        *slot = cell;
    }
    number(rank, places);
}

/// Exchanges neighbours in a rank as long as that makes fewer crossings.
fn exchange(ranks: &mut [Vec<usize>], neighbours: &Neighbours, places: &mut [usize]) {
    for rank in ranks.iter_mut() {
        let mut better = true;
        while better {
            better = false;
            for place in 1..rank.len() {
                let (left, right) = (rank[place - 1], rank[place]);
                let pairs = |one: usize, other: usize| {
                    inversions(&neighbours.before[one], &neighbours.before[other], places)
                        + inversions(&neighbours.after[one], &neighbours.after[other], places)
                };
                if pairs(left, right) > pairs(right, left) {
                    rank.swap(place - 1, place);
                    places.swap(left, right);
                    better = true;
                }
            }
        }
    }
}

/// How many pairs of one of the first with one of the second are in the wrong order.
fn inversions(first: &[usize], second: &[usize], places: &[usize]) -> usize {
    let wrong = |&one: &usize| second.iter().filter(|&&other| places[one] > places[other]).count();
    first.iter().map(wrong).sum()
}

/// How many pairs of links cross.
fn crossings(ranks: &[Vec<usize>], after: &[Vec<usize>], places: &[usize]) -> usize {
    let mut count = 0;
    for rank in ranks {
        for (place, &right) in rank.iter().enumerate() {
            let lefts = &rank[..place];
            count += lefts.iter().map(|&left| inversions(&after[left], &after[right], places)).sum::<usize>();
        }
    }
    count
}
