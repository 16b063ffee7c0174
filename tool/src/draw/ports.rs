//! Where links end on the sides of cells.

use super::isotonic::nearest_within;
use super::layers::{Item, Layers, Link};

/// For each link how far from the middle of its upper and of its lower cell it ends.
pub type Ports = Vec<(f64, f64)>;

/// The least distance from a corner, and between two ends if there is room.
const CORNER: f64 = 14.0;
const APART: f64 = 22.0;
/// The least distance between two ends at a state.
const LEAST_APART: f64 = 14.0;

/// How long a side with so many ends is at least.
pub fn length_for(ends: usize) -> f64 {
    2.0 * CORNER + LEAST_APART * ends.saturating_sub(1) as f64
}

/// Ends spread evenly over the sides.
pub fn even_ports(layers: &Layers) -> Ports {
    ports(layers, |cell, others| spread(layers.cells[cell].length, others.len()))
}

/// Ends as near as possible to where their links come from; at labels spread evenly.
pub fn straight_ports(layers: &Layers, along: &[f64]) -> Ports {
    ports(layers, |cell, others| {
        if !matches!(layers.cells[cell].item, Item::Node(_)) {
            return spread(layers.cells[cell].length, others.len());
        }
        let wishes: Vec<f64> = others.iter().map(|&other| along[other] - along[cell]).collect();
        let length = layers.cells[cell].length;
        let half = (length / 2.0 - CORNER).max(length / 4.0);
        let gaps = others.len().saturating_sub(1).max(1);
        nearest_within(&wishes, APART.min(2.0 * half / gaps as f64), -half, half)
    })
}

fn spread(length: f64, count: usize) -> Vec<f64> {
    let share = |number: usize| (number + 1) as f64 / (count + 1) as f64 - 0.5;
    (0..count).map(|number| length * share(number)).collect()
}

/// The ends of all links by what is said for each side of each cell: for the cells that
/// are linked there, in the order of their rank, how far from the middle they end.
fn ports(layers: &Layers, side: impl Fn(usize, &[usize]) -> Vec<f64>) -> Ports {
    let mut places = vec![0; layers.cells.len()];
    for rank in &layers.ranks {
        for (place, &cell) in rank.iter().enumerate() {
            places[cell] = place;
        }
    }
    // The links at the lower and at the upper side of each cell.
    let mut sides = [vec![Vec::new(); places.len()], vec![Vec::new(); places.len()]];
    for (number, &Link { upper, lower }) in layers.links.iter().enumerate() {
        sides[0][upper].push((places[lower], lower, number));
        sides[1][lower].push((places[upper], upper, number));
    }
    let mut ports = vec![(0.0, 0.0); layers.links.len()];
    for (is_upper_side, cells) in sides.iter_mut().enumerate() {
        for (cell, ends) in cells.iter_mut().enumerate() {
            ends.sort_unstable();
            let others: Vec<usize> = ends.iter().map(|&(_, other, _)| other).collect();
            for (&(_, _, link), port) in ends.iter().zip(side(cell, &others)) {
                let end = if is_upper_side == 1 { &mut ports[link].1 } else { &mut ports[link].0 };
                *end = port;
            }
        }
    }
    ports
}
