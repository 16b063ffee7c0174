//! Where each cell stands: along its rank as near to its neighbours as the distances
//! allow, and each rank far enough from the one before for its links.

use super::isotonic::nearest;
use super::layers::{Item, Layers};
use super::ports::{even_ports, straight_ports, Ports};

/// How often cells are placed, each time with straighter links, and sweeps of each.
const ROUNDS: usize = 4;
const SWEEPS: usize = 16;
/// Between two states of a rank, two labels, and where an arrow passes.
const NODE_GAP: f64 = 36.0;
const LABEL_GAP: f64 = 22.0;
const DUMMY_GAP: f64 = 14.0;
/// How strongly a state is drawn to the middle of the drawing, and a cell by a link: more if
/// that keeps a long arrow straight, and less the farther away it is, so that an arrow has
/// one bend rather than many.
const BY_MIDDLE: f64 = 0.2;
const BY_LINK: f64 = 2.0;
const BY_PASSING: f64 = 8.0;
const FAR: f64 = 30.0;
/// Between ranks: the least, what is added for a link aslant, and the most.
const RANK_GAP: f64 = 28.0;
const SLANT: f64 = 0.16;
const MOST_RANK_GAP: f64 = 110.0;

/// Positions of cells, in the order of their numbers, and of ranks.
pub struct Places {
    /// The middle of each cell along its rank.
    pub along: Vec<f64>,
    /// Where each rank begins and ends.
    pub ranks: Vec<(f64, f64)>,
    pub ports: Ports,
    /// Where the last rank ends.
    pub across: f64,
}

/// Which neighbours a sweep looks at.
#[derive(Clone, Copy)]
struct Sides {
    before: bool,
    after: bool,
}

/// Places the cells of ordered ranks.
pub fn place(layers: &Layers) -> Places {
    let mut ports = even_ports(layers);
    let mut along = packed(layers);
    for _ in 0..ROUNDS {
        sweeps(layers, &ports, &mut along);
        straighten(layers, &mut along);
        ports = straight_ports(layers, &along);
    }
    let ranks = rank_extents(layers, &along, &ports);
    let across = ranks.last().map_or(0.0, |&(_, end)| end);
    Places { along, ranks, ports, across }
}

/// Sweeps down and up by neighbours on one side, then some by both.
fn sweeps(layers: &Layers, ports: &Ports, along: &mut [f64]) {
    let pulls = pulls(layers, ports);
    let count = layers.ranks.len();
    for sweep in 0..SWEEPS {
        let (down, late) = (sweep % 2 == 0, sweep + 6 >= SWEEPS);
        let sides = Sides { before: down || late, after: !down || late };
        for step in 0..count {
            let rank = if down { step } else { count - 1 - step };
            settle(layers, rank, &pulls, sides, along);
        }
    }
}

/// Each rank's cells side by side, the middle of the rank at zero.
fn packed(layers: &Layers) -> Vec<f64> {
    let mut along = vec![0.0; layers.cells.len()];
    for rank in &layers.ranks {
        let mut at = 0.0;
        for (place, &cell) in rank.iter().enumerate() {
            at += if place == 0 { 0.0 } else { distance(layers, rank[place - 1], cell) };
            along[cell] = at;
        }
        for &cell in rank {
            along[cell] -= at / 2.0;
        }
    }
    along
}

/// How far apart the middles of two neighbouring cells of a rank are at least.
fn distance(layers: &Layers, left: usize, right: usize) -> f64 {
    let gap = |cell: usize| match layers.cells[cell].item {
        Item::Node(_) => NODE_GAP,
        Item::Label(_) | Item::Start => LABEL_GAP,
        Item::Dummy => DUMMY_GAP,
    };
    let lengths = layers.cells[left].length + layers.cells[right].length;
    lengths / 2.0 + (gap(left) + gap(right)) / 2.0
}

/// What draws a cell: another cell, how far from its middle, and how strongly.
struct Pull {
    other: usize,
    offset: f64,
    weight: f64,
    /// Whether the other is in the rank before.
    before: bool,
}

fn pulls(layers: &Layers, ports: &Ports) -> Vec<Vec<Pull>> {
    let mut pulls: Vec<Vec<Pull>> = layers.cells.iter().map(|_| Vec::new()).collect();
    let passes = |cell: usize| !matches!(layers.cells[cell].item, Item::Node(_));
    for (link, &(upper_port, lower_port)) in layers.links.iter().zip(ports) {
        let weight = if passes(link.upper) && passes(link.lower) { BY_PASSING } else { BY_LINK };
        let offset = upper_port - lower_port;
        pulls[link.lower].push(Pull { other: link.upper, offset, weight, before: true });
        pulls[link.upper].push(Pull { other: link.lower, offset: -offset, weight, before: false });
    }
    pulls
}

/// Moves the cells of a rank to where they are drawn, as far as their distances allow.
fn settle(layers: &Layers, rank: usize, pulls: &[Vec<Pull>], sides: Sides, along: &mut [f64]) {
    let cells = &layers.ranks[rank];
    let wish = |&cell: &usize| {
        let near = pulls[cell].iter();
        let near = near.filter(|pull| if pull.before { sides.before } else { sides.after });
        let own = match layers.cells[cell].item {
            Item::Node(_) => (0.0, BY_MIDDLE),
            _ => (along[cell] * 0.001, 0.001),
        };
        let (sum, weight) = near.fold(own, |(sum, weight), pull| {
            let goal = along[pull.other] + pull.offset;
            let pull = pull.weight * FAR / (FAR + (goal - along[cell]).abs());
            (sum + pull * goal, weight + pull)
        });
        (sum / weight, weight)
    };
    let wishes: Vec<(f64, f64)> = cells.iter().map(wish).collect();
    let distances: Vec<f64> = cells.windows(2).map(|pair| distance(layers, pair[0], pair[1])).collect();
    for (&cell, middle) in cells.iter().zip(nearest(&wishes, &distances)) {
        along[cell] = middle;
    }
}

/// Puts what an arrow passes exactly below what it has passed before, if there is room.
fn straighten(layers: &Layers, along: &mut [f64]) {
    let passes = |cell: usize| !matches!(layers.cells[cell].item, Item::Node(_));
    let mut before = vec![None; layers.cells.len()];
    for link in &layers.links {
        if passes(link.upper) && passes(link.lower) {
            before[link.lower] = Some(link.upper);
        }
    }
    for rank in &layers.ranks {
        for (place, &cell) in rank.iter().enumerate() {
            let Some(goal) = before[cell].map(|upper| along[upper]) else {
                continue;
            };
            let low = place.checked_sub(1).map(|left| rank[left]);
            let low = low.map(|left| along[left] + distance(layers, left, cell));
            let high = rank.get(place + 1);
            let high = high.map(|&right| along[right] - distance(layers, cell, right));
            let goal = goal.min(high.unwrap_or(goal));
            along[cell] = goal.max(low.unwrap_or(goal));
        }
    }
}

/// Where each rank begins and ends: the more its links go aslant, the more room before it.
fn rank_extents(layers: &Layers, along: &[f64], ports: &Ports) -> Vec<(f64, f64)> {
    let mut extents: Vec<(f64, f64)> = Vec::new();
    for (rank, cells) in layers.ranks.iter().enumerate() {
        let across = cells.iter().map(|&cell| layers.cells[cell].across).fold(0.0, f64::max);
        let links = layers.links.iter().zip(ports);
        let slant = links
            .filter(|(link, _)| layers.cells[link.lower].rank == rank)
            .map(|(link, port)| (along[link.upper] + port.0 - along[link.lower] - port.1).abs())
            .fold(0.0, f64::max);
        let gap = (RANK_GAP + SLANT * slant).min(MOST_RANK_GAP);
        let begin = extents.last().map_or(0.0, |&(_, end)| end + gap);
        extents.push((begin, begin + across));
    }
    extents
}
