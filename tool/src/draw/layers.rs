//! The graph in Sugiyama's layers: states in the odd ranks, labels of arrows in the even
//! ones between them, and dummy cells where an arrow passes a rank.

use super::block::{self, Block};
use super::graph::{Graph, Node};
use super::ports::length_for;

/// How wide a dummy cell is, along its rank.
const DUMMY: f64 = 6.0;

/// The way in which ranks follow each other.
#[derive(Clone, Copy, Debug, PartialEq, Eq)]
pub enum Direction {
    Down,
    Right,
}

/// What stands in a cell.
#[derive(Clone, Copy, Debug, PartialEq, Eq)]
pub enum Item {
    Node(usize),
    Label(usize),
    /// Nothing: an arrow passes here.
    Dummy,
    /// The word `start`.
    Start,
}

/// A cell of a rank.
#[derive(Clone, Debug)]
pub struct Cell {
    pub item: Item,
    pub rank: usize,
    /// Its extent along the rank, and across it.
    pub length: f64,
    pub across: f64,
}

/// A piece of an arrow from a cell to one of the next rank.
#[derive(Clone, Debug)]
pub struct Link {
    pub upper: usize,
    pub lower: usize,
}

/// Cells in ranks, links between neighbouring ranks, and for each arrow the cells that it
/// passes, from its source to its target. The last chain is that of the start.
pub struct Layers {
    pub cells: Vec<Cell>,
    pub ranks: Vec<Vec<usize>>,
    pub links: Vec<Link>,
    pub chains: Vec<Vec<usize>>,
}

/// Blocks of all that is drawn, by the numbers of nodes and arrows.
pub struct Blocks {
    pub nodes: Vec<Block>,
    pub labels: Vec<Block>,
    pub start: Block,
}

impl Blocks {
    /// The blocks for a direction: boxes are long enough for the arrows at their sides.
    pub fn of(graph: &Graph, direction: Direction) -> Blocks {
        let box_of = |(number, node): (usize, &Node)| {
            let mut block = block::node(node);
            let length = match direction {
                Direction::Down => &mut block.width,
                Direction::Right => &mut block.height,
            };
            *length = length.max(length_for(arrows_at_a_side(graph, number)));
            block
        };
        Blocks {
            nodes: graph.nodes.iter().enumerate().map(box_of).collect(),
            labels: graph.arrows.iter().map(|arrow| block::label(&arrow.rows)).collect(),
            start: block::start(),
        }
    }

    /// The block of an item, if it has one.
    pub fn get(&self, item: Item) -> Option<&Block> {
        match item {
            Item::Node(node) => Some(&self.nodes[node]),
            Item::Label(arrow) => Some(&self.labels[arrow]),
            Item::Start => Some(&self.start),
            Item::Dummy => None,
        }
    }
}

/// How many arrows there are at the side of a node that has the most.
fn arrows_at_a_side(graph: &Graph, node: usize) -> usize {
    let layer = |node: usize| graph.nodes[node].layer;
    let others = graph.arrows.iter().filter_map(|arrow| match arrow {
        arrow if arrow.from == node => Some(layer(arrow.to)),
        arrow if arrow.to == node => Some(layer(arrow.from)),
        _ => None,
    });
    let (before, after): (Vec<usize>, Vec<usize>) = others.partition(|&other| other < layer(node));
    before.len().max(after.len())
}

/// Puts all states, labels and dummy cells into ranks, those of a rank in no special order.
pub fn layers(graph: &Graph, blocks: &Blocks, direction: Direction) -> Layers {
    let deepest = graph.nodes.iter().map(|node| node.layer).max().unwrap_or(0);
    let mut layers =
        Layers { cells: Vec::new(), ranks: vec![Vec::new(); 2 * deepest + 3], links: Vec::new(), chains: Vec::new() };
    let mut builder = Builder { blocks, direction, layers: &mut layers };
    for (number, node) in graph.nodes.iter().enumerate() {
        builder.cell(Item::Node(number), 2 * node.layer + 1);
    }
    for (number, arrow) in graph.arrows.iter().enumerate() {
        let ranks = [arrow.from, arrow.to].map(|node| 2 * graph.nodes[node].layer + 1);
        builder.arrow(number, [arrow.from, arrow.to], ranks);
    }
    let start = builder.cell(Item::Start, 0);
    builder.chain(vec![start, 0]);
    if layers.ranks.last().is_some_and(Vec::is_empty) {
        layers.ranks.pop();
    }
    layers
}

struct Builder<'a> {
    blocks: &'a Blocks,
    direction: Direction,
    layers: &'a mut Layers,
}

impl Builder<'_> {
    fn cell(&mut self, item: Item, rank: usize) -> usize {
        let (length, across) = match (self.blocks.get(item), self.direction) {
            (None, _) => (DUMMY, 0.0),
            (Some(block), Direction::Down) => (block.width, block.height),
            (Some(block), Direction::Right) => (block.height, block.width),
        };
        let number = self.layers.cells.len();
        self.layers.cells.push(Cell { item, rank, length, across });
        self.layers.ranks[rank].push(number);
        number
    }

    /// The cells of an arrow: its label in one of the even ranks between its ends, or in
    /// the one after them if they are in the same rank.
    fn arrow(&mut self, number: usize, ends: [usize; 2], ranks: [usize; 2]) {
        let [from, to] = ranks;
        if from == to {
            let label = self.cell(Item::Label(number), from + 1);
            return self.chain(vec![ends[0], label, ends[1]]);
        }
        let (low, high) = (from.min(to), from.max(to));
        let label_rank = self.roomiest(low, high);
        let mut between: Vec<usize> = (low + 1..high)
            .map(|rank| {
                let item = if rank == label_rank { Item::Label(number) } else { Item::Dummy };
                self.cell(item, rank)
            })
            .collect();
        if from > to {
            between.reverse();
        }
        self.chain([vec![ends[0]], between, vec![ends[1]]].concat());
    }

    /// The even rank between two odd ones that has the least in it; of several the one
    /// nearest to the middle.
    fn roomiest(&self, low: usize, high: usize) -> usize {
        let filled = |rank: usize| -> f64 {
            let cells = &self.layers.ranks[rank];
            cells.iter().map(|&cell| self.layers.cells[cell].length + 20.0).sum()
        };
        let middle = (low + high) / 2;
        (low + 1..high)
            .step_by(2)
            .min_by(|&one, &other| {
                let by_room = filled(one).total_cmp(&filled(other));
                by_room.then(one.abs_diff(middle).cmp(&other.abs_diff(middle)))
            })
            .unwrap_or(low + 1)
    }

    fn chain(&mut self, cells: Vec<usize>) {
        for pair in cells.windows(2) {
            let down = self.layers.cells[pair[0]].rank < self.layers.cells[pair[1]].rank;
            let (upper, lower) = if down { (pair[0], pair[1]) } else { (pair[1], pair[0]) };
            self.layers.links.push(Link { upper, lower });
        }
        self.layers.chains.push(cells);
    }
}
