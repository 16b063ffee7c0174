//! The sheet: the drawing in the direction that fits paper best, the title above it, and
//! below it the states that are not reached and the legend.

use super::block::{self, Block};
use super::columns::columns;
use super::graph::Graph;
use super::layers::{layers, Blocks, Direction, Item, Layers};
use super::legend::Entry;
use super::order::order;
use super::place::{place, Places};
use super::route::{Point, Route, Router};

/// Around everything.
const MARGIN: f64 = 24.0;
/// A sheet of A4 within its margins, in pixels.
const PAPER: (f64, f64) = (700.0, 1000.0);
/// How much larger a drawing is that is taken for that alone.
const CLEARLY: f64 = 1.15;
/// No more columns than this are tried.
const MOST_COLUMNS: usize = 8;
/// The title and the legend are at least this wide.
const LEAST_WIDTH: f64 = 420.0;
/// Between the drawing and the title.
const TEXT_GAP: f64 = 12.0;

/// A block with the place of its upper left corner.
#[derive(Clone, Debug, PartialEq)]
pub struct Placed {
    pub x: f64,
    pub y: f64,
    pub block: Block,
}

/// Everything with its place.
#[derive(Clone, Debug, Default, PartialEq)]
pub struct Sheet {
    pub width: f64,
    pub height: f64,
    /// In the order of the graph's nodes, then of those apart.
    pub boxes: Vec<Placed>,
    /// In the order of the graph's arrows; the last is the word `start`.
    pub labels: Vec<Placed>,
    /// In the same order.
    pub routes: Vec<Route>,
    pub texts: Vec<Placed>,
}

/// How many pieces of arrows cross in the drawing of a graph.
pub fn crossings(graph: &Graph) -> usize {
    let blocks = Blocks::of(graph, Direction::Down);
    order(&mut layers(graph, &blocks, Direction::Down))
}

/// Lays out a graph with its title and its legend.
pub fn sheet(graph: &Graph, title: &str, legend: &[Entry]) -> Sheet {
    let mut sheet = drawing(graph);
    sheet.apart(graph);
    let inner = sheet.width.max(LEAST_WIDTH);
    let shift = (inner - sheet.width) / 2.0;
    let title = block::title(title, inner);
    let legend = block::legend(legend, inner);
    sheet.shift(MARGIN + shift, MARGIN + title.height + TEXT_GAP);
    sheet.texts.push(Placed { x: MARGIN, y: MARGIN, block: title });
    sheet.texts.push(Placed { x: MARGIN, y: sheet.height + TEXT_GAP * 2.0, block: legend.clone() });
    sheet.width = inner + 2.0 * MARGIN;
    sheet.height += TEXT_GAP * 2.0 + legend.height + MARGIN;
    sheet
}

/// How large the drawing is on a sheet of paper, which may be turned.
fn fit(sheet: &Sheet) -> f64 {
    let scale = |width: f64, height: f64| (width / sheet.width).min(height / sheet.height);
    scale(PAPER.0, PAPER.1).max(scale(PAPER.1, PAPER.0)).min(1.0)
}

/// The drawing alone. Downward in one column is easiest to read; another is taken only if
/// it is clearly larger on paper.
fn drawing(graph: &Graph) -> Sheet {
    let down = Arranged::new(graph, Direction::Down);
    let mut sheet = down.sheet(1);
    let right = Arranged::new(graph, Direction::Right).sheet(1);
    let more_columns = (2..=MOST_COLUMNS).map(|count| down.sheet(count));
    for other in std::iter::once(right).chain(more_columns) {
        if fit(&other) > CLEARLY * fit(&sheet) {
            sheet = other;
        }
    }
    sheet
}

/// A graph with its cells placed in a direction.
pub struct Arranged {
    blocks: Blocks,
    layers: Layers,
    places: Places,
    direction: Direction,
}

impl Arranged {
    pub fn new(graph: &Graph, direction: Direction) -> Arranged {
        let blocks = Blocks::of(graph, direction);
        let mut layers = layers(graph, &blocks, direction);
        order(&mut layers);
        let places = place(&layers);
        Arranged { blocks, layers, places, direction }
    }

    /// The drawing in about so many columns.
    pub fn sheet(&self, count: usize) -> Sheet {
        let Arranged { blocks, layers, places, direction } = self;
        let columns = columns(layers, places, count);
        let router = Router { layers, places, columns: &columns, direction: *direction };
        let mut sheet = Sheet { routes: router.routes(), ..Sheet::default() };
        (sheet.width, sheet.height) = match direction {
            Direction::Down => (columns.length, columns.across),
            Direction::Right => (columns.across, columns.length),
        };
        sheet.fill(&router, blocks);
        sheet
    }
}

impl Sheet {
    /// Puts the states that are not reached below the drawing, in rows.
    fn apart(&mut self, graph: &Graph) {
        let most = self.width.max(PAPER.0);
        let (mut x, mut y, mut low, mut width) = (0.0, self.height + 40.0, self.height, 0.0_f64);
        let mut apart = Vec::new();
        for node in &graph.apart {
            let block = block::node(node);
            if x > 0.0 && x + block.width > most {
                (x, y) = (0.0, low + 30.0);
            }
            let right = x + block.width;
            low = low.max(y + block.height);
            width = width.max(right);
            apart.push(Placed { x, y, block });
            x = right + 30.0;
        }
        self.shift(((width - self.width) / 2.0).max(0.0), 0.0);
        self.boxes.extend(apart);
        self.width = self.width.max(width);
        self.height = low;
    }

    /// Puts boxes and labels to their cells. Cells of nodes come first, in order, then those
    /// of labels in order, then the start.
    fn fill(&mut self, router: &Router, blocks: &Blocks) {
        for (number, cell) in router.layers.cells.iter().enumerate() {
            let Some(block) = blocks.get(cell.item) else {
                continue;
            };
            let middle = router.middle(number);
            let (x, y) = (middle.x - block.width / 2.0, middle.y - block.height / 2.0);
            let block = block.clone();
            match cell.item {
                Item::Node(_) => self.boxes.push(Placed { x, y, block }),
                _ => self.labels.push(Placed { x, y, block }),
            }
        }
    }

    /// Moves everything, and makes room for that.
    fn shift(&mut self, right: f64, down: f64) {
        let placed = self.boxes.iter_mut().chain(&mut self.labels).chain(&mut self.texts);
        for placed in placed {
            placed.x += right;
            placed.y += down;
        }
        let shift = |point: &mut Point| {
            point.x += right;
            point.y += down;
        };
        for route in &mut self.routes {
            shift(&mut route.tip);
            shift(&mut route.tail);
            for stroke in &mut route.strokes {
                shift(&mut stroke.begin);
                stroke.curves.iter_mut().flatten().for_each(shift);
            }
        }
        self.width += right;
        self.height += down;
    }
}
