//! The lines of arrows: straight where they pass a rank, and curved between two ranks,
//! where nothing else stands.

use super::columns::{Columns, TURN};
use super::layers::{Direction, Item, Layers};
use super::place::Places;

/// How long an arrow's head is.
pub const HEAD: f64 = 10.0;
/// How round the corners are of a link that runs to the next column.
const CORNER: f64 = 8.0;

#[derive(Clone, Copy, Debug, PartialEq)]
pub struct Point {
    pub x: f64,
    pub y: f64,
}

/// A line: where it begins, and cubic curves to further points, each with its two control
/// points.
#[derive(Clone, Debug, PartialEq)]
pub struct Stroke {
    pub begin: Point,
    pub curves: Vec<[Point; 3]>,
}

impl Stroke {
    fn end(&self) -> Point {
        self.curves.last().map_or(self.begin, |curve| curve[2])
    }

    /// A straight line to a point, if that is elsewhere.
    fn line_to(&mut self, to: Point) {
        let from = self.end();
        if (from.x - to.x).abs() + (from.y - to.y).abs() > 0.05 {
            self.curves.push([from, to, to]);
        }
    }

    /// Lines along points, with round corners.
    fn lines_to(&mut self, points: &[Point]) {
        let toward = |from: Point, to: Point| {
            let (dx, dy) = (to.x - from.x, to.y - from.y);
            let share = CORNER / (dx.abs() + dy.abs()).max(2.0 * CORNER);
            Point { x: from.x + share * dx, y: from.y + share * dy }
        };
        for pair in points.windows(2) {
            self.line_to(toward(pair[0], self.end()));
            self.curves.push([pair[0], pair[0], toward(pair[0], pair[1])]);
        }
        if let Some(&last) = points.last() {
            self.line_to(last);
        }
    }
}

/// The lines of an arrow, interrupted by its label, and the tip of its head with the point
/// where its head begins.
#[derive(Clone, Debug, PartialEq)]
pub struct Route {
    pub strokes: Vec<Stroke>,
    pub tip: Point,
    pub tail: Point,
}

/// What routes depend on.
pub struct Router<'a> {
    pub layers: &'a Layers,
    pub places: &'a Places,
    pub columns: &'a Columns,
    pub direction: Direction,
}

impl Router<'_> {
    /// The routes of all chains.
    pub fn routes(&self) -> Vec<Route> {
        // Links were made chain by chain, in order.
        let mut first = 0;
        let mut routes = Vec::new();
        for chain in &self.layers.chains {
            routes.push(self.route(chain, first));
            first += chain.len() - 1;
        }
        routes
    }

    /// The middle of a cell.
    pub fn middle(&self, cell: usize) -> Point {
        let (begin, end) = self.rank(cell);
        self.point(cell, 0.0, (begin + end) / 2.0)
    }

    fn route(&self, chain: &[usize], first_link: usize) -> Route {
        let begin = self.side(first_link, chain[0]);
        let mut strokes = vec![Stroke { begin, curves: Vec::new() }];
        let (mut tip, mut tail) = (begin, begin);
        for (step, pair) in chain.windows(2).enumerate() {
            let link = first_link + step;
            let mut stroke = strokes.pop().unwrap_or(Stroke { begin, curves: Vec::new() });
            tip = self.side(link, pair[1]);
            let is_last = step + 2 == chain.len();
            self.follow(&mut stroke, link, pair[0], if is_last { HEAD } else { 0.0 });
            tail = stroke.end();
            strokes.push(stroke);
            if matches!(self.layers.cells[pair[1]].item, Item::Label(_)) {
                let begin = self.side(link + 1, pair[1]);
                strokes.push(Stroke { begin, curves: Vec::new() });
            }
        }
        Route { strokes, tip, tail }
    }

    /// Follows a link from one of its cells to the other, up to a distance from it: from
    /// the side of the cell to the end of its rank, to the begin of the next rank and to
    /// the side of the other cell.
    fn follow(&self, stroke: &mut Stroke, link: usize, from: usize, short: f64) {
        let ends = &self.layers.links[link];
        let down = from == ends.upper;
        let to = if down { ends.lower } else { ends.upper };
        let back = if down { -short } else { short };
        let (upper_rank, lower_rank) = (self.rank(ends.upper), self.rank(ends.lower));
        let (out, into) = if down { (upper_rank.1, lower_rank.0) } else { (lower_rank.0, upper_rank.1) };
        let (from_port, to_port) = (self.port(link, from), self.port(link, to));
        stroke.line_to(self.side(link, from));
        let end = self.point(to, to_port, self.sides(to, down) + back);
        if self.column(from) != self.column(to) {
            let mut points = self.between_columns(link);
            if !down {
                points.reverse();
            }
            points.push(end);
            return stroke.lines_to(&points);
        }
        stroke.line_to(self.point(from, from_port, out));
        let middle = (out + into + back) / 2.0;
        stroke.curves.push([
            self.point(from, from_port, middle),
            self.point(to, to_port, middle),
            self.point(to, to_port, into + back),
        ]);
        stroke.line_to(end);
    }

    /// The corners of a link to the next column, from its upper cell to its lower one.
    fn between_columns(&self, link: usize) -> Vec<Point> {
        let ends = &self.layers.links[link];
        let bottom = self.point(ends.upper, self.port(link, ends.upper), self.rank(ends.upper).1);
        let top = self.point(ends.lower, self.port(link, ends.lower), self.rank(ends.lower).0);
        let lane = self.columns.lanes[self.column(ends.upper)];
        let (low, high) = (bottom.y + TURN, top.y - TURN - HEAD);
        let corners = [(bottom.x, low), (lane, low), (lane, high), (top.x, high)];
        corners.iter().map(|&(x, y)| Point { x, y }).collect()
    }

    /// The point where a link ends on the side of one of its cells.
    fn side(&self, link: usize, cell: usize) -> Point {
        let is_lower = self.layers.links[link].lower == cell;
        self.point(cell, self.port(link, cell), self.sides(cell, is_lower))
    }

    /// How far from the middle of one of its cells a link ends.
    fn port(&self, link: usize, cell: usize) -> f64 {
        let (upper, lower) = self.places.ports[link];
        if self.layers.links[link].lower == cell {
            lower
        } else {
            upper
        }
    }

    fn rank(&self, cell: usize) -> (f64, f64) {
        self.places.ranks[self.layers.cells[cell].rank]
    }

    fn column(&self, cell: usize) -> usize {
        self.columns.of_rank[self.layers.cells[cell].rank]
    }

    /// Where a cell begins or ends across its rank: a dummy cell fills it.
    fn sides(&self, number: usize, is_begin: bool) -> f64 {
        let (begin, end) = self.rank(number);
        let cell = &self.layers.cells[number];
        let across = if cell.item == Item::Dummy { end - begin } else { cell.across };
        let half = if is_begin { -across / 2.0 } else { across / 2.0 };
        (begin + end) / 2.0 + half
    }

    /// The point at a distance from the middle of a cell along its rank, and at a place
    /// across the ranks.
    fn point(&self, cell: usize, port: f64, across: f64) -> Point {
        let shift = self.columns.shifts[self.column(cell)];
        let (along, across) = (self.places.along[cell] + port + shift.0, across + shift.1);
        match self.direction {
            Direction::Down => Point { x: along, y: across },
            Direction::Right => Point { x: across, y: along },
        }
    }
}
