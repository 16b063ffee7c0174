//! Pictures of books as SVG: a box for each state with a table of what has no arrow, and
//! one arrow for all steps that lead from one state to another.

mod block;
mod columns;
pub mod cover;
mod describe;
mod divide;
mod graph;
mod isotonic;
mod layers;
mod legend;
mod order;
mod path;
mod place;
mod ports;
mod route;
mod rows;
mod sheet;
mod svg;
mod table;
#[cfg(test)]
mod tests;
mod text_width;
mod walk;

use crate::book::Book;
use crate::names::Names;
use divide::Thinning;
use graph::{Graph, Source};

/// Over this many states a whole book is not drawn.
pub const MOST_STATES: usize = 30;

/// What to draw of a book.
pub struct Options<'a> {
    pub title: &'a str,
    /// Whether events are drawn; those of a path always are.
    pub events: bool,
    /// A history: only the states on it are drawn, and only its steps as arrows.
    pub path: Option<&'a [u8]>,
}

/// The picture of a book, the whole file.
pub fn picture(book: &Book, names: &Names, options: &Options) -> String {
    let graph = graph_of(book, names, options);
    let legend = legend::legend(&graph, options.events);
    let sheet = sheet::sheet(&graph, options.title, &legend);
    svg::svg(&graph, &sheet, options.title, &describe::describe(&graph))
}

/// What is drawn: a history, or the whole book with as many arrows as stay readable.
fn graph_of(book: &Book, names: &Names, options: &Options) -> Graph {
    let source = Source::new(book, names, options.events);
    if let Some(codes) = options.path {
        return path::path(&source, codes);
    }
    let readable = |graph: &Graph| {
        let states = graph.nodes.len();
        graph.arrows.len() <= 3 * states && sheet::crossings(graph) <= states
    };
    let graphs = Thinning::ALL.iter().map(|&thinning| source.whole(thinning));
    let mut graphs = graphs.skip_while(|graph| !readable(graph));
    graphs.next().unwrap_or_else(|| source.whole(Thinning::Earliest))
}
