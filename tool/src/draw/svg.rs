//! A sheet written as SVG.

use super::block::{Line, Tag, LETTERS};
use super::graph::{Graph, Node};
use super::route::{Point, Route, HEAD};
use super::rows::Kind;
use super::sheet::{Placed, Sheet};

const FONT: &str = "DejaVu Sans, Verdana, sans-serif";

/// The colour of an arrow, and of the ground of a tag.
fn colours(kind: Kind) -> (&'static str, &'static str) {
    match kind {
        Kind::Accepted => ("#1b7837", "#cdebd0"),
        Kind::Rejected => ("#b2182b", "#f8d0d0"),
        Kind::Both => ("#b36b00", "#ffdf9e"),
        Kind::Unanswered => ("#000000", "#ffffff"),
        Kind::Event => ("#666666", "#e3e3e3"),
        Kind::Plain => ("#222222", "#d5dcf0"),
    }
}

/// The whole file.
pub fn svg(graph: &Graph, sheet: &Sheet, title: &str, description: &str) -> String {
    let (width, height) = (number(sheet.width.ceil()), number(sheet.height.ceil()));
    let mut out = format!(
        "<svg xmlns=\"http://www.w3.org/2000/svg\" width=\"{width}\" height=\"{height}\" \
         viewBox=\"0 0 {width} {height}\" role=\"img\" aria-labelledby=\"title desc\" \
         font-family=\"{FONT}\" font-size=\"{}\">\n",
        number(LETTERS)
    );
    out += &format!("<title id=\"title\">{}</title>\n", escape(title));
    out += &format!("<desc id=\"desc\">{}</desc>\n", escape(description));
    out += &format!("<rect width=\"{width}\" height=\"{height}\" fill=\"white\"/>\n");
    let kinds = graph.arrows.iter().map(|arrow| arrow.kind).chain([Kind::Plain]);
    for (route, kind) in sheet.routes.iter().zip(kinds) {
        arrow(&mut out, route, kind, if graph.is_path { 2.4 } else { 1.5 });
    }
    let nodes = graph.nodes.iter().chain(&graph.apart);
    for (placed, node) in sheet.boxes.iter().zip(nodes) {
        frame(&mut out, placed, node);
    }
    for placed in sheet.boxes.iter().chain(&sheet.labels).chain(&sheet.texts) {
        content(&mut out, placed);
    }
    out + "</svg>\n"
}

/// The lines and the head of an arrow.
fn arrow(out: &mut String, route: &Route, kind: Kind, line: f64) {
    let colour = colours(kind).0;
    for stroke in &route.strokes {
        let mut path = format!("M{}", point(stroke.begin));
        for curve in &stroke.curves {
            let [first, second, end] = curve.map(point);
            path += &format!("C{first} {second} {end}");
        }
        *out += &format!("<path d=\"{path}\" fill=\"none\" stroke=\"{colour}\" stroke-width=\"{line}\"/>\n");
    }
    let (tip, tail) = (route.tip, route.tail);
    let (dx, dy) = ((tip.x - tail.x) / HEAD * 4.0, (tip.y - tail.y) / HEAD * 4.0);
    let corners = [tip, Point { x: tail.x - dy, y: tail.y + dx }, Point { x: tail.x + dy, y: tail.y - dx }];
    *out += &format!("<polygon points=\"{}\" fill=\"{colour}\"/>\n", corners.map(point).join(" "));
}

/// The line around a node: round ends if there is only its number in it.
fn frame(out: &mut String, placed: &Placed, node: &Node) {
    let block = &placed.block;
    let round = if node.is_bare() { block.height / 2.0 } else { 10.0 };
    let line = if node.emphasised { 3.0 } else { 1.3 };
    let dots = if node.ellipsis { " stroke-dasharray=\"2 4\"" } else { "" };
    *out += &format!(
        "<rect x=\"{}\" y=\"{}\" width=\"{}\" height=\"{}\" rx=\"{}\" fill=\"white\" \
         stroke=\"black\" stroke-width=\"{line}\"{dots}/>\n",
        number(placed.x),
        number(placed.y),
        number(block.width),
        number(block.height),
        number(round)
    );
    if let Some(rule) = block.rule {
        let (x, y) = (number(placed.x), number(placed.y + rule));
        let end = number(placed.x + block.width);
        *out += &format!("<path d=\"M{x},{y}H{end}\" stroke=\"black\" stroke-width=\"0.8\"/>\n");
    }
}

fn content(out: &mut String, placed: &Placed) {
    for tag_of in &placed.block.tags {
        tag(out, placed, tag_of);
    }
    for Line { x, y, text, bold, size } in &placed.block.lines {
        let weight = if *bold { " font-weight=\"bold\"" } else { "" };
        let size = if *size == LETTERS { String::new() } else { format!(" font-size=\"{}\"", number(*size)) };
        *out += &format!(
            "<text x=\"{}\" y=\"{}\"{weight}{size}>{}</text>\n",
            number(placed.x + x),
            number(placed.y + y),
            escape(text)
        );
    }
}

/// A tag: its ground, with a line around if it marks a state, a dashed one if it says that
/// there is no answer, and its text.
fn tag(out: &mut String, placed: &Placed, tag: &Tag) {
    let (colour, ground) = colours(tag.kind);
    let line = match tag.kind {
        Kind::Unanswered => format!(" stroke=\"{colour}\" stroke-dasharray=\"3 2\""),
        Kind::Plain => format!(" stroke=\"{colour}\""),
        _ => String::new(),
    };
    let (x, y) = (placed.x + tag.x, placed.y + tag.y);
    *out += &format!(
        "<rect x=\"{}\" y=\"{}\" width=\"{}\" height=\"{}\" rx=\"4\" fill=\"{ground}\"{line}/>\n",
        number(x),
        number(y),
        number(tag.width),
        number(tag.height)
    );
    *out += &format!(
        "<text x=\"{}\" y=\"{}\" text-anchor=\"middle\">{}</text>\n",
        number(x + tag.width / 2.0),
        number(y + tag.height / 2.0 + LETTERS * 0.36),
        escape(&tag.text)
    );
}

fn point(point: Point) -> String {
    format!("{},{}", number(point.x), number(point.y))
}

/// A number with at most one digit after the point.
fn number(value: f64) -> String {
    let text = format!("{value:.1}");
    let text = text.strip_suffix(".0").unwrap_or(&text);
    if text == "-0" { "0" } else { text }.to_string()
}

/// Text for XML: what has a meaning there is escaped, and what must not stand there, or
/// would turn the direction of writing, is replaced.
pub fn escape(text: &str) -> String {
    let mut out = String::new();
    for letter in text.chars() {
        match letter {
            '&' => out += "&amp;",
            '<' => out += "&lt;",
            '>' => out += "&gt;",
            '"' => out += "&quot;",
            '\'' => out += "&#39;",
            '\n' => out.push('\n'),
            '\u{fffe}' | '\u{ffff}' | '\u{202a}'..='\u{202e}' | '\u{2066}'..='\u{2069}' => {
                out.push('\u{fffd}');
            }
            _ if letter.is_control() => out.push('\u{fffd}'),
            _ => out.push(letter),
        }
    }
    out
}
