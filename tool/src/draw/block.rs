//! Rows and headings set in type: where each line of text and each tag stands in a
//! rectangle that holds them all.

use super::graph::Node;
use super::legend::Entry;
use super::rows::{Kind, Row};
use super::text_width::{bold_width, width, wrap, BOLD};

/// The size of letters.
pub const LETTERS: f64 = 13.0;
/// The size of letters in headings, and in the title.
const HEADING: f64 = 17.0;
const TITLE: f64 = 19.0;
/// From one line to the next.
const LINE: f64 = 18.0;
/// The words of a row are broken into lines of at most this width.
const MOST_WORDS: f64 = 210.0;
/// Between the words of a row and its tag.
const COLUMN_GAP: f64 = 8.0;
/// Within a tag, before and after its text.
const TAG_INSIDE: f64 = 5.0;
/// The height of a tag.
const TAG_HEIGHT: f64 = 16.0;
/// Around what a box holds.
const BOX_INSIDE: f64 = 10.0;
/// The least width of a box.
const LEAST_BOX: f64 = 46.0;
/// Around what a label holds.
const LABEL_INSIDE: f64 = 4.0;
/// Between two rows.
const ROW_GAP: f64 = 2.0;
/// Lines of a row after its first are set in by this, and the tags of its parts.
const INDENT: f64 = 10.0;
/// Between the heading and the table, and on each side of a rule.
const PART_GAP: f64 = 6.0;

/// A line of text; `y` is its base line.
#[derive(Clone, Debug, PartialEq)]
pub struct Line {
    pub x: f64,
    pub y: f64,
    pub text: String,
    pub bold: bool,
    pub size: f64,
}

/// A text on a coloured ground; `x` and `y` are its upper left corner.
#[derive(Clone, Debug, PartialEq)]
pub struct Tag {
    pub x: f64,
    pub y: f64,
    pub width: f64,
    pub height: f64,
    pub text: String,
    pub kind: Kind,
}

/// Text and tags in a rectangle, from its upper left corner.
#[derive(Clone, Debug, Default, PartialEq)]
pub struct Block {
    pub width: f64,
    pub height: f64,
    pub lines: Vec<Line>,
    pub tags: Vec<Tag>,
    /// A line across, at this height.
    pub rule: Option<f64>,
}

impl Block {
    /// A tag at a place, with its text.
    fn tag(&mut self, x: f64, y: f64, text: &str, kind: Kind) -> f64 {
        let width = width(text, LETTERS) + 2.0 * TAG_INSIDE;
        let y = y + (LINE - TAG_HEIGHT) / 2.0;
        let text = text.to_string();
        self.tags.push(Tag { x, y, width, height: TAG_HEIGHT, text, kind });
        width
    }

    /// A line of text whose upper left corner is at a place.
    fn line(&mut self, x: f64, y: f64, text: &str) {
        if text.is_empty() {
            return;
        }
        let y = y + LINE / 2.0 + LETTERS * 0.36;
        self.lines.push(Line { x, y, text: text.to_string(), bold: false, size: LETTERS });
    }

    /// Rows below each other, tags in a column, as wide as all of them need.
    fn rows(&mut self, rows: &[Row], x: f64, y: f64, words: f64) -> f64 {
        let mut down = 0.0;
        for row in rows {
            for (number, line) in broken(row).iter().enumerate() {
                let indent = if number == 0 { 0.0 } else { INDENT };
                self.line(x + indent, y + down + number as f64 * LINE, line);
            }
            let indent = if row.part { INDENT } else { 0.0 };
            let left = x + words + COLUMN_GAP + indent;
            let tag = self.tag(left, y + down, &row.tag, row.kind);
            self.width = self.width.max(left + tag);
            down += broken(row).len() as f64 * LINE + ROW_GAP;
        }
        (down - ROW_GAP).max(0.0)
    }
}

/// The words of a row in lines.
fn broken(row: &Row) -> Vec<String> {
    wrap(&row.words, LETTERS, MOST_WORDS)
}

/// How wide the column of words is in a table of rows.
fn words_width<'a>(rows: impl Iterator<Item = &'a Row>) -> f64 {
    let lines = rows.flat_map(|row| {
        let indents = std::iter::once(0.0).chain(std::iter::repeat(INDENT));
        broken(row).into_iter().zip(indents).collect::<Vec<(String, f64)>>()
    });
    lines.map(|(line, indent)| indent + width(&line, LETTERS)).fold(0.0, f64::max)
}

/// The label of an arrow.
pub fn label(rows: &[Row]) -> Block {
    let mut block = Block::default();
    let height = block.rows(rows, LABEL_INSIDE, LABEL_INSIDE, words_width(rows.iter()));
    block.width += LABEL_INSIDE;
    block.height = height + 2.0 * LABEL_INSIDE;
    block
}

/// The word `start`, where the first arrow begins.
pub fn start() -> Block {
    let mut block = Block::default();
    block.line(0.0, 0.0, "start");
    block.width = width("start", LETTERS);
    block.height = LINE;
    block
}

/// What a node's box holds: its heading with marks, then its rows, then its steps.
pub fn node(node: &Node) -> Block {
    let mut block = Block::default();
    let heading = bold_width(&node.heading, HEADING);
    block.width = BOX_INSIDE + heading;
    for mark in &node.marks {
        let x = block.width + COLUMN_GAP;
        block.width = x + block.tag(x, BOX_INSIDE, mark, Kind::Plain);
    }
    let words = words_width(node.rows.iter().chain(&node.steps));
    let mut y = BOX_INSIDE + LINE;
    if !node.rows.is_empty() {
        y += PART_GAP;
        y += block.rows(&node.rows, BOX_INSIDE, y, words);
    }
    if !node.steps.is_empty() {
        block.rule = Some(y + PART_GAP);
        y += 2.0 * PART_GAP;
        y += block.rows(&node.steps, BOX_INSIDE, y, words);
    }
    block.height = y + BOX_INSIDE;
    block.width = (block.width + BOX_INSIDE).max(LEAST_BOX);
    let alone = node.is_bare();
    let x = if alone { (block.width - heading) / 2.0 } else { BOX_INSIDE };
    let y = BOX_INSIDE + LINE / 2.0 + HEADING * 0.36;
    let text = node.heading.clone();
    block.lines.push(Line { x, y, text, bold: true, size: HEADING });
    block
}

/// The title in lines of a width.
pub fn title(title: &str, width: f64) -> Block {
    let mut block = Block { width, ..Block::default() };
    for text in wrap(title, TITLE * BOLD, width) {
        let y = block.height + TITLE;
        block.lines.push(Line { x: 0.0, y, text, bold: true, size: TITLE });
        block.height += TITLE * 1.4;
    }
    block
}

/// The entries of a legend in lines of a width: a tag, and what it means.
pub fn legend(entries: &[Entry], most: f64) -> Block {
    let mut block = Block { width: most, ..Block::default() };
    for entry in entries {
        let indent = match &entry.tag {
            Some((tag, kind)) => block.tag(0.0, block.height, tag, *kind) + COLUMN_GAP,
            None => 0.0,
        };
        for text in wrap(entry.text, LETTERS, most - indent) {
            block.line(indent, block.height, &text);
            block.height += LINE;
        }
        block.height += ROW_GAP;
    }
    block
}
