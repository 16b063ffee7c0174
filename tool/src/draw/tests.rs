//! The layouts of all samples and of some hundred pseudo-random books: nothing overlaps,
//! no arrow runs through a box or a label, and everything lies within the picture.

mod books;
mod paths;
mod steps;

use super::graph::{Graph, Source};
use super::layers::Direction;
use super::route::Point;
use super::sheet::{sheet, Arranged, Placed, Sheet};
use super::{graph_of, legend, picture, Options};
use crate::book::Book;
use crate::names::Names;
use books::{sample_books, Random};

/// Less than this is taken for touching.
const TOUCH: f64 = 0.5;

fn overlap(one: &Placed, other: &Placed) -> bool {
    let apart = |low: f64, length: f64, other_low: f64, other_length: f64| {
        low + length <= other_low + TOUCH || other_low + other_length <= low + TOUCH
    };
    !apart(one.x, one.block.width, other.x, other.block.width)
        && !apart(one.y, one.block.height, other.y, other.block.height)
}

fn holds(placed: &Placed, point: Point) -> bool {
    let within = |low: f64, length: f64, at: f64| low + TOUCH < at && at < low + length - TOUCH;
    within(placed.x, placed.block.width, point.x) && within(placed.y, placed.block.height, point.y)
}

fn inside(sheet: &Sheet, point: Point) -> bool {
    let within = |length: f64, at: f64| -TOUCH < at && at < length + TOUCH;
    within(sheet.width, point.x) && within(sheet.height, point.y)
}

/// Points on all lines of arrows, and the tips of their heads.
fn line_points(sheet: &Sheet) -> Vec<Point> {
    let mut points: Vec<Point> = sheet.routes.iter().map(|route| route.tip).collect();
    for stroke in sheet.routes.iter().flat_map(|route| &route.strokes) {
        let mut from = stroke.begin;
        for &[first, second, to] in &stroke.curves {
            points.extend((0..=12).map(|part| {
                let t = f64::from(part) / 12.0;
                let mix = |a: f64, b: f64, c: f64, d: f64| {
                    let s = 1.0 - t;
                    s * s * s * a + 3.0 * s * s * t * b + 3.0 * s * t * t * c + t * t * t * d
                };
                Point { x: mix(from.x, first.x, second.x, to.x), y: mix(from.y, first.y, second.y, to.y) }
            }));
            from = to;
        }
    }
    points
}

/// What is wrong with a layout, if anything.
fn faults(sheet: &Sheet) -> Option<String> {
    let placed: Vec<&Placed> = sheet.boxes.iter().chain(&sheet.labels).chain(&sheet.texts).collect();
    for (number, one) in placed.iter().enumerate() {
        if let Some(other) = placed[..number].iter().find(|other| overlap(one, other)) {
            return Some(format!("{one:?} overlaps {other:?}"));
        }
        let end = Point { x: one.x + one.block.width, y: one.y + one.block.height };
        if !inside(sheet, Point { x: one.x, y: one.y }) || !inside(sheet, end) {
            return Some(format!("{one:?} is not within the picture"));
        }
    }
    for point in line_points(sheet) {
        if !inside(sheet, point) || placed.iter().any(|placed| holds(placed, point)) {
            return Some(format!("a line at {point:?} runs through something or outside"));
        }
    }
    None
}

/// Checks the layout that is taken, and those in other directions.
fn check(graph: &Graph) {
    let sheet = sheet(graph, "A title that is not short at all", &legend::legend(graph, false));
    assert_eq!(faults(&sheet), None);
    let down = Arranged::new(graph, Direction::Down);
    let right = Arranged::new(graph, Direction::Right);
    for sheet in [right.sheet(1), down.sheet(1), down.sheet(4)] {
        assert_eq!(faults(&sheet), None);
    }
}

fn check_book(book: &Book, path: Option<&[u8]>) {
    let names = Names::made_up(book.frame(), 0);
    for events in [true, false] {
        check(&graph_of(book, &names, &Options { title: "", events, path }));
    }
}

#[test]
fn samples() {
    let books = sample_books();
    assert!(books.len() > 10);
    let mut random = Random(1);
    for book in books {
        check_book(&book, None);
        check_book(&book, Some(&random.history(&book, 20)));
    }
}

#[test]
fn whole_books() {
    let mut random = Random(2);
    for number in 0..150 {
        let (states, leaving) = ([4, 10, 30][number % 3], [3, 12, 50][number / 3 % 3]);
        check_book(&random.book(states, leaving), None);
    }
}

#[test]
fn every_arrow_is_kept_without_thinning() {
    let mut random = Random(3);
    for _ in 0..60 {
        let book = random.book(12, 30);
        let names = Names::made_up(book.frame(), 0);
        check(&Source::new(&book, &names, true).whole(super::Thinning::None));
    }
}

#[test]
fn histories() {
    let mut random = Random(4);
    for number in 0..100 {
        let book = random.book([10, 127][number % 2], [1, 10, 40][number % 3]);
        check_book(&book, Some(&random.history(&book, [12, 253][number / 2 % 2])));
    }
}

#[test]
fn folded_histories() {
    let mut random = Random(8);
    for _ in 0..60 {
        let book = random.counting();
        check_book(&book, Some(&random.runs(&book, 60)));
    }
}

#[test]
fn impossible_steps_end_a_history() {
    let book = &sample_books()[0];
    let names = Names::made_up(book.frame(), 0);
    let picture_of = |path: &[u8]| picture(book, &names, &Options { title: "t", events: true, path: Some(path) });
    assert_eq!(picture_of(&[]), picture_of(&[255, 0]));
}

#[test]
fn names_are_escaped() {
    let book = &sample_books()[0];
    let mut names = Names::made_up(book.frame(), 0);
    names.events[0] = "<a & 'b' \"c\" \u{1}\u{202e}>".to_string();
    let out = picture(book, &names, &Options { title: "<&>", events: true, path: None });
    assert!(out.contains("&lt;a &amp; &#39;b&#39; &quot;c&quot; \u{fffd}\u{fffd}&gt;"));
    assert!(out.contains("<title id=\"title\">&lt;&amp;&gt;</title>"));
}
