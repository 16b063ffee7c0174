//! Books that pass the checks, also such as build never gives: with states no
//! history leads to, with doubled states and with any numbering.

use super::policies::draw;
use super::random::Random;
use super::variation::policy_pair;
use crate::book::{build, Book, MOST_STATES};
use crate::frame::Frame;
use crate::policy::write;

/// A book that passes numbers 12 to 14.
pub fn book(seed: u64) -> Vec<u8> {
    draw_book(&mut Random::new(seed, "book")).to_bytes()
}

/// Two books of one frame that pass numbers 12 to 14: equal ones, ones with the
/// same histories, slightly different ones and unrelated ones.
pub fn book_pair(seed: u64) -> (Vec<u8>, Vec<u8>) {
    let mut random = Random::new(seed, "book pair");
    let first = draw_book(&mut random);
    match random.below(8) {
        0 => (first.to_bytes(), first.to_bytes()),
        1 | 2 => (first.to_bytes(), disguise(&first, &mut random).to_bytes()),
        3 | 4 => {
            let second = disguise(&alter(&first, &mut random), &mut random);
            (first.to_bytes(), second.to_bytes())
        }
        5 => (first.to_bytes(), alter(&first, &mut random).to_bytes()),
        6 => {
            let states = random.between(1, MOST_STATES);
            let second = random_rows(first.frame.clone(), states, &mut random);
            (first.to_bytes(), second.to_bytes())
        }
        _ => built_pair(&mut random),
    }
}

/// The built books of two policies of one frame.
fn built_pair(random: &mut Random) -> (Vec<u8>, Vec<u8>) {
    loop {
        let (first, second) = policy_pair(random.number());
        if let (Ok(first), Ok(second)) = (build(&first), build(&second)) {
            return (first.to_bytes(), second.to_bytes());
        }
    }
}

/// Draws one book that passes the checks.
pub(super) fn draw_book(random: &mut Random) -> Book {
    match random.below(10) {
        0..=2 => small_book(random),
        3 => {
            let (frame, states) = (draw_frame(random), random.between(1, MOST_STATES));
            random_rows(frame, states, random)
        }
        4 => fullest_book(random),
        5 => built_book(random),
        _ => {
            let built = built_book(random);
            disguise(&built, random)
        }
    }
}

/// 127 states and 136 codes: 17,284 bytes.
pub(super) fn fullest_book(random: &mut Random) -> Book {
    let frame = Frame {
        events: 8,
        counts: vec![4, 16],
    };
    random_rows(frame, MOST_STATES, random)
}

/// Few states and few codes.
fn small_book(random: &mut Random) -> Book {
    let frame = Frame {
        events: random.below(3),
        counts: random
            .pick(&[vec![1], vec![2], vec![1, 2], vec![1, 1, 1, 1]])
            .clone(),
    };
    let states = random.between(1, 6);
    random_rows(frame, states, random)
}

fn built_book(random: &mut Random) -> Book {
    loop {
        if let Ok(book) = build(&write(&draw(random))) {
            return book;
        }
    }
}

fn draw_frame(random: &mut Random) -> Frame {
    draw(random).frame
}

/// Rows of any entries. In half of the books a state leads at most to the next
/// one, so that late states are reached only by long histories.
fn random_rows(frame: Frame, states: usize, random: &mut Random) -> Book {
    let possible = random.between(1, 16);
    let near = random.chance(1, 2);
    let mut rows = Vec::new();
    for state in 1..=states {
        let most = if near {
            (state + 1).min(states)
        } else {
            states
        };
        let row = (0..frame.width())
            .map(|code| {
                if code < frame.events || random.chance(possible, 16) {
                    random.between(1, most) as u8
                } else {
                    0
                }
            })
            .collect();
        rows.push(row);
    }
    Book { frame, rows }
}

/// A book with the same histories: states doubled, states added that no history
/// leads to, and another numbering.
pub(super) fn disguise(book: &Book, random: &mut Random) -> Book {
    let mut disguised = book.clone();
    let most = random.between(book.states(), MOST_STATES);
    while disguised.states() < most && random.chance(7, 8) {
        if random.chance(2, 3) {
            double_state(&mut disguised, random);
        } else {
            add_unreached_state(&mut disguised, random);
        }
    }
    renumber(&disguised, random)
}

/// Adds a copy of a state and lets some entries lead to the copy.
fn double_state(book: &mut Book, random: &mut Random) {
    let state = random.between(1, book.states());
    let copy = book.states() as u8 + 1;
    book.rows.push(book.rows[state - 1].clone());
    for entry in book.rows.iter_mut().flatten() {
        if *entry == state as u8 && random.chance(1, 2) {
            *entry = copy;
        }
    }
}

fn add_unreached_state(book: &mut Book, random: &mut Random) {
    let states = book.states() + 1;
    let row = (0..book.frame.width())
        .map(|code| {
            if code < book.frame.events {
                random.between(1, states) as u8
            } else {
                random.below(states + 1) as u8
            }
        })
        .collect();
    book.rows.push(row);
}

/// The same book with other numbers for all states but the first.
pub(super) fn renumber(book: &Book, random: &mut Random) -> Book {
    let mut order: Vec<usize> = (2..=book.states()).collect();
    random.shuffle(&mut order);
    order.insert(0, 1);
    let mut new_number = vec![0; book.states() + 1];
    for (index, &state) in order.iter().enumerate() {
        new_number[state] = index as u8 + 1;
    }
    let row_of = |&state: &usize| {
        book.rows[state - 1]
            .iter()
            .map(|&entry| new_number[entry as usize])
            .collect()
    };
    Book {
        frame: book.frame.clone(),
        rows: order.iter().map(row_of).collect(),
    }
}

/// The book with one entry changed; it still passes the checks.
fn alter(book: &Book, random: &mut Random) -> Book {
    let mut altered = book.clone();
    let state = random.below(book.states());
    let code = random.below(book.frame.width());
    let entry = &mut altered.rows[state][code];
    *entry = if code < book.frame.events || (*entry == 0 && random.chance(3, 4)) {
        random.between(1, book.states()) as u8
    } else if random.chance(1, 2) {
        0
    } else {
        random.below(book.states() + 1) as u8
    };
    altered
}
