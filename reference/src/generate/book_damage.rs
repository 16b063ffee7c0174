//! Books with something wrong in them, so that numbers 12 to 14 occur, and
//! pairs of books so that the order of judging and number 15 are met.

use super::books::{book_pair, draw_book};
use super::random::Random;
use crate::book::Book;
use crate::frame::Frame;

/// A book with one or two faults, usually turned down.
pub fn damaged_book(seed: u64) -> Vec<u8> {
    let mut random = Random::new(seed, "damaged book");
    if random.chance(1, 6) {
        return with_size_outside(&mut random).to_bytes();
    }
    let book = draw_book(&mut random);
    let (events, width) = (book.frame.events, book.frame.width());
    let mut bytes = book.to_bytes();
    for _ in 0..*random.pick(&[1, 1, 2]) {
        // A fault of the length may have taken away what the others change.
        if bytes.len() < 12 {
            break;
        }
        match random.below(5) {
            0 => damage_head(&mut bytes, &mut random),
            1 | 2 => damage_sizes(&mut bytes, &mut random),
            _ => damage_entry(&mut bytes, events, width, &mut random),
        }
    }
    bytes
}

/// A book with a size just outside its range, while its length fits it.
fn with_size_outside(random: &mut Random) -> Book {
    let frame = |events, counts: &[usize]| Frame {
        events,
        counts: counts.to_vec(),
    };
    let (frame, states) = match random.below(8) {
        0 => (frame(9, &[2]), random.between(1, 5)),
        1 => (frame(0, &[17]), random.between(1, 5)),
        2 => (frame(1, &[1, 2, 0, 3]), random.between(1, 5)),
        3 => (frame(0, &[5, 13]), random.between(1, 5)),
        4 => (frame(8, &[9, 8]), 127),
        5 => (frame(0, &[16, 16, 16, 16]), 1),
        6 => (frame(2, &[2]), 128),
        _ => (frame(random.below(3), &[2]), 0),
    };
    let row = vec![1; frame.width()];
    Book {
        frame,
        rows: vec![row; states],
    }
}

/// Two books of which one or both may be turned down, or whose frames may
/// differ.
pub fn faulty_pair(seed: u64) -> (Vec<u8>, Vec<u8>) {
    let mut random = Random::new(seed, "faulty pair");
    let (first, second) = book_pair(random.number());
    match random.below(5) {
        0 => (damaged_book(random.number()), second),
        1 => (first, damaged_book(random.number())),
        2 => (damaged_book(random.number()), damaged_book(random.number())),
        3 => (first, draw_book(&mut random).to_bytes()),
        _ => (first.clone(), change_counts(first)),
    }
}

/// Exchanges the first two value counts, so that only the frame differs.
fn change_counts(mut bytes: Vec<u8>) -> Vec<u8> {
    if bytes[6] > 1 {
        bytes.swap(7, 8);
    } else {
        bytes[6] = 2;
        bytes[8] = 1;
    }
    bytes
}

fn damage_head(bytes: &mut Vec<u8>, random: &mut Random) {
    match random.below(4) {
        0 => bytes.truncate(random.below(12)),
        1 => bytes[random.below(5)] ^= 1 << random.below(8),
        2 => bytes[random.below(3)] = random.byte(),
        _ => bytes[random.between(3, 4)] = random.byte(),
    }
}

fn damage_sizes(bytes: &mut Vec<u8>, random: &mut Random) {
    match random.below(8) {
        0 => bytes[5] = *random.pick(&[9, 255]),
        1 => bytes[6] = *random.pick(&[0, 5]),
        2 => bytes[random.between(7, 10)] = *random.pick(&[0, 17]),
        3 => bytes[7..11].fill(*random.pick(&[1, 4, 16])),
        4 => bytes[11] = *random.pick(&[0, 128, 255]),
        5 => bytes[random.between(5, 11)] = random.byte(),
        6 => bytes.truncate(random.between(12, bytes.len())),
        _ => bytes.push(random.byte()),
    }
}

/// An entry just above n, far above n, or 0 for an event.
fn damage_entry(bytes: &mut [u8], events: usize, width: usize, random: &mut Random) {
    if bytes.len() == 12 {
        return;
    }
    let states = bytes[11];
    if events > 0 && random.chance(1, 2) {
        let row = random.below((bytes.len() - 12).div_ceil(width));
        let place = 12 + row * width + random.below(events);
        let last = bytes.len() - 1;
        bytes[place.min(last)] = 0;
    } else {
        let place = random.between(12, bytes.len() - 1);
        bytes[place] = if random.chance(2, 3) {
            states.saturating_add(1)
        } else {
            random.byte()
        };
    }
}
