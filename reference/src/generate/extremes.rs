//! Books at the far ends of what is possible: a pair whose earliest difference
//! is as long as it can be, and books with a finding, or an outcome of a
//! request, only in their last state.

use super::books::renumber;
use super::random::Random;
use crate::book::{Book, MOST_STATES};
use crate::frame::Frame;
use crate::way::MOST_OUTCOME;

/// Two books of one frame with these numbers of states (1 to 127 each) whose
/// earliest difference has `first_states + second_states - 1` codes.
///
/// One code, the mover, is possible in every state; another, the teller, only
/// in some, and leads back to state 1. In the first book the mover goes round
/// a cycle of all n states. In the second it goes along a chain of n' states
/// and stays in the last one. After i movers the teller is possible in the
/// first book if i and n' - 2 leave the same rest modulo n. In the second it is
/// possible under the same condition for i below n' - 1, and never afterwards.
/// So the books agree up to i = n' - 2, and for the n - 1 following i neither
/// has the teller; at i = n + n' - 2 only the first book has it.
pub fn far_pair(first_states: usize, second_states: usize, seed: u64) -> (Vec<u8>, Vec<u8>) {
    let mut random = Random::new(seed, "far pair");
    let frame = far_frame(&mut random);
    let row_maker = RowMaker::draw(&frame, &mut random);
    // i movers and n' - 2 leave the same rest modulo n.
    let tells = |moves: usize| (moves + 2) % first_states == second_states % first_states;
    let cycle = (0..first_states)
        .map(|moves| row_maker.row(moves + 1, (moves + 1) % first_states + 1, tells(moves)))
        .collect();
    let chain = (0..second_states)
        .map(|moves| {
            let last = moves + 1 == second_states;
            row_maker.row(
                moves + 1,
                (moves + 2).min(second_states),
                !last && tells(moves),
            )
        })
        .collect();
    let [first, second] = [cycle, chain].map(|rows| Book {
        frame: frame.clone(),
        rows,
    });
    finish_pair(first, second, &mut random)
}

/// What the rows of both books of a far pair have in common.
struct RowMaker {
    width: usize,
    events: usize,
    mover: usize,
    teller: usize,
    /// Whether the events besides the mover stay; otherwise they lead to state 1.
    other_events_stay: bool,
}

impl RowMaker {
    /// Any two codes; the teller is no event, since events are always possible.
    fn draw(frame: &Frame, random: &mut Random) -> RowMaker {
        let (width, events) = (frame.width(), frame.events);
        let mut teller = random.between(events, width - 1);
        let mut mover = random.below(width);
        if mover == teller {
            (mover, teller) = (events, events + 1);
        }
        RowMaker {
            width,
            events,
            mover,
            teller,
            other_events_stay: random.chance(1, 2),
        }
    }

    /// The row of a state that the mover leads to `moved` from.
    fn row(&self, state: usize, moved: usize, tells: bool) -> Vec<u8> {
        let mut row = vec![0; self.width];
        row[..self.events].fill(if self.other_events_stay {
            state as u8
        } else {
            1
        });
        row[self.mover] = moved as u8;
        row[self.teller] = u8::from(tells);
        row
    }
}

/// Two books of 127 states whose earliest difference has 253 codes.
pub fn longest_pair(seed: u64) -> (Vec<u8>, Vec<u8>) {
    far_pair(MOST_STATES, MOST_STATES, seed)
}

/// Now and then other numbers for the states, or the books exchanged.
fn finish_pair(first: Book, second: Book, random: &mut Random) -> (Vec<u8>, Vec<u8>) {
    let mut pair = (first, second);
    if random.chance(1, 2) {
        pair = (renumber(&pair.0, random), renumber(&pair.1, random));
    }
    if random.chance(1, 2) {
        pair = (pair.1, pair.0);
    }
    (pair.0.to_bytes(), pair.1.to_bytes())
}

fn far_frame(random: &mut Random) -> Frame {
    let choices = [vec![1], vec![2], vec![3, 2], vec![1, 1], vec![4, 4, 4]];
    Frame {
        events: random.below(3),
        counts: random.pick(&choices).clone(),
    }
}

/// A book of 127 states in which each finding that it has comes only after 126
/// codes: a conflict, an unanswered request, or nothing answered any more.
pub fn late_finding_book(seed: u64) -> Vec<u8> {
    let mut random = Random::new(seed, "late finding");
    let frame = far_frame(&mut random);
    let mut rows = Vec::new();
    for state in 1..MOST_STATES {
        let mut row = vec![0; frame.width()];
        let used = one_answer_each(&frame, &mut random);
        for &code in &used {
            row[code] = random.between(1, state) as u8;
        }
        row[*random.pick(&used)] = state as u8 + 1;
        rows.push(row);
    }
    rows.push(last_row(&frame, &mut random));
    let book = Book { frame, rows };
    if random.chance(1, 2) {
        return renumber(&book, &mut random).to_bytes();
    }
    book.to_bytes()
}

/// The codes of all events and, for each request, of one answer to it.
fn one_answer_each(frame: &Frame, random: &mut Random) -> Vec<usize> {
    let mut codes: Vec<usize> = (0..frame.events).collect();
    for request in 0..frame.requests() {
        codes.push(frame.accept_code(request) + random.below(2));
    }
    codes
}

/// A row with a conflict, with an unanswered request, with both, or with
/// nothing answered. Every step that is possible stays in the last state.
fn last_row(frame: &Frame, random: &mut Random) -> Vec<u8> {
    let last = MOST_STATES as u8;
    let mut row = vec![0; frame.width()];
    row[..frame.events].fill(last);
    let sort = random.below(4);
    if sort == 3 {
        return row;
    }
    for code in one_answer_each(frame, random) {
        row[code] = last;
    }
    if sort != 1 {
        let request = random.below(frame.requests());
        row[frame.accept_code(request)] = last;
        row[frame.reject_code(request)] = last;
    }
    if sort != 0 {
        let request = random.below(frame.requests());
        row[frame.accept_code(request)] = 0;
        row[frame.reject_code(request)] = 0;
    }
    row
}

/// A book of 127 states in which some request has some outcome only after 126
/// codes. Often more than one code leads on from a state.
pub fn late_outcome_book(seed: u64) -> Vec<u8> {
    let mut random = Random::new(seed, "late outcome");
    let frame = far_frame(&mut random);
    let request = random.below(frame.requests());
    let outcome = random.below(MOST_OUTCOME + 1);
    let mut rows = Vec::new();
    for state in 1..MOST_STATES {
        let mut row = vec![0; frame.width()];
        let used = answers_but(&frame, request, outcome, &mut random);
        for &code in &used {
            row[code] = random.between(1, state) as u8;
        }
        for _ in 0..random.between(1, 3) {
            row[*random.pick(&used)] = state as u8 + 1;
        }
        rows.push(row);
    }
    let mut last = vec![0; frame.width()];
    for code in any_answers(&frame, request, outcome, &mut random) {
        last[code] = random.between(1, MOST_STATES) as u8;
    }
    rows.push(last);
    let book = Book { frame, rows };
    if random.chance(1, 2) {
        return renumber(&book, &mut random).to_bytes();
    }
    book.to_bytes()
}

/// Some codes, at least one, that give the request another outcome than this.
fn answers_but(frame: &Frame, request: usize, outcome: usize, random: &mut Random) -> Vec<usize> {
    loop {
        let other = (outcome + random.between(1, MOST_OUTCOME)) % (MOST_OUTCOME + 1);
        let codes = any_answers(frame, request, other, random);
        if !codes.is_empty() {
            return codes;
        }
    }
}

/// The codes of all events, those that give the request this outcome, and half
/// of the others.
fn any_answers(frame: &Frame, request: usize, outcome: usize, random: &mut Random) -> Vec<usize> {
    let (accept, reject) = (frame.accept_code(request), frame.reject_code(request));
    (0..frame.width())
        .filter(|&code| match code {
            _ if code < frame.events => true,
            _ if code == accept => outcome % 2 == 1,
            _ if code == reject => outcome >= 2,
            _ => random.chance(1, 2),
        })
        .collect()
}
