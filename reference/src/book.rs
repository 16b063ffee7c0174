//! Books: building one from a policy, its bytes, and reading a foreign book
//! with refusals 12, 13 and 14.

use crate::explore::explore;
use crate::frame::{counts_are_legal, Frame, MOST_EVENTS, MOST_FIELDS};
use crate::join::join;
use crate::policy;
use crate::refusal::Refusal;

/// The number of bytes before the rows.
pub const HEADER_LENGTH: usize = 12;
/// The greatest number of states.
pub const MOST_STATES: usize = 127;
/// The length of the longest book.
pub const MOST_LENGTH: usize = 17_284;

const MARK: &[u8] = b"BOK";
const VERSION: [u8; 2] = [0, 1];

/// A book taken apart.
#[derive(Clone, Debug, PartialEq, Eq)]
pub struct Book {
    /// The frame.
    pub frame: Frame,
    /// The row of state s is at index s - 1. Entry c is the state after code c,
    /// or 0 if that step is not possible.
    pub rows: Vec<Vec<u8>>,
}

/// Builds the book of a policy file, or gives the number that turns it down.
pub fn build(policy_bytes: &[u8]) -> Result<Book, Refusal> {
    let policy = policy::read(policy_bytes)?;
    let exploration = explore(&policy)?;
    Ok(Book {
        frame: policy.frame,
        rows: join(&exploration.table),
    })
}

/// Reads a book, built or foreign, or gives the lowest of 12 to 14 that fits.
pub fn read(bytes: &[u8]) -> Result<Book, Refusal> {
    if bytes.len() < HEADER_LENGTH || bytes[..3] != *MARK || bytes[3..5] != VERSION {
        return Err(Refusal::BookHead);
    }
    let frame = read_frame(&bytes[5..11])?;
    let states = bytes[11] as usize;
    if !(1..=MOST_STATES).contains(&states) || bytes.len() != HEADER_LENGTH + states * frame.width()
    {
        return Err(Refusal::BookSizes);
    }
    let rows: Vec<Vec<u8>> = bytes[HEADER_LENGTH..]
        .chunks(frame.width())
        .map(<[u8]>::to_vec)
        .collect();
    for row in &rows {
        let above = row.iter().any(|&entry| entry as usize > states);
        if above || row[..frame.events].contains(&0) {
            return Err(Refusal::BookEntry);
        }
    }
    Ok(Book { frame, rows })
}

/// The part of number 13 that concerns E, F and the four value counts.
fn read_frame(bytes: &[u8]) -> Result<Frame, Refusal> {
    let (events, fields) = (bytes[0] as usize, bytes[1] as usize);
    if events > MOST_EVENTS || !(1..=MOST_FIELDS).contains(&fields) {
        return Err(Refusal::BookSizes);
    }
    let (present, absent) = bytes[2..].split_at(fields);
    let counts: Vec<usize> = present.iter().map(|&count| count as usize).collect();
    if !counts_are_legal(&counts) || absent.iter().any(|&count| count != 0) {
        return Err(Refusal::BookSizes);
    }
    Ok(Frame { events, counts })
}

impl Book {
    /// n, the number of states.
    pub fn states(&self) -> usize {
        self.rows.len()
    }

    /// The state after `code` in `state` (1 to n), or 0 if it is not possible.
    pub fn entry(&self, state: usize, code: usize) -> usize {
        self.rows[state - 1][code] as usize
    }

    /// Whether the history is possible in the book.
    pub fn allows(&self, history: &[u8]) -> bool {
        let mut state = 1;
        for &code in history {
            state = self.entry(state, code as usize);
            if state == 0 {
                return false;
            }
        }
        true
    }

    /// Whether the request may be accepted in the state.
    pub fn accepts(&self, state: usize, request: usize) -> bool {
        self.entry(state, self.frame.accept_code(request)) != 0
    }

    /// Whether the request may be rejected in the state.
    pub fn rejects(&self, state: usize, request: usize) -> bool {
        self.entry(state, self.frame.reject_code(request)) != 0
    }

    /// The twelve bytes before the rows.
    pub fn header(&self) -> Vec<u8> {
        let mut bytes = MARK.to_vec();
        bytes.extend(VERSION);
        bytes.push(self.frame.events as u8);
        bytes.push(self.frame.counts.len() as u8);
        for field in 0..MOST_FIELDS {
            bytes.push(self.frame.counts.get(field).map_or(0, |&count| count as u8));
        }
        bytes.push(self.states() as u8);
        bytes
    }

    /// All bytes of the book.
    pub fn to_bytes(&self) -> Vec<u8> {
        let mut bytes = self.header();
        for row in &self.rows {
            bytes.extend(row);
        }
        bytes
    }
}
