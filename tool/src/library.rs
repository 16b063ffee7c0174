//! The proved library, which alone builds, judges, compares, writes pages and finds
//! ways: its answers taken apart.

use crate::calls;

const BOOK_SIZE: usize = 17_284;
const FINDING_SIZE: usize = 128;
const HISTORY_SIZE: usize = 256;
const PAGE_SIZE: usize = 9_271;

/// The number of a refusal.
pub type Number = u8;

/// A finding: the earliest history that proves it, and the lowest request.
#[derive(Clone, Debug, PartialEq, Eq)]
pub struct Finding {
    pub history: Vec<u8>,
    /// 0 for blocked, which has none.
    pub request: usize,
}

/// The three findings on a book.
#[derive(Clone, Debug, PartialEq, Eq)]
pub struct Findings {
    pub conflict: Option<Finding>,
    pub missing: Option<Finding>,
    pub blocked: Option<Finding>,
}

/// The value of an answer, or the number of the refusal.
fn value(answer: u64) -> Result<u64, Number> {
    match (answer % 256) as u8 {
        0 => Ok(answer / 256),
        number => Err(number),
    }
}

/// Builds the book of a policy file.
pub fn build(policy: &[u8]) -> Result<Vec<u8>, Number> {
    let mut book = vec![0; BOOK_SIZE];
    let length = value(calls::build(policy, &mut book))?;
    book.truncate(length as usize);
    Ok(book)
}

/// The findings on a book.
pub fn verdict(book: &[u8]) -> Result<Findings, Number> {
    let mut conflict = [0; FINDING_SIZE];
    let mut missing = [0; FINDING_SIZE];
    let mut blocked = [0; FINDING_SIZE];
    let value = value(calls::verdict(book, &mut conflict, &mut missing, &mut blocked))?;
    Ok(Findings {
        conflict: finding(value, 0, &conflict),
        missing: finding(value, 16, &missing),
        blocked: finding(value, 32, &blocked),
    })
}

/// The finding whose 16 bits begin at this bit of a value: the length of its
/// history plus one, then its request.
fn finding(value: u64, bit: u32, buffer: &[u8]) -> Option<Finding> {
    let part = value >> bit & 0xFFFF;
    let length = (part as usize % 256).checked_sub(1)?;
    Some(Finding { history: buffer[..length].to_vec(), request: part as usize / 256 })
}

/// The earliest history possible in just one of two books; nothing if the same
/// histories are possible in both.
pub fn compare(first: &[u8], second: &[u8]) -> Result<Option<Vec<u8>>, Number> {
    let mut history = vec![0; HISTORY_SIZE];
    let length = value(calls::compare(first, second, &mut history))? as usize;
    history.truncate(length);
    Ok((length > 0).then_some(history))
}

/// The page of a book.
pub fn page(book: &[u8]) -> Result<Vec<u8>, Number> {
    let mut page = vec![0; PAGE_SIZE];
    let length = value(calls::page(book, &mut page))?;
    page.truncate(length as usize);
    Ok(page)
}

/// The earliest history after which a request has an outcome; nothing if there is none.
pub fn way(book: &[u8], request: usize, outcome: usize) -> Result<Option<Vec<u8>>, Number> {
    let mut history = [0; FINDING_SIZE];
    let value = value(calls::way(book, request, outcome, &mut history))?;
    Ok(finding(value, 0, &history).map(|found| found.history))
}

/// Whether two byte strings are equal.
pub fn same_bytes(first: &[u8], second: &[u8]) -> bool {
    calls::same_bytes(first, second) == 1
}
