//! The reference's answers, packed into the number that the C interface gives.

use reference::compare::equal_bytes;
use reference::entry::{self, Compared, RequestVerdict};
use reference::refusal::Refusal;

fn packed<T>(answer: Result<T, Refusal>, value: impl Fn(T) -> u64) -> u64 {
    match answer {
        Err(refusal) => refusal.number() as u64,
        Ok(given) => 256 * value(given),
    }
}

pub fn build(policy: &[u8], book: &mut [u8]) -> u64 {
    packed(entry::build(policy, book), |length| length as u64)
}

pub fn verdict(book: &[u8], conflict: &mut [u8], missing: &mut [u8], blocked: &mut [u8]) -> u64 {
    packed(entry::verdict(book, conflict, missing, blocked), |found| {
        finding(found.conflict) + (finding(found.missing) << 16) + (history(found.blocked) << 32)
    })
}

/// A history by its length: 0 is left for none.
fn history(length: Option<usize>) -> u64 {
    length.map_or(0, |length| length as u64 + 1)
}

fn finding(found: Option<RequestVerdict>) -> u64 {
    found.map_or(0, |found| {
        history(Some(found.length)) + ((found.request as u64) << 8)
    })
}

pub fn compare(first: &[u8], second: &[u8], history: &mut [u8]) -> u64 {
    packed(
        entry::compare(first, second, history),
        |compared| match compared {
            Compared::Same => 0,
            Compared::Differ(length) => length as u64,
        },
    )
}

pub fn page(book: &[u8], page: &mut [u8]) -> u64 {
    packed(entry::page(book, page), |length| length as u64)
}

pub fn way(book: &[u8], request: usize, outcome: usize, buffer: &mut [u8]) -> u64 {
    packed(entry::way(book, request, outcome, buffer), history)
}

/// Nothing is refused, so nothing is packed: 1 for equal bytes, else 0.
pub fn same_bytes(first: &[u8], second: &[u8]) -> u64 {
    u64::from(equal_bytes(first, second))
}
