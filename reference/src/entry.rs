//! The entry points that write into lent buffers. On a refusal every buffer
//! stays as it was; bytes after what is written always stay.

use crate::book::{self, MOST_LENGTH};
use crate::compare::{self, Comparison};
use crate::findings::{findings, RequestFinding};
use crate::page;
use crate::refusal::Refusal;
use crate::way;

/// The least size of the buffer of build.
pub const BUILD_BUFFER: usize = MOST_LENGTH;
/// The least size of each buffer of verdict.
pub const VERDICT_BUFFER: usize = 128;
/// The least size of the buffer of compare.
pub const COMPARE_BUFFER: usize = 256;
/// The least size of the buffer of page.
pub const PAGE_BUFFER: usize = page::MOST_LENGTH;
/// The least size of the buffer of way.
pub const WAY_BUFFER: usize = 128;

/// A finding about a request, whose history stands in the lent buffer.
#[derive(Clone, Copy, Debug, PartialEq, Eq)]
pub struct RequestVerdict {
    /// The lowest request concerned.
    pub request: usize,
    /// The length of the history.
    pub length: usize,
}

/// What verdict gives; the histories stand in the lent buffers.
#[derive(Clone, Copy, Debug, PartialEq, Eq)]
pub struct Verdict {
    /// A request both accepted and rejected.
    pub conflict: Option<RequestVerdict>,
    /// An unanswered request.
    pub missing: Option<RequestVerdict>,
    /// The length of the history after which nothing is answered any more.
    pub blocked: Option<usize>,
}

/// What compare gives; the history stands in the lent buffer.
#[derive(Clone, Copy, Debug, PartialEq, Eq)]
pub enum Compared {
    /// The same histories are possible.
    Same,
    /// A history of this length is possible in just one.
    Differ(usize),
}

/// Writes the book of a policy file and gives its length.
pub fn build(policy: &[u8], buffer: &mut [u8]) -> Result<usize, Refusal> {
    if buffer.len() < BUILD_BUFFER {
        return Err(Refusal::Buffer);
    }
    let bytes = book::build(policy)?.to_bytes();
    Ok(write(&bytes, buffer))
}

/// Gives the findings about a book and writes their histories.
pub fn verdict(
    book: &[u8],
    conflict: &mut [u8],
    missing: &mut [u8],
    blocked: &mut [u8],
) -> Result<Verdict, Refusal> {
    if [conflict.len(), missing.len(), blocked.len()]
        .iter()
        .any(|&size| size < VERDICT_BUFFER)
    {
        return Err(Refusal::Buffer);
    }
    let found = findings(&book::read(book)?);
    let about_request = |finding: RequestFinding, buffer: &mut [u8]| RequestVerdict {
        request: finding.request,
        length: write(&finding.history, buffer),
    };
    Ok(Verdict {
        conflict: found.conflict.map(|found| about_request(found, conflict)),
        missing: found.missing.map(|found| about_request(found, missing)),
        blocked: found.blocked.map(|history| write(&history, blocked)),
    })
}

/// Compares two books and writes the earliest history possible in just one.
pub fn compare(first: &[u8], second: &[u8], buffer: &mut [u8]) -> Result<Compared, Refusal> {
    if buffer.len() < COMPARE_BUFFER {
        return Err(Refusal::Buffer);
    }
    Ok(match compare::compare(first, second)? {
        Comparison::Same => Compared::Same,
        Comparison::Differ(history) => Compared::Differ(write(&history, buffer)),
    })
}

/// Writes the page of a book and gives its length.
pub fn page(book: &[u8], buffer: &mut [u8]) -> Result<usize, Refusal> {
    if buffer.len() < PAGE_BUFFER {
        return Err(Refusal::Buffer);
    }
    let text = page::page(&book::read(book)?);
    Ok(write(text.as_bytes(), buffer))
}

/// Writes the earliest history after which a request has an outcome and gives
/// its length, or nothing if there is no such history.
pub fn way(
    book: &[u8],
    request: usize,
    outcome: usize,
    buffer: &mut [u8],
) -> Result<Option<usize>, Refusal> {
    if buffer.len() < WAY_BUFFER {
        return Err(Refusal::Buffer);
    }
    let found = way::way(&book::read(book)?, request, outcome)?;
    Ok(found.map(|history| write(&history, buffer)))
}

/// Writes bytes at the beginning of a buffer and gives their number.
fn write(bytes: &[u8], buffer: &mut [u8]) -> usize {
    buffer[..bytes.len()].copy_from_slice(bytes);
    bytes.len()
}
